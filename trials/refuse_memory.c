// Refuses requests for memory of a process, preloaded, by one of:
//   REFUSED_REQUEST   the number of the one request, from 1;
//   LARGEST_REQUEST   the largest number of bytes that one request may be for;
//   REFUSED_FROM      a number of bytes: a request for just that many is the mark from which on each is refused, itself too, up to
//                     a request for one byte more. A test makes the two requests round the calls that take no memory.
// If it refused a request, it makes the file that REFUSED_MARK names. If that request came between the two marks, it adds a
// byte to the file that REFUSED_BETWEEN names, so that a call that asks for memory is found even if it does without.
#define _GNU_SOURCE
#include <dlfcn.h>
#include <errno.h>
#include <fcntl.h>
#include <stdatomic.h>
#include <stddef.h>
#include <stdlib.h>
#include <unistd.h>

static atomic_long requests;
static atomic_int behind_mark;

// whether it is the one request, is for too many bytes, or comes after the mark
static int is_named(size_t size) {
    const char *number = getenv("REFUSED_REQUEST");
    const char *largest = getenv("LARGEST_REQUEST");
    const char *from = getenv("REFUSED_FROM");
    if (number && atomic_fetch_add(&requests, 1) + 1 == atol(number)) return 1;
    if (from && size == strtoull(from, NULL, 10)) {
        atomic_store(&behind_mark, 1);
        return 1;
    }
    if (from && size == strtoull(from, NULL, 10) + 1) atomic_store(&behind_mark, 0);
    return atomic_load(&behind_mark) || (largest && size > strtoull(largest, NULL, 10));
}

// adds a byte to a file
static void note(const char *path) {
    int file = path ? open(path, O_CREAT | O_WRONLY | O_APPEND, 0600) : -1;
    if (file < 0) return;
    if (write(file, ".", 1) != 1) abort();
    close(file);
}

static int is_refused(size_t size) {
    int was_behind = atomic_load(&behind_mark);
    if (!is_named(size)) return 0;
    note(getenv("REFUSED_MARK"));
    if (was_behind) note(getenv("REFUSED_BETWEEN"));
    errno = ENOMEM;
    return 1;
}

void *malloc(size_t size) {
    static void *(*next)(size_t);
    if (!next) next = (void *(*)(size_t))dlsym(RTLD_NEXT, "malloc");
    return is_refused(size) ? NULL : next(size);
}

void *realloc(void *old, size_t size) {
    static void *(*next)(void *, size_t);
    if (!next) next = (void *(*)(void *, size_t))dlsym(RTLD_NEXT, "realloc");
    return is_refused(size) ? NULL : next(old, size);
}
