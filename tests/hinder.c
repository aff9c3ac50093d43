/* Hinders a program that it is loaded into by LD_PRELOAD, as variables of the environment say. Standard input gives at most AT_MOST
   or AT_MOST_IN bytes a call and, with BROKEN, fails behind its end. The outputs take at most AT_MOST bytes a call. The one whose
   number is CUT_FD takes ROOM bytes in all, and then fails or, with MUTE, takes none. */
#define _GNU_SOURCE
#include <dlfcn.h>
#include <errno.h>
#include <limits.h>
#include <stdlib.h>
#include <unistd.h>

static long number(const char *name, long otherwise)
{
    const char *text = getenv(name);
    return text ? atol(text) : otherwise;
}

static size_t least(size_t count, long most)
{
    return most < 0 ? 0 : count < (size_t)most ? count : (size_t)most;
}

ssize_t read(int file, void *to, size_t count)
{
    static ssize_t (*real)(int, void *, size_t);
    if (!real)
        real = (ssize_t (*)(int, void *, size_t))dlsym(RTLD_NEXT, "read");
    if (file != STDIN_FILENO)
        return real(file, to, count);
    ssize_t got = real(file, to, least(count, number("AT_MOST", number("AT_MOST_IN", LONG_MAX))));
    if (got == 0 && count > 0 && number("BROKEN", 0)) {
        errno = EPIPE;
        return -1;
    }
    return got;
}

ssize_t write(int file, const void *from, size_t count)
{
    static ssize_t (*real)(int, const void *, size_t);
    static long written;
    if (!real)
        real = (ssize_t (*)(int, const void *, size_t))dlsym(RTLD_NEXT, "write");
    if (file != STDOUT_FILENO && file != STDERR_FILENO)
        return real(file, from, count);
    long most = number("AT_MOST", LONG_MAX);
    int is_cut = file == number("CUT_FD", -1);
    long left = is_cut ? number("ROOM", 0) - written : LONG_MAX;
    if (count > 0 && left <= 0) {
        if (number("MUTE", 0))
            return 0;
        errno = EPIPE;
        return -1;
    }
    ssize_t put = real(file, from, least(count, left < most ? left : most));
    if (is_cut && put > 0)
        written += put;
    return put;
}
