/* A disk that makes trouble for one file only, that with the name RECORD at the end of its path: while there is a file `full` in the folder
   TROUBLE it takes no more bytes, while there is one `held` its syncs do not end, and while there is one `bad` they fail. To be preloaded. */

#define _GNU_SOURCE
#include <dlfcn.h>
#include <errno.h>
#include <stdio.h>
#include <stdlib.h>
#include <string.h>
#include <sys/types.h>
#include <unistd.h>

static int has(const char *what)
{
    const char *folder = getenv("TROUBLE");
    char path[4096];
    int before = errno, found;
    snprintf(path, sizeof path, "%s/%s", folder == NULL ? "" : folder, what);
    found = folder != NULL && access(path, F_OK) == 0;
    errno = before;
    return found;
}

static int is_record(int file)
{
    const char *name = getenv("RECORD");
    char link[64], path[4096];
    int before = errno;
    ssize_t length;
    snprintf(link, sizeof link, "/proc/self/fd/%d", file);
    length = readlink(link, path, sizeof path - 1);
    errno = before;
    if (name == NULL || length < (ssize_t)strlen(name))
        return 0;
    path[length] = 0;
    return strcmp(path + length - strlen(name), name) == 0;
}

ssize_t write(int file, const void *bytes, size_t count)
{
    static ssize_t (*next)(int, const void *, size_t);
    if (next == NULL)
        next = (ssize_t (*)(int, const void *, size_t))dlsym(RTLD_NEXT, "write");
    if (is_record(file) && has("full")) {
        /* some of it finds room */
        if (count > 9)
            return next(file, bytes, 9);
        errno = ENOSPC;
        return -1;
    }
    return next(file, bytes, count);
}

int fdatasync(int file)
{
    static int (*next)(int);
    if (next == NULL)
        next = (int (*)(int))dlsym(RTLD_NEXT, "fdatasync");
    if (is_record(file)) {
        while (has("held"))
            usleep(1000);
        if (has("bad")) {
            errno = EIO;
            return -1;
        }
    }
    return next(file);
}
