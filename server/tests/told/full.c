/* A disk that is full while there is a file with the name that FULL_WHILE has: no file takes more bytes, and none is made. To be preloaded. */

#define _GNU_SOURCE
#include <dlfcn.h>
#include <errno.h>
#include <fcntl.h>
#include <stdarg.h>
#include <stdlib.h>
#include <sys/stat.h>
#include <sys/types.h>
#include <unistd.h>

static int is_full(void)
{
    const char *path = getenv("FULL_WHILE");
    int before = errno;
    int found = path != NULL && access(path, F_OK) == 0;
    errno = before;
    return found;
}

ssize_t write(int file, const void *bytes, size_t count)
{
    static ssize_t (*next)(int, const void *, size_t);
    struct stat found;
    if (next == NULL)
        next = (ssize_t (*)(int, const void *, size_t))dlsym(RTLD_NEXT, "write");
    if (is_full() && fstat(file, &found) == 0 && S_ISREG(found.st_mode)) {
        errno = ENOSPC;
        return -1;
    }
    return next(file, bytes, count);
}
