/* Writes down what a program does to the files below one folder, for power.py, which makes of it what a loss of power may leave. It is
   loaded by LD_PRELOAD. POWER_FOLDER is the folder and POWER_LOG the file that is added to, a record for each call that succeeded:

       KIND NUMBER NUMBER LENGTH\n and so many bytes

   With POWER_ANSWERS what goes to standard output is written down too. Nothing is put on a disk by a sync: it is a record and nothing else. It
   is not even that for a kind of file that POWER_LOSES names: f for files, d for folders; with l in it a sync of a file is a record behind the
   next answer only. With POWER_FAILS, the same, and POWER_FROM=N such
   syncs fail from the N-th on. With POWER_KILL=N a process whose program is
   named POWER_KILLS is killed when it has written N records, of the kinds POWER_COUNTS if that is given, and the record k is the last. */
#define _GNU_SOURCE
#include <dlfcn.h>
#include <errno.h>
#include <fcntl.h>
#include <limits.h>
#include <signal.h>
#include <stdarg.h>
#include <stdatomic.h>
#include <stdio.h>
#include <stdlib.h>
#include <string.h>
#include <sys/socket.h>
#include <sys/stat.h>
#include <sys/uio.h>
#include <unistd.h>

enum { LOG_NUMBER = 200, MOST_FILES = 4096 };

static int log_file = -1;
static const char *folder = "", *loses = "", *fails = "", *counts;
static long kill_at, fails_from, late;
static int has_answers;
static atomic_long records, syncs;
static atomic_char is_client[MOST_FILES];

#define REAL(name, result, ...) \
    static result (*real)(__VA_ARGS__); \
    if (!real) \
        real = (result (*)(__VA_ARGS__))dlsym(RTLD_NEXT, name)

static ssize_t real_write(int file, const void *from, size_t count)
{
    REAL("write", ssize_t, int, const void *, size_t);
    return real(file, from, count);
}

static ssize_t real_writev(int file, const struct iovec *parts, int count)
{
    REAL("writev", ssize_t, int, const struct iovec *, int);
    return real(file, parts, count);
}

static int real_open(const char *path, int flags, mode_t mode)
{
    REAL("open", int, const char *, int, ...);
    return real(path, flags, mode);
}

__attribute__((constructor)) static void begin(void)
{
    const char *to = getenv("POWER_LOG"), *below = getenv("POWER_FOLDER"), *lost = getenv("POWER_LOSES"), *at = getenv("POWER_KILL");
    if (!to || !below)
        return;
    folder = below;
    loses = lost ? lost : "";
    const char *kills = getenv("POWER_KILLS"), *failing = getenv("POWER_FAILS"), *from = getenv("POWER_FROM");
    fails = failing ? failing : "";
    fails_from = from ? atol(from) : 1;
    kill_at = at && kills && strcmp(kills, program_invocation_short_name) == 0 ? atol(at) : 0;
    counts = getenv("POWER_COUNTS");
    has_answers = getenv("POWER_ANSWERS") != NULL;
    int file = real_open(to, O_WRONLY | O_APPEND | O_CREAT | O_CLOEXEC, 0600);
    log_file = fcntl(file, F_DUPFD_CLOEXEC, LOG_NUMBER);
    close(file);
}

/* One record, by one write at the end of the log, so that those of several processes do not mix. */
static void put(char kind, long one, long other, const void *bytes, size_t length)
{
    char head[80];
    int size = snprintf(head, sizeof head, "%c %ld %ld %zu\n", kind, one, other, length);
    struct iovec parts[] = {{head, (size_t)size}, {(void *)bytes, length}};
    if (real_writev(log_file, parts, 2) != (ssize_t)(size + length))
        abort();
}

static void note(char kind, long one, long other, const void *bytes, size_t length)
{
    int kept = errno;
    if (log_file < 0)
        return;
    put(kind, one, other, bytes, length);
    if ((!counts || strchr(counts, kind)) && atomic_fetch_add(&records, 1) + 1 == kill_at) {
        put('k', 0, 0, "", 0);
        kill(getpid(), SIGKILL);
    }
    errno = kept;
}

/* The whole name of a file, and whether it lies below the folder. */
static int is_below(int at, const char *name, char whole[PATH_MAX])
{
    char link[40], base[PATH_MAX] = "";
    if (log_file < 0)
        return 0;
    if (name[0] == '/' || at == AT_FDCWD) {
        if (name[0] != '/' && !getcwd(base, sizeof base))
            return 0;
    } else {
        snprintf(link, sizeof link, "/proc/self/fd/%d", at);
        if (readlink(link, base, sizeof base - 1) < 0)
            return 0;
    }
    int size = snprintf(whole, PATH_MAX, "%s%s%s", base, *base && *name ? "/" : "", name);
    size_t length = strlen(folder);
    return size < PATH_MAX && strncmp(whole, folder, length) == 0 && (whole[length] == '/' || whole[length] == 0);
}

/* Whether it is a file or a folder below the folder, as it was when it was opened. */
static int is_noted(int file, struct stat *its, char whole[PATH_MAX])
{
    return log_file >= 0 && file != log_file && fstat(file, its) == 0 && (S_ISREG(its->st_mode) || S_ISDIR(its->st_mode))
        && is_below(file, "", whole);
}

static void note_answer(int file, const void *bytes, size_t count)
{
    note('a', file, 0, bytes, count);
    if (late)
        note('s', late, 0, "", 0);
    late = 0;
}

static void note_write(int file, const void *bytes, ssize_t count, off_t at)
{
    struct stat its;
    char whole[PATH_MAX];
    if (count <= 0 || log_file < 0)
        return;
    if (file == STDOUT_FILENO && has_answers)
        note_answer(0, bytes, (size_t)count);
    else if (file >= 0 && file < MOST_FILES && is_client[file])
        note_answer(file, bytes, (size_t)count);
    else if (is_noted(file, &its, whole))
        note('w', (long)its.st_ino, at < 0 ? lseek(file, 0, SEEK_CUR) - count : at, bytes, (size_t)count);
}

ssize_t write(int file, const void *from, size_t count)
{
    ssize_t put = real_write(file, from, count);
    note_write(file, from, put, -1);
    return put;
}

ssize_t pwrite(int file, const void *from, size_t count, off_t at)
{
    REAL("pwrite", ssize_t, int, const void *, size_t, off_t);
    ssize_t put = real(file, from, count, at);
    note_write(file, from, put, at);
    return put;
}

ssize_t pwrite64(int file, const void *from, size_t count, off_t at)
{
    return pwrite(file, from, count, at);
}

static void note_parts(int file, const struct iovec *parts, int count, ssize_t put)
{
    if (put <= 0 || log_file < 0)
        return;
    char *bytes = malloc((size_t)put), *end = bytes;
    for (int i = 0; bytes && i < count && end < bytes + put; i++) {
        size_t left = (size_t)(bytes + put - end), size = parts[i].iov_len < left ? parts[i].iov_len : left;
        memcpy(end, parts[i].iov_base, size);
        end += size;
    }
    if (!bytes)
        abort();
    note_write(file, bytes, put, -1);
    free(bytes);
}

ssize_t writev(int file, const struct iovec *parts, int count)
{
    ssize_t put = real_writev(file, parts, count);
    note_parts(file, parts, count, put);
    return put;
}

ssize_t send(int file, const void *from, size_t count, int flags)
{
    REAL("send", ssize_t, int, const void *, size_t, int);
    ssize_t put = real(file, from, count, flags);
    note_write(file, from, put, 0);
    return put;
}

ssize_t sendmsg(int file, const struct msghdr *what, int flags)
{
    REAL("sendmsg", ssize_t, int, const struct msghdr *, int);
    ssize_t put = real(file, what, flags);
    note_parts(file, what->msg_iov, (int)what->msg_iovlen, put);
    return put;
}

int accept4(int door, struct sockaddr *who, socklen_t *size, int flags)
{
    REAL("accept4", int, int, struct sockaddr *, socklen_t *, int);
    int file = real(door, who, size, flags);
    if (file >= 0 && file < MOST_FILES)
        is_client[file] = 1;
    return file;
}

int close(int file)
{
    REAL("close", int, int);
    if (file >= 0 && file < MOST_FILES)
        is_client[file] = 0;
    return real(file);
}

static int opened(int at, const char *path, int flags, mode_t mode)
{
    REAL("openat", int, int, const char *, int, ...);
    struct stat its;
    char whole[PATH_MAX];
    int is_one = flags & (O_CREAT | O_TRUNC) && is_below(at, path, whole), was_there = is_one && fstatat(at, path, &its, 0) == 0;
    int file = real(at, path, flags, mode);
    if (is_one && file >= 0 && fstat(file, &its) == 0 && S_ISREG(its.st_mode)) {
        if (!was_there)
            note('c', (long)its.st_ino, 0, whole, strlen(whole));
        else if (flags & O_TRUNC)
            note('t', (long)its.st_ino, 0, "", 0);
    }
    return file;
}

#define OPENS(name, at, ...) \
    int name(__VA_ARGS__, int flags, ...) \
    { \
        va_list rest; \
        va_start(rest, flags); \
        mode_t mode = flags & O_CREAT ? va_arg(rest, mode_t) : 0; \
        va_end(rest); \
        return opened(at, path, flags, mode); \
    }

OPENS(open, AT_FDCWD, const char *path)
OPENS(open64, AT_FDCWD, const char *path)
OPENS(openat, at, int at, const char *path)
OPENS(openat64, at, int at, const char *path)

int ftruncate(int file, off_t length)
{
    REAL("ftruncate", int, int, off_t);
    struct stat its;
    char whole[PATH_MAX];
    int result = real(file, length);
    if (result == 0 && is_noted(file, &its, whole))
        note('t', (long)its.st_ino, length, "", 0);
    return result;
}

int ftruncate64(int file, off_t length)
{
    return ftruncate(file, length);
}

/* A record that names one file, or two with a zero byte between them. */
static void note_names(char kind, const char *one, const char *other)
{
    char both[2 * PATH_MAX];
    int size = snprintf(both, sizeof both, "%s%c%s", one, 0, other);
    note(kind, 0, 0, both, (size_t)size - (*other ? 0 : 1));
}

int renameat(int from_at, const char *from, int to_at, const char *to)
{
    REAL("renameat", int, int, const char *, int, const char *);
    char one[PATH_MAX], other[PATH_MAX];
    int result = real(from_at, from, to_at, to);
    if (result == 0 && is_below(from_at, from, one) && is_below(to_at, to, other))
        note_names('r', one, other);
    return result;
}

int rename(const char *from, const char *to)
{
    return renameat(AT_FDCWD, from, AT_FDCWD, to);
}

int linkat(int from_at, const char *from, int to_at, const char *to, int flags)
{
    REAL("linkat", int, int, const char *, int, const char *, int);
    char one[PATH_MAX], other[PATH_MAX];
    int result = real(from_at, from, to_at, to, flags);
    if (result == 0 && is_below(from_at, from, one) && is_below(to_at, to, other))
        note_names('l', one, other);
    return result;
}

int link(const char *from, const char *to)
{
    return linkat(AT_FDCWD, from, AT_FDCWD, to, 0);
}

int unlinkat(int at, const char *path, int flags)
{
    REAL("unlinkat", int, int, const char *, int);
    char whole[PATH_MAX];
    int is_one = is_below(at, path, whole), result = real(at, path, flags);
    if (result == 0 && is_one)
        note_names('u', whole, "");
    return result;
}

int unlink(const char *path)
{
    return unlinkat(AT_FDCWD, path, 0);
}

int rmdir(const char *path)
{
    return unlinkat(AT_FDCWD, path, AT_REMOVEDIR);
}

int mkdirat(int at, const char *path, mode_t mode)
{
    REAL("mkdirat", int, int, const char *, mode_t);
    char whole[PATH_MAX];
    int result = real(at, path, mode);
    if (result == 0 && is_below(at, path, whole))
        note_names('m', whole, "");
    return result;
}

int mkdir(const char *path, mode_t mode)
{
    return mkdirat(AT_FDCWD, path, mode);
}

/* What was written before this record is on the disk. */
static int synced(int file, int (*real)(int))
{
    struct stat its;
    char whole[PATH_MAX];
    if (!is_noted(file, &its, whole))
        return real(file);
    char kind = S_ISDIR(its.st_mode) ? 'd' : 'f';
    if (strchr(loses, kind))
        return 0;
    if (kind == 'f' && strchr(loses, 'l')) {
        late = (long)its.st_ino;
        return 0;
    }
    if (strchr(fails, kind) && atomic_fetch_add(&syncs, 1) + 1 >= fails_from) {
        errno = EIO;
        return -1;
    }
    const char *path = S_ISDIR(its.st_mode) ? whole : "";
    note('s', (long)its.st_ino, 0, path, strlen(path));
    return 0;
}

int fsync(int file)
{
    REAL("fsync", int, int);
    return synced(file, real);
}

int fdatasync(int file)
{
    REAL("fdatasync", int, int);
    return synced(file, real);
}

/* Nothing is copied past the records: who asks for these copies by hand. */
ssize_t copy_file_range(int from, off_t *from_at, int to, off_t *to_at, size_t count, unsigned flags)
{
    (void)from, (void)from_at, (void)to, (void)to_at, (void)count, (void)flags;
    errno = ENOSYS;
    return -1;
}
