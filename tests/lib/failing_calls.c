/* Fails calls of a program for files of certain names. Loaded before the program by LD_PRELOAD, it reads the rules in the file that
 * FAILING_CALLS names each time that the program makes one of its calls, so that a row changes them while the program runs. A rule is a line
 *
 *     CALL SUFFIX ERROR FIRST LAST
 *
 * by which CALL fails with the error of this number, and does nothing, for a file whose path ends with SUFFIX (its first path, where it is
 * renamed), from the FIRST such call since the rule stands in the file up to the LAST, for ever where LAST is 0. CALL is open, read, write,
 * fsync, fdatasync, ftruncate, rename, unlink or flock; each stands for the forms of it that the C library has, as pread64 for read. Each call
 * that failed is noted in the file FAILING_CALLS.failed, by a line `CALL PATH`.
 *
 *     cc -shared -fPIC -O2 -o failing_calls.so tests/lib/failing_calls.c
 *     echo 'fdatasync /VOL00001.tap 5 1 0' >rules
 *     FAILING_CALLS=$PWD/rules LD_PRELOAD=$PWD/failing_calls.so vtl serve ..
 *
 * Rows use it by tests/lib/failing_calls.py. */
#define _GNU_SOURCE
#include <dlfcn.h>
#include <errno.h>
#include <fcntl.h>
#include <limits.h>
#include <pthread.h>
#include <stdarg.h>
#include <stdio.h>
#include <stdlib.h>
#include <string.h>
#include <sys/file.h>
#include <sys/stat.h>
#include <sys/syscall.h>
#include <sys/types.h>
#include <sys/uio.h>
#include <unistd.h>

/* How long the rules may be, and how many different ones there may be in a run. */
#define LONGEST_RULES 4096
#define MOST_RULES 64

static pthread_mutex_t lock = PTHREAD_MUTEX_INITIALIZER;
/* The rules that have been met, and how many calls each has counted. */
static struct {
    char line[PATH_MAX];
    unsigned long calls;
} met[MOST_RULES];

/* The path of an open file, or an empty one where it has none. */
static const char *path_of(int fd, char *path)
{
    char link[64];
    snprintf(link, sizeof link, "/proc/self/fd/%d", fd);
    ssize_t length = syscall(SYS_readlinkat, AT_FDCWD, link, path, PATH_MAX - 1);
    path[length < 0 ? 0 : length] = '\0';
    return path;
}

/* The text of the rules, which is empty where the file isn't there. By system calls of their own, since those below are replaced. */
static void read_rules(char *text)
{
    const char *file = getenv("FAILING_CALLS");
    ssize_t length = 0;
    int fd = file ? (int)syscall(SYS_openat, AT_FDCWD, file, O_RDONLY | O_CLOEXEC, 0) : -1;
    if (fd >= 0) {
        length = syscall(SYS_read, fd, text, LONGEST_RULES - 1);
        syscall(SYS_close, fd);
    }
    text[length < 0 ? 0 : length] = '\0';
}

static void note(const char *call, const char *path)
{
    char file[PATH_MAX], line[PATH_MAX + 64];
    snprintf(file, sizeof file, "%s.failed", getenv("FAILING_CALLS"));
    int fd = (int)syscall(SYS_openat, AT_FDCWD, file, O_WRONLY | O_CREAT | O_APPEND | O_CLOEXEC, 0600);
    if (fd < 0)
        return;
    syscall(SYS_write, fd, line, (size_t)snprintf(line, sizeof line, "%s %s\n", call, path));
    syscall(SYS_close, fd);
}

/* How many calls this rule has counted, with this one. */
static unsigned long counted(const char *line)
{
    for (int at = 0; at < MOST_RULES; at++) {
        if (!met[at].line[0])
            snprintf(met[at].line, sizeof met[at].line, "%s", line);
        if (!strcmp(met[at].line, line))
            return ++met[at].calls;
    }
    return 0;
}

static int ends_with(const char *path, const char *suffix)
{
    size_t length = strlen(path), wanted = strlen(suffix);
    return length >= wanted && !strcmp(path + length - wanted, suffix);
}

/* The error by which a call for a path fails, or 0. */
static int error_of(const char *call, const char *path)
{
    char text[LONGEST_RULES], name[64], suffix[PATH_MAX], *rest, *line;
    int error = 0, rule_error;
    unsigned long first, last;
    read_rules(text);
    for (line = strtok_r(text, "\n", &rest); line && !error; line = strtok_r(NULL, "\n", &rest)) {
        if (sscanf(line, "%63s %4095s %d %lu %lu", name, suffix, &rule_error, &first, &last) != 5)
            continue;
        if (strcmp(name, call) || !ends_with(path, suffix))
            continue;
        pthread_mutex_lock(&lock);
        unsigned long number = counted(line);
        pthread_mutex_unlock(&lock);
        if (number >= first && (!last || number <= last))
            error = rule_error;
    }
    if (error)
        note(call, path);
    return error;
}

static int is_path_failing(const char *call, const char *path)
{
    int before = errno, error = error_of(call, path);
    errno = error ? error : before;
    return error != 0;
}

static int is_file_failing(const char *call, int fd)
{
    char path[PATH_MAX];
    int before = errno;
    path_of(fd, path);
    errno = before;
    return path[0] == '/' && is_path_failing(call, path);
}

/* The function of the C library. */
#define THEIRS(name) ((__typeof__(&name))dlsym(RTLD_NEXT, #name))

/* A function of an open file, which is its first parameter. */
#define OF_FILE(call, type, name, parameters, ...)                                                                     \
    type name parameters                                                                                               \
    {                                                                                                                  \
        return is_file_failing(call, fd) ? -1 : THEIRS(name)(__VA_ARGS__);                                             \
    }

/* A function of a path, which is called `path`. */
#define OF_PATH(call, type, name, parameters, ...)                                                                     \
    type name parameters                                                                                               \
    {                                                                                                                  \
        return is_path_failing(call, path) ? -1 : THEIRS(name)(__VA_ARGS__);                                           \
    }

OF_FILE("read", ssize_t, read, (int fd, void *data, size_t size), fd, data, size)
OF_FILE("read", ssize_t, readv, (int fd, const struct iovec *data, int count), fd, data, count)
OF_FILE("read", ssize_t, pread, (int fd, void *data, size_t size, off_t at), fd, data, size, at)
OF_FILE("read", ssize_t, pread64, (int fd, void *data, size_t size, off64_t at), fd, data, size, at)
OF_FILE("write", ssize_t, write, (int fd, const void *data, size_t size), fd, data, size)
OF_FILE("write", ssize_t, writev, (int fd, const struct iovec *data, int count), fd, data, count)
OF_FILE("write", ssize_t, pwrite, (int fd, const void *data, size_t size, off_t at), fd, data, size, at)
OF_FILE("write", ssize_t, pwrite64, (int fd, const void *data, size_t size, off64_t at), fd, data, size, at)
OF_FILE("fsync", int, fsync, (int fd), fd)
OF_FILE("fdatasync", int, fdatasync, (int fd), fd)
OF_FILE("ftruncate", int, ftruncate, (int fd, off_t size), fd, size)
OF_FILE("ftruncate", int, ftruncate64, (int fd, off64_t size), fd, size)
OF_FILE("flock", int, flock, (int fd, int operation), fd, operation)
OF_PATH("rename", int, rename, (const char *path, const char *to), path, to)
OF_PATH("rename", int, renameat, (int folder, const char *path, int other, const char *to), folder, path, other, to)
OF_PATH("rename", int, renameat2, (int folder, const char *path, int other, const char *to, unsigned flags), folder, path, other, to, flags)
OF_PATH("unlink", int, unlink, (const char *path), path)
OF_PATH("unlink", int, unlinkat, (int folder, const char *path, int flags), folder, path, flags)

/* The mode of a file that is made, the last parameter. */
#define MODE(flags) (((flags) & O_CREAT) || ((flags) & O_TMPFILE) == O_TMPFILE ? mode_of(parameters) : 0)

static mode_t mode_of(va_list parameters)
{
    return va_arg(parameters, mode_t);
}

/* A function that opens a path. */
#define OPENING(name, front, ...)                                                                                      \
    int name(front const char *path, int flags, ...)                                                                   \
    {                                                                                                                  \
        va_list parameters;                                                                                            \
        va_start(parameters, flags);                                                                                   \
        mode_t mode = MODE(flags);                                                                                     \
        va_end(parameters);                                                                                            \
        return is_path_failing("open", path) ? -1 : THEIRS(name)(__VA_ARGS__ path, flags, mode);                       \
    }
#define FOLDER_PARAMETER int folder,
#define FOLDER_GIVEN folder,

OPENING(open, , )
OPENING(open64, , )
OPENING(openat, FOLDER_PARAMETER, FOLDER_GIVEN)
OPENING(openat64, FOLDER_PARAMETER, FOLDER_GIVEN)
