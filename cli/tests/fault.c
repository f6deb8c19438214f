/* Preloaded by the tests. Counts the calls that change files, and at call FAULT_AT (its number, or its line in the log) fails or ends the process:
   FAULT=before, after: killed before or after the call; torn: killed with half of a write done; a number: the call fails with this errno.
   FAULT=readonly: every call that would make, rename or remove a file fails with EROFS.
   FAULT_LOG names a file that gets a line for each call. FAULT_MARK names one that is made when call FAULT_AT comes.
   FAULT_OPENDIR: folders of this name cannot be read.
   FAULT_READS names a file that gets a line for each read, with how many bytes came and of which file, and for each advice on reading.
   FAULT_CLOCK: the time of day in seconds, which stands still. FAULT_RENAMEAT2: every renameat2 fails with this errno.
   FAULT_RUN: a shell command that is run, without this library, once before the call that FAULT_RUN_AT names by its line, or else before
   every call, with the line in CALL. For this, opening a file to read is a call too. */
#define _GNU_SOURCE
#include <dirent.h>
#include <dlfcn.h>
#include <errno.h>
#include <fcntl.h>
#include <signal.h>
#include <stdarg.h>
#include <stdio.h>
#include <stdlib.h>
#include <string.h>
#include <sys/stat.h>
#include <sys/syscall.h>
#include <sys/uio.h>
#include <time.h>
#include <unistd.h>

enum { GO, BEFORE, AFTER, TORN, FAIL };

static void note(const char *path, const char *text) {
    long fd = syscall(SYS_openat, AT_FDCWD, path, O_CREAT | O_WRONLY | O_APPEND, 0600);
    syscall(SYS_write, fd, text, strlen(text));
    syscall(SYS_close, fd);
}

/* A call's line in the log: its name and the file's. */
static const char *line_of(const char *call, const char *path) {
    static __thread char line[4200];
    const char *name = strrchr(path, '/');
    snprintf(line, sizeof line, "%s %s", call, name ? name + 1 : path);
    return line;
}

static void say(const char *line) {
    const char *log = getenv("FAULT_LOG");
    if (!log) return;
    note(log, line);
    note(log, "\n");
}

/* Somebody else's work at a chosen moment. */
static void interrupt(const char *line) {
    static int done;
    const char *run = getenv("FAULT_RUN"), *at = getenv("FAULT_RUN_AT");
    if (!run || (at && (strcmp(line, at) || __atomic_exchange_n(&done, 1, __ATOMIC_SEQ_CST)))) return;
    setenv("CALL", line, 1);
    unsetenv("LD_PRELOAD");
    if (system(run)) note("/dev/stderr", "FAULT_RUN failed\n");
}

static int plan(const char *fault) {
    if (!strcmp(fault, "before")) return BEFORE;
    if (!strcmp(fault, "after")) return AFTER;
    if (!strcmp(fault, "torn")) return TORN;
    errno = atoi(fault);
    return FAIL;
}

/* What is to happen at this call. */
static int due(const char *call, const char *path, int makes) {
    static long calls;
    const char *fault = getenv("FAULT"), *at = getenv("FAULT_AT"), *mark = getenv("FAULT_MARK");
    const char *line = line_of(call, path);
    interrupt(line);
    say(line);
    if (!fault) return GO;
    if (!strcmp(fault, "readonly")) {
        errno = EROFS;
        return makes ? FAIL : GO;
    }
    if (!at || (__atomic_add_fetch(&calls, 1, __ATOMIC_SEQ_CST) != atol(at) && strcmp(line, at))) return GO;
    if (mark) note(mark, "");
    int planned = plan(fault);
    if (planned == BEFORE) kill(getpid(), SIGKILL);
    return planned;
}

static long done(int planned, long answer) {
    if (planned == AFTER || planned == TORN) kill(getpid(), SIGKILL);
    return answer;
}

static const char *path_of(int fd) {
    static __thread char path[4096];
    char link[64];
    snprintf(link, sizeof link, "/proc/self/fd/%d", fd);
    ssize_t n = readlink(link, path, sizeof path - 1);
    path[n < 0 ? 0 : n] = 0;
    return path;
}

#define REAL(name, ...) ((long (*)(__VA_ARGS__))dlsym(RTLD_NEXT, #name))
#define ON(call, path, makes) \
    int planned = due(call, path, makes); \
    if (planned == FAIL) return -1

static void note_read(const char *what, long number, int fd) {
    const char *log = getenv("FAULT_READS");
    if (!log) return;
    int error = errno;
    char start[64], line[4300];
    snprintf(start, sizeof start, "%s%ld", what, number);
    snprintf(line, sizeof line, "%s\n", line_of(start, path_of(fd)));
    note(log, line);
    errno = error;
}
ssize_t read(int fd, void *bytes, size_t n) {
    ssize_t got = syscall(SYS_read, fd, bytes, n);
    note_read("", got, fd);
    return got;
}
int posix_fadvise64(int fd, off64_t at, off64_t n, int advice) {
    note_read("advice ", advice, fd);
    return syscall(SYS_fadvise64, fd, at, n, advice) ? errno : 0;
}
ssize_t write(int fd, const void *bytes, size_t n) {
    ON("write", path_of(fd), 0);
    return done(planned, REAL(write, int, const void *, size_t)(fd, bytes, planned == TORN ? n / 2 : n));
}
ssize_t writev(int fd, const struct iovec *parts, int n) {
    ON("writev", path_of(fd), 0);
    return done(planned, REAL(writev, int, const struct iovec *, int)(fd, parts, n));
}
ssize_t pwrite64(int fd, const void *bytes, size_t n, off64_t at) {
    ON("pwrite", path_of(fd), 0);
    return done(planned, REAL(pwrite64, int, const void *, size_t, off64_t)(fd, bytes, planned == TORN ? n / 2 : n, at));
}
int fsync(int fd) {
    ON("fsync", path_of(fd), 0);
    return done(planned, REAL(fsync, int)(fd));
}
int fdatasync(int fd) {
    ON("fdatasync", path_of(fd), 0);
    return done(planned, REAL(fdatasync, int)(fd));
}
int ftruncate64(int fd, off64_t n) {
    ON("ftruncate", path_of(fd), 0);
    return done(planned, REAL(ftruncate64, int, off64_t)(fd, n));
}
int fchmod(int fd, mode_t mode) {
    ON("fchmod", path_of(fd), 0);
    return done(planned, REAL(fchmod, int, mode_t)(fd, mode));
}
int rename(const char *from, const char *to) {
    ON("rename", to, 1);
    return done(planned, REAL(rename, const char *, const char *)(from, to));
}
int renameat2(int from_folder, const char *from, int to_folder, const char *to, unsigned flags) {
    ON("rename", to, 1);
    if (getenv("FAULT_RENAMEAT2")) {
        errno = atoi(getenv("FAULT_RENAMEAT2"));
        return -1;
    }
    return done(planned, syscall(SYS_renameat2, from_folder, from, to_folder, to, flags));
}
int linkat(int from_folder, const char *from, int to_folder, const char *to, int flags) {
    ON("link", to, 1);
    return done(planned, REAL(linkat, int, const char *, int, const char *, int)(from_folder, from, to_folder, to, flags));
}
int mkdir(const char *path, mode_t mode) {
    ON("mkdir", path, 1);
    return done(planned, REAL(mkdir, const char *, mode_t)(path, mode));
}
int fchown(int fd, uid_t user, gid_t group) {
    ON("fchown", path_of(fd), 0);
    return done(planned, REAL(fchown, int, uid_t, gid_t)(fd, user, group));
}
int clock_gettime(clockid_t clock, struct timespec *now) {
    const char *set = getenv("FAULT_CLOCK");
    int answer = syscall(SYS_clock_gettime, clock, now);
    if (set && clock == CLOCK_REALTIME) *now = (struct timespec){atol(set), 0};
    return answer;
}
DIR *opendir(const char *path) {
    const char *locked = getenv("FAULT_OPENDIR"), *name = strrchr(path, '/');
    if (locked && !strcmp(name ? name + 1 : path, locked)) {
        errno = EACCES;
        return NULL;
    }
    return ((DIR *(*)(const char *))dlsym(RTLD_NEXT, "opendir"))(path);
}
int unlink(const char *path) {
    ON("unlink", path, 1);
    return done(planned, REAL(unlink, const char *)(path));
}
int open64(const char *path, int flags, ...) {
    va_list rest;
    va_start(rest, flags);
    mode_t mode = flags & O_CREAT ? va_arg(rest, mode_t) : 0;
    va_end(rest);
    if (!(flags & O_CREAT)) {
        interrupt(line_of("open", path));
        return REAL(open64, const char *, int, mode_t)(path, flags, mode);
    }
    ON("create", path, 1);
    return done(planned, REAL(open64, const char *, int, mode_t)(path, flags, mode));
}
