/* Stands before the C library, for tools/failing and the scripts of checks/images/: makes calls of the system fail, ends the program at one, changes
   a file before one, and records those that change files and folders.

   FAIL_CALL, FAIL_FIRST, FAIL_LAST: the calls of this name whose numbers lie between these, from 1 on, fail with EIO; with FAIL_SHORT, reads and writes
   do half of what they are asked for. At the end it says on the standard error how many there were and how many failed. `read` and `write` are those on
   the standard input and output; on other files, but for the standard error, they are `read_file` and `write_file`. `malloc` is `realloc` too, and gets
   no memory. `sync` is `fsync` and `fdatasync`.
   KILL_AT: the program is killed before the call of this number, from 1 on, of all that change something; with KILL_HALF a write is made by half before,
   with KILL_AFTER the call is made before. With KILL_STOP it is stopped there instead.
   CHANGE_AT, CHANGE_FILE, CHANGE_SIZE: before the `pread` of this number the file gets this size, or another first byte where that is -1.
   WHOLE_SECONDS: the times of files have no nanoseconds.
   RECORD: a file that gets a line for each call that changes something, or fails as FAIL_CALL says, and behind it the bytes that were written. */
#define _GNU_SOURCE
#include <dlfcn.h>
#include <errno.h>
#include <fcntl.h>
#include <pthread.h>
#include <signal.h>
#include <stdarg.h>
#include <stdatomic.h>
#include <stdio.h>
#include <stdlib.h>
#include <string.h>
#include <sys/stat.h>
#include <sys/syscall.h>
#include <unistd.h>

static atomic_long calls, failed, changes, reads;
static long first, last, kill_at, change_at;
static const char *which;
static int is_short, is_half, is_after, is_dying, record = -1;

extern void *__libc_malloc(size_t);
extern void *__libc_realloc(void *, size_t);

static long number_of(const char *name) { return getenv(name) ? atol(getenv(name)) : 0; }

__attribute__((constructor)) static void begin(void) {
    first = number_of("FAIL_FIRST"), last = number_of("FAIL_LAST"), kill_at = number_of("KILL_AT"), change_at = number_of("CHANGE_AT");
    is_short = getenv("FAIL_SHORT") != NULL, is_half = getenv("KILL_HALF") != NULL, is_after = getenv("KILL_AFTER") != NULL;
    which = getenv("FAIL_CALL");
    if (getenv("RECORD")) record = (int)syscall(SYS_openat, AT_FDCWD, getenv("RECORD"), O_WRONLY | O_CREAT | O_APPEND, 0600);
}

/* Programs end by _exit, or return from main. */
__attribute__((destructor)) static void end(void) {
    if (which) dprintf(2, "calls %ld failed %ld\n", atomic_load(&calls), atomic_load(&failed));
}

void _exit(int status) {
    end();
    syscall(SYS_exit_group, status);
    __builtin_unreachable();
}

static void die(void) {
    syscall(SYS_kill, syscall(SYS_getpid), SIGKILL);
    for (;;) pause();
}

static void say(const void *data, long size, const char *form, ...) {
    char line[9000];
    va_list more;
    if (record < 0) return;
    va_start(more, form);
    int length = vsnprintf(line, sizeof line, form, more);
    va_end(more);
    syscall(SYS_write, record, line, length);
    if (size > 0) syscall(SYS_write, record, data, size);
}

static const char *path_of(int file) {
    static char path[4096];
    char link[40];
    snprintf(link, sizeof link, "/proc/self/fd/%d", file);
    ssize_t size = readlink(link, path, sizeof path - 1);
    path[size < 0 ? 0 : size] = 0;
    return path;
}

/* What becomes of a call: whether it is made, by half, or fails. */
enum how { MADE, HALF, FAILS };

static enum how fate(const char *name) {
    if (!which || (strcmp(name, which) && !(!strcmp(which, "sync") && strstr(name, "sync")))) return MADE;
    long number = atomic_fetch_add(&calls, 1) + 1;
    if (number < first || last < number) return MADE;
    atomic_fetch_add(&failed, 1);
    errno = EIO;
    return is_short ? HALF : FAILS;
}

static enum how fate_of_change(const char *name) {
    if (atomic_fetch_add(&changes, 1) + 1 != kill_at) return fate(name);
    if (getenv("KILL_STOP")) {
        syscall(SYS_kill, syscall(SYS_getpid), SIGSTOP);
        return fate(name);
    }
    if (!is_half && !is_after) die();
    is_dying = 1;
    return is_half ? HALF : MADE;
}

static size_t part(enum how how, size_t size) { return how == HALF && size > 1 ? size / 2 : size; }

static long made(long done) {
    if (is_dying) die();
    return done;
}

void *malloc(size_t size) {
    if (fate("malloc") == MADE) return __libc_malloc(size);
    errno = ENOMEM;
    return NULL;
}

void *realloc(void *at, size_t size) {
    if (fate("malloc") == MADE) return __libc_realloc(at, size);
    errno = ENOMEM;
    return NULL;
}

ssize_t read(int file, void *out, size_t size) {
    enum how how = fate(file == 0 ? "read" : "read_file");
    return how == FAILS ? -1 : syscall(SYS_read, file, out, part(how, size));
}

ssize_t pread(int file, void *out, size_t size, off_t at) {
    if (change_at && atomic_fetch_add(&reads, 1) + 1 == change_at) {
        int changed = (int)syscall(SYS_openat, AT_FDCWD, getenv("CHANGE_FILE"), O_WRONLY, 0);
        long wanted = number_of("CHANGE_SIZE");
        if (wanted < 0 ? syscall(SYS_pwrite64, changed, "?", 1, 0) != 1 : syscall(SYS_ftruncate, changed, wanted) != 0) abort();
        syscall(SYS_close, changed);
    }
    enum how how = fate("pread");
    return how == FAILS ? -1 : syscall(SYS_pread64, file, out, part(how, size), at);
}

ssize_t write(int file, const void *from, size_t size) {
    enum how how = fate_of_change(file == 1 ? "write" : file == 2 ? "told" : "write_file");
    off_t at = file > 2 ? lseek(file, 0, SEEK_CUR) : 0;
    ssize_t done = how == FAILS ? -1 : syscall(SYS_write, file, from, part(how, size));
    if (file == 1) say(from, done, "print\t\t0\t%zd\n", done);
    if (file > 2) say(from, done, "write\t%s\t%ld\t%zd\n", path_of(file), (long)at, done);
    return made(done);
}

ssize_t pwrite(int file, const void *from, size_t size, off_t at) {
    enum how how = fate_of_change("pwrite");
    ssize_t done = how == FAILS ? -1 : syscall(SYS_pwrite64, file, from, part(how, size), at);
    say(from, done, "write\t%s\t%ld\t%zd\n", path_of(file), (long)at, done);
    return made(done);
}

/* A call that changes something, is made as a whole or not at all, and has this line. */
#define CHANGE(name, call, ...)                  \
    enum how how = fate_of_change(name);         \
    if (how == HALF && is_dying) die();          \
    int done = how == FAILS ? -1 : (int)(call);  \
    say("", 0, __VA_ARGS__);                     \
    return (int)made(done)

static int sync_file(int file, const char *name, int call) {
    CHANGE(name, syscall(call, file), "%s\t%s\t0\t0\n", how == FAILS ? "fail" : "sync", path_of(file));
}

int fsync(int file) { return sync_file(file, "fsync", SYS_fsync); }
int fdatasync(int file) { return sync_file(file, "fdatasync", SYS_fdatasync); }
int ftruncate(int file, off_t size) { CHANGE("ftruncate", syscall(SYS_ftruncate, file, size), "size\t%s\t%ld\t0\n", path_of(file), (long)size); }
int unlink(const char *name) { CHANGE("unlink", syscall(SYS_unlinkat, AT_FDCWD, name, 0), "unlink\t%s\t0\t0\n", name); }
int mkdir(const char *name, mode_t mode) { CHANGE("mkdir", syscall(SYS_mkdirat, AT_FDCWD, name, mode), "mkdir\t%s\t0\t0\n", name); }
int rename(const char *from, const char *to) {
    CHANGE("rename", syscall(SYS_renameat, AT_FDCWD, from, AT_FDCWD, to), "move\t%s\t%s\t0\n", from, to);
}

int open(const char *name, int flags, ...) {
    va_list more;
    va_start(more, flags);
    int mode = va_arg(more, int), is_change = (flags & (O_CREAT | O_TRUNC)) != 0;
    va_end(more);
    // what the system tells of itself, as how many processors there are, is no device
    const char *call = strncmp(name, "/sys/", 5) ? "open" : "told";
    enum how how = is_change ? fate_of_change(call) : fate(call);
    if (how == HALF && is_dying) die();
    int made_file = how == FAILS ? -1 : (int)syscall(SYS_openat, AT_FDCWD, name, flags, mode);
    if (made_file >= 0 && is_change) say("", 0, "open\t%s\t%d\t0\n", name, (flags & O_TRUNC) != 0);
    return (int)made(made_file);
}

int flock(int file, int how) { return fate("flock") != MADE ? -1 : (int)syscall(SYS_flock, file, how); }

int statx(int folder, const char *restrict name, int flags, unsigned mask, struct statx *restrict out) {
    int done = fate("statx") != MADE ? -1 : (int)syscall(SYS_statx, folder, name, flags, mask, out);
    if (!done && getenv("WHOLE_SECONDS")) out->stx_ctime.tv_nsec = out->stx_mtime.tv_nsec = 0;
    return done;
}

int close(int file) {
    enum how how = fate("close");
    int closed = (int)syscall(SYS_close, file);
    if (how != MADE) errno = EIO;
    return how != MADE ? -1 : closed;
}

int pthread_create(pthread_t *thread, const pthread_attr_t *attributes, void *(*work)(void *), void *given) {
    static int (*create)(pthread_t *, const pthread_attr_t *, void *(*)(void *), void *);
    if (!create) *(void **)&create = dlsym(RTLD_NEXT, "pthread_create");
    return fate("pthread_create") != MADE ? EAGAIN : create(thread, attributes, work, given);
}
