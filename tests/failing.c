/* A library that lets one call of a process fail, for tests/failures. It is loaded by LD_PRELOAD.
 *
 * FAILING names the call: memory, open, stat, seek, read, write, sync, random, rename, chmod or chown, or by_name for
 * one that gives rights or an owner to a path. FAILING_AT is its number,
 * counted from 1 over the calls of this kind; that call fails, and all others are passed on. Where
 * FAILING is `reads`, all reads after it fail too. A write to standard error is not counted. If FAILING_ZERO is set, the write doesn't fail, but takes no bytes.
 * FAILING_TOLD names a file that is made when the call comes. FAILING_MOST is the most bytes that a
 * read or a write takes, where it is set. FAILING_LEAST is the least size of an allocation that is counted. */
#define _GNU_SOURCE
#include <dlfcn.h>
#include <errno.h>
#include <fcntl.h>
#include <stdarg.h>
#include <stdlib.h>
#include <string.h>
#include <sys/stat.h>
#include <sys/syscall.h>
#include <unistd.h>

enum kind { MEMORY, OPEN, STAT, SEEK, READ, WRITE, SYNC, RANDOM, RENAME, CHMOD, CHOWN, BY_NAME, KINDS };
static const char *const names[KINDS] = {"memory", "open",   "stat",   "seek",  "read", "write",
                                         "sync",   "random", "rename", "chmod", "chown", "by_name"};
static unsigned long counts[KINDS], fails_at[KINDS];
static int all_reads;
static const char *told;
static size_t most = -1, least = 0;

extern void *__libc_malloc(size_t);
extern void *__libc_realloc(void *, size_t);

__attribute__((constructor)) static void begin(void) {
    const char *name = getenv("FAILING"), *at = getenv("FAILING_AT"), *bytes = getenv("FAILING_MOST");
    const char *size = getenv("FAILING_LEAST");
    all_reads = name && !strcmp(name, "reads");
    for (int kind = 0; name && at && kind < KINDS; kind++)
        if (!strcmp(all_reads ? "read" : name, names[kind]))
            fails_at[kind] = strtoul(at, NULL, 10);
    if (bytes)
        most = strtoul(bytes, NULL, 10);
    if (size)
        least = strtoul(size, NULL, 10);
    told = getenv("FAILING_TOLD");
    memset(counts, 0, sizeof counts);
}

/* Counts a call, and says whether it fails. */
static int fails(enum kind kind) {
    unsigned long count = ++counts[kind];
    if (all_reads && kind == READ ? count < fails_at[kind] : count != fails_at[kind])
        return 0;
    if (told)
        syscall(SYS_close, syscall(SYS_openat, AT_FDCWD, told, O_CREAT | O_WRONLY, 0600));
    return 1;
}

static int failed(int error) {
    errno = error;
    return -1;
}

void *malloc(size_t size) {
    if (size >= least && fails(MEMORY)) {
        errno = ENOMEM;
        return NULL;
    }
    return __libc_malloc(size);
}

void *realloc(void *block, size_t size) {
    if (size >= least && fails(MEMORY)) {
        errno = ENOMEM;
        return NULL;
    }
    return __libc_realloc(block, size);
}

int open(const char *path, int flags, ...) {
    va_list rest;
    va_start(rest, flags);
    mode_t mode = flags & (O_CREAT | O_TMPFILE) ? va_arg(rest, mode_t) : 0;
    va_end(rest);
    return fails(OPEN) ? failed(EMFILE) : syscall(SYS_openat, AT_FDCWD, path, flags, mode);
}

int statx(int folder, const char *path, int flags, unsigned mask, struct statx *answer) {
    return fails(STAT) ? failed(EIO) : syscall(SYS_statx, folder, path, flags, mask, answer);
}

off_t lseek(int file, off_t offset, int whence) {
    return fails(SEEK) ? failed(EIO) : syscall(SYS_lseek, file, offset, whence);
}

off_t lseek64(int file, off_t offset, int whence) {
    return lseek(file, offset, whence);
}

ssize_t read(int file, void *bytes, size_t size) {
    if (fails(READ))
        return failed(EIO);
    return syscall(SYS_read, file, bytes, size < most ? size : most);
}

static ssize_t put(int file, const void *bytes, size_t size) {
    if (file != STDERR_FILENO && fails(WRITE))
        return getenv("FAILING_ZERO") ? 0 : failed(EIO);
    return syscall(SYS_write, file, bytes, file != STDERR_FILENO && most < size ? most : size);
}

ssize_t write(int file, const void *bytes, size_t size) {
    return put(file, bytes, size);
}

ssize_t __write(int file, const void *bytes, size_t size) {
    return put(file, bytes, size);
}

int fsync(int file) {
    return fails(SYNC) ? failed(EIO) : syscall(SYS_fsync, file);
}

int rename(const char *from, const char *to) {
    return fails(RENAME) ? failed(EIO) : syscall(SYS_rename, from, to);
}

int fchmod(int file, mode_t mode) {
    return fails(CHMOD) ? failed(EPERM) : syscall(SYS_fchmod, file, mode);
}

int fchown(int file, uid_t user, gid_t group) {
    return fails(CHOWN) ? failed(EPERM) : syscall(SYS_fchown, file, user, group);
}

int chmod(const char *path, mode_t mode) {
    return fails(BY_NAME) ? failed(EPERM) : syscall(SYS_chmod, path, mode);
}

int chown(const char *path, uid_t user, gid_t group) {
    return fails(BY_NAME) ? failed(EPERM) : syscall(SYS_chown, path, user, group);
}

int getentropy(void *bytes, size_t size) {
    return fails(RANDOM) ? failed(ENOSYS) : syscall(SYS_getrandom, bytes, size, 0) == (long)size ? 0 : failed(EIO);
}
