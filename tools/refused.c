// Refuses one call of a program: preloaded by tools/refused, which says which in the environment.
//
// REFUSED_KIND is the kind of call: `memory` (malloc, calloc, realloc), `thread` (the start of one), `file` (what
// looks at, opens, reads, writes, syncs, renames or removes a file, which fails), `removal` (the same, and every
// removal fails besides), or `short` (a read or a write of several bytes, which moves one). REFUSED_AT is its number,
// from 1, or `all`. REFUSED_MARK is a file that is made when that call comes, with what was refused, one word a line.
#define _GNU_SOURCE
#include <dlfcn.h>
#include <errno.h>
#include <fcntl.h>
#include <pthread.h>
#include <stdarg.h>
#include <stdatomic.h>
#include <stdlib.h>
#include <string.h>
#include <sys/stat.h>
#include <sys/syscall.h>
#include <sys/types.h>
#include <sys/uio.h>
#include <unistd.h>

enum kind { NONE, MEMORY, THREAD, IO, REMOVAL, SHORT };

static enum kind kind;
static unsigned long at;
static int all;
static const char *mark;
static atomic_ulong calls;

__attribute__((constructor)) static void begin(void) {
    const char *name = getenv("REFUSED_KIND");
    const char *number = getenv("REFUSED_AT");
    mark = getenv("REFUSED_MARK");
    if (!name || !number || !mark)
        return;
    at = strtoul(number, NULL, 10);
    all = !strcmp(number, "all");
    kind = !strcmp(name, "memory")  ? MEMORY
         : !strcmp(name, "thread")  ? THREAD
         : !strcmp(name, "file")    ? IO
         : !strcmp(name, "removal") ? REMOVAL
         : !strcmp(name, "short")   ? SHORT
                                    : NONE;
}

// Marks that a call was refused.
static int tell(const char *call) {
    int file = syscall(SYS_openat, AT_FDCWD, mark, O_CREAT | O_WRONLY | O_APPEND, 0600);
    struct iovec parts[] = {{(void *)call, strlen(call)}, {"\n", 1}};
    if (file >= 0) {
        syscall(SYS_writev, file, parts, 2);
        syscall(SYS_close, file);
    }
    return 1;
}

// Whether this call is refused.
static int is_refused(enum kind of, const char *call) {
    enum kind counted = kind == REMOVAL ? IO : kind;
    if (counted != of || (atomic_fetch_add(&calls, 1) + 1 != at && !all))
        return 0;
    return tell(call);
}

// How many bytes a read or a write moves.
static size_t moved(size_t count, const char *call) {
    return count > 1 && is_refused(SHORT, call) ? 1 : count;
}

extern void *__libc_malloc(size_t);
extern void *__libc_calloc(size_t, size_t);
extern void *__libc_realloc(void *, size_t);

static void *no_memory(void) {
    errno = ENOMEM;
    return NULL;
}

void *malloc(size_t size) {
    return is_refused(MEMORY, "memory") ? no_memory() : __libc_malloc(size);
}

void *calloc(size_t count, size_t size) {
    return is_refused(MEMORY, "memory") ? no_memory() : __libc_calloc(count, size);
}

void *realloc(void *place, size_t size) {
    return is_refused(MEMORY, "memory") ? no_memory() : __libc_realloc(place, size);
}

int pthread_create(pthread_t *thread, const pthread_attr_t *how, void *(*run)(void *), void *with) {
    int (*next)(pthread_t *, const pthread_attr_t *, void *(*)(void *), void *) = dlsym(RTLD_NEXT, "pthread_create");
    return is_refused(THREAD, "thread") ? EAGAIN : next(thread, how, run, with);
}

static int no_call(int error) {
    errno = error;
    return -1;
}

int statx(int folder, const char *name, int flags, unsigned mask, struct statx *found) {
    return is_refused(IO, "look") ? no_call(EIO) : syscall(SYS_statx, folder, name, flags, mask, found);
}

int lstat(const char *name, struct stat *found) {
    if (is_refused(IO, "look"))
        return no_call(EIO);
    return syscall(SYS_newfstatat, AT_FDCWD, name, found, AT_SYMLINK_NOFOLLOW);
}

ssize_t read(int file, void *bytes, size_t count) {
    return is_refused(IO, "read") ? no_call(EIO) : syscall(SYS_read, file, bytes, moved(count, "read"));
}

ssize_t write(int file, const void *bytes, size_t count) {
    return is_refused(IO, "write") ? no_call(ENOSPC) : syscall(SYS_write, file, bytes, moved(count, "write"));
}

ssize_t writev(int file, const struct iovec *parts, int count) {
    if (is_refused(IO, "write"))
        return no_call(ENOSPC);
    for (int i = 0; i < count; i++)
        if (parts[i].iov_len > 0 && moved(2, "write") == 1)
            return syscall(SYS_write, file, parts[i].iov_base, 1);
        else if (parts[i].iov_len > 0)
            break;
    return syscall(SYS_writev, file, parts, count);
}

int openat(int folder, const char *name, int flags, ...) {
    va_list rest;
    va_start(rest, flags);
    mode_t mode = va_arg(rest, mode_t);
    va_end(rest);
    return is_refused(IO, "open") ? no_call(EIO) : syscall(SYS_openat, folder, name, flags, mode);
}

int open(const char *name, int flags, ...) {
    va_list rest;
    va_start(rest, flags);
    mode_t mode = va_arg(rest, mode_t);
    va_end(rest);
    return is_refused(IO, "open") ? no_call(EIO) : syscall(SYS_openat, AT_FDCWD, name, flags, mode);
}

int fsync(int file) {
    return is_refused(IO, "sync") ? no_call(EIO) : syscall(SYS_fsync, file);
}

int fdatasync(int file) {
    return is_refused(IO, "sync") ? no_call(EIO) : syscall(SYS_fdatasync, file);
}

int rename(const char *from, const char *to) {
    return is_refused(IO, "rename") ? no_call(EIO) : syscall(SYS_renameat2, AT_FDCWD, from, AT_FDCWD, to, 0);
}

int unlink(const char *name) {
    int refused = kind == REMOVAL ? tell("remove") : is_refused(IO, "remove");
    return refused ? no_call(EIO) : syscall(SYS_unlinkat, AT_FDCWD, name, 0);
}
