/* Loaded before a program (LD_PRELOAD), this library refuses some of its calls by their number:
 *
 *     REFUSED    growths: malloc, calloc, realloc and the aligned forms, with ENOMEM
 *                calls: what is asked of files, with the error number of ERROR. With ERROR 0 a read or a write does one byte,
 *                and with ERROR -1 the program is killed
 *     FROM, TO   the numbers of the first and the last call that is refused, counted from 1 when the program starts
 *     TOLD       a file, to which one byte is added for each call that is refused
 *     EACH       (growths) a pipe that is open, by its number. From FROM on each STEP-th growth is refused in a copy of the program, which
 *                then runs to its end while the program waits. The pipe gets of each the number of the growth, the status, and what the
 *                program and then the copy wrote to the standard streams, which are files: four numbers of eight bytes, and the bytes
 *
 * It asks the kernel itself for the file TOLD, and glibc for memory under glibc's own names, so that neither is counted. */
#define _GNU_SOURCE
#include <dlfcn.h>
#include <errno.h>
#include <fcntl.h>
#include <signal.h>
#include <stdarg.h>
#include <stdio.h>
#include <stdlib.h>
#include <string.h>
#include <sys/mman.h>
#include <sys/stat.h>
#include <sys/syscall.h>
#include <sys/wait.h>
#include <unistd.h>

enum kind { NOTHING, GROWTHS, CALLS };

static enum kind refused;
static long count, from, to;
static int error;
static const char *told;
static int each;
static long step;

static long number_of(const char *name) {
    const char *text = getenv(name);
    return text ? atol(text) : 0;
}

__attribute__((constructor)) static void begin(void) {
    const char *what = getenv("REFUSED");
    from = number_of("FROM");
    to = number_of("TO");
    error = (int)number_of("ERROR");
    told = getenv("TOLD");
    each = (int)number_of("EACH");
    step = number_of("STEP");
    count = 0;
    if (what && (told || each))
        refused = strcmp(what, "growths") == 0 ? GROWTHS : CALLS;
}

/* ---- copies of the program */

/* Ends all: a copy could not be made. */
static void fail(void) { syscall(SYS_exit_group, 70); }

/* Writes all bytes to a file. */
static void put(int file, const char *bytes, long size) {
    while (size > 0) {
        long done = syscall(SYS_write, file, bytes, size);
        if (done <= 0)
            fail();
        bytes += done;
        size -= done;
    }
}

/* Writes the bytes of a file up to this size to another one. */
static void put_file(int file, int from_file, long size) {
    static char bytes[1 << 16];
    for (long at = 0; at < size;) {
        long most = size - at < (long)sizeof bytes ? size - at : (long)sizeof bytes;
        long got = syscall(SYS_pread64, from_file, bytes, most, at);
        if (got <= 0)
            fail();
        put(file, bytes, got);
        at += got;
    }
}

/* Opens the file of a standard stream again, with a place of its own, which is the same. */
static void open_again(int stream) {
    char name[] = "/proc/self/fd/0";
    long place = syscall(SYS_lseek, stream, 0L, SEEK_CUR);
    long again = syscall(SYS_openat, AT_FDCWD, name, O_RDONLY, 0);
    if (place < 0 || again < 0 || syscall(SYS_lseek, again, place, SEEK_SET) < 0 || syscall(SYS_dup3, again, stream, 0) < 0)
        fail();
}

/* A file in memory with the bytes of a standard stream so far. */
static int copy_of(int stream) {
    long file = syscall(SYS_memfd_create, "copy", 0);
    long place = syscall(SYS_lseek, stream, 0L, SEEK_CUR);
    if (file < 0 || place < 0)
        fail();
    put_file((int)file, stream, place);
    return (int)file;
}

/* Makes a copy of the program, and waits for its end. Whether this is the copy. */
static int is_copy(void) {
    int out = copy_of(1), err = copy_of(2);
    long child = syscall(SYS_clone, SIGCHLD, 0L, 0L, 0L, 0L);
    if (child < 0)
        fail();
    if (child == 0) {
        open_again(0);
        if (syscall(SYS_dup3, out, 1, 0) < 0 || syscall(SYS_dup3, err, 2, 0) < 0)
            fail();
        return 1;
    }
    int ended = 0;
    if (syscall(SYS_wait4, child, &ended, 0, 0L) < 0)
        fail();
    long sizes[] = {count, WIFEXITED(ended) ? WEXITSTATUS(ended) : -1, syscall(SYS_lseek, out, 0L, SEEK_END), syscall(SYS_lseek, err, 0L, SEEK_END)};
    put(each, (const char *)sizes, sizeof sizes);
    put_file(each, out, sizes[2]);
    put_file(each, err, sizes[3]);
    syscall(SYS_close, out);
    syscall(SYS_close, err);
    return 0;
}

/* Whether the next call of this kind is refused. */
static int is_refused(enum kind kind, int number) {
    if (refused != kind)
        return 0;
    count++;
    if (count < from || count > to)
        return 0;
    if (each) {
        if ((count - from) % step != 0 || !is_copy())
            return 0;
        refused = NOTHING;
        errno = number;
        return 1;
    }
    long file = syscall(SYS_openat, AT_FDCWD, told, O_WRONLY | O_CREAT | O_APPEND | O_CLOEXEC, 0600);
    if (file >= 0) {
        syscall(SYS_write, file, "!", 1);
        syscall(SYS_close, file);
    }
    if (number < 0)
        raise(SIGKILL);
    errno = number;
    return 1;
}

/* ---- growths */

void *__libc_malloc(size_t);
void *__libc_calloc(size_t, size_t);
void *__libc_realloc(void *, size_t);
void *__libc_memalign(size_t, size_t);

void *malloc(size_t size) { return is_refused(GROWTHS, ENOMEM) ? NULL : __libc_malloc(size); }

void *calloc(size_t items, size_t size) { return is_refused(GROWTHS, ENOMEM) ? NULL : __libc_calloc(items, size); }

void *realloc(void *block, size_t size) { return is_refused(GROWTHS, ENOMEM) ? NULL : __libc_realloc(block, size); }

void *memalign(size_t align, size_t size) { return is_refused(GROWTHS, ENOMEM) ? NULL : __libc_memalign(align, size); }

void *aligned_alloc(size_t align, size_t size) { return memalign(align, size); }

int posix_memalign(void **block, size_t align, size_t size) {
    void *found = memalign(align, size);
    if (!found)
        return ENOMEM;
    *block = found;
    return 0;
}

/* ---- calls on files */

/* The function of this name in the libraries behind this one. */
#define NEXT(name) ((__typeof__(&name))dlsym(RTLD_NEXT, #name))

#define REFUSE                                   \
    if (error && is_refused(CALLS, error))       \
        return -1

/* Only calls that move bytes can do less than they are asked. */
static size_t cut(size_t size) { return !error && size > 1 && is_refused(CALLS, 0) ? 1 : size; }

#define OPEN(name)                                          \
    int name(const char *path, int flags, ...) {            \
        va_list rest;                                       \
        va_start(rest, flags);                              \
        mode_t mode = flags & O_CREAT ? va_arg(rest, mode_t) : 0; \
        va_end(rest);                                       \
        REFUSE;                                             \
        return NEXT(name)(path, flags, mode);               \
    }

OPEN(open)
OPEN(open64)

#define OPENAT(name)                                        \
    int name(int folder, const char *path, int flags, ...) { \
        va_list rest;                                       \
        va_start(rest, flags);                              \
        mode_t mode = flags & O_CREAT ? va_arg(rest, mode_t) : 0; \
        va_end(rest);                                       \
        REFUSE;                                             \
        return NEXT(name)(folder, path, flags, mode);       \
    }

OPENAT(openat)
OPENAT(openat64)

ssize_t read(int file, void *bytes, size_t size) {
    REFUSE;
    return NEXT(read)(file, bytes, cut(size));
}

ssize_t write(int file, const void *bytes, size_t size) {
    REFUSE;
    return NEXT(write)(file, bytes, cut(size));
}

off_t lseek(int file, off_t offset, int whence) {
    REFUSE;
    return NEXT(lseek)(file, offset, whence);
}

int fsync(int file) {
    REFUSE;
    return NEXT(fsync)(file);
}

int fchmod(int file, mode_t mode) {
    REFUSE;
    return NEXT(fchmod)(file, mode);
}

int statx(int folder, const char *path, int flags, unsigned int mask, struct statx *found) {
    REFUSE;
    return NEXT(statx)(folder, path, flags, mask, found);
}

int fstat(int file, struct stat *found) {
    REFUSE;
    return NEXT(fstat)(file, found);
}

int fstatat(int folder, const char *path, struct stat *found, int flags) {
    REFUSE;
    return NEXT(fstatat)(folder, path, found, flags);
}

int rename(const char *old, const char *new) {
    REFUSE;
    return NEXT(rename)(old, new);
}

int unlink(const char *path) {
    REFUSE;
    return NEXT(unlink)(path);
}

char *realpath(const char *path, char *found) {
    if (error && is_refused(CALLS, error))
        return NULL;
    return NEXT(realpath)(path, found);
}

int close(int file) {
    if (error && is_refused(CALLS, error)) {
        syscall(SYS_close, file);
        errno = error;
        return -1;
    }
    return NEXT(close)(file);
}
