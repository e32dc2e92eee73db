/* A library to preload (LD_PRELOAD): it lets calls of a program fail, counted from its `main` on.
 *
 *   FAULT_CALL   open (for reading), make (an open for writing), read, write (to any descriptor but 2), tell (a write to descriptor 2),
 *                journal (an open, a read, a write or a sync of a file journal.bin, which is none of the others), hold (a lock of it, or
 *                a look at its path), second (an open, a read, a write, a sync or a lock of a file journal2.bin, or a look at its
 *                path) or memory
 *   FAULT_KIND   refused (EIO; no memory), short (one byte is moved) or interrupted (EINTR); a call that moves no bytes has
 *                no short kind, and a look isn't interrupted
 *   FAULT_AT     the number of the call, from 1
 *   FAULT_ON     set: each later one fails too
 *   FAULT_COUNT  a file that gets the number of calls of each sort, in the order above
 *
 * Numbers of calls are those of one thread: the program must have no other. */
#define _GNU_SOURCE
#include <errno.h>
#include <fcntl.h>
#include <stdarg.h>
#include <stddef.h>
#include <stdio.h>
#include <stdlib.h>
#include <string.h>
#include <sys/mman.h>
#include <sys/stat.h>
#include <sys/syscall.h>
#include <sys/uio.h>
#include <unistd.h>

extern void *__libc_malloc(size_t size);
extern void *__libc_calloc(size_t count, size_t size);
extern void *__libc_realloc(void *old, size_t size);
extern void *__libc_memalign(size_t align, size_t size);

enum call { OPEN, MAKE, READ, WRITE, TELL, JOURNAL, HOLD, SECOND, MEMORY, CALLS };
enum kind { PASS, REFUSED, SHORT, INTERRUPTED };

static const char *const names[CALLS] = {"open", "make", "read", "write", "tell", "journal", "hold", "second", "memory"};

static int armed;
static long seen[CALLS];
static enum call chosen = CALLS;
static enum kind chosen_kind;
static long first;
static int later;
static const char *count_file;
static int journal = -1, second = -1;

/* What becomes of the next call of a sort. */
static enum kind next(enum call call)
{
    if (!armed)
        return PASS;
    long number = ++seen[call];
    if (call != chosen || number < first || (number > first && !later))
        return PASS;
    return chosen_kind;
}

static int fails(enum kind kind)
{
    if (kind == REFUSED)
        errno = EIO;
    if (kind == INTERRUPTED)
        errno = EINTR;
    return kind == REFUSED || kind == INTERRUPTED;
}

static size_t moved(enum kind kind, size_t size)
{
    return kind == SHORT && size > 1 ? 1 : size;
}

/* The sort of a read. */
static enum call reading(int fd)
{
    return fd == journal ? JOURNAL : fd == second ? SECOND : READ;
}

ssize_t read(int fd, void *buf, size_t size)
{
    enum kind kind = next(reading(fd));
    if (fails(kind))
        return -1;
    return syscall(SYS_read, fd, buf, moved(kind, size));
}

static enum call writing(int fd)
{
    return fd == journal ? JOURNAL : fd == second ? SECOND : fd == 2 ? TELL : WRITE;
}

ssize_t write(int fd, const void *buf, size_t size)
{
    enum kind kind = next(writing(fd));
    if (fails(kind))
        return -1;
    return syscall(SYS_write, fd, buf, moved(kind, size));
}

ssize_t writev(int fd, const struct iovec *parts, int count)
{
    enum kind kind = next(writing(fd));
    if (fails(kind))
        return -1;
    if (kind == SHORT && count > 0)
        return syscall(SYS_write, fd, parts[0].iov_base, moved(kind, parts[0].iov_len));
    return syscall(SYS_writev, fd, parts, count);
}

/* Whether a sync fails. */
static int unsynced(int fd)
{
    return (fd == journal && fails(next(JOURNAL))) || (fd == second && fails(next(SECOND)));
}

int fsync(int fd)
{
    if (unsynced(fd))
        return -1;
    return syscall(SYS_fsync, fd);
}

int fdatasync(int fd)
{
    if (unsynced(fd))
        return -1;
    return syscall(SYS_fdatasync, fd);
}

ssize_t pread(int fd, void *buf, size_t size, off_t offset)
{
    enum kind kind = next(reading(fd));
    if (fails(kind))
        return -1;
    return syscall(SYS_pread64, fd, buf, moved(kind, size), offset);
}

ssize_t pread64(int fd, void *buf, size_t size, off64_t offset)
{
    return pread(fd, buf, size, offset);
}

ssize_t pwrite(int fd, const void *buf, size_t size, off_t offset)
{
    enum kind kind = next(writing(fd));
    if (fails(kind))
        return -1;
    return syscall(SYS_pwrite64, fd, buf, moved(kind, size), offset);
}

ssize_t pwrite64(int fd, const void *buf, size_t size, off64_t offset)
{
    return pwrite(fd, buf, size, offset);
}

int close(int fd)
{
    if (fd == journal)
        journal = -1;
    if (fd == second)
        second = -1;
    return syscall(SYS_close, fd);
}

static int is_named(const char *path, const char *wanted)
{
    const char *name = strrchr(path, '/');
    return !strcmp(name ? name + 1 : path, wanted);
}

static int is_journal(const char *path)
{
    return is_named(path, "journal.bin");
}

static int is_second(const char *path)
{
    return is_named(path, "journal2.bin");
}

int flock(int fd, int how)
{
    if ((fd == journal && fails(next(HOLD))) || (fd == second && fails(next(SECOND))))
        return -1;
    return syscall(SYS_flock, fd, how);
}

int statx(int dir, const char *path, int flags, unsigned mask, struct statx *out)
{
    enum kind kind = is_journal(path) ? next(HOLD) : is_second(path) ? next(SECOND) : PASS;
    if (kind == REFUSED && fails(kind))
        return -1;
    return syscall(SYS_statx, dir, path, flags, mask, out);
}

static int open_at(int dir, const char *path, int flags, unsigned mode)
{
    int own = is_journal(path), other = is_second(path);
    if (fails(next(own ? JOURNAL : other ? SECOND : (flags & O_ACCMODE) == O_RDONLY ? OPEN : MAKE)))
        return -1;
    int fd = syscall(SYS_openat, dir, path, flags, mode);
    if (own && fd >= 0)
        journal = fd;
    if (other && fd >= 0)
        second = fd;
    return fd;
}

#define MODE(flags) \
    unsigned mode = 0; \
    if (flags & (O_CREAT | __O_TMPFILE)) { \
        va_list more; \
        va_start(more, flags); \
        mode = va_arg(more, unsigned); \
        va_end(more); \
    }

int open(const char *path, int flags, ...)
{
    MODE(flags)
    return open_at(AT_FDCWD, path, flags, mode);
}

int open64(const char *path, int flags, ...)
{
    MODE(flags)
    return open_at(AT_FDCWD, path, flags, mode);
}

int openat(int dir, const char *path, int flags, ...)
{
    MODE(flags)
    return open_at(dir, path, flags, mode);
}

int openat64(int dir, const char *path, int flags, ...)
{
    MODE(flags)
    return open_at(dir, path, flags, mode);
}

static int no_memory(void)
{
    if (next(MEMORY) == PASS)
        return 0;
    errno = ENOMEM;
    return 1;
}

void *malloc(size_t size)
{
    return no_memory() ? NULL : __libc_malloc(size);
}

void *calloc(size_t count, size_t size)
{
    return no_memory() ? NULL : __libc_calloc(count, size);
}

void *realloc(void *old, size_t size)
{
    return no_memory() ? NULL : __libc_realloc(old, size);
}

void *memalign(size_t align, size_t size)
{
    return no_memory() ? NULL : __libc_memalign(align, size);
}

void *aligned_alloc(size_t align, size_t size)
{
    return no_memory() ? NULL : __libc_memalign(align, size);
}

int posix_memalign(void **out, size_t align, size_t size)
{
    if (no_memory())
        return ENOMEM;
    *out = __libc_memalign(align, size);
    return *out ? 0 : ENOMEM;
}

void *mmap(void *at, size_t size, int prot, int flags, int fd, off_t offset)
{
    if (no_memory())
        return MAP_FAILED;
    return (void *)syscall(SYS_mmap, at, size, prot, flags, fd, offset);
}

/* Reads what is to fail; before `main`, while nothing is counted. */
__attribute__((constructor)) static void choose(void)
{
    const char *call = getenv("FAULT_CALL"), *kind = getenv("FAULT_KIND"), *at = getenv("FAULT_AT");
    count_file = getenv("FAULT_COUNT");
    if (!call || !kind || !at)
        return;
    for (int i = 0; i < CALLS; i++)
        if (!strcmp(call, names[i]))
            chosen = i;
    chosen_kind = !strcmp(kind, "short") ? SHORT : !strcmp(kind, "interrupted") ? INTERRUPTED : REFUSED;
    first = atol(at);
    later = getenv("FAULT_ON") != NULL;
}

/* Tells how many calls there were. */
__attribute__((destructor)) static void tell_counts(void)
{
    armed = 0;
    if (!count_file)
        return;
    char line[256];
    int size = 0;
    for (int i = 0; i < CALLS; i++)
        size += snprintf(line + size, sizeof line - size, "%ld\n", seen[i]);
    int fd = syscall(SYS_openat, AT_FDCWD, count_file, O_WRONLY | O_CREAT | O_TRUNC, 0666);
    if (fd >= 0) {
        syscall(SYS_write, fd, line, size);
        syscall(SYS_close, fd);
    }
}

/* A program that has threads ends by this call, and no destructor is run. */
void _exit(int status)
{
    tell_counts();
    for (;;)
        syscall(SYS_exit_group, status);
}

static int (*program)(int, char **, char **);

static int counted(int argc, char **argv, char **envp)
{
    armed = 1;
    int status = program(argc, argv, envp);
    armed = 0;
    return status;
}

int __libc_start_main(int (*start)(int, char **, char **), int argc, char **argv, void (*init)(void), void (*fini)(void), void (*rtld_fini)(void), void *stack_end)
{
    typedef int starts(int (*)(int, char **, char **), int, char **, void (*)(void), void (*)(void), void (*)(void), void *);
    extern void *dlsym(void *, const char *);
    starts *real = (starts *)dlsym((void *)-1l, "__libc_start_main");
    program = start;
    return real(counted, argc, argv, init, fini, rtld_fini, stack_end);
}
