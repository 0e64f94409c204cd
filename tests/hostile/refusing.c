/* Refuses calls of the C library in turn, where it is loaded before it (LD_PRELOAD).

   REFUSE is `KIND FIRST LAST`, in numbers from 1: calls of that kind from the one to the other are refused. KIND is
   `memory` (each call that asks for memory), `open`, `read` or `write`; or `short`, of which FIRST is the most bytes
   that a read or write takes. For each call that is refused a byte goes to the descriptor that REFUSE_TELLS names. */
#define _GNU_SOURCE
#include <errno.h>
#include <fcntl.h>
#include <stdarg.h>
#include <stdlib.h>
#include <string.h>
#include <sys/syscall.h>
#include <sys/types.h>
#include <unistd.h>

extern void *__libc_malloc(size_t);
extern void *__libc_calloc(size_t, size_t);
extern void *__libc_realloc(void *, size_t);
extern void *__libc_memalign(size_t, size_t);

static int known;
static char kind[16];
static long first, last, counted;
static int tells = -1;

static void read_words(void)
{
    const char *words = getenv("REFUSE"), *descriptor = getenv("REFUSE_TELLS");
    known = 1;
    if (!words)
        return;
    size_t length = strcspn(words, " ");
    if (length >= sizeof kind)
        return;
    memcpy(kind, words, length);
    char *rest;
    first = strtol(words + length, &rest, 10);
    last = strtol(rest, 0, 10);
    if (descriptor)
        tells = atoi(descriptor);
}

static int is_refused(const char *asked)
{
    if (!known)
        read_words();
    if (strcmp(kind, asked))
        return 0;
    counted++;
    if (counted < first || counted > last)
        return 0;
    if (tells >= 0)
        syscall(SYS_write, tells, "x", 1);
    return 1;
}

static size_t at_most(size_t length)
{
    if (!known)
        read_words();
    return !strcmp(kind, "short") && length > (size_t)first ? (size_t)first : length;
}

static int no_memory(void)
{
    if (!is_refused("memory"))
        return 0;
    errno = ENOMEM;
    return 1;
}

void *malloc(size_t size) { return no_memory() ? 0 : __libc_malloc(size); }
void *calloc(size_t count, size_t size) { return no_memory() ? 0 : __libc_calloc(count, size); }
void *realloc(void *old, size_t size) { return no_memory() ? 0 : __libc_realloc(old, size); }
void *memalign(size_t align, size_t size) { return no_memory() ? 0 : __libc_memalign(align, size); }
void *aligned_alloc(size_t align, size_t size) { return memalign(align, size); }
int posix_memalign(void **at, size_t align, size_t size) { return (*at = memalign(align, size)) ? 0 : ENOMEM; }

static int opened(int folder, const char *name, int flags, int mode)
{
    if (is_refused("open")) {
        errno = EIO;
        return -1;
    }
    return syscall(SYS_openat, folder, name, flags, mode);
}

#define MODE(flags, mode)                                                                                              \
    int mode = 0;                                                                                                      \
    if (flags & (O_CREAT | O_TMPFILE)) {                                                                               \
        va_list more;                                                                                                  \
        va_start(more, flags);                                                                                         \
        mode = va_arg(more, int);                                                                                      \
        va_end(more);                                                                                                  \
    }

int open(const char *name, int flags, ...) { MODE(flags, mode) return opened(AT_FDCWD, name, flags, mode); }
int open64(const char *name, int flags, ...) { MODE(flags, mode) return opened(AT_FDCWD, name, flags, mode); }
int openat(int folder, const char *name, int flags, ...) { MODE(flags, mode) return opened(folder, name, flags, mode); }
int openat64(int folder, const char *name, int flags, ...) { MODE(flags, mode) return opened(folder, name, flags, mode); }

ssize_t read(int from, void *into, size_t length)
{
    if (is_refused("read")) {
        errno = EIO;
        return -1;
    }
    return syscall(SYS_read, from, into, at_most(length));
}

ssize_t write(int to, const void *piece, size_t length)
{
    if (is_refused("write")) {
        errno = EIO;
        return -1;
    }
    return syscall(SYS_write, to, piece, at_most(length));
}
