/* A library that tools/faults.py preloads into the program. It refuses one of the program's allocations, reads, writes
 * or syncs, or some or all from that one on, or cuts each read and write to one byte. Writes to standard error are
 * never refused.
 *
 * FAULTS=KIND AT HOW FILE    KIND: memory, read, write, sync or cut. AT: which call is refused, from 1. HOW: once, few
 *                            (it and the seven calls after it) or on. FILE: has five numbers of 64 bits, which the
 *                            library sets: the counts of the four kinds, and whether a call was refused
 *
 * It calls the C library by names without a version, so that it works with the one that the program is run with. */
#include <errno.h>
#include <fcntl.h>
#include <stddef.h>
#include <stdint.h>
#include <stdlib.h>
#include <string.h>
#include <sys/mman.h>
#include <sys/socket.h>
#include <sys/syscall.h>
#include <unistd.h>

void *__libc_malloc(size_t size);
void *__libc_calloc(size_t count, size_t size);
void *__libc_realloc(void *block, size_t size);

enum { MEMORY, READ, WRITE, SYNC, CUT, KINDS };
static const char *const names[KINDS] = {"memory", "read", "write", "sync", "cut"};

/* How many calls of each kind there were, and whether one was refused. */
struct counts {
    uint64_t calls[CUT];
    uint64_t refused;
};

static struct counts nowhere, *counts = &nowhere;
static int kind = KINDS;
static uint64_t at;
static uint64_t most; /* how many calls are refused */

/* Returns the next word of the text at *rest, and moves *rest behind it. */
static const char *next_word(const char **rest, size_t *length)
{
    const char *word = *rest;
    *length = strcspn(word, " ");
    *rest = word + *length + (word[*length] != 0);
    return word;
}

__attribute__((constructor)) static void begin(void)
{
    const char *rest = getenv("FAULTS");
    if (rest == NULL)
        return;
    size_t length;
    const char *word = next_word(&rest, &length);
    int found = 0;
    while (found < KINDS && (strncmp(names[found], word, length) != 0 || names[found][length] != 0))
        found++;
    uint64_t number = strtoull(next_word(&rest, &length), NULL, 10);
    word = next_word(&rest, &length);
    most = *word == 'f' ? 8 : strncmp(word, "on ", 3) == 0 ? UINT64_MAX : 1;
    int file = open(rest, O_RDWR);
    void *shared = mmap(NULL, sizeof *counts, PROT_READ | PROT_WRITE, MAP_SHARED, file, 0);
    syscall(SYS_close, file);
    if (shared == MAP_FAILED)
        abort();
    counts = shared;
    at = number;
    kind = found;
}

/* Counts a call of the kind `of`, and returns whether it is refused. */
static int is_refused(int of)
{
    uint64_t number = __atomic_add_fetch(&counts->calls[of], 1, __ATOMIC_SEQ_CST);
    if (of != kind || number < at || number - at >= most)
        return 0;
    counts->refused = 1;
    return 1;
}

static size_t cut(size_t size)
{
    return kind == CUT && size > 1 ? 1 : size;
}

static long fail(int error)
{
    errno = error;
    return -1;
}

void *malloc(size_t size)
{
    if (is_refused(MEMORY)) {
        errno = ENOMEM;
        return NULL;
    }
    return __libc_malloc(size);
}

void *calloc(size_t count, size_t size)
{
    if (is_refused(MEMORY)) {
        errno = ENOMEM;
        return NULL;
    }
    return __libc_calloc(count, size);
}

void *realloc(void *block, size_t size)
{
    if (is_refused(MEMORY)) {
        errno = ENOMEM;
        return NULL;
    }
    return __libc_realloc(block, size);
}

ssize_t read(int file, void *bytes, size_t size)
{
    return is_refused(READ) ? fail(EIO) : syscall(SYS_read, file, bytes, cut(size));
}

ssize_t recv(int file, void *bytes, size_t size, int flags)
{
    return is_refused(READ) ? fail(EIO) : syscall(SYS_recvfrom, file, bytes, cut(size), flags, NULL, NULL);
}

ssize_t write(int file, const void *bytes, size_t size)
{
    if (file == STDERR_FILENO)
        return syscall(SYS_write, file, bytes, size);
    return is_refused(WRITE) ? fail(ENOSPC) : syscall(SYS_write, file, bytes, cut(size));
}

ssize_t send(int file, const void *bytes, size_t size, int flags)
{
    return is_refused(WRITE) ? fail(ENOSPC) : syscall(SYS_sendto, file, bytes, cut(size), flags, NULL, 0);
}

int fsync(int file)
{
    return is_refused(SYNC) ? fail(EIO) : syscall(SYS_fsync, file);
}

int fdatasync(int file)
{
    return is_refused(SYNC) ? fail(EIO) : syscall(SYS_fdatasync, file);
}
