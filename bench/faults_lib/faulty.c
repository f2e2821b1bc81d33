/* Preloaded into a program: refuses allocations, and makes reads and writes fail or fall short, as the environment says.

   FAULTY_COUNTS  a file in which three numbers of 64 bits count allocations, reads and writes
   FAULTY_ALLOC   N: the N-th allocation is refused, counted from 1; N+: all from the N-th on
   FAULTY_READ    N:E: the N-th read ends with the error number E, and reads nothing; N+:E: all from the N-th on
   FAULTY_WRITE   N:E: the same of writes; with E 0 a write answers 0
   FAULTY_PIECE   N: a read or a write moves at most N bytes

   An allocation is a call of malloc, calloc, realloc, memalign, aligned_alloc or posix_memalign; a read is one of read or
   readv on the descriptor 0, and a write one of write or writev on the descriptor 1. What ran before main isn't counted. */
#define _GNU_SOURCE
#include <errno.h>
#include <fcntl.h>
#include <stdint.h>
#include <stdlib.h>
#include <sys/mman.h>
#include <sys/syscall.h>
#include <sys/uio.h>
#include <unistd.h>

extern void *__libc_malloc(size_t size);
extern void *__libc_calloc(size_t count, size_t size);
extern void *__libc_realloc(void *block, size_t size);
extern void *__libc_memalign(size_t alignment, size_t size);

enum { ALLOCATIONS, READS, WRITES, KINDS };

struct fault {
    uint64_t first; /* 0: none */
    int goes_on;
    int error;
};

static uint64_t own_counts[KINDS];
static uint64_t *counts = own_counts;
static struct fault faults[KINDS];
static size_t piece;
static int awake;

static struct fault fault_of(const char *name)
{
    struct fault fault = {0, 0, ENOMEM};
    const char *text = getenv(name);
    char *end;
    if (!text)
        return fault;
    fault.first = strtoull(text, &end, 10);
    if (*end == '+') {
        fault.goes_on = 1;
        end++;
    }
    if (*end == ':')
        fault.error = atoi(end + 1);
    return fault;
}

__attribute__((constructor)) static void wake(void)
{
    const char *file = getenv("FAULTY_COUNTS");
    int opened = file ? open(file, O_RDWR | O_CLOEXEC) : -1;
    if (opened >= 0) {
        void *mapped = mmap(NULL, sizeof own_counts, PROT_READ | PROT_WRITE, MAP_SHARED, opened, 0);
        if (mapped != MAP_FAILED)
            counts = mapped;
        close(opened);
    }
    faults[ALLOCATIONS] = fault_of("FAULTY_ALLOC");
    faults[READS] = fault_of("FAULTY_READ");
    faults[WRITES] = fault_of("FAULTY_WRITE");
    piece = getenv("FAULTY_PIECE") ? strtoull(getenv("FAULTY_PIECE"), NULL, 10) : 0;
    awake = 1;
}

/* Counts a call, and tells whether it fails. */
static int fails(int kind)
{
    if (!awake)
        return 0;
    uint64_t number = ++counts[kind];
    struct fault fault = faults[kind];
    if (!fault.first || number < fault.first || (number > fault.first && !fault.goes_on))
        return 0;
    errno = fault.error;
    return 1;
}

void *malloc(size_t size)
{
    return fails(ALLOCATIONS) ? NULL : __libc_malloc(size);
}

void *calloc(size_t count, size_t size)
{
    return fails(ALLOCATIONS) ? NULL : __libc_calloc(count, size);
}

void *realloc(void *block, size_t size)
{
    return fails(ALLOCATIONS) ? NULL : __libc_realloc(block, size);
}

void *memalign(size_t alignment, size_t size)
{
    return fails(ALLOCATIONS) ? NULL : __libc_memalign(alignment, size);
}

void *aligned_alloc(size_t alignment, size_t size)
{
    return memalign(alignment, size);
}

int posix_memalign(void **block, size_t alignment, size_t size)
{
    void *made = memalign(alignment, size);
    if (!made)
        return ENOMEM;
    *block = made;
    return 0;
}

static size_t cut(size_t count)
{
    return piece && count > piece ? piece : count;
}

static ssize_t failed(int kind)
{
    return faults[kind].error ? -1 : 0;
}

ssize_t read(int file, void *bytes, size_t count)
{
    if (file == 0 && fails(READS))
        return failed(READS);
    return syscall(SYS_read, file, bytes, file == 0 ? cut(count) : count);
}

ssize_t write(int file, const void *bytes, size_t count)
{
    if (file == 1 && fails(WRITES))
        return failed(WRITES);
    return syscall(SYS_write, file, bytes, file == 1 ? cut(count) : count);
}

/* Of several parts the first that isn't empty alone is moved, as a system may. */
static const struct iovec *first_of(const struct iovec *parts, int count)
{
    while (count > 1 && !parts->iov_len) {
        parts++;
        count--;
    }
    return parts;
}

ssize_t readv(int file, const struct iovec *parts, int count)
{
    if (file != 0 || count < 1)
        return syscall(SYS_readv, file, parts, count);
    const struct iovec *first = first_of(parts, count);
    return read(file, first->iov_base, first->iov_len);
}

ssize_t writev(int file, const struct iovec *parts, int count)
{
    if (file != 1 || count < 1)
        return syscall(SYS_writev, file, parts, count);
    const struct iovec *first = first_of(parts, count);
    return write(file, first->iov_base, first->iov_len);
}
