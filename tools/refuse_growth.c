/* Refuses growths of memory to the program that it is loaded into, by LD_PRELOAD. The file that REFUSE_GROWTH names
 * holds four numbers of eight bytes, which the program shares with whoever started it: how many growths it has asked
 * for, the numbers of the first and of the last growth that is refused, and how many were refused. */
#define _GNU_SOURCE
#include <errno.h>
#include <fcntl.h>
#include <malloc.h>
#include <stdint.h>
#include <stdlib.h>
#include <sys/mman.h>
#include <sys/syscall.h>
#include <unistd.h>

extern void *__libc_malloc(size_t size);
extern void *__libc_calloc(size_t count, size_t size);
extern void *__libc_realloc(void *block, size_t size);
extern void *__libc_memalign(size_t alignment, size_t size);

struct numbers {
    uint64_t asked, first, last, refused;
};

static volatile struct numbers *numbers;

__attribute__((constructor)) static void begin(void)
{
    const char *path = getenv("REFUSE_GROWTH");
    int file = path ? open(path, O_RDWR | O_CLOEXEC) : -1;
    if (file < 0)
        return;
    long at = syscall(SYS_mmap, NULL, sizeof *numbers, PROT_READ | PROT_WRITE, MAP_SHARED, file, 0L);
    close(file);
    if (at > 0 || at < -4095)
        numbers = (volatile struct numbers *)at;
}

static int refused(void)
{
    if (!numbers)
        return 0;
    uint64_t number = ++numbers->asked;
    if (number < numbers->first || number > numbers->last)
        return 0;
    numbers->refused++;
    errno = ENOMEM;
    return 1;
}

void *malloc(size_t size)
{
    return refused() ? NULL : __libc_malloc(size);
}

void *calloc(size_t count, size_t size)
{
    return refused() ? NULL : __libc_calloc(count, size);
}

void *realloc(void *block, size_t size)
{
    return refused() ? NULL : __libc_realloc(block, size);
}

void *aligned_alloc(size_t alignment, size_t size)
{
    return refused() ? NULL : __libc_memalign(alignment, size);
}

void *memalign(size_t alignment, size_t size)
{
    return refused() ? NULL : __libc_memalign(alignment, size);
}

int posix_memalign(void **block, size_t alignment, size_t size)
{
    if (refused())
        return ENOMEM;
    *block = __libc_memalign(alignment, size);
    return *block ? 0 : ENOMEM;
}

void *mmap(void *at, size_t length, int protection, int flags, int file, off_t offset)
{
    if (refused())
        return MAP_FAILED;
    return (void *)syscall(SYS_mmap, at, length, protection, flags, file, offset);
}
