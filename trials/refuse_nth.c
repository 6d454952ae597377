/* Refuses one request of memory of a program: preloaded, with REFUSE=N in its environment, the Nth call of malloc, calloc, realloc or
 * aligned allocation is answered as where there is no memory; with REFUSE=0 none is. How many calls there were stands in the
 * file that REFUSE_COUNT names, eight bytes, which has to be there. A program with an allocator of its own isn't reached so: compiled with
 * -DWRAPPED, this is linked into it, with --wrap=malloc and --wrap=realloc. */
#define _GNU_SOURCE
#include <errno.h>
#include <fcntl.h>
#include <stdatomic.h>
#include <stddef.h>
#include <stdint.h>
#include <stdlib.h>
#include <sys/mman.h>
#include <unistd.h>

#ifdef WRAPPED
#define OURS(name) __wrap_##name
#define THEIRS(name) __real_##name
#else
#define OURS(name) name
#define THEIRS(name) __libc_##name
#endif

extern void *THEIRS(malloc)(size_t);
extern void *THEIRS(realloc)(void *, size_t);

static _Atomic uint64_t *count;
static uint64_t refused;

/* Runs before the program's own start: what is asked for earlier isn't counted. */
__attribute__((constructor)) static void begin(void)
{
    const char *file = getenv("REFUSE_COUNT");
    const char *number = getenv("REFUSE");
    int fd = file ? open(file, O_RDWR) : -1;
    if (fd < 0)
        return;
    void *page = mmap(NULL, 8, PROT_READ | PROT_WRITE, MAP_SHARED, fd, 0);
    close(fd);
    if (page == MAP_FAILED)
        return;
    refused = number ? strtoull(number, NULL, 10) : 0;
    count = page;
}

static int is_refused(void)
{
    if (!count || atomic_fetch_add(count, 1) + 1 != refused)
        return 0;
    errno = ENOMEM;
    return 1;
}

void *OURS(malloc)(size_t size)
{
    return is_refused() ? NULL : THEIRS(malloc)(size);
}

void *OURS(realloc)(void *memory, size_t size)
{
    return is_refused() ? NULL : THEIRS(realloc)(memory, size);
}

#ifndef WRAPPED
extern void *__libc_calloc(size_t, size_t);
extern void *__libc_memalign(size_t, size_t);

void *calloc(size_t members, size_t size)
{
    return is_refused() ? NULL : __libc_calloc(members, size);
}

void *memalign(size_t alignment, size_t size)
{
    return is_refused() ? NULL : __libc_memalign(alignment, size);
}

void *aligned_alloc(size_t alignment, size_t size)
{
    return memalign(alignment, size);
}

int posix_memalign(void **memory, size_t alignment, size_t size)
{
    void *made = memalign(alignment, size);
    if (!made)
        return ENOMEM;
    *memory = made;
    return 0;
}
#endif
