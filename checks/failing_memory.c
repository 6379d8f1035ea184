/* Refuses requests for memory. Preloaded, it hands the requests of a program on to the C library, and counts them over all
   threads, from the begin of the program on. The one of the number in REFUSED is refused, and with a + behind it all later
   ones too. The count stands in the file named in COUNT, as a long, so it is there however the program ends. */
#include <errno.h>
#include <fcntl.h>
#include <stdatomic.h>
#include <stdlib.h>
#include <string.h>
#include <sys/mman.h>
#include <unistd.h>

extern void *__libc_malloc(size_t size);
extern void *__libc_calloc(size_t count, size_t size);
extern void *__libc_realloc(void *old, size_t size);
extern void *__libc_memalign(size_t alignment, size_t size);

static atomic_long uncounted;
static atomic_long *requests = &uncounted;
static long first, last;
static int begun;

/* The count in the file of this name, or in none where it can't be mapped. */
static atomic_long *count_in(const char *name)
{
    int file = open(name, O_RDWR);
    void *mapped = file < 0 ? MAP_FAILED : mmap(NULL, sizeof uncounted, PROT_READ | PROT_WRITE, MAP_SHARED, file, 0);

    if (file >= 0)
        close(file);
    return mapped == MAP_FAILED ? &uncounted : mapped;
}

__attribute__((constructor)) static void begin(void)
{
    const char *refused = getenv("REFUSED"), *name = getenv("COUNT");

    first = refused ? atol(refused) : -1;
    last = refused && strchr(refused, '+') ? __LONG_MAX__ : first;
    if (name)
        requests = count_in(name);
    begun = 1;
}

static int is_refused(void)
{
    if (!begun)
        return 0;
    long number = atomic_fetch_add(requests, 1) + 1;
    if (number < first || number > last)
        return 0;
    errno = ENOMEM;
    return 1;
}

void *malloc(size_t size)
{
    return is_refused() ? NULL : __libc_malloc(size);
}

void *calloc(size_t count, size_t size)
{
    return is_refused() ? NULL : __libc_calloc(count, size);
}

void *realloc(void *old, size_t size)
{
    return is_refused() ? NULL : __libc_realloc(old, size);
}

void *memalign(size_t alignment, size_t size)
{
    return is_refused() ? NULL : __libc_memalign(alignment, size);
}

void *aligned_alloc(size_t alignment, size_t size)
{
    return memalign(alignment, size);
}

int posix_memalign(void **made, size_t alignment, size_t size)
{
    void *memory = memalign(alignment, size);

    if (!memory)
        return ENOMEM;
    *made = memory;
    return 0;
}
