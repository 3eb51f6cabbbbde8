/* Refuses one allocation: that of the number REFUSED_ALLOCATION, counted from 1 over all threads from when the program begins. The
   file REFUSED_MARK is then made, with nothing in it. All others are the C library's. To be preloaded. */
#include <errno.h>
#include <fcntl.h>
#include <stdatomic.h>
#include <stddef.h>
#include <stdlib.h>
#include <unistd.h>

extern void *__libc_malloc(size_t size);
extern void *__libc_calloc(size_t count, size_t size);
extern void *__libc_realloc(void *old, size_t size);
extern void *__libc_memalign(size_t alignment, size_t size);

static unsigned long long refused;
static const char *mark;
static atomic_ullong count;

__attribute__((constructor)) static void begin(void)
{
    const char *number = getenv("REFUSED_ALLOCATION");
    mark = getenv("REFUSED_MARK");
    if (number != NULL && mark != NULL)
        refused = strtoull(number, NULL, 10);
}

/* Whether this one is refused. What comes before the program begins is not counted. */
static int is_refused(void)
{
    if (refused == 0 || atomic_fetch_add(&count, 1) + 1 != refused)
        return 0;
    int file = open(mark, O_CREAT | O_WRONLY | O_CLOEXEC, 0600);
    if (file >= 0)
        close(file);
    errno = ENOMEM;
    return 1;
}

void *malloc(size_t size)
{
    return is_refused() ? NULL : __libc_malloc(size);
}

void *calloc(size_t members, size_t size)
{
    return is_refused() ? NULL : __libc_calloc(members, size);
}

void *realloc(void *old, size_t size)
{
    return is_refused() ? NULL : __libc_realloc(old, size);
}

void *memalign(size_t alignment, size_t size)
{
    return is_refused() ? NULL : __libc_memalign(alignment, size);
}

void *aligned_alloc(size_t alignment, size_t size)
{
    return memalign(alignment, size);
}

int posix_memalign(void **place, size_t alignment, size_t size)
{
    if (alignment % sizeof(void *) != 0 || (alignment & (alignment - 1)) != 0 || alignment == 0)
        return EINVAL;
    void *found = memalign(alignment, size);
    if (found == NULL)
        return ENOMEM;
    *place = found;
    return 0;
}
