/* Allocation number REFUSED of the process, counted from 1, finds no memory. A byte is then put into the file REFUSED_TOLD, where it is named.
   stress.sh and allocations.sh load it. */
#define _GNU_SOURCE
#include <dlfcn.h>
#include <errno.h>
#include <fcntl.h>
#include <stdatomic.h>
#include <stddef.h>
#include <stdlib.h>
#include <unistd.h>

void *__libc_malloc(size_t);
void *__libc_calloc(size_t, size_t);
void *__libc_realloc(void *, size_t);
void *__libc_memalign(size_t, size_t);

static atomic_long calls;
static long refused;
static int told = -1;

__attribute__((constructor)) static void begin(void)
{
    const char *text = getenv("REFUSED");
    refused = text ? atol(text) : 0;
    const char *path = getenv("REFUSED_TOLD");
    if (path)
        told = open(path, O_WRONLY | O_CLOEXEC);
    atomic_store(&calls, 0);
}

static int is_refused(void)
{
    if (atomic_fetch_add(&calls, 1) + 1 != refused)
        return 0;
    if (told >= 0 && write(told, "1", 1) < 0)
        abort();
    errno = ENOMEM;
    return 1;
}

void *malloc(size_t size) { return is_refused() ? NULL : __libc_malloc(size); }
void *calloc(size_t count, size_t size) { return is_refused() ? NULL : __libc_calloc(count, size); }
void *realloc(void *old, size_t size) { return is_refused() ? NULL : __libc_realloc(old, size); }
void *memalign(size_t align, size_t size) { return is_refused() ? NULL : __libc_memalign(align, size); }
void *aligned_alloc(size_t align, size_t size) { return is_refused() ? NULL : __libc_memalign(align, size); }

int posix_memalign(void **out, size_t align, size_t size)
{
    void *made = is_refused() ? NULL : __libc_memalign(align, size);
    if (made == NULL)
        return ENOMEM;
    *out = made;
    return 0;
}
