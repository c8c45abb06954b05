/* A preloaded allocator that refuses one call: the N-th of malloc, calloc, realloc and aligned_alloc together, N from the
   variable REFUSE. All others are given. The file that REFUSED names is made where the call came. */
#include <errno.h>
#include <fcntl.h>
#include <stdlib.h>
#include <unistd.h>

static long left = -2;

static int refused(void)
{
    if (left == -2) {
        const char *text = getenv("REFUSE");
        left = text ? strtol(text, 0, 10) : 0;
    }
    if (left > 0 && --left == 0) {
        const char *mark = getenv("REFUSED");
        if (mark)
            close(open(mark, O_CREAT | O_WRONLY, 0600));
        errno = ENOMEM;
        return 1;
    }
    return 0;
}

extern void *__libc_malloc(size_t);
extern void *__libc_calloc(size_t, size_t);
extern void *__libc_realloc(void *, size_t);
extern void *__libc_memalign(size_t, size_t);

void *malloc(size_t size) { return refused() ? 0 : __libc_malloc(size); }
void *calloc(size_t count, size_t size) { return refused() ? 0 : __libc_calloc(count, size); }
void *realloc(void *old, size_t size) { return refused() ? 0 : __libc_realloc(old, size); }
void *aligned_alloc(size_t align, size_t size) { return refused() ? 0 : __libc_memalign(align, size); }
int posix_memalign(void **out, size_t align, size_t size)
{
    if (refused())
        return ENOMEM;
    *out = __libc_memalign(align, size);
    return *out ? 0 : ENOMEM;
}
