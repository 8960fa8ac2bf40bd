/* Makes one request for memory of a program fail: the one whose number, from 1 on, stands in REFUSE. A byte goes to the
 * file of the number REFUSED when it does. Loaded before the C library by bench/refused_memory. */
#include <errno.h>
#include <stdlib.h>
#include <unistd.h>

void *__libc_malloc(size_t size);
void *__libc_calloc(size_t count, size_t size);
void *__libc_realloc(void *old, size_t size);
void *__libc_memalign(size_t align, size_t size);

static long requests;

static int refused(void) {
    static long wanted = -1;
    static int told;
    if (wanted < 0) {
        const char *number = getenv("REFUSE");
        const char *file = getenv("REFUSED");
        wanted = number ? atol(number) : 0;
        told = file ? atoi(file) : 2;
    }
    requests += 1;
    if (requests != wanted) return 0;
    if (write(told, "!", 1) != 1) abort();
    errno = ENOMEM;
    return 1;
}

void *malloc(size_t size) { return refused() ? NULL : __libc_malloc(size); }

void *calloc(size_t count, size_t size) { return refused() ? NULL : __libc_calloc(count, size); }

void *realloc(void *old, size_t size) { return refused() ? NULL : __libc_realloc(old, size); }

void *aligned_alloc(size_t align, size_t size) { return refused() ? NULL : __libc_memalign(align, size); }

void *memalign(size_t align, size_t size) { return refused() ? NULL : __libc_memalign(align, size); }

int posix_memalign(void **made, size_t align, size_t size) {
    if (refused()) return ENOMEM;
    *made = __libc_memalign(align, size);
    return *made ? 0 : ENOMEM;
}
