/* A library to put before the C library's allocator: it refuses one request for memory, the one whose number the variable
   REFUSE gives. refuse.sh builds and uses it. */
#include <errno.h>
#include <stdlib.h>

/* The allocator's own calls, as glibc exports them. */
void *__libc_malloc(size_t), *__libc_realloc(void *, size_t), *__libc_calloc(size_t, size_t), *__libc_memalign(size_t, size_t);
static long refused_one, requests;

__attribute__((constructor)) static void begin(void) {
    const char *number = getenv("REFUSE");
    refused_one = number ? atol(number) : 0;
}

/* Whether this request is the one to refuse. Requests before `main` are not counted. */
static int refuses(void) {
    if (!refused_one || ++requests != refused_one) return 0;
    errno = ENOMEM;
    return 1;
}

void *malloc(size_t size) { return refuses() ? NULL : __libc_malloc(size); }
void *realloc(void *place, size_t size) { return refuses() ? NULL : __libc_realloc(place, size); }
void *calloc(size_t count, size_t size) { return refuses() ? NULL : __libc_calloc(count, size); }
void *aligned_alloc(size_t alignment, size_t size) { return refuses() ? NULL : __libc_memalign(alignment, size); }
int posix_memalign(void **place, size_t alignment, size_t size) {
    return !refuses() && (*place = __libc_memalign(alignment, size)) ? 0 : ENOMEM;
}
