/* Loaded in front of the C library: the request for memory with the number in REFUSE_AT is refused. With
   COUNT_REQUESTS set, the number of requests is printed to standard error at the end. */
#define _GNU_SOURCE
#include <errno.h>
#include <stdio.h>
#include <stdlib.h>

extern void *__libc_malloc(size_t size);
extern void *__libc_calloc(size_t count, size_t size);
extern void *__libc_realloc(void *old, size_t size);
extern void *__libc_memalign(size_t alignment, size_t size);

static long requests = 0;
static long refuse_at = -1;

static int is_refused(void) {
    if (refuse_at < 0) {
        const char *text = getenv("REFUSE_AT");
        refuse_at = text ? atol(text) : 0;
    }
    requests++;
    if (requests != refuse_at) return 0;
    errno = ENOMEM;
    return 1;
}

void *malloc(size_t size) { return is_refused() ? NULL : __libc_malloc(size); }

void *calloc(size_t count, size_t size) { return is_refused() ? NULL : __libc_calloc(count, size); }

void *realloc(void *old, size_t size) { return is_refused() ? NULL : __libc_realloc(old, size); }

void *aligned_alloc(size_t alignment, size_t size) {
    return is_refused() ? NULL : __libc_memalign(alignment, size);
}

int posix_memalign(void **made, size_t alignment, size_t size) {
    if (is_refused()) return ENOMEM;
    *made = __libc_memalign(alignment, size);
    return *made ? 0 : ENOMEM;
}

__attribute__((destructor)) static void print_requests(void) {
    long counted = requests;
    if (getenv("COUNT_REQUESTS")) fprintf(stderr, "%ld\n", counted);
}
