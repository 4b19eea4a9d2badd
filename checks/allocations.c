/* Loaded before the C library (LD_PRELOAD), it counts the allocations of a program, and refuses one of them:
   REFUSE=N       the Nth allocation finds no memory, and then the file that REFUSED names is there;
   COUNTED=FILE   the number of allocations stands in that file when the program has ended, and behind it the most bytes
                  that were allocated at once. */
#include <errno.h>
#include <fcntl.h>
#include <malloc.h>
#include <stddef.h>
#include <stdio.h>
#include <stdlib.h>
#include <unistd.h>

extern void *__libc_malloc(size_t);
extern void *__libc_calloc(size_t, size_t);
extern void *__libc_realloc(void *, size_t);
extern void *__libc_memalign(size_t, size_t);
extern void __libc_free(void *);

static unsigned long count;
static unsigned long refuse;
static size_t held;
static size_t most;

/* Notes what was allocated. Threads allocate at the same time. */
static void *noted(void *got) {
    size_t now = __atomic_add_fetch(&held, got ? malloc_usable_size(got) : 0, __ATOMIC_RELAXED);
    size_t before = __atomic_load_n(&most, __ATOMIC_RELAXED);
    while (now > before && !__atomic_compare_exchange_n(&most, &before, now, 0, __ATOMIC_RELAXED, __ATOMIC_RELAXED))
        ;
    return got;
}

/* Counts an allocation. Whether it is the one to refuse. The first one comes before any thread. */
static int is_refused(void) {
    unsigned long number = __atomic_add_fetch(&count, 1, __ATOMIC_RELAXED);
    const char *wanted = number == 1 ? getenv("REFUSE") : NULL;
    if (wanted)
        refuse = strtoul(wanted, NULL, 10);
    if (number != refuse)
        return 0;
    const char *shown = getenv("REFUSED");
    if (shown)
        close(open(shown, O_CREAT | O_WRONLY, 0600));
    errno = ENOMEM;
    return 1;
}

void *malloc(size_t size) { return is_refused() ? NULL : noted(__libc_malloc(size)); }
void *calloc(size_t n, size_t size) { return is_refused() ? NULL : noted(__libc_calloc(n, size)); }
void *memalign(size_t align, size_t size) { return is_refused() ? NULL : noted(__libc_memalign(align, size)); }
void *aligned_alloc(size_t align, size_t size) { return memalign(align, size); }

void free(void *old) {
    __atomic_sub_fetch(&held, old ? malloc_usable_size(old) : 0, __ATOMIC_RELAXED);
    __libc_free(old);
}

/* Both are held while the bytes are moved. */
void *realloc(void *old, size_t size) {
    size_t before = old ? malloc_usable_size(old) : 0;
    void *got = is_refused() ? NULL : noted(__libc_realloc(old, size));
    if (got)
        __atomic_sub_fetch(&held, before, __ATOMIC_RELAXED);
    return got;
}

int posix_memalign(void **out, size_t align, size_t size) {
    void *got = memalign(align, size);
    if (!got)
        return ENOMEM;
    *out = got;
    return 0;
}

__attribute__((destructor)) static void tell(void) {
    const char *counted = getenv("COUNTED");
    int file = counted ? open(counted, O_CREAT | O_TRUNC | O_WRONLY, 0600) : -1;
    if (file < 0)
        return;
    dprintf(file, "%lu\n%zu\n", count, most);
    close(file);
}
