/* Loaded into a program by LD_PRELOAD: refuses it the growth of memory whose number REFUSED tells, counted from 1 as main begins, by any thread.
   As it does so it makes the file that REFUSED_MET names. */
#include <errno.h>
#include <fcntl.h>
#include <stdatomic.h>
#include <stddef.h>
#include <stdlib.h>
#include <unistd.h>

extern void *__libc_malloc(size_t size);
extern void *__libc_calloc(size_t count, size_t size);
extern void *__libc_realloc(void *block, size_t size);
extern void *__libc_memalign(size_t alignment, size_t size);

static const char *met;
static atomic_long left;

__attribute__((constructor)) static void begin(void) {
    const char *number = getenv("REFUSED");
    met = getenv("REFUSED_MET");
    if (number && met)
        atomic_store(&left, atol(number));
}

static int is_refused(void) {
    if (atomic_fetch_sub(&left, 1) != 1)
        return 0;
    int file = open(met, O_CREAT | O_WRONLY | O_CLOEXEC, 0600);
    if (file >= 0)
        close(file);
    errno = ENOMEM;
    return 1;
}

void *malloc(size_t size) {
    return is_refused() ? NULL : __libc_malloc(size);
}

void *calloc(size_t count, size_t size) {
    return is_refused() ? NULL : __libc_calloc(count, size);
}

void *realloc(void *block, size_t size) {
    return is_refused() ? NULL : __libc_realloc(block, size);
}

void *aligned_alloc(size_t alignment, size_t size) {
    return is_refused() ? NULL : __libc_memalign(alignment, size);
}

int posix_memalign(void **block, size_t alignment, size_t size) {
    void *found = is_refused() ? NULL : __libc_memalign(alignment, size);
    if (!found)
        return ENOMEM;
    *block = found;
    return 0;
}
