// Refuses the N-th allocation of a program that it is loaded into before all else (LD_PRELOAD), and no other. N is the number in FAIL_ALLOC,
// counted from 1 once the libraries of the program have been loaded; 0 refuses none. A file of the name in FAIL_ALLOC_MARK is made where
// an allocation was refused. Built and used by bench/hostile.
#define _GNU_SOURCE
#include <errno.h>
#include <fcntl.h>
#include <stdlib.h>
#include <unistd.h>

extern void *__libc_malloc(size_t size);
extern void *__libc_calloc(size_t count, size_t size);
extern void *__libc_realloc(void *old, size_t size);
extern void *__libc_memalign(size_t alignment, size_t size);

static unsigned long wanted, asked;
static const char *mark;

__attribute__((constructor)) static void begin(void) {
    const char *number = getenv("FAIL_ALLOC");
    mark = getenv("FAIL_ALLOC_MARK");
    asked = 0;
    wanted = number ? strtoul(number, NULL, 10) : 0;
}

// Whether this allocation is the one that is refused.
static int refused(void) {
    if (!wanted || ++asked != wanted) return 0;
    int file = mark ? open(mark, O_WRONLY | O_CREAT, 0600) : -1;
    if (file >= 0) close(file);
    errno = ENOMEM;
    return 1;
}

void *malloc(size_t size) { return refused() ? NULL : __libc_malloc(size); }

void *calloc(size_t count, size_t size) { return refused() ? NULL : __libc_calloc(count, size); }

void *realloc(void *old, size_t size) { return refused() ? NULL : __libc_realloc(old, size); }

void *memalign(size_t alignment, size_t size) { return refused() ? NULL : __libc_memalign(alignment, size); }

void *aligned_alloc(size_t alignment, size_t size) { return refused() ? NULL : __libc_memalign(alignment, size); }

int posix_memalign(void **place, size_t alignment, size_t size) {
    void *found = refused() ? NULL : __libc_memalign(alignment, size);
    if (!found) return ENOMEM;
    *place = found;
    return 0;
}
