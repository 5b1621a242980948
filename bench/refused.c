// Counts the calls that ask for memory, and refuses the one whose number is in REFUSE. The count is written to the file
// COUNT_TO at the end. It is loaded before the C library, by LD_PRELOAD.
#include <errno.h>
#include <stdio.h>
#include <stdlib.h>

extern void *__libc_malloc(size_t);
extern void *__libc_calloc(size_t, size_t);
extern void *__libc_realloc(void *, size_t);
extern void *__libc_memalign(size_t, size_t);

static unsigned long made, refused;
static int begun;

static int refuse(void) {
    if (!begun) {
        const char *number = getenv("REFUSE");
        refused = number ? strtoul(number, NULL, 10) : 0;
        begun = 1;
    }
    if (++made != refused) return 0;
    errno = ENOMEM;
    return 1;
}

void *malloc(size_t size) { return refuse() ? NULL : __libc_malloc(size); }
void *calloc(size_t count, size_t size) { return refuse() ? NULL : __libc_calloc(count, size); }
void *realloc(void *old, size_t size) { return refuse() ? NULL : __libc_realloc(old, size); }
void *memalign(size_t align, size_t size) { return refuse() ? NULL : __libc_memalign(align, size); }
void *aligned_alloc(size_t align, size_t size) { return refuse() ? NULL : __libc_memalign(align, size); }

int posix_memalign(void **place, size_t align, size_t size) {
    void *made_here = refuse() ? NULL : __libc_memalign(align, size);
    if (!made_here) return ENOMEM;
    *place = made_here;
    return 0;
}

__attribute__((destructor)) static void tell(void) {
    unsigned long count = made;
    const char *path = getenv("COUNT_TO");
    FILE *to = path ? fopen(path, "w") : NULL;
    if (!to) return;
    fprintf(to, "%lu\n", count);
    fclose(to);
}
