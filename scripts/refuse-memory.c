/* An allocator that refuses one allocation. Preloaded under a program, it counts the calls of malloc and realloc and
   refuses the one whose number, from 1, stands in REFUSE. At the end it writes the count into the file that COUNT
   names. The calls go to the C library by names that it exports for this. */
#include <errno.h>
#include <stdio.h>
#include <stdlib.h>

extern void *__libc_malloc(size_t size);
extern void *__libc_realloc(void *block, size_t size);

static unsigned long calls;

static int refused(void) {
    const char *number = getenv("REFUSE");
    calls++;
    if (number == NULL || strtoul(number, NULL, 10) != calls)
        return 0;
    errno = ENOMEM;
    return 1;
}

void *malloc(size_t size) { return refused() ? NULL : __libc_malloc(size); }

void *realloc(void *block, size_t size) { return refused() ? NULL : __libc_realloc(block, size); }

__attribute__((destructor)) static void write_count(void) {
    const char *name = getenv("COUNT");
    unsigned long count = calls;
    FILE *file = name == NULL ? NULL : fopen(name, "w");
    if (file != NULL) {
        fprintf(file, "%lu\n", count);
        fclose(file);
    }
}
