/* Stands before the C library's allocator: it counts the calls that ask for memory, and refuses one of them.
   REFUSED is the number of that call, from 1 (0: none); COUNTED names a file that gets the count at the end. */
#define _GNU_SOURCE
#include <dlfcn.h>
#include <errno.h>
#include <stdio.h>
#include <stdlib.h>
#include <sys/syscall.h>
#include <unistd.h>

/* Threads count together. */
static _Atomic unsigned long calls;
static unsigned long refused;

/* Calls of the loader and of the C library, before the program begins, aren't counted. */
static int begun;

__attribute__((constructor)) static void begin(void) {
    const char *number = getenv("REFUSED");
    refused = number ? strtoul(number, NULL, 10) : 0;
    begun = 1;
}

__attribute__((destructor)) static void end(void) {
    const char *name = getenv("COUNTED");
    begun = 0;
    FILE *file = name ? fopen(name, "w") : NULL;
    if (file) {
        fprintf(file, "%lu\n", calls);
        fclose(file);
    }
}

/* A program with threads ends here, past what is called at the end otherwise. */
__attribute__((noreturn)) void _exit(int status) {
    end();
    for (;;)
        syscall(SYS_exit_group, status);
}

static int is_refused(void) {
    if (!begun || ++calls != refused)
        return 0;
    errno = ENOMEM;
    return 1;
}

extern void *__libc_malloc(size_t), *__libc_calloc(size_t, size_t), *__libc_realloc(void *, size_t),
    *__libc_memalign(size_t, size_t);

void *malloc(size_t size) { return is_refused() ? NULL : __libc_malloc(size); }
void *calloc(size_t count, size_t size) { return is_refused() ? NULL : __libc_calloc(count, size); }
void *realloc(void *old, size_t size) { return is_refused() ? NULL : __libc_realloc(old, size); }
void *aligned_alloc(size_t align, size_t size) { return is_refused() ? NULL : __libc_memalign(align, size); }
int posix_memalign(void **got, size_t align, size_t size) {
    if (is_refused() || !(*got = __libc_memalign(align, size)))
        return ENOMEM;
    return 0;
}
