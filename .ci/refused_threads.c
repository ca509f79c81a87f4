/* Stands before the C library's pthread_create: it counts the calls, and refuses them from one on.
   REFUSED is the number of that call, from 1 (0: none), and it alone is refused where ONCE is set. COUNTED names a file
   that gets the count at the end. */
#define _GNU_SOURCE
#include <dlfcn.h>
#include <errno.h>
#include <pthread.h>
#include <stdio.h>
#include <stdlib.h>
#include <sys/syscall.h>
#include <unistd.h>

/* Threads count together. */
static _Atomic unsigned long calls;

static void end(void) {
    const char *name = getenv("COUNTED");
    FILE *file = name ? fopen(name, "w") : NULL;
    if (file) {
        fprintf(file, "%lu\n", calls);
        fclose(file);
    }
}

__attribute__((destructor)) static void end_of_main(void) { end(); }

/* A program with threads ends here, past what is called at the end otherwise. */
__attribute__((noreturn)) void _exit(int status) {
    end();
    for (;;)
        syscall(SYS_exit_group, status);
}

int pthread_create(pthread_t *thread, const pthread_attr_t *attributes, void *(*begin)(void *), void *given) {
    static int (*real)(pthread_t *, const pthread_attr_t *, void *(*)(void *), void *);
    const char *number = getenv("REFUSED");
    unsigned long refused = number ? strtoul(number, NULL, 10) : 0, call = ++calls;
    if (refused && (getenv("ONCE") ? call == refused : call >= refused))
        return EAGAIN;
    if (!real)
        *(void **)&real = dlsym(RTLD_NEXT, "pthread_create");
    return real(thread, attributes, begin, given);
}
