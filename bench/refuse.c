/* Refuses a program one allocation: a library to preload, which bench/refuse builds and uses.

   REFUSE names a file of two numbers of 8 bytes. The first says which allocation after the begin of main is refused, counted from 1, and 0 none; in the second
   stands how many were asked for. Both are shared, so they are told of a program that was killed too. */
#define _GNU_SOURCE
#include <dlfcn.h>
#include <errno.h>
#include <fcntl.h>
#include <stdlib.h>
#include <sys/mman.h>
#include <unistd.h>

extern void *__libc_malloc(size_t);
extern void *__libc_calloc(size_t, size_t);
extern void *__libc_realloc(void *, size_t);
extern void *__libc_memalign(size_t, size_t);

static unsigned long long *numbers;

static int is_refused(void) {
    if (!numbers || __atomic_add_fetch(&numbers[1], 1, __ATOMIC_SEQ_CST) != numbers[0])
        return 0;
    errno = ENOMEM;
    return 1;
}

void *malloc(size_t size) { return is_refused() ? NULL : __libc_malloc(size); }
void *calloc(size_t count, size_t size) { return is_refused() ? NULL : __libc_calloc(count, size); }
void *realloc(void *old, size_t size) { return is_refused() ? NULL : __libc_realloc(old, size); }
void *memalign(size_t align, size_t size) { return is_refused() ? NULL : __libc_memalign(align, size); }
void *aligned_alloc(size_t align, size_t size) { return is_refused() ? NULL : __libc_memalign(align, size); }

int posix_memalign(void **made, size_t align, size_t size) {
    void *given = is_refused() ? NULL : __libc_memalign(align, size);
    if (!given)
        return ENOMEM;
    *made = given;
    return 0;
}

typedef int Main(int, char **, char **);
static Main *real_main;

static int counted_main(int count, char **words, char **environment) {
    int file = open(getenv("REFUSE"), O_RDWR);
    void *at = mmap(NULL, 16, PROT_READ | PROT_WRITE, MAP_SHARED, file, 0);
    close(file);
    if (at == MAP_FAILED)
        _exit(125);
    numbers = at;
    return real_main(count, words, environment);
}

int __libc_start_main(Main *main, int count, char **words, void (*init)(void), void (*fini)(void), void (*end)(void), void *stack) {
    int (*real)(Main *, int, char **, void (*)(void), void (*)(void), void (*)(void), void *) = dlsym(RTLD_NEXT, "__libc_start_main");
    real_main = main;
    return real(counted_main, count, words, init, fini, end, stack);
}
