/* Refuses one allocation of a program that it is loaded before: the one whose number REFUSE says, from 1.
   How many there were so far stands in the file that REFUSE_COUNT names, as a number of 64 bits, at each moment. */
#define _GNU_SOURCE
#include <dlfcn.h>
#include <fcntl.h>
#include <stdatomic.h>
#include <stddef.h>
#include <stdlib.h>
#include <sys/mman.h>
#include <unistd.h>

static _Atomic long here;
static _Atomic long *made = &here;
static long wanted;

__attribute__((constructor)) static void begin(void) {
    const char *number = getenv("REFUSE"), *name = getenv("REFUSE_COUNT");
    wanted = number ? atol(number) : 0;
    int file = name ? open(name, O_RDWR) : -1;
    if (file >= 0 && ftruncate(file, sizeof(long)) == 0) {
        void *shared = mmap(NULL, sizeof(long), PROT_READ | PROT_WRITE, MAP_SHARED, file, 0);
        if (shared != MAP_FAILED) {
            atomic_store((_Atomic long *)shared, atomic_load(&here));
            made = shared;
        }
        close(file);
    }
}

static int is_refused(void) {
    return atomic_fetch_add(made, 1) + 1 == wanted;
}

void *malloc(size_t size) {
    static void *(*below)(size_t);
    if (!below) below = dlsym(RTLD_NEXT, "malloc");
    return is_refused() ? NULL : below(size);
}

void *realloc(void *old, size_t size) {
    static void *(*below)(void *, size_t);
    if (!below) below = dlsym(RTLD_NEXT, "realloc");
    return is_refused() ? NULL : below(old, size);
}
