/* Refuses the allocation with the number that REFUSED has, from 1, and the threads that THREADS says: its first letter is that
   of the first thread, and so on, and its last one also that of all later threads; at `n` the thread isn't made. Where it refuses
   something it writes a byte to file 9. */
#define _GNU_SOURCE
#include <dlfcn.h>
#include <errno.h>
#include <pthread.h>
#include <stdlib.h>
#include <string.h>
#include <unistd.h>

static int is_refused(void) {
    static _Atomic long asked = 0;
    const char *number = getenv("REFUSED");
    if (number == NULL || ++asked != atol(number)) return 0;
    return write(9, "r", 1) == 1;
}

static int is_thread_refused(void) {
    static _Atomic size_t asked = 0;
    const char *letters = getenv("THREADS");
    if (letters == NULL || *letters == 0) return 0;
    size_t place = asked++, last = strlen(letters) - 1;
    return letters[place < last ? place : last] == 'n' && write(9, "t", 1) == 1;
}

void *malloc(size_t size) {
    void *(*real)(size_t) = (void *(*)(size_t))dlsym(RTLD_NEXT, "malloc");
    return is_refused() ? NULL : real(size);
}

void *realloc(void *old, size_t size) {
    void *(*real)(void *, size_t) = (void *(*)(void *, size_t))dlsym(RTLD_NEXT, "realloc");
    return is_refused() ? NULL : real(old, size);
}

int pthread_create(pthread_t *thread, const pthread_attr_t *attributes, void *(*run)(void *), void *with) {
    int (*real)(pthread_t *, const pthread_attr_t *, void *(*)(void *), void *) =
        (int (*)(pthread_t *, const pthread_attr_t *, void *(*)(void *), void *))dlsym(RTLD_NEXT, "pthread_create");
    return is_thread_refused() ? EAGAIN : real(thread, attributes, run, with);
}
