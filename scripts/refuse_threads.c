/* Refuses the program a thread: the one of the number that REFUSED_THREAD says, from 1 on, or, with a + behind the number, that one
   and all behind it. It makes the file that REFUSED_MARK names where it came to that. Made into a library by thread_rows, which has
   the program load it before the C library. */
#define _GNU_SOURCE
#include <dlfcn.h>
#include <errno.h>
#include <fcntl.h>
#include <pthread.h>
#include <stdatomic.h>
#include <stdlib.h>
#include <unistd.h>

typedef int (*creates)(pthread_t *, const pthread_attr_t *, void *(*)(void *), void *);

static atomic_ulong calls;

static int is_refused(void) {
    const char *which = getenv("REFUSED_THREAD");
    char *rest;
    unsigned long refused, number = atomic_fetch_add(&calls, 1) + 1;
    if (!which) return 0;
    refused = strtoul(which, &rest, 10);
    return number == refused || (*rest == '+' && number > refused);
}

int pthread_create(pthread_t *thread, const pthread_attr_t *attributes, void *(*begin)(void *), void *given) {
    creates given_create;
    const char *mark;
    if (!is_refused()) {
        *(void **)&given_create = dlsym(RTLD_NEXT, "pthread_create");
        return given_create(thread, attributes, begin, given);
    }
    mark = getenv("REFUSED_MARK");
    if (mark) close(open(mark, O_CREAT | O_WRONLY, 0666));
    return EAGAIN;
}
