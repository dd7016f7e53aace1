// Preloaded into a program: each thread that it makes runs on one processor, in turn on those that PIN names, as "2,3".
#define _GNU_SOURCE
#include <dlfcn.h>
#include <pthread.h>
#include <sched.h>
#include <stdlib.h>

int pthread_create(pthread_t *thread, const pthread_attr_t *how, void *(*start)(void *), void *argument)
{
    static char *at;
    int (*create)(pthread_t *, const pthread_attr_t *, void *(*)(void *), void *) = dlsym(RTLD_NEXT, "pthread_create");
    int error = create(thread, how, start, argument);
    cpu_set_t one;
    if (!at || !*at)
        at = getenv("PIN");
    if (error || !at)
        return error;
    CPU_ZERO(&one);
    CPU_SET(strtol(at, &at, 10), &one);
    at += *at == ',';
    return pthread_setaffinity_np(*thread, sizeof one, &one);
}
