/* Refuses threads to the program before which it is loaded (LD_PRELOAD): it may have THREADS of them besides its first one at a time. The file
   THREADS_TOLD has two numbers of eight bytes: how many were started, and how many were refused. */
#define _GNU_SOURCE
#include <dlfcn.h>
#include <errno.h>
#include <pthread.h>
#include <stdatomic.h>
#include <stdlib.h>

#include "../shared/told.h"

struct told {
    atomic_ulong started, refused;
};

struct start {
    void *(*run)(void *);
    void *given;
};

static struct told none_told;
static struct told *told = &none_told;
static atomic_long left;
static int (*create)(pthread_t *, const pthread_attr_t *, void *(*)(void *), void *);

__attribute__((constructor)) static void begin(void)
{
    const char *threads = getenv("THREADS");
    left = threads ? strtol(threads, NULL, 10) : 0;
    create = (int (*)(pthread_t *, const pthread_attr_t *, void *(*)(void *), void *))dlsym(RTLD_NEXT, "pthread_create");
    told = told_in("THREADS_TOLD", &none_told, sizeof none_told);
}

static void *run(void *given)
{
    struct start start = *(struct start *)given;
    free(given);
    void *answer = start.run(start.given);
    atomic_fetch_add(&left, 1);
    return answer;
}

int pthread_create(pthread_t *thread, const pthread_attr_t *attributes, void *(*function)(void *), void *given)
{
    struct start *start = malloc(sizeof *start);
    int is_refused = atomic_fetch_sub(&left, 1) <= 0;
    int status = EAGAIN;
    if (start && !is_refused) {
        *start = (struct start){function, given};
        status = create(thread, attributes, run, start);
    }
    if (status) {
        atomic_fetch_add(&left, 1);
        atomic_fetch_add(&told->refused, 1);
        free(start);
    } else {
        atomic_fetch_add(&told->started, 1);
    }
    return status;
}
