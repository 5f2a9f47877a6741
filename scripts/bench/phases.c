/* Notes of each thread of a program when it is asked for, begins and ends, and how long its maker waits for it, and writes what it comes
   to into the file that the environment's PHASES names. With APART each thread is put on a processor of its own. */

#define _GNU_SOURCE
#include <dlfcn.h>
#include <pthread.h>
#include <sched.h>
#include <stdio.h>
#include <stdlib.h>
#include <sys/syscall.h>
#include <time.h>
#include <unistd.h>

#define MOST 100000

struct started {
    void *(*work)(void *);
    void *with;
    pthread_t id;
    double asked, begun, ended, joined, used;
};
static struct started threads[MOST];
static int count;

static double now(clockid_t clock) {
    struct timespec t;
    clock_gettime(clock, &t);
    return t.tv_sec * 1e6 + t.tv_nsec * 1e-3;
}

static void *noted(void *at) {
    struct started *it = at;
    it->begun = now(CLOCK_MONOTONIC);
    void *result = it->work(it->with);
    it->ended = now(CLOCK_MONOTONIC);
    it->used = now(CLOCK_THREAD_CPUTIME_ID);
    return result;
}

static void stay_on(pthread_attr_t *attributes, const pthread_attr_t *given, int cpu) {
    size_t size;
    cpu_set_t set;
    CPU_ZERO(&set);
    CPU_SET(0, &set);
    sched_setaffinity(getpid(), sizeof set, &set);
    pthread_attr_init(attributes);
    if (given && pthread_attr_getguardsize(given, &size) == 0)
        pthread_attr_setguardsize(attributes, size);
    if (given && pthread_attr_getstacksize(given, &size) == 0)
        pthread_attr_setstacksize(attributes, size);
    CPU_ZERO(&set);
    CPU_SET(cpu, &set);
    pthread_attr_setaffinity_np(attributes, sizeof set, &set);
}

int pthread_create(pthread_t *id, const pthread_attr_t *given, void *(*work)(void *), void *with) {
    int (*real)(pthread_t *, const pthread_attr_t *, void *(*)(void *), void *) = dlsym(RTLD_NEXT, "pthread_create");
    int number = __atomic_fetch_add(&count, 1, __ATOMIC_SEQ_CST);
    struct started *it = &threads[number % MOST];
    pthread_attr_t attributes;
    it->work = work;
    it->with = with;
    if (getenv("APART")) {
        stay_on(&attributes, given, 1 + number % 3);
        given = &attributes;
    }
    it->joined = 0;
    it->asked = now(CLOCK_MONOTONIC);
    int result = real(id, given, noted, it);
    it->id = *id;
    return result;
}

int pthread_join(pthread_t id, void **value) {
    int (*real)(pthread_t, void **) = dlsym(RTLD_NEXT, "pthread_join");
    int result = real(id, value);
    for (int i = count - 1; i >= 0; i--)
        if (threads[i].id == id && threads[i].joined == 0) {
            threads[i].joined = now(CLOCK_MONOTONIC);
            break;
        }
    return result;
}

/* A round lasts from the first thread that it asks for to the last that it joins. */
void _exit(int status) {
    double shared = 0, wait = 0, used = 0, begun = 0, until = 0;
    for (int i = 0; i < count; i++) {
        struct started *it = &threads[i];
        if (it->asked > until) {
            shared += until - begun;
            begun = it->asked;
            until = begun;
        }
        if (it->joined > until)
            until = it->joined;
        wait += it->begun - it->asked;
        used += it->used;
    }
    shared += until - begun;
    FILE *out = fopen(getenv("PHASES"), "w");
    fprintf(out, "%d %f %f %f\n", count, count ? wait / count : 0, shared / 1000, used / 1000);
    fclose(out);
    syscall(SYS_exit_group, status);
    __builtin_unreachable();
}
