// Loaded before the C library (LD_PRELOAD), it refuses memory or threads to the program under test.
//
// REFUSE_MEMORY=N    the N-th request for memory is refused, counted from 1
// REFUSE_THREADS=N   the N-th start of a thread is refused
// A + behind N       all from the N-th on
// COUNTS=FILE        the requests and the starts are counted in this file of 16 bytes: two words
//
// A request is a call of malloc or realloc, the two by which the program gets its memory, once this library
// was loaded.
#define _GNU_SOURCE
#include <dlfcn.h>
#include <errno.h>
#include <fcntl.h>
#include <pthread.h>
#include <stdint.h>
#include <stdlib.h>
#include <sys/mman.h>
#include <unistd.h>

struct refusal {
    uint64_t at; // 0: none
    int all_later;
};

static uint64_t own_counts[2];
static uint64_t *counts = own_counts;
static struct refusal memory, threads;

static void *(*real_malloc)(size_t);
static void *(*real_realloc)(void *, size_t);
static int (*real_pthread_create)(pthread_t *, const pthread_attr_t *, void *(*)(void *), void *);
static int loaded;

static struct refusal refusal_of(const char *name) {
    struct refusal refusal = {0, 0};
    const char *text = getenv(name);
    if (text != NULL) {
        char *end;
        refusal.at = strtoull(text, &end, 10);
        refusal.all_later = *end == '+';
    }
    return refusal;
}

__attribute__((constructor)) static void load(void) {
    real_malloc = dlsym(RTLD_NEXT, "malloc");
    real_realloc = dlsym(RTLD_NEXT, "realloc");
    real_pthread_create = dlsym(RTLD_NEXT, "pthread_create");
    memory = refusal_of("REFUSE_MEMORY");
    threads = refusal_of("REFUSE_THREADS");
    const char *file = getenv("COUNTS");
    if (file != NULL) {
        int opened = open(file, O_RDWR);
        void *mapped = mmap(NULL, sizeof own_counts, PROT_READ | PROT_WRITE, MAP_SHARED, opened, 0);
        if (opened >= 0 && mapped != MAP_FAILED)
            counts = mapped;
        if (opened >= 0)
            close(opened);
    }
    loaded = 1;
}

// Counts, and says whether this one is refused.
static int refuses(uint64_t *count, struct refusal refusal) {
    if (!loaded)
        return 0;
    uint64_t number = __atomic_add_fetch(count, 1, __ATOMIC_SEQ_CST);
    return refusal.at != 0 && (number == refusal.at || (refusal.all_later && number > refusal.at));
}

void *malloc(size_t size) {
    if (real_malloc == NULL)
        real_malloc = dlsym(RTLD_NEXT, "malloc");
    return refuses(&counts[0], memory) ? NULL : real_malloc(size);
}

void *realloc(void *block, size_t size) {
    if (real_realloc == NULL)
        real_realloc = dlsym(RTLD_NEXT, "realloc");
    return refuses(&counts[0], memory) ? NULL : real_realloc(block, size);
}

int pthread_create(pthread_t *thread, const pthread_attr_t *attributes, void *(*start)(void *), void *argument) {
    return refuses(&counts[1], threads) ? EAGAIN : real_pthread_create(thread, attributes, start, argument);
}
