// futex lag50|lag90|lag99 1 1 N: one thread sleeps on a futex and another wakes it, N times, one every 2 ms.
// Prints the nanoseconds from before the wake to after the sleep, in which so many percent of the sleepers were
// awake: the least that any hand-over to a thread of the system that sleeps can take.
#define _GNU_SOURCE
#include <linux/futex.h>
#include <pthread.h>
#include <stdatomic.h>
#include <stdio.h>
#include <stdlib.h>
#include <sys/syscall.h>
#include <time.h>
#include <unistd.h>
typedef unsigned long long u64;
static _Atomic unsigned word; static u64 *before, *after; static unsigned n;
static u64 now(void) { struct timespec t; clock_gettime(CLOCK_MONOTONIC, &t); return t.tv_sec * 1000000000ull + t.tv_nsec; }
static void *sleeper(void *_) {
  for (unsigned i = 0; i < n; i++) {
    while (atomic_load(&word) == i) syscall(SYS_futex, &word, FUTEX_WAIT_PRIVATE, i, NULL, NULL, 0);
    after[i] = now();
  }
  return _;
}
static int by_size(const void *a, const void *b) { u64 x = *(const u64 *)a, y = *(const u64 *)b; return (x > y) - (x < y); }
int main(int count, char **words) {
  if (count < 5) return 2;
  unsigned percent = atoi(words[1] + 3); n = atoi(words[4]);
  before = calloc(n, sizeof *before); after = calloc(n, sizeof *after);
  if (n == 0 || percent > 99 || !before || !after) return 2;
  pthread_t thread; if (pthread_create(&thread, NULL, sleeper, NULL)) return 1;
  for (unsigned i = 0; i < n; i++) {
    struct timespec gap = {0, 2000000}; nanosleep(&gap, NULL);
    before[i] = now(); atomic_store(&word, i + 1); syscall(SYS_futex, &word, FUTEX_WAKE_PRIVATE, 1, NULL, NULL, 0);
  }
  pthread_join(thread, NULL);
  for (unsigned i = 0; i < n; i++) after[i] -= before[i];
  qsort(after, n, sizeof *after, by_size); printf("%llu\n", after[(u64)n * percent / 100]);
}
