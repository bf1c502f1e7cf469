// Where Linux puts threads that are started a moment ago: how long a round of four threads of some milliseconds each
// takes where one thread starts all others ("flat"), and where a started thread starts one itself ("nested").
//
// usage: cc -O2 -pthread placement.c -o placement && ./placement
#include <pthread.h>
#include <stdio.h>
#include <time.h>

enum { ROUNDS = 60, THREADS = 4 };
static unsigned long turns; // of a thread's work in a round
static volatile unsigned long sink;

static double now(void) {
  struct timespec t;
  clock_gettime(CLOCK_MONOTONIC, &t);
  return t.tv_sec * 1e3 + t.tv_nsec / 1e6;
}

static void *work(void *unused) {
  unsigned long x = 1;
  for (unsigned long i = 0; i < turns; i++) x = x * 6364136223846793005UL + 1442695040888963407UL;
  sink = x;
  return unused;
}

static void *start_and_work(void *unused) {
  pthread_t other;
  if (pthread_create(&other, NULL, work, NULL)) return unused;
  work(NULL);
  pthread_join(other, NULL);
  return unused;
}

static void flat(void) {
  pthread_t others[THREADS - 1];
  int started = 0;
  while (started < THREADS - 1 && !pthread_create(&others[started], NULL, work, NULL)) started++;
  work(NULL);
  for (int i = 0; i < started; i++) pthread_join(others[i], NULL);
}

static void nested(void) {
  pthread_t half;
  if (pthread_create(&half, NULL, start_and_work, NULL)) return;
  start_and_work(NULL);
  pthread_join(half, NULL);
}

static void measure(const char *name, void (*round)(void), double alone) {
  double total = 0;
  int shared = 0;
  for (int i = 0; i < ROUNDS; i++) {
    double start = now();
    round();
    double took = now() - start;
    total += took;
    // two threads that share a processor for the whole round take twice the time
    shared += took > 1.6 * alone;
  }
  printf("%-6s %5.1f ms a round, where one thread alone takes %.1f; above 1.6 times that in %d of %d rounds\n",
         name, total / ROUNDS, alone, shared, ROUNDS);
}

int main(void) {
  turns = 8000000;
  double start = now();
  work(NULL);
  turns = (unsigned long)(turns * 8 / (now() - start)); // 8 ms
  double alone = 1e9;
  for (int i = 0; i < 10; i++) {
    start = now();
    work(NULL);
    double took = now() - start;
    if (took < alone) alone = took;
  }
  measure("flat", flat, alone);
  measure("nested", nested, alone);
  measure("flat", flat, alone);
  measure("nested", nested, alone);
  return 0;
}
