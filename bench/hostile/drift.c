/* Preloaded: the clock that a process counts with runs RATE parts of a million too fast from its start on. */
#define _GNU_SOURCE
#include <stdlib.h>
#include <sys/syscall.h>
#include <time.h>
#include <unistd.h>

static long rate;
static int is_read;
static long long start[16];

int clock_gettime(clockid_t which, struct timespec *at) {
  int failed = (int)syscall(SYS_clock_gettime, which, at);
  if (failed || (which != CLOCK_BOOTTIME && which != CLOCK_MONOTONIC)) return failed;
  if (!is_read) {
    rate = getenv("RATE") ? atol(getenv("RATE")) : 0;
    is_read = 1;
  }
  long long now = at->tv_sec * 1000000000LL + at->tv_nsec;
  if (!start[which]) start[which] = now;
  now += (now - start[which]) / 1000000 * rate + (now - start[which]) % 1000000 * rate / 1000000;
  at->tv_sec = now / 1000000000LL;
  at->tv_nsec = now % 1000000000LL;
  return 0;
}
