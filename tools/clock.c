// Stands before the C library's clock: the wall clock is at the moment that the environment names, in seconds since 1970. Other
// clocks go on as they do.
//
//     cc -O1 -Wall -Wextra -Werror -shared -fPIC -o clock.so tools/clock.c -ldl
//     MOMENT=1700000000 LD_PRELOAD=./clock.so PROGRAM ..
//
// A process without MOMENT has the clock as it is.
#define _GNU_SOURCE
#include <stdlib.h>
#include <sys/syscall.h>
#include <time.h>
#include <unistd.h>

int clock_gettime(clockid_t clock, struct timespec *now) {
  const char *moment = getenv("MOMENT");
  if (clock != CLOCK_REALTIME || !moment) return syscall(SYS_clock_gettime, clock, now);
  now->tv_sec = atoll(moment);
  now->tv_nsec = 0;
  return 0;
}
