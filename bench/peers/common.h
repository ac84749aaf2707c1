/* What each peer's program is given: transactions of two reads and two writes over 10,000 keys, with values of eight
   bytes; then the rows that they changed, read back as a feed; then the time from the start of a transaction to its
   rows in the feed. Each prints lines of a name and a number. bench/yardstick/src/peer.rs does the same work. */
#include <stdint.h>
#include <stdio.h>
#include <stdlib.h>
#include <string.h>
#include <time.h>
#include <unistd.h>

static double now(void) {
  struct timespec t;
  clock_gettime(CLOCK_MONOTONIC, &t);
  return t.tv_sec + t.tv_nsec / 1e9;
}

static uint64_t dice = 88172645463325252ull;

static uint64_t drawn(uint64_t limit) {
  dice ^= dice << 13;
  dice ^= dice >> 7;
  dice ^= dice << 17;
  return (dice >> 11) % limit;
}

static const char *any_key(char *text) {
  sprintf(text, "k%07u", (unsigned)drawn(10000));
  return text;
}

static const char *any_value(char *text) {
  sprintf(text, "v%07u", (unsigned)drawn(10000000));
  return text;
}

static void say_rate(const char *name, double count, double since) {
  printf("%s %.1f\n", name, count / (now() - since));
}

static int by_size(const void *a, const void *b) {
  double x = *(const double *)a, y = *(const double *)b;
  return x < y ? -1 : x > y;
}

static void say_lag(double *lags, int count) {
  qsort(lags, count, sizeof *lags, by_size);
  printf("lag_us %.2f\n", lags[count / 2] * 1e6);
}

static void die(const char *what) {
  fprintf(stderr, "failed: %s\n", what);
  exit(1);
}
