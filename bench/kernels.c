/* The kernels of sumcheck over the integers modulo 65537 as bare C loops, to measure ours beside.

   cc -O3 -o kernels bench/kernels.c && ./kernels          nanoseconds a row (an output for binding) at 2^18 rows, least of 41 runs
   valgrind --tool=callgrind --toggle-collect=NAME ./kernels NAME    one run of one of them, to count its instructions

   Entries have 32 bits and stand below 65537. Sums of products are kept in 64 bits and reduced at the end of a block. */
#include <stdint.h>
#include <stdio.h>
#include <string.h>
#include <time.h>

#define P 65537u
#define N (1u << 18)
#define BLOCK 256u

static uint32_t table[N], weights[N], inner[BLOCK], outer[N / BLOCK], out[N];

static inline uint32_t reduced(uint32_t x) {
  uint32_t y = (x & 0xffff) - (x >> 16);
  return y + (P & -(y >> 31));
}

/* the product of two numbers below P, which is below 2^32 but for 65536 * 65536 */
static inline uint32_t times(uint32_t x, uint32_t y) {
  uint32_t z = x * y;
  return reduced(z) + (x & y & 65536) / 65536;
}

static inline uint32_t minus(uint32_t x, uint32_t y) {
  uint32_t z = x - y;
  return z + (P & -(z >> 31));
}

static inline uint32_t plus(uint32_t x, uint32_t y) { return minus(x, P - y); }

/* the value at a point, whose weights are the products of these */
__attribute__((noinline)) uint64_t value(void) {
  uint64_t sum = 0;
  for (uint32_t b = 0; b < N / BLOCK; b++) {
    uint64_t s = 0;
    for (uint32_t i = 0; i < BLOCK; i++) s += (uint64_t)table[b * BLOCK + i] * inner[i];
    sum += s % P * outer[b];
  }
  return sum % P;
}

/* the weights of a point, added to others */
__attribute__((noinline)) uint64_t added(void) {
  for (uint32_t b = 0; b < N / BLOCK; b++)
    for (uint32_t i = 0; i < BLOCK; i++) weights[b * BLOCK + i] = plus(weights[b * BLOCK + i], times(outer[b], inner[i]));
  return weights[7];
}

/* the two sums that a round sends, in prefix order: a pair is a row of each half */
__attribute__((noinline)) uint64_t message(void) {
  uint64_t first = 0, last = 0;
  for (uint32_t b = 0; b < N / 2; b += BLOCK) {
    uint64_t s = 0, t = 0;
    for (uint32_t k = b; k < b + BLOCK; k++) {
      s += (uint64_t)table[k] * weights[k];
      t += (uint64_t)minus(table[N / 2 + k], table[k]) * minus(weights[N / 2 + k], weights[k]);
    }
    first += s % P;
    last += t % P;
  }
  return first % P + (last % P << 32);
}

/* one table bound at a challenge, in prefix order */
__attribute__((noinline)) uint64_t bound(void) {
  for (uint32_t k = 0; k < N / 2; k++) out[k] = plus(table[k], times(minus(table[N / 2 + k], table[k]), 40503));
  return out[7];
}

static const struct { const char *name; uint64_t (*run)(void); uint32_t rows; } kernels[] = {
    {"value", value, N}, {"added", added, N}, {"message", message, N / 2}, {"bound", bound, N / 2}};

int main(int count, char **words) {
  uint32_t x = 7;
  for (uint32_t i = 0; i < N; i++) table[i] = x = (75 * x + 74) % P, weights[i] = (x * 31 + i) % P;
  for (uint32_t i = 0; i < BLOCK; i++) inner[i] = table[i * 3];
  for (uint32_t i = 0; i < N / BLOCK; i++) outer[i] = table[i * 5];
  uint64_t all = 0;
  for (int k = 0; k < 4; k++) {
    if (count > 1) {
      if (strcmp(words[1], kernels[k].name) == 0) all += kernels[k].run();
      continue;
    }
    double least = 1e9;
    for (int i = 0; i < 41; i++) {
      struct timespec from, to;
      clock_gettime(CLOCK_MONOTONIC, &from);
      all += kernels[k].run();
      clock_gettime(CLOCK_MONOTONIC, &to);
      double ns = (to.tv_sec - from.tv_sec) * 1e9 + (to.tv_nsec - from.tv_nsec);
      if (ns < least) least = ns;
    }
    printf("%-8s %.2f\n", kernels[k].name, least / kernels[k].rows);
  }
  fprintf(stderr, "%llu\n", (unsigned long long)all);
  return 0;
}
