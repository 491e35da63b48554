/* How long an append of 1,000,000 rows takes, of two columns of numbers and one of texts, beside plain C that copies the same buffers and checks what a table
   checks: null counts, offsets and UTF-8.

     tools/library build
     cc -O2 bench/append.c -Iinclude build/libselqumar.a -o build/append && build/append

   It prints, for texts that a table stores by a dictionary and for large ones that it stores as they are, the processor time of both and their ratio, each the
   median of some runs in turn. */
#include "selqumar.h"
#include <stdio.h>
#include <string.h>
#include <time.h>

enum { ROWS = 1000000, DISTINCT = 1000, RUNS = 9 };

static int64_t first[ROWS], second[ROWS], wide[ROWS + 1];
static int32_t narrow[ROWS + 1];
static uint8_t valid[ROWS / 8], texts[ROWS * 12], out[4096];
static size_t needed;
static volatile size_t seen;

static double now(void) {
  struct timespec time;
  clock_gettime(CLOCK_PROCESS_CPUTIME_ID, &time);
  return time.tv_sec * 1e3 + time.tv_nsec / 1e6;
}

/* Each twentieth slot of a column is null. */
static void fill(void) {
  memset(valid, 0xff, sizeof valid);
  for (int row = 0; row < ROWS; row++) {
    first[row] = row;
    second[row] = row * 31 % 1009;
    narrow[row + 1] = narrow[row] + sprintf((char *)texts + narrow[row], "text %d", row * 7 % DISTINCT);
    wide[row + 1] = narrow[row + 1];
    if (row % 20 == 0)
      valid[row / 8] &= (uint8_t)~(1 << row % 8);
  }
}

static void *copy(const void *data, size_t length) {
  return memcpy(malloc(length), data, length);
}

static size_t nulls(const uint8_t *bits) {
  size_t count = 0;
  uint64_t word;
  for (size_t at = 0; at < ROWS / 8; at += 8) {
    memcpy(&word, bits + at, 8);
    count += (size_t)(64 - __builtin_popcountll(word));
  }
  return count;
}

/* Whether bytes are UTF-8: here all are below 128, which a fast check sees by words. */
static int is_ascii(const uint8_t *bytes, size_t length) {
  uint64_t all = 0, word;
  size_t at = 0;
  for (; at + 8 <= length; at += 8) {
    memcpy(&word, bytes + at, 8);
    all |= word;
  }
  for (; at < length; at++)
    all |= bytes[at];
  return !(all & 0x8080808080808080u);
}

static void plain(int is_wide) {
  size_t bytes = (size_t)narrow[ROWS];
  uint8_t *bits = copy(valid, sizeof valid), *text = copy(texts, bytes);
  int64_t *one = copy(first, sizeof first), *two = copy(second, sizeof second);
  void *ends = is_wide ? copy(wide, sizeof wide) : copy(narrow, sizeof narrow);
  int rises = 1;
  for (int row = 0; row < ROWS; row++)
    rises &= is_wide ? ((int64_t *)ends)[row] <= ((int64_t *)ends)[row + 1] : ((int32_t *)ends)[row] <= ((int32_t *)ends)[row + 1];
  seen += nulls(bits) + (size_t)rises + (size_t)is_ascii(text, bytes);
  free(bits), free(text), free(one), free(two), free(ends);
}

static struct selqumar_bytes bytes(const void *data, size_t length) {
  struct selqumar_bytes lent = {data, length};
  return lent;
}

/* Appends the rows to an empty table. Whether it could. */
static int append(int is_wide) {
  struct selqumar_handle table = SELQUMAR_CLOSED;
  struct selqumar_node nodes[] = {
    {.format = bytes("l", 1), .name = bytes("a", 1), .nullable = 1, .length = ROWS, .null_count = ROWS / 20, .validity = bytes(valid, sizeof valid),
     .first = bytes(first, sizeof first)},
    {.format = bytes("l", 1), .name = bytes("b", 1), .nullable = 1, .length = ROWS, .first = bytes(second, sizeof second)},
    {.format = bytes(is_wide ? "U" : "u", 1), .name = bytes("c", 1), .nullable = 1, .length = ROWS,
     .first = is_wide ? bytes(wide, sizeof wide) : bytes(narrow, sizeof narrow), .second = bytes(texts, (size_t)narrow[ROWS])},
  };
  int is_done = !selqumar_new(nodes, 3, &table, out, sizeof out, &needed) && !selqumar_append(&table, 0, ROWS, nodes, 3, out, sizeof out, &needed);
  selqumar_close(&table);
  return is_done;
}

static int compare(const void *one, const void *other) {
  return (*(const double *)one > *(const double *)other) - (*(const double *)one < *(const double *)other);
}

int main(void) {
  fill();
  for (int is_wide = 0; is_wide < 2; is_wide++) {
    double ours[RUNS], theirs[RUNS], before;
    for (int run = 0; run < RUNS; run++) {
      before = now();
      if (!append(is_wide))
        return 1;
      ours[run] = now() - before;
      before = now();
      plain(is_wide);
      theirs[run] = now() - before;
    }
    qsort(ours, RUNS, sizeof *ours, compare);
    qsort(theirs, RUNS, sizeof *theirs, compare);
    printf("%s texts: %.1f ms, %.1f ms, %.2f\n", is_wide ? "large" : "dictionary", ours[RUNS / 2], theirs[RUNS / 2], ours[RUNS / 2] / theirs[RUNS / 2]);
  }
  return 0;
}
