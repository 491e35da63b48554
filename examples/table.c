/* A table that a program in C fills and asks, of columns that lie in its own memory.

     tools/library build
     cc examples/table.c -Iinclude build/libselqumar.a -o table
     ./table */
#include "selqumar.h"
#include <stdio.h>
#include <string.h>

static uint8_t out[4096];
static size_t needed;

static struct selqumar_bytes bytes(const void *data, size_t length) {
  struct selqumar_bytes lent = {data, length};
  return lent;
}

static struct selqumar_bytes text(const char *text) {
  return bytes(text, strlen(text));
}

/* Prints the line of a fault, or the answer. Whether there was an answer. */
static int done(uint32_t status) {
  if (status == SELQUMAR_GIVEN || status == SELQUMAR_FAULT)
    fwrite(out, 1, needed, status == SELQUMAR_GIVEN ? stdout : stderr);
  return status == SELQUMAR_GIVEN;
}

int main(void) {
  const char *query = "{\"by\":[\"city\"],\"aggs\":[{\"agg\":\"sum\",\"column\":\"people\"}]}";
  struct selqumar_handle table = SELQUMAR_CLOSED;
  int64_t people[] = {545923, 193324, 1};
  int32_t offsets[] = {0, 6, 11, 11};
  uint8_t valid = 1 | 2;
  /* The third city is null. */
  struct selqumar_node nodes[2] = {
    {.format = text("u"), .name = text("city"), .nullable = 1, .length = 3, .null_count = UINT64_MAX, .validity = bytes(&valid, 1),
     .first = bytes(offsets, sizeof offsets), .second = text("LisbonBraga")},
    {.format = text("l"), .name = text("people"), .nullable = 1, .length = 3, .first = bytes(people, sizeof people)},
  };
  int all = done(selqumar_new(nodes, 2, &table, out, sizeof out, &needed)) &&
            done(selqumar_append(&table, 0, 3, nodes, 2, out, sizeof out, &needed)) &&
            done(selqumar_append(&table, 1, 3, nodes, 2, out, sizeof out, &needed)) &&
            done(selqumar_compact(&table, 1000000, out, sizeof out, &needed)) &&
            done(selqumar_open_query(&table, (const uint8_t *)query, strlen(query), out, sizeof out, &needed));
  /* An offset that decreases is told by its place, and leaves the table as it was. */
  offsets[1] = 12;
  all = all && !done(selqumar_append(&table, 0, 3, nodes, 2, out, sizeof out, &needed)) &&
        done(selqumar_open_stats(&table, 2, out, sizeof out, &needed));
  selqumar_close(&table);
  return !all;
}
