/* Prints the statistics of Arrow integration files, and the groups of a query over them, from C:

     tools/library build
     cc -Iinclude examples/embed.c build/libselqumar.a -o build/embed
     build/embed '{"by":["city"],"aggs":[{"agg":"rows"}]}' examples/mixed.json */
#include "selqumar.h"
#include <stdio.h>
#include <stdlib.h>
#include <string.h>

enum { ROOM = 4096, UNREAD = 2 };

struct session {
  struct selqumar_handle table;
  struct selqumar_bytes *files;
  size_t count;
};

/* Reads a whole file. Whether it could. */
static int read_file(const char *name, struct selqumar_bytes *bytes) {
  FILE *file = fopen(name, "rb");
  uint8_t *data = NULL;
  size_t room = 0, length = 0, more = 1;
  while (file && more) {
    if (length == room) {
      uint8_t *longer = realloc(data, room = 2 * room + ROOM);
      if (!longer)
        break;
      data = longer;
    }
    more = fread(data + length, 1, room - length, file);
    length += more;
  }
  int is_read = file && !more && !ferror(file);
  if (file)
    fclose(file);
  *bytes = (struct selqumar_bytes){data, length};
  return is_read;
}

/* Prints a text, or the line of a fault. */
static void print(void *unused, uint32_t status, const uint8_t *text, size_t length) {
  (void)unused;
  fwrite(text, 1, length, status == SELQUMAR_GIVEN ? stdout : stderr);
}

/* Opens a table of the files, or prints why there is none: the call is made again where its buffer was too short for the line. */
static uint32_t open_table(struct session *session) {
  uint32_t status = SELQUMAR_SHORT;
  for (size_t room = ROOM, needed = 0; status == SELQUMAR_SHORT; room = needed) {
    /* All of a buffer has to be initialized. */
    uint8_t *line = calloc(room, 1);
    status = line ? selqumar_open(session->files, session->count, &session->table, line, room, &needed) : (uint32_t)SELQUMAR_NO_MEMORY;
    if (status == SELQUMAR_FAULT)
      print(NULL, status, line, needed);
    free(line);
  }
  return status;
}

/* Prints the statistics and the groups. Whether there were both. */
static int ask(struct session *session, const char *query) {
  uint32_t status = open_table(session);
  if (status == SELQUMAR_GIVEN)
    status = selqumar_open_stats_to(&session->table, 1, print, NULL);
  if (status == SELQUMAR_GIVEN)
    status = selqumar_open_query_to(&session->table, (const uint8_t *)query, strlen(query), print, NULL);
  if (status == SELQUMAR_NO_MEMORY)
    fputs("embed: no memory\n", stderr);
  return status == SELQUMAR_GIVEN;
}

int main(int count, char **words) {
  if (count < 2)
    return fputs("embed QUERY FILE..\n", stderr), UNREAD;
  struct session asked = {SELQUMAR_CLOSED, calloc(count, sizeof *asked.files), 0};
  int status = asked.files ? 0 : UNREAD;
  for (int i = 2; i < count && !status; i++)
    if (!read_file(words[i], &asked.files[asked.count++])) {
      fprintf(stderr, "embed: %s: cannot be read\n", words[i]);
      status = UNREAD;
    }
  if (!status)
    status = !ask(&asked, words[1]);
  selqumar_close(&asked.table);
  for (size_t i = 0; i < asked.count; i++)
    free((void *)asked.files[i].data);
  free(asked.files);
  return status;
}
