/* Calls the library where requests for memory are refused, one after the other, many times over, on a small stack, or with null: see `library.py`.

     library refused CALL FILES
     library repeated CALL FILES
     library stack CALL FILES
     library nulls CALL FILES
     library fault LINE

   A call is one of those on files, on a table that is open or on a snapshot, by its name, or `nodes`: all that make, fill and change a table of columns in
   memory, and hand it on. For the first two `refusals.c` has to be loaded. The query of `query` is the text of the variable QUERY. The status is 0 where all is
   as it should be. */
#include "selqumar_arrow.h"
#include <inttypes.h>
#include <pthread.h>
#include <stdio.h>
#include <stdlib.h>
#include <string.h>

enum { MOST_FILES = 16, ROOM = 1 << 20, TIMES = 1000, UNTOUCHED = 12345, STACK = 128 << 10 };

/* What `refusals.c` understands. */
static const size_t ALONE = (size_t)1 << 62, AND_ALL_BEHIND = (size_t)1 << 32, WAS_NONE_REFUSED = (size_t)1 << 61, KEEP_IN_MIND = (size_t)1 << 60,
                    ARE_AS_MANY = ((size_t)1 << 60) + 1;

static struct selqumar_bytes files[MOST_FILES];
static size_t count;
static const char *name, *query;

struct answer {
  uint32_t status;
  size_t needed;
  uint8_t *out;
};

/* Puts a text where a call without a writer would. */
static void put(void *state, uint32_t status, const uint8_t *text, size_t length) {
  struct answer *answer = (struct answer *)state;
  answer->status = status;
  answer->needed = length;
  memcpy(answer->out, text, length);
}

/* Calls the function on a table and on a snapshot of it. */
static uint32_t call_on_open(struct selqumar_handle *handle, struct selqumar_snapshot *snapshot, struct answer *answer) {
  const uint8_t *text = (const uint8_t *)query;
  const size_t length = strlen(query);
  if (!strcmp(name, "open_stats"))
    return selqumar_open_stats(handle, 1, answer->out, ROOM, &answer->needed);
  if (!strcmp(name, "open_export"))
    return selqumar_open_export(handle, answer->out, ROOM, &answer->needed);
  if (!strcmp(name, "open_query"))
    return selqumar_open_query(handle, text, length, answer->out, ROOM, &answer->needed);
  if (!strcmp(name, "open_stats_to"))
    return selqumar_open_stats_to(handle, 1, put, answer);
  if (!strcmp(name, "open_export_to"))
    return selqumar_open_export_to(handle, put, answer);
  if (!strcmp(name, "open_query_to"))
    return selqumar_open_query_to(handle, text, length, put, answer);
  if (!strcmp(name, "snapshot_stats_to"))
    return selqumar_snapshot_stats_to(snapshot, 1, put, answer);
  if (!strcmp(name, "snapshot_export_to"))
    return selqumar_snapshot_export_to(snapshot, put, answer);
  return selqumar_snapshot_query_to(snapshot, text, length, put, answer);
}

/* Opens a table of the files, opens another in its place, calls the function on that one, or on a snapshot of it, and closes both. */
static void call_on_table(struct answer *answer) {
  struct selqumar_handle handle = SELQUMAR_CLOSED;
  struct selqumar_snapshot snapshot = SELQUMAR_CLOSED;
  answer->status = SELQUMAR_GIVEN;
  for (int time = 0; time < 2 && answer->status == SELQUMAR_GIVEN; time++) {
    answer->needed = UNTOUCHED;
    answer->status = selqumar_open(files, count, &handle, answer->out, ROOM, &answer->needed);
  }
  if (answer->status == SELQUMAR_GIVEN) {
    answer->needed = UNTOUCHED;
    answer->status = selqumar_snapshot_open(&handle, &snapshot);
  }
  if (answer->status == SELQUMAR_GIVEN) {
    answer->status = call_on_open(&handle, &snapshot, answer);
    if (!handle.is_open || !snapshot.is_open)
      answer->status = SELQUMAR_NOT_OPEN;
  }
  selqumar_snapshot_close(&snapshot);
  selqumar_close(&handle);
}

static struct selqumar_bytes text(const char *text) {
  struct selqumar_bytes bytes = {(const uint8_t *)text, strlen(text)};
  return bytes;
}

/* Hands a table's batches on to another, and gives the statistics of that one. */
static uint32_t hand_on(struct selqumar_handle *handle, struct answer *answer) {
  struct selqumar_handle other = SELQUMAR_CLOSED;
  struct ArrowArrayStream stream;
  uint64_t batches, rows;
  uint32_t status = selqumar_arrow_stream(handle, &stream);
  if (status == SELQUMAR_GIVEN)
    status = selqumar_arrow_open_stream(&other, 0, &stream, &batches, &rows, answer->out, ROOM, &answer->needed);
  if (status == SELQUMAR_GIVEN)
    status = selqumar_open_stats(&other, 1, answer->out, ROOM, &answer->needed);
  selqumar_close(&other);
  return status;
}

/* Makes a table of an answer over a snapshot, and gives the statistics of that one. */
static uint32_t ask(struct selqumar_handle *handle, struct answer *answer) {
  static const char sums[] = "{\"by\":[\"t\"],\"aggs\":[{\"agg\":\"sum\",\"column\":\"n\"}]}";
  struct selqumar_handle other = SELQUMAR_CLOSED;
  struct selqumar_snapshot snapshot = SELQUMAR_CLOSED;
  uint32_t status = selqumar_snapshot_open(handle, &snapshot);
  if (status == SELQUMAR_GIVEN)
    status = selqumar_answer(&snapshot, (const uint8_t *)sums, sizeof sums - 1, &other, answer->out, ROOM, &answer->needed);
  if (status == SELQUMAR_GIVEN)
    status = selqumar_open_stats(&other, 1, answer->out, ROOM, &answer->needed);
  selqumar_snapshot_close(&snapshot);
  selqumar_close(&other);
  return status;
}

/* Makes a table, appends to it, changes it in each way there is, asks it, and hands it on: up to the step that isn't given. A fault of an append stands between. */
static uint32_t steps(struct selqumar_handle *handle, struct answer *answer) {
  static const uint8_t numbers[] = {1, 2, 3, 4}, ends[] = {0, 0, 0, 0, 1, 0, 0, 0, 1, 0, 0, 0, 3, 0, 0, 0}, valid[] = {5};
  const struct selqumar_bytes number = {numbers, 3}, offsets = {ends, sizeof ends}, bits = {valid, 1};
  struct selqumar_node nodes[] = {
    {.format = text("c"), .name = text("n"), .nullable = 1, .length = 3, .null_count = 1, .validity = bits, .first = number},
    {.format = text("u"), .name = text("t"), .nullable = 1, .length = 3, .null_count = UINT64_MAX, .first = offsets, .second = text("xyz")},
    {.format = text("+l"), .name = text("l"), .nullable = 1, .children = 1, .length = 3, .first = offsets},
    {.format = text("b"), .name = text("item"), .nullable = 1, .length = 3, .first = bits},
  };
  struct selqumar_node added = {.format = text("u"), .name = text("more"), .nullable = 1};
  uint8_t *out = answer->out;
  size_t *needed = &answer->needed;
  uint32_t status = selqumar_new(nodes, 4, handle, out, ROOM, needed);
  for (uint32_t worker = 0; status == SELQUMAR_GIVEN && worker < 3; worker++)
    status = selqumar_append(handle, worker, 3, nodes, 4, out, ROOM, needed);
  if (status == SELQUMAR_GIVEN && (status = selqumar_append(handle, 0, 4, nodes, 4, out, ROOM, needed)) == SELQUMAR_FAULT)
    status = SELQUMAR_GIVEN;
  if (status == SELQUMAR_GIVEN)
    status = selqumar_add_column(handle, &added, 1, out, ROOM, needed);
  if (status == SELQUMAR_GIVEN)
    status = selqumar_compact(handle, 5, out, ROOM, needed);
  if (status == SELQUMAR_GIVEN)
    status = hand_on(handle, answer);
  if (status == SELQUMAR_GIVEN)
    status = ask(handle, answer);
  return status == SELQUMAR_GIVEN ? selqumar_open_stats(handle, 3, out, ROOM, needed) : status;
}

/* The steps, over a table that is open, and twice. What memory stopped has printed nothing. */
static void call_on_nodes(struct answer *answer) {
  struct selqumar_handle handle = SELQUMAR_CLOSED;
  answer->status = steps(&handle, answer);
  if (answer->status == SELQUMAR_GIVEN)
    answer->status = steps(&handle, answer);
  selqumar_close(&handle);
  if (answer->status == SELQUMAR_NO_MEMORY) {
    memset(answer->out, 0xA5, ROOM);
    answer->needed = UNTOUCHED;
  }
}

/* Calls the function, over a buffer that it finds filled. */
static void call(struct answer *answer) {
  memset(answer->out, 0xA5, ROOM);
  answer->needed = UNTOUCHED;
  if (!strcmp(name, "nodes"))
    call_on_nodes(answer);
  else if (!strncmp(name, "open_", 5) || !strncmp(name, "snapshot_", 9))
    call_on_table(answer);
  else if (!strcmp(name, "stats_to"))
    answer->status = selqumar_stats_to(files, count, put, answer);
  else if (!strcmp(name, "export_to"))
    answer->status = selqumar_export_to(files, count, put, answer);
  else if (!strcmp(name, "query_to"))
    answer->status = selqumar_query_to(files, count, (const uint8_t *)query, strlen(query), put, answer);
  else if (!strcmp(name, "stats"))
    answer->status = selqumar_stats(files, count, answer->out, ROOM, &answer->needed);
  else if (!strcmp(name, "export"))
    answer->status = selqumar_export(files, count, answer->out, ROOM, &answer->needed);
  else if (!strcmp(name, "validate"))
    answer->status = selqumar_validate(files, count, answer->out, ROOM, &answer->needed);
  else
    answer->status = selqumar_query(files, count, (const uint8_t *)query, strlen(query), answer->out, ROOM, &answer->needed);
}

static int is_same(const struct answer *one, const struct answer *other) {
  return one->status == other->status && one->needed == other->needed && !memcmp(one->out, other->out, ROOM);
}

/* Asks for so many bytes, and gives back what it got. Whether it got any. */
static int granted(size_t bytes) {
  void *volatile block = malloc(bytes);
  free(block);
  return block != 0;
}

static int read_file(const char *path) {
  FILE *file = fopen(path, "rb");
  static uint8_t bytes[ROOM];
  if (!file || count == MOST_FILES)
    return 0;
  size_t length = fread(bytes, 1, ROOM, file);
  fclose(file);
  uint8_t *data = malloc(length + 1);
  memcpy(data, bytes, length);
  files[count++] = (struct selqumar_bytes){data, length};
  return 1;
}

/* With each request refused, alone and with all behind it, a call gives its answer or says that memory ran out. */
static int refused(struct answer *right, struct answer *other, struct answer *none) {
  for (int on = 0; on < 2; on++) {
    for (size_t number = 1;; number++) {
      granted(ALONE + (on ? AND_ALL_BEHIND : 0) + number);
      call(other);
      if (granted(WAS_NONE_REFUSED)) {
        if (number < 10 || !is_same(other, right))
          return printf("request %zu was not met\n", number), 1;
        break;
      }
      if (!is_same(other, right) && !is_same(other, none))
        return printf("request %zu: status %u\n", number, other->status), 1;
    }
  }
  return 0;
}

/* After a thousand calls as many blocks of memory are in use as after one. */
static int repeated(struct answer *right, struct answer *other) {
  if (granted(KEEP_IN_MIND))
    return printf("refusals.c isn't loaded, or is another\n"), 1;
  for (int time = 0; time < TIMES; time++) {
    call(other);
    if (!is_same(other, right))
      return printf("call %d gives another answer\n", time), 1;
  }
  return granted(ARE_AS_MANY) ? 0 : (printf("another number of blocks is in use\n"), 1);
}

static void *call_in_thread(void *answer) {
  call(answer);
  return NULL;
}

/* A thread with as much stack as the header says comes to the same answer. */
static int stack(struct answer *right, struct answer *other) {
  pthread_t thread;
  pthread_attr_t small;
  pthread_attr_init(&small);
  if (pthread_attr_setstacksize(&small, STACK) || pthread_create(&thread, &small, call_in_thread, other) || pthread_join(thread, NULL))
    return printf("there is no thread\n"), 1;
  return is_same(other, right) ? 0 : (printf("another answer\n"), 1);
}

/* With no files, a file without bytes, no query and no room, null is as good as an address. */
static int nulls(struct answer *right, struct answer *other) {
  static uint8_t nowhere[16];
  struct selqumar_bytes empty = {nowhere, 0}, none = {NULL, 0};
  size_t needed = 0, also = 0;
  selqumar_close(NULL);
  for (count = 0; count < 3; count++) {
    for (size_t i = 0; i < count; i++)
      files[i] = i ? files[i] : empty;
    call(right);
    files[0] = count ? none : files[0];
    call(other);
    if (!is_same(other, right))
      return printf("%zu files: another answer\n", count), 1;
  }
  struct selqumar_handle one = SELQUMAR_CLOSED, two = SELQUMAR_CLOSED;
  if (selqumar_open(NULL, 0, &one, NULL, 0, &needed) || selqumar_open((const struct selqumar_bytes *)nowhere, 0, &two, nowhere, 0, &also) || needed || also)
    return printf("no files aren't opened\n"), 1;
  uint32_t statuses[][2] = {
      {selqumar_open_stats(&one, 1, NULL, 0, &needed), selqumar_open_stats(&two, 1, nowhere, 0, &also)},
      {selqumar_open_export(&one, NULL, 0, &needed), selqumar_open_export(&two, nowhere, 0, &also)},
      {selqumar_open_query(&one, NULL, 0, NULL, 0, &needed), selqumar_open_query(&two, nowhere, 0, nowhere, 0, &also)},
      {selqumar_stats(NULL, 0, NULL, 0, &needed), selqumar_stats((const struct selqumar_bytes *)nowhere, 0, nowhere, 0, &also)},
      {selqumar_export(NULL, 0, NULL, 0, &needed), selqumar_export((const struct selqumar_bytes *)nowhere, 0, nowhere, 0, &also)},
      {selqumar_query(NULL, 0, NULL, 0, NULL, 0, &needed), selqumar_query((const struct selqumar_bytes *)nowhere, 0, nowhere, 0, nowhere, 0, &also)},
      {selqumar_validate(NULL, 0, NULL, 0, &needed), selqumar_validate((const struct selqumar_bytes *)nowhere, 0, nowhere, 0, &also)},
  };
  for (size_t i = 0; i < sizeof statuses / sizeof *statuses; i++)
    if (statuses[i][0] != statuses[i][1])
      return printf("call %zu: status %u and %u\n", i, statuses[i][0], statuses[i][1]), 1;
  selqumar_close(&one);
  selqumar_close(&two);
  selqumar_close(&two);
  return needed == also ? 0 : (printf("another length\n"), 1);
}

/* Prints what a line of a fault says. */
static int told(const char *line) {
  struct selqumar_fault fault;
  const int is_fault = selqumar_fault_of((const uint8_t *)line, strlen(line), &fault);
  const uint64_t places[] = {fault.file, fault.batch, fault.column, fault.row};
  printf("%d %c%u", is_fault, fault.group ? (int)fault.group : '-', (unsigned)fault.number);
  for (size_t i = 0; i < 4; i++)
    printf(places[i] == SELQUMAR_NOWHERE ? " -" : " %" PRIu64, places[i]);
  printf("\n");
  return 0;
}

int main(int words, char **word) {
  struct answer right = {0, 0, malloc(ROOM)}, other = {0, 0, malloc(ROOM)}, none = {SELQUMAR_NO_MEMORY, UNTOUCHED, malloc(ROOM)};
  if (words < 3)
    return 2;
  if (!strcmp(word[1], "fault"))
    return told(word[2]);
  name = word[2];
  query = getenv("QUERY");
  for (int i = 3; i < words; i++)
    if (!read_file(word[i]))
      return 2;
  memset(none.out, 0xA5, ROOM);
  call(&right);
  if (!strcmp(word[1], "stack"))
    return stack(&right, &other);
  if (!strcmp(word[1], "nulls"))
    return nulls(&right, &other);
  return strcmp(word[1], "refused") ? repeated(&right, &other) : refused(&right, &other, &none);
}
