/* What producers of Arrow's C data interface may do that no producer should: see `library_hostile.py`.

     hostile CASE

   It prints the status of each call, and the line of a fault. Blocks of memory are exactly as long as the interface promises, so that sanitizers see each
   byte that is read past them. */
#include "selqumar_arrow.h"
#include <errno.h>
#include <pthread.h>
#include <stdio.h>
#include <stdlib.h>
#include <string.h>

enum { THREADS = 3, ROUNDS = 2000, DEEP = 1000000, ROOM = 256 };

static uint8_t out[ROOM];
static size_t needed;
static struct selqumar_handle table = SELQUMAR_CLOSED;

static void release_schema(struct ArrowSchema *schema) {
  schema->release = NULL;
}

static void release_array(struct ArrowArray *array) {
  array->release = NULL;
}

static struct ArrowSchema field(const char *format, int64_t count, struct ArrowSchema **children, struct ArrowSchema *dictionary) {
  struct ArrowSchema made = {format, "a", NULL, ARROW_FLAG_NULLABLE, count, children, dictionary, release_schema, NULL};
  return made;
}

static struct ArrowArray slots(int64_t length, int64_t buffer_count, const void **buffers, int64_t count, struct ArrowArray **children) {
  struct ArrowArray made = {length, -1, 0, buffer_count, count, buffers, children, NULL, release_array, NULL};
  return made;
}

/* A block that is as long as these bytes, and not a byte longer. */
static void *block(const void *bytes, size_t length) {
  void *made = malloc(length ? length : 1);
  memcpy(made, bytes, length);
  /* Of an address without a byte behind it nothing may be read. */
  return length ? made : (uint8_t *)made + 1;
}

#define BLOCK(...) block((__VA_ARGS__), sizeof(__VA_ARGS__))

static void show(uint32_t status) {
  printf("%u%s%.*s", status, status == SELQUMAR_FAULT ? " " : "\n", status == SELQUMAR_FAULT ? (int)needed : 0, (const char *)out);
}

static uint64_t rows_of(const struct selqumar_handle *handle) {
  struct selqumar_handle asked = *handle;
  memset(out, 0, sizeof out);
  if (selqumar_open_stats(&asked, 0, out, sizeof out, &needed) != SELQUMAR_GIVEN)
    return 0;
  return strtoull((const char *)out + strlen("rows "), NULL, 10);
}

/* ---- parts that most cases change: one column of four numbers */

static const void *no_validity[1], *number_buffers[2];
static struct ArrowSchema number, *columns[1] = {&number}, schema;
static struct ArrowArray numbers, *arrays[1] = {&numbers}, batch;

static void begin(void) {
  number_buffers[1] = BLOCK((int32_t[]){1, 2, 3, 4});
  number = field("i", 0, NULL, NULL);
  schema = field("+s", 1, columns, NULL);
  numbers = slots(4, 2, number_buffers, 0, NULL);
  batch = slots(4, 1, no_validity, 1, arrays);
}

static void open_table(void) {
  show(selqumar_arrow_new(&schema, &table, out, sizeof out, &needed));
}

static void append(void) {
  show(selqumar_arrow_append(&table, 0, &schema, &batch, out, sizeof out, &needed));
}

/* The column has this field and this array, of so many rows, from here on. */
static void of_column(struct ArrowSchema made, struct ArrowArray array) {
  number = made;
  numbers = array;
  batch.length = array.length;
}

/* ---- what was released */

static void released_schema(void) {
  schema.release = NULL;
  open_table();
}

static void released_field(void) {
  number.release = NULL;
  open_table();
}

static void released_array(void) {
  open_table();
  free((void *)number_buffers[1]);
  batch.release = NULL;
  append();
}

static void released_column(void) {
  open_table();
  free((void *)number_buffers[1]);
  numbers.release = NULL;
  append();
}

static void released_dictionary(void) {
  static struct ArrowSchema texts;
  static struct ArrowArray words;
  const void *buffers[3] = {NULL, BLOCK((int32_t[]){0, 1}), BLOCK("x")};
  texts = field("u", 0, NULL, NULL);
  words = slots(1, 3, buffers, 0, NULL);
  number.dictionary = &texts;
  numbers.dictionary = &words;
  words.release = NULL;
  append();
}

/* ---- what a schema says of its children */

static void fewer_children(void) {
  schema.n_children = -1;
  open_table();
}

static void absent_children(void) {
  schema.children = NULL;
  open_table();
}

static void null_child(void) {
  columns[0] = NULL;
  open_table();
}

static void countless_children(void) {
  schema.n_children = (int64_t)1 << 62;
  open_table();
}

static void list_without_children(void) {
  number = field("+l", 1, NULL, NULL);
  open_table();
}

static void list_of_null(void) {
  static struct ArrowSchema *none[1];
  number = field("+l", 1, none, NULL);
  open_table();
}

static void list_of_two(void) {
  static struct ArrowSchema item, *two[2] = {&item, &item};
  item = field("i", 0, NULL, NULL);
  number = field("+l", 2, two, NULL);
  open_table();
}

static void list_of_fewer(void) {
  number = field("+l", -1, NULL, NULL);
  open_table();
}

static void list_of_countless(void) {
  static struct ArrowSchema item, *one[1] = {&item};
  item = field("i", 0, NULL, NULL);
  number = field("+l", (int64_t)1 << 62, one, NULL);
  open_table();
}

static void list_with_dictionary(void) {
  static struct ArrowSchema texts, item, inner, *items[1] = {&item}, *inners[1] = {&inner};
  texts = field("u", 0, NULL, NULL);
  item = field("i", 0, NULL, NULL);
  inner = field("+l", 1, items, NULL);
  number = field("+l", 1, inners, &texts);
  open_table();
}

static void dictionary_in_list(void) {
  static struct ArrowSchema texts, item, *items[1] = {&item};
  texts = field("u", 0, NULL, NULL);
  item = field("i", 0, NULL, &texts);
  number = field("+l", 1, items, NULL);
  open_table();
}

static void dictionary_of_dictionary(void) {
  static struct ArrowSchema texts, inner;
  texts = field("u", 0, NULL, NULL);
  inner = field("i", 0, NULL, &texts);
  number = field("i", 0, NULL, &inner);
  open_table();
}

static void depth(void) {
  struct ArrowSchema *chain = (struct ArrowSchema *)calloc(DEEP, sizeof *chain), **places = (struct ArrowSchema **)calloc(DEEP, sizeof *places);
  for (size_t level = 0; level < DEEP; level++) {
    places[level] = &chain[level + 1 < DEEP ? level + 1 : level];
    chain[level] = field("+l", 1, &places[level], NULL);
  }
  columns[0] = chain;
  open_table();
  free(chain);
  free(places);
}

static void itself(void) {
  number = field("+l", 1, columns, &number);
  open_table();
}

static void no_format(void) {
  number.format = NULL;
  number.name = NULL;
  open_table();
}

/* ---- what an array says of its buffers */

static void no_children_in_array(void) {
  open_table();
  batch.children = NULL;
  append();
}

static void no_buffers(void) {
  open_table();
  numbers.buffers = NULL;
  append();
}

static void fewer_buffers(void) {
  open_table();
  numbers.n_buffers = -1;
  append();
}

static void texts_of(const void *offsets, const void *bytes, int64_t rows) {
  static const void *buffers[3];
  buffers[1] = offsets;
  buffers[2] = bytes;
  of_column(field("u", 0, NULL, NULL), slots(rows, 3, buffers, 0, NULL));
  open_table();
  append();
}

static void offsets_of_no_byte(void) {
  texts_of(block("", 0), block("", 0), 0);
}

static void offsets_below_0(void) {
  texts_of(BLOCK((int32_t[]){-1, 0}), BLOCK("x"), 1);
}

static void offsets_that_decrease(void) {
  texts_of(BLOCK((int32_t[]){1, 3, 2, 4}), block("xyzw", 4), 3);
}

static void offsets_that_end_before(void) {
  texts_of(BLOCK((int32_t[]){3, 1}), block("xyz", 3), 1);
}

static void texts_that_are_absent(void) {
  texts_of(BLOCK((int32_t[]){0, 3}), NULL, 1);
}

static void offsets_past_memory(void) {
  static const void *buffers[3];
  buffers[1] = BLOCK((int64_t[]){0, INT64_MAX});
  buffers[2] = block("x", 1);
  of_column(field("U", 0, NULL, NULL), slots(1, 3, buffers, 0, NULL));
  open_table();
  append();
}

static void lists_of(const void *offsets, int64_t rows, const void *items, int64_t item_count) {
  static const void *buffers[2], *item_buffers[2];
  static struct ArrowSchema item, *items_of[1] = {&item};
  static struct ArrowArray values, *inside[1] = {&values};
  buffers[1] = offsets;
  item_buffers[1] = items;
  item = field("c", 0, NULL, NULL);
  values = slots(item_count, 2, item_buffers, 0, NULL);
  of_column(field("+l", 1, items_of, NULL), slots(rows, 2, buffers, 1, inside));
  open_table();
  append();
}

static void lists_past_their_items(void) {
  lists_of(BLOCK((int32_t[]){0, 5}), 1, block("abc", 3), 3);
}

static void lists_that_begin_past_their_items(void) {
  lists_of(BLOCK((int32_t[]){4, 5}), 1, block("abc", 3), 3);
}

static void lists_without_a_row(void) {
  lists_of(block("", 0), 0, block("abc", 3), 3);
}

static void items_below_0(void) {
  lists_of(BLOCK((int32_t[]){0, 2}), 1, block("abc", 3), -3);
}

static void index_past_dictionary(void) {
  static struct ArrowSchema texts;
  static struct ArrowArray words;
  static const void *buffers[3];
  buffers[1] = BLOCK((int32_t[]){0, 1, 2});
  buffers[2] = block("xy", 2);
  texts = field("u", 0, NULL, NULL);
  words = slots(2, 3, buffers, 0, NULL);
  of_column(field("i", 0, NULL, &texts), slots(4, 2, number_buffers, 0, NULL));
  numbers.dictionary = &words;
  open_table();
  append();
}

static void dictionary_below_0(void) {
  static struct ArrowSchema texts;
  static struct ArrowArray words;
  static const void *buffers[3];
  texts = field("u", 0, NULL, NULL);
  words = slots(-1, 3, buffers, 0, NULL);
  number.dictionary = &texts;
  numbers.dictionary = &words;
  open_table();
  append();
}

/* ---- streams */

struct source {
  int left, code;
  const char *text;
};

static int get_schema(struct ArrowArrayStream *stream, struct ArrowSchema *made) {
  (void)stream;
  *made = schema;
  return 0;
}

static int get_next(struct ArrowArrayStream *stream, struct ArrowArray *made) {
  struct source *source = (struct source *)stream->private_data;
  if (!source->left--)
    return source->code;
  *made = batch;
  return 0;
}

static const char *get_last_error(struct ArrowArrayStream *stream) {
  return ((struct source *)stream->private_data)->text;
}

static int releases;

static void release_stream(struct ArrowArrayStream *stream) {
  __atomic_add_fetch(&releases, 1, __ATOMIC_RELAXED);
  stream->release = NULL;
}

static struct ArrowArrayStream stream_of(struct source *source) {
  struct ArrowArrayStream made = {get_schema, get_next, get_last_error, release_stream, source};
  return made;
}

static void append_stream(struct ArrowArrayStream *stream, size_t room) {
  uint64_t batches, rows;
  show(selqumar_arrow_append_stream(&table, 0, stream, &batches, &rows, out, room, &needed));
  printf("%u batches, %u rows, %d released\n", (unsigned)batches, (unsigned)rows, releases);
}

static void stream_twice(void) {
  struct source source = {2, 0, NULL};
  struct ArrowArrayStream stream = stream_of(&source);
  open_table();
  append_stream(&stream, sizeof out);
  append_stream(&stream, sizeof out);
}

static void own_stream_twice(void) {
  struct ArrowArrayStream stream;
  struct selqumar_handle other = SELQUMAR_CLOSED;
  uint64_t batches, rows;
  open_table();
  append();
  show(selqumar_arrow_stream(&table, &stream));
  for (int time = 0; time < 2; time++)
    show(selqumar_arrow_open_stream(&other, 0, &stream, &batches, &rows, out, sizeof out, &needed));
  selqumar_close(&other);
}

static void *append_in_thread(void *stream) {
  struct selqumar_handle other = SELQUMAR_CLOSED;
  uint8_t line[ROOM] = {0};
  uint64_t batches = 0, rows = 0;
  size_t length = 0;
  selqumar_arrow_open_stream(&other, 0, (struct ArrowArrayStream *)stream, &batches, &rows, line, sizeof line, &length);
  selqumar_close(&other);
  return (void *)(uintptr_t)rows;
}

/* Each of many streams is read by one of the threads that take it. */
static void stream_in_threads(void) {
  int once = 0;
  for (int round = 0; round < ROUNDS; round++) {
    struct source source = {2, 0, NULL};
    struct ArrowArrayStream stream = stream_of(&source);
    pthread_t threads[THREADS];
    uint64_t rows = 0;
    for (int place = 0; place < THREADS; place++)
      pthread_create(&threads[place], NULL, append_in_thread, &stream);
    for (int place = 0; place < THREADS; place++) {
      void *read;
      pthread_join(threads[place], &read);
      rows += (uintptr_t)read;
    }
    once += rows == 8;
  }
  printf("%d of %d streams were read once, %d released\n", once, ROUNDS, releases);
}

static void failure(const char *text, int code, size_t room) {
  struct source source = {1, code, text};
  struct ArrowArrayStream stream = stream_of(&source);
  open_table();
  append_stream(&stream, room);
}

static void failure_with_a_text(void) {
  failure("the disk\nis on fire", EIO, sizeof out);
}

#define E "\u00e9\u00e9\u00e9\u00e9"

static void failure_with_a_long_text(void) {
  /* The room ends within a character. */
  failure(E E E E E E E E E E, EIO, 96);
}

static void failure_without_a_text(void) {
  failure(NULL, -1, sizeof out);
}

static void failure_for_want_of_memory(void) {
  failure("none", ENOMEM, sizeof out);
}

static void batch_of_a_stream_that_is_refused(void) {
  struct source source = {2, 0, NULL};
  struct ArrowArrayStream stream = stream_of(&source);
  open_table();
  numbers.length = 3;
  append_stream(&stream, sizeof out);
}

static void short_buffer(void) {
  open_table();
  numbers.length = 3;
  show(selqumar_arrow_append(&table, 0, &schema, &batch, NULL, 0, &needed));
  printf("%zu bytes\n", needed);
}

/* ---- calls that only look */

enum { LOOKERS = 4, LOOKS = 300 };

/* What a thread sees of the table and of a snapshot of it: all texts, one behind the other, and how many rows its stream has. */
struct looks {
  const struct selqumar_handle *table;
  const struct selqumar_snapshot *snapshot;
  uint8_t text[4096];
  size_t length;
  uint32_t statuses;
};

static void add_text(void *state, uint32_t status, const uint8_t *text, size_t length) {
  struct looks *looks = (struct looks *)state;
  (void)status;
  memcpy(looks->text + looks->length, text, length);
  looks->length += length;
}

static void look_once(struct looks *looks) {
  static const uint8_t query[] = "{\"by\":[\"a\"],\"aggs\":[{\"agg\":\"sum\",\"column\":\"a\"}]}";
  struct selqumar_snapshot taken = SELQUMAR_CLOSED, copy = SELQUMAR_CLOSED;
  struct selqumar_handle answer = SELQUMAR_CLOSED;
  struct selqumar_node nodes[1];
  uint8_t room[ROOM] = {0};
  uint32_t rows = 0;
  size_t count = 0;
  looks->statuses |= selqumar_open_stats_to(looks->table, 1, add_text, looks) | selqumar_open_export_to(looks->table, add_text, looks) |
                     selqumar_open_query_to(looks->table, query, sizeof query - 1, add_text, looks) | selqumar_snapshot_open(looks->table, &taken) |
                     selqumar_snapshot_share(looks->snapshot, &copy) | selqumar_snapshot_stats_to(looks->snapshot, 1, add_text, looks) |
                     selqumar_snapshot_export_to(looks->snapshot, add_text, looks) |
                     selqumar_snapshot_query_to(looks->snapshot, query, sizeof query - 1, add_text, looks) |
                     selqumar_answer(looks->snapshot, query, sizeof query - 1, &answer, room, sizeof room, &count) |
                     selqumar_lend(looks->snapshot, 0, &rows, nodes, 1, &count) | selqumar_lend_fields(looks->snapshot, nodes, 1, &count) |
                     selqumar_batch_count(looks->snapshot, &count);
  add_text(looks, 0, (const uint8_t *)&rows, sizeof rows);
  selqumar_snapshot_close(&taken);
  selqumar_snapshot_close(&copy);
  selqumar_close(&answer);
}

static void *look(void *state) {
  struct looks *looks = (struct looks *)state, now = *looks;
  for (int time = 0; time < LOOKS; time++) {
    now.length = 0;
    look_once(&now);
    looks->statuses |= now.statuses | (now.length != looks->length || memcmp(now.text, looks->text, now.length));
  }
  return NULL;
}

/* Several threads look at one table and one snapshot at once: each sees what one sees alone. */
static void lookers(void) {
  struct selqumar_snapshot snapshot = SELQUMAR_CLOSED;
  struct looks looks[LOOKERS] = {{0}};
  pthread_t threads[LOOKERS];
  uint32_t statuses = 0;
  open_table();
  append();
  append();
  show(selqumar_snapshot_open(&table, &snapshot));
  for (int place = 0; place < LOOKERS; place++) {
    looks[place].table = &table;
    looks[place].snapshot = &snapshot;
    look_once(&looks[place]);
    pthread_create(&threads[place], NULL, look, &looks[place]);
  }
  for (int place = 0; place < LOOKERS; place++) {
    pthread_join(threads[place], NULL);
    statuses |= looks[place].statuses;
  }
  printf("%u, and %d\n", (unsigned)statuses, looks[0].length > ROOM);
  selqumar_snapshot_close(&snapshot);
}

/* ---- slices */

/* Texts, large texts, lists and dictionaries in slices: so many bytes stay taken, and each slice has its rows. */
static void slices(void) {
  enum { ROWS = 4096, SLICES = 64 };
  static struct ArrowSchema item, texts, *items_of[1] = {&item};
  static struct ArrowArray values, words, *inside[1] = {&values};
  int32_t *narrow = (int32_t *)malloc((ROWS + 1) * sizeof *narrow), *indices = (int32_t *)malloc(ROWS * sizeof *indices);
  int64_t *wide = (int64_t *)malloc((ROWS + 1) * sizeof *wide);
  char *bytes = (char *)calloc(ROWS, 10);
  const void *of_texts[3] = {NULL, narrow, bytes}, *of_wide[3] = {NULL, wide, bytes}, *of_indices[2] = {NULL, indices}, *of_items[2] = {NULL, bytes};
  for (int row = 0; row <= ROWS; row++)
    wide[row] = narrow[row] = 10 * row;
  for (int row = 0; row < ROWS; row++)
    indices[row] = row;
  memset(bytes, 'x', (size_t)10 * ROWS);
  item = field("c", 0, NULL, NULL);
  texts = field("u", 0, NULL, NULL);
  values = slots(10 * ROWS, 2, of_items, 0, NULL);
  words = slots(ROWS, 3, of_texts, 0, NULL);
  for (int kind = 0; kind < 4; kind++) {
    const struct ArrowSchema fields[] = {field("u", 0, NULL, NULL), field("U", 0, NULL, NULL), field("+l", 1, items_of, NULL), field("i", 0, NULL, &texts)};
    const struct ArrowArray all[] = {slots(ROWS, 3, of_texts, 0, NULL), slots(ROWS, 3, of_wide, 0, NULL), slots(ROWS, 2, of_texts, 1, inside), slots(ROWS, 2, of_indices, 0, NULL)};
    of_column(fields[kind], all[kind]);
    numbers.dictionary = kind == 3 ? &words : NULL;
    open_table();
    for (int slice = 0; slice < SLICES; slice++) {
      numbers.length = batch.length = ROWS / SLICES;
      numbers.offset = slice * ROWS / SLICES;
      if (selqumar_arrow_append(&table, 0, &schema, &batch, out, sizeof out, &needed) != SELQUMAR_GIVEN)
        show(SELQUMAR_FAULT);
    }
    printf("%u rows\n", (unsigned)rows_of(&table));
  }
  free(narrow);
  free(wide);
  free(indices);
  free(bytes);
}

#define CASE(name) {#name, name}

static const struct {
  const char *name;
  void (*run)(void);
} cases[] = {
  CASE(released_schema), CASE(released_field), CASE(released_array), CASE(released_column), CASE(released_dictionary), CASE(fewer_children), CASE(absent_children),
  CASE(null_child), CASE(countless_children), CASE(list_without_children), CASE(list_of_null), CASE(list_of_two), CASE(list_of_fewer), CASE(list_of_countless),
  CASE(list_with_dictionary), CASE(dictionary_in_list), CASE(dictionary_of_dictionary), CASE(depth), CASE(itself), CASE(no_format), CASE(no_children_in_array),
  CASE(no_buffers), CASE(fewer_buffers), CASE(offsets_of_no_byte), CASE(offsets_below_0), CASE(offsets_that_decrease), CASE(offsets_that_end_before),
  CASE(texts_that_are_absent), CASE(offsets_past_memory), CASE(lists_past_their_items), CASE(lists_that_begin_past_their_items), CASE(lists_without_a_row),
  CASE(items_below_0), CASE(index_past_dictionary), CASE(dictionary_below_0), CASE(stream_twice), CASE(own_stream_twice), CASE(stream_in_threads),
  CASE(failure_with_a_text), CASE(failure_with_a_long_text), CASE(failure_without_a_text), CASE(failure_for_want_of_memory), CASE(batch_of_a_stream_that_is_refused),
  CASE(short_buffer), CASE(lookers), CASE(slices),
};

int main(int words, char **word) {
  for (size_t place = 0; words == 2 && place < sizeof cases / sizeof *cases; place++) {
    if (strcmp(word[1], cases[place].name))
      continue;
    begin();
    cases[place].run();
    selqumar_close(&table);
    return 0;
  }
  return 2;
}
