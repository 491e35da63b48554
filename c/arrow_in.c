/* Batches of Arrow's C data interface as nodes of a call. */
#include "selqumar_arrow.h"

#include <errno.h>
#include <inttypes.h>
#include <stdio.h>
#include <stdlib.h>
#include <string.h>

/* More lists in one another than a table has; the library refuses them by the nodes that it gets. */
enum { MOST_LEVELS = 16 };

/* No length or offset of a batch in memory is as large, and no schema has as many columns. */
static const int64_t MOST = (int64_t)1 << 48, MOST_COLUMNS = (int64_t)1 << 31;

/* Nodes in the making, and the blocks that were made for them: at most two of a node. */
struct nodes {
  struct selqumar_node *nodes;
  void **blocks;
  size_t room, count, block_count, column;
  /* What stands against the batch, without its place; none where memory ran out. */
  const char *fault;
};

/* So many slots of an array, from one on; none of no array, where only fields are named. So many of them are null, or any number below 0. */
struct slots {
  const struct ArrowArray *array;
  int64_t start, length, null_count;
};

static bool stopped(struct nodes *made, const char *fault) {
  made->fault = fault;
  return false;
}

/* Bytes that are handed on; none where there is no address. */
static struct selqumar_bytes lent(const void *data, int64_t length) {
  const struct selqumar_bytes bytes = {(const uint8_t *)data, data ? (size_t)length : 0};
  return bytes;
}

static struct selqumar_bytes text_of(const char *text) {
  return lent(text, text ? (int64_t)strlen(text) : 0);
}

/* A block for a node; none where memory is refused. */
static void *block_of(struct nodes *made, size_t length) {
  void *block = malloc(length);
  if (block)
    made->blocks[made->block_count++] = block;
  return block;
}

static bool is_list(const char *format) {
  return format && (!strcmp(format, "+l") || !strcmp(format, "+L"));
}

/* Of a format of one letter how many bytes a number of it has, or an offset; of lists how many an offset has; 0 of others. */
static int64_t width_of(const char *format) {
  static const char letters[] = "cCsSiIlLuU";
  static const int64_t widths[] = {1, 1, 2, 2, 4, 4, 8, 8, 4, 8};
  const char *found = format && format[0] && !format[1] ? strchr(letters, format[0]) : NULL;
  if (is_list(format))
    return format[1] == 'l' ? 4 : 8;
  return found ? widths[found - letters] : 0;
}

static const void *buffer(const struct ArrowArray *array, int64_t place) {
  return array->buffers && place < array->n_buffers ? array->buffers[place] : NULL;
}

/* ---- what a schema has */

/* Whether the children of a schema are as many as it says, and whether it is there. */
static bool has_children(struct nodes *made, const struct ArrowSchema *schema) {
  if (!schema->release)
    return stopped(made, "E7 Released");
  if (schema->n_children < 0 || (schema->n_children > 0 && !schema->children))
    return stopped(made, "E3 ChildrenDiffer");
  if (is_list(schema->format) && schema->n_children == 1 && !schema->children[0])
    return stopped(made, "E3 ChildrenDiffer");
  return true;
}

/* The schema of what lies in a column: a dictionary's texts, or a list's items. None where nothing does. */
static const struct ArrowSchema *inside_of(const struct ArrowSchema *schema) {
  if (schema->dictionary)
    return schema->dictionary;
  return is_list(schema->format) && schema->n_children == 1 ? schema->children[0] : NULL;
}

/* How many nodes a column has; 0 where its schema lies. */
static size_t node_count(struct nodes *made, const struct ArrowSchema *schema) {
  size_t count = 0;
  for (; schema && count < MOST_LEVELS; schema = inside_of(schema), count++)
    if (!has_children(made, schema))
      return 0;
  return count;
}

/* Room for the nodes of all columns. */
static bool begin(struct nodes *made, const struct ArrowSchema *schema) {
  size_t nodes = 1;
  memset(made, 0, sizeof *made);
  if (!has_children(made, schema))
    return false;
  if (!schema->format || strcmp(schema->format, "+s"))
    return stopped(made, "E1 NotStruct");
  if (schema->n_children >= MOST_COLUMNS)
    return stopped(made, "E5 OutOfRange");
  for (made->column = 0; made->column < (size_t)schema->n_children; made->column++) {
    const struct ArrowSchema *column = schema->children[made->column];
    const size_t count = column ? node_count(made, column) : 0;
    if (!count)
      return column ? false : stopped(made, "E3 ChildrenDiffer");
    nodes += count;
  }
  made->room = nodes;
  made->nodes = (struct selqumar_node *)calloc(nodes, sizeof *made->nodes);
  made->blocks = (void **)calloc(2 * nodes, sizeof *made->blocks);
  return made->nodes && made->blocks;
}

static void end(struct nodes *made) {
  for (size_t place = 0; place < made->block_count; place++)
    free(made->blocks[place]);
  free(made->blocks);
  free(made->nodes);
}

/* ---- the buffers of a node */

/* So many bits from a bit on, as bytes that begin with it. */
static bool add_bits(struct nodes *made, const void *bits, const struct slots *slots, struct selqumar_bytes *out) {
  const uint8_t *from = bits ? (const uint8_t *)bits + slots->start / 8 : NULL;
  const unsigned shift = (unsigned)(slots->start % 8);
  const size_t length = (size_t)((slots->length + 7) / 8), whole = (size_t)((slots->length + shift + 7) / 8);
  uint8_t *to;
  *out = lent(from, (int64_t)length);
  if (!from || !shift || !length)
    return true;
  to = (uint8_t *)block_of(made, length);
  if (!to)
    return stopped(made, NULL);
  for (size_t place = 0; place < length; place++)
    to[place] = (uint8_t)(from[place] >> shift | (place + 1 < whole ? from[place + 1] << (8 - shift) : 0));
  out->data = to;
  return true;
}

/* The offset, or the number, of a slot: of so many bytes, with a sign where it has four or eight. */
static int64_t number_at(const uint8_t *numbers, int64_t width, int64_t slot) {
  uint16_t two;
  int32_t four;
  int64_t eight;
  switch (width) {
  case 1:
    return numbers[slot];
  case 2:
    memcpy(&two, numbers + 2 * slot, sizeof two);
    return two;
  case 4:
    memcpy(&four, numbers + 4 * slot, sizeof four);
    return four;
  default:
    memcpy(&eight, numbers + 8 * slot, sizeof eight);
    return eight;
  }
}

/* Copies so many offsets less the first of them. Whether they don't decrease. */
static bool move_offsets(uint8_t *to, const uint8_t *from, int64_t width, int64_t count) {
  const int64_t first = number_at(from, width, 0);
  int64_t before = first;
  for (int64_t place = 0; place < count; place++) {
    const int64_t offset = number_at(from, width, place), moved = offset - first;
    const int32_t narrow = (int32_t)moved;
    if (offset < before)
      return false;
    memcpy(to + width * place, width == 4 ? (const void *)&narrow : (const void *)&moved, (size_t)width);
    before = offset;
  }
  return true;
}

/* The offsets of a node, and the items or bytes that they are of: from the first offset on, up to the last. What decreases, or is below 0, is handed on as
   it lies, for the library to refuse by its place. */
static bool add_offsets(struct nodes *made, struct selqumar_node *node, const struct slots *slots, int64_t width, struct slots *items) {
  static const int64_t zero = 0;
  const uint8_t *offsets = (const uint8_t *)buffer(slots->array, 1), *from;
  int64_t first, last;
  uint8_t *to;
  items->start = items->length = 0;
  /* An array without a slot may leave its only offset out. */
  node->first = lent(slots->length ? NULL : &zero, width);
  if (!offsets || !slots->length)
    return true;
  from = offsets + width * slots->start;
  node->first = lent(from, width * (slots->length + 1));
  first = number_at(from, width, 0);
  last = number_at(from, width, slots->length);
  if (first >= MOST || last >= MOST)
    return stopped(made, "E5 OutOfRange");
  items->length = last > 0 ? last : 0;
  if (first <= 0 || last < first)
    return true;
  to = (uint8_t *)block_of(made, (size_t)(width * (slots->length + 1)));
  if (!to)
    return stopped(made, NULL);
  if (move_offsets(to, from, width, slots->length + 1)) {
    node->first.data = to;
    items->start = first;
    items->length = last - first;
  }
  return true;
}

/* How many entries of a dictionary the valid indices of a node name: up to the greatest of them that it has. */
static int64_t named_entries(const struct selqumar_node *node, int64_t width, int64_t entries) {
  int64_t named = 0;
  if (!width || !node->first.length)
    return entries;
  for (int64_t slot = 0; slot < (int64_t)node->length && named < entries; slot++) {
    const int64_t index = number_at(node->first.data, width, slot);
    const bool is_valid = !node->validity.length || (node->validity.data[slot / 8] >> slot % 8 & 1);
    if (is_valid && index >= named)
      named = index < entries ? index + 1 : entries;
  }
  return named;
}

/* The buffers of a node, and the slots of what lies in it. */
static bool add_buffers(struct nodes *made, struct selqumar_node *node, const char *format, const struct slots *slots, struct slots *items) {
  const int64_t width = width_of(format);
  const void *first = buffer(slots->array, 1);
  const void *bytes;
  if (!add_bits(made, buffer(slots->array, 0), slots, &node->validity))
    return false;
  if (!strcmp(format, "b"))
    return add_bits(made, first, slots, &node->first);
  if (is_list(format))
    return add_offsets(made, node, slots, width, items);
  if (!strcmp(format, "u") || !strcmp(format, "U")) {
    if (!add_offsets(made, node, slots, width, items))
      return false;
    bytes = buffer(slots->array, 2);
    node->second = lent(bytes ? (const uint8_t *)bytes + items->start : NULL, items->length);
  } else if (first) {
    node->first = lent((const uint8_t *)first + width * slots->start, width * slots->length);
  }
  return true;
}

/* ---- the nodes of a batch */

/* The node of some slots. What lies in it is in `items` then, where its array has been looked at. */
static bool add_node(struct nodes *made, const struct ArrowSchema *schema, const struct slots *slots, struct slots *items) {
  const char *format = schema->format ? schema->format : "";
  struct selqumar_node *node = &made->nodes[made->count];
  /* A schema that has changed since it was counted. */
  if (made->count == made->room)
    return stopped(made, "E3 ChildrenDiffer");
  made->count++;
  node->format = text_of(format);
  node->name = text_of(schema->name);
  node->nullable = (schema->flags & ARROW_FLAG_NULLABLE) != 0;
  node->dictionary = schema->dictionary != NULL;
  node->children = (uint64_t)schema->n_children;
  node->length = (uint64_t)slots->length;
  node->null_count = slots->null_count < 0 ? UINT64_MAX : (uint64_t)slots->null_count;
  node->validity = node->first = node->second = lent(NULL, 0);
  if (!slots->array)
    return true;
  if (slots->start < 0 || slots->length < 0 || slots->start >= MOST || slots->length >= MOST)
    return stopped(made, "E5 OutOfRange");
  return add_buffers(made, node, format, slots, items);
}

/* The slots of an array that lies in another: those of a list from its first offset on, up to its last, or the entries of a dictionary that are named. Where
   they aren't all that the array has, its null count says little. */
static bool cut_to(struct nodes *made, const struct ArrowArray *array, struct slots *items) {
  const int64_t start = items->start < array->length ? items->start : array->length;
  const int64_t left = array->length - start, length = items->length < left ? items->length : left;
  if (!array->release)
    return stopped(made, "E7 Released");
  if (array->length < 0 || array->offset < 0 || array->length >= MOST || array->offset >= MOST)
    return stopped(made, "E5 OutOfRange");
  items->array = array;
  items->start = array->offset + start;
  items->length = length;
  items->null_count = length == array->length || array->null_count == 0 ? array->null_count : -1;
  return true;
}

/* The slots of what lies in some slots. */
static bool step_inside(struct nodes *made, const struct ArrowSchema *schema, const struct ArrowArray *array, struct slots *items) {
  const struct selqumar_node *node = &made->nodes[made->count - 1];
  if (schema->dictionary) {
    if (!array->dictionary)
      return stopped(made, "E3 ChildrenDiffer");
    items->start = 0;
    items->length = named_entries(node, width_of(schema->format), array->dictionary->length);
    return cut_to(made, array->dictionary, items);
  }
  if (array->n_children != 1 || !array->children || !array->children[0])
    return stopped(made, "E3 ChildrenDiffer");
  return cut_to(made, array->children[0], items);
}

/* The nodes of some slots of a column, and of what lies in them, level by level. */
static bool add_levels(struct nodes *made, const struct ArrowSchema *schema, struct slots slots) {
  for (int level = 0; level < MOST_LEVELS; level++) {
    const struct ArrowSchema *inside = inside_of(schema);
    struct slots items = {NULL, 0, 0, 0};
    if (!add_node(made, schema, &slots, &items))
      return false;
    if (!inside)
      return true;
    if (slots.array && !step_inside(made, schema, slots.array, &items))
      return false;
    schema = inside;
    slots = items;
  }
  return true;
}

/* The slots of a column that are rows of a batch. A null count that is of more than these says nothing. */
static bool rows_of(struct nodes *made, const struct ArrowArray *column, const struct ArrowArray *batch, struct slots *slots) {
  if (!column)
    return stopped(made, "E3 ChildrenDiffer");
  if (!column->release)
    return stopped(made, "E7 Released");
  if (column->length < 0 || column->offset < 0 || column->offset >= MOST)
    return stopped(made, "E5 OutOfRange");
  if (column->length < batch->offset + batch->length)
    return stopped(made, "E4 TooShort");
  slots->array = column;
  slots->start = column->offset + batch->offset;
  slots->length = batch->length;
  slots->null_count = column->length == batch->length || column->null_count == 0 ? column->null_count : -1;
  return true;
}

/* Whether a batch is there, and no row of it is null as a whole. Its place is the first that is. */
static bool has_rows(struct nodes *made, const struct ArrowArray *batch) {
  const uint8_t *valid;
  made->column = 0;
  if (!batch->release)
    return stopped(made, "E7 Released");
  if (batch->length < 0 || batch->offset < 0 || batch->length >= MOST || batch->offset >= MOST)
    return stopped(made, "E5 OutOfRange");
  valid = (const uint8_t *)buffer(batch, 0);
  for (int64_t row = 0; valid && batch->null_count != 0 && row < batch->length; row++) {
    if (!(valid[(batch->offset + row) / 8] >> (batch->offset + row) % 8 & 1)) {
      made->column = (size_t)row;
      return stopped(made, "E2 NullRow");
    }
  }
  return true;
}

/* The nodes of a batch, or of a schema where there is none. Whether there are such; else `fault` says why not. */
static bool nodes_of(struct nodes *made, const struct ArrowSchema *schema, const struct ArrowArray *batch) {
  if (!begin(made, schema) || (batch && !has_rows(made, batch)))
    return false;
  if (batch && (batch->n_children != schema->n_children || (batch->n_children > 0 && !batch->children))) {
    made->column = 0;
    return stopped(made, "E3 ChildrenDiffer");
  }
  for (made->column = 0; made->column < (size_t)schema->n_children; made->column++) {
    struct slots slots = {NULL, 0, 0, 0};
    if (batch && !rows_of(made, batch->children[made->column], batch, &slots))
      return false;
    if (!add_levels(made, schema->children[made->column], slots))
      return false;
  }
  return true;
}

/* ---- calls */

/* Puts a line into the caller's buffer, and answers the status. */
static uint32_t put_line(const char *line, size_t length, uint8_t *out, size_t room, size_t *needed) {
  *needed = length;
  if (room < length)
    return SELQUMAR_SHORT;
  memcpy(out, line, length);
  return SELQUMAR_FAULT;
}

/* What a call answers where there are no nodes. */
static uint32_t refused(const struct nodes *made, uint8_t *out, size_t room, size_t *needed) {
  char line[96];
  int length;
  if (!made->fault)
    return SELQUMAR_NO_MEMORY;
  length = snprintf(line, sizeof line, "arrowtab: %s %s=%zu\n", made->fault, made->fault[1] == '2' ? "row" : "column", made->column);
  return put_line(line, (size_t)length, out, room, needed);
}

uint32_t selqumar_arrow_new(const struct ArrowSchema *schema, struct selqumar_handle *handle, uint8_t *out, size_t room, size_t *needed) {
  struct nodes made;
  const bool is_made = nodes_of(&made, schema, NULL);
  const uint32_t status = is_made ? selqumar_new(made.nodes, made.count, handle, out, room, needed) : refused(&made, out, room, needed);
  end(&made);
  return status;
}

uint32_t selqumar_arrow_add_column(struct selqumar_handle *handle, const struct ArrowSchema *schema, uint8_t *out, size_t room, size_t *needed) {
  struct nodes made;
  const bool is_made = nodes_of(&made, schema, NULL);
  const uint32_t status = is_made ? selqumar_add_column(handle, made.nodes, made.count, out, room, needed) : refused(&made, out, room, needed);
  end(&made);
  return status;
}

uint32_t selqumar_arrow_append(struct selqumar_handle *handle, uint32_t worker, const struct ArrowSchema *schema, const struct ArrowArray *batch, uint8_t *out,
                               size_t room, size_t *needed) {
  struct nodes made;
  uint32_t status;
  if (!nodes_of(&made, schema, batch)) {
    status = refused(&made, out, room, needed);
  } else {
    /* More rows than a batch may have are too many for a column too. */
    const uint32_t rows = batch->length < UINT32_MAX ? (uint32_t)batch->length : UINT32_MAX;
    status = selqumar_append(handle, worker, rows, made.nodes, made.count, out, room, needed);
  }
  end(&made);
  return status;
}

/* ---- streams in */

bool selqumar_arrow_take(struct ArrowArrayStream *stream, struct ArrowArrayStream *taken) {
  void (*release)(struct ArrowArrayStream *) = __atomic_exchange_n(&stream->release, NULL, __ATOMIC_ACQ_REL);
  *taken = *stream;
  taken->release = release;
  return release != NULL;
}

/* Copies a text up to its end, or as far as there is room, as a part of one line. How long it is. */
static size_t copy_in_line(char *to, size_t room, const char *text) {
  size_t length = 0;
  for (; text && text[length] && length < room; length++)
    to[length] = (unsigned char)text[length] < ' ' || text[length] == 0x7f ? ' ' : text[length];
  /* A character that isn't whole is left out. */
  while (length && text[length] && ((unsigned char)text[length] & 0xC0) == 0x80)
    length--;
  return length;
}

/* What a call answers where a stream has failed: the line of the fault, with what the producer says of it. */
static uint32_t failed(struct ArrowArrayStream *stream, int code, uint8_t *out, size_t room, size_t *needed) {
  char line[4096];
  const char *text = stream->get_last_error ? stream->get_last_error(stream) : NULL;
  const size_t most = room < sizeof line ? room : sizeof line;
  size_t length;
  if (code == ENOMEM)
    return SELQUMAR_NO_MEMORY;
  length = (size_t)snprintf(line, sizeof line, "arrowtab: E6 Stream code=%d", code);
  if (text && *text && most > length + 4) {
    memcpy(line + length, ": ", 2);
    length += 2 + copy_in_line(line + length + 2, most - length - 3, text);
  }
  line[length++] = '\n';
  return put_line(line, length, out, room, needed);
}

/* Adds the batches of a stream that was taken. */
static uint32_t append_batches(struct selqumar_handle *handle, uint32_t worker, struct ArrowArrayStream *stream, const struct ArrowSchema *schema, uint64_t *batches,
                               uint64_t *rows, uint8_t *out, size_t room, size_t *needed) {
  for (;;) {
    struct ArrowArray batch;
    uint32_t status;
    int code;
    memset(&batch, 0, sizeof batch);
    code = stream->get_next(stream, &batch);
    if (code)
      return failed(stream, code, out, room, needed);
    if (!batch.release)
      return SELQUMAR_GIVEN;
    status = selqumar_arrow_append(handle, worker, schema, &batch, out, room, needed);
    if (status == SELQUMAR_GIVEN) {
      ++*batches;
      *rows += (uint64_t)batch.length;
    }
    batch.release(&batch);
    if (status != SELQUMAR_GIVEN)
      return status;
  }
}

/* Adds the batches of a stream, after it opened a table of their schema where it is to. */
static uint32_t read_stream(bool opens, struct selqumar_handle *handle, uint32_t worker, struct ArrowArrayStream *stream, uint64_t *batches, uint64_t *rows, uint8_t *out,
                            size_t room, size_t *needed) {
  static const char released[] = "arrowtab: E7 Released\n";
  struct ArrowArrayStream taken;
  struct ArrowSchema schema;
  uint32_t status = SELQUMAR_GIVEN;
  int code;
  *batches = *rows = 0;
  *needed = 0;
  if (!selqumar_arrow_take(stream, &taken))
    return put_line(released, sizeof released - 1, out, room, needed);
  memset(&schema, 0, sizeof schema);
  code = taken.get_schema(&taken, &schema);
  if (code)
    status = failed(&taken, code, out, room, needed);
  else if (opens)
    status = selqumar_arrow_new(&schema, handle, out, room, needed);
  if (status == SELQUMAR_GIVEN)
    status = append_batches(handle, worker, &taken, &schema, batches, rows, out, room, needed);
  if (schema.release)
    schema.release(&schema);
  taken.release(&taken);
  return status;
}

uint32_t selqumar_arrow_append_stream(struct selqumar_handle *handle, uint32_t worker, struct ArrowArrayStream *stream, uint64_t *batches, uint64_t *rows,
                                      uint8_t *out, size_t room, size_t *needed) {
  return read_stream(false, handle, worker, stream, batches, rows, out, room, needed);
}

uint32_t selqumar_arrow_open_stream(struct selqumar_handle *handle, uint32_t worker, struct ArrowArrayStream *stream, uint64_t *batches, uint64_t *rows, uint8_t *out,
                                    size_t room, size_t *needed) {
  return read_stream(true, handle, worker, stream, batches, rows, out, room, needed);
}
