/* Batches of a table for Arrow's C stream interface. */
#include "selqumar_arrow.h"

#include <errno.h>
#include <stdlib.h>
#include <string.h>

/* What is handed out at once, as the parts of one array or of one schema: it stays until the last of them is released. */
struct shared {
  struct selqumar_snapshot snapshot;
  size_t parts, count;
  struct selqumar_node *nodes;
  void *room;
};

/* Lets go of one part. */
static void let_go(struct shared *shared) {
  if (__atomic_sub_fetch(&shared->parts, 1, __ATOMIC_ACQ_REL))
    return;
  selqumar_snapshot_close(&shared->snapshot);
  free(shared->nodes);
  free(shared->room);
  free(shared);
}

/* Lends the nodes of a batch, or of the fields where there is none, from a snapshot that is held from then on. */
static uint32_t lend_all(struct shared *shared, const size_t *batch, uint32_t *rows) {
  uint32_t status = SELQUMAR_SHORT;
  for (int turn = 0; turn < 2 && status == SELQUMAR_SHORT; turn++) {
    const size_t room = shared->count;
    if (turn && !(shared->nodes = (struct selqumar_node *)calloc(room, sizeof *shared->nodes)))
      return SELQUMAR_NO_MEMORY;
    status = batch ? selqumar_lend(&shared->snapshot, *batch, rows, shared->nodes, room, &shared->count)
                   : selqumar_lend_fields(&shared->snapshot, shared->nodes, room, &shared->count);
  }
  return status;
}

/* The nodes of a batch, or of the fields, with room for so many bytes each and so many more: none where memory is refused. */
static struct shared *share(const struct selqumar_snapshot *snapshot, const size_t *batch, uint32_t *rows, size_t each) {
  struct shared *shared = (struct shared *)calloc(1, sizeof *shared);
  if (!shared)
    return NULL;
  shared->parts = 1;
  if (selqumar_snapshot_share(snapshot, &shared->snapshot) == SELQUMAR_GIVEN && lend_all(shared, batch, rows) == SELQUMAR_GIVEN &&
      (shared->room = calloc(shared->count + 1, each)))
    return shared;
  let_go(shared);
  return NULL;
}

/* Whether something lies in a node: the items of a list, or a dictionary's texts, whose node is the next. */
static int has_inside(const struct selqumar_node *node) {
  return node->children != 0 || node->dictionary != 0;
}

static void release_array(struct ArrowArray *array) {
  struct shared *shared = (struct shared *)array->private_data;
  for (int64_t place = 0; place < array->n_children; place++)
    if (array->children[place]->release)
      array->children[place]->release(array->children[place]);
  if (array->dictionary && array->dictionary->release)
    array->dictionary->release(array->dictionary);
  array->release = NULL;
  let_go(shared);
}

/* The array of a node: over its buffers, and over the array of the next node where something lies in it. */
static void put_array(const struct selqumar_node *node, struct ArrowArray *array, struct ArrowArray **inside, const void **buffers) {
  const uint8_t format = node->format.data[0];
  array->length = (int64_t)node->length;
  array->null_count = node->validity.length ? -1 : 0;
  array->n_buffers = format == 'u' || format == 'U' ? 3 : 2;
  array->buffers = buffers;
  buffers[0] = node->validity.length ? node->validity.data : NULL;
  buffers[1] = node->first.data;
  buffers[2] = node->second.data;
  *inside = array + 1;
  array->n_children = (int64_t)node->children;
  array->children = node->children ? inside : NULL;
  array->dictionary = node->dictionary ? *inside : NULL;
  array->release = release_array;
}

/* A batch of a snapshot. */
static int put_batch(const struct selqumar_snapshot *snapshot, size_t batch, struct ArrowArray *out) {
  static const void *no_validity[1];
  uint32_t rows = 0;
  struct shared *shared = share(snapshot, &batch, &rows, sizeof *out + 5 * sizeof(void *));
  struct ArrowArray *arrays, **inside, **columns;
  const void **buffers;
  if (!shared)
    return ENOMEM;
  arrays = (struct ArrowArray *)shared->room;
  inside = (struct ArrowArray **)(arrays + shared->count);
  columns = inside + shared->count;
  buffers = (const void **)(columns + shared->count);
  memset(out, 0, sizeof *out);
  for (size_t place = 0; place < shared->count; place++) {
    if (place == 0 || !has_inside(&shared->nodes[place - 1]))
      columns[out->n_children++] = &arrays[place];
    arrays[place].private_data = shared;
    put_array(&shared->nodes[place], &arrays[place], &inside[place], &buffers[3 * place]);
  }
  out->length = rows;
  out->n_buffers = 1;
  out->buffers = no_validity;
  out->children = columns;
  out->release = release_array;
  out->private_data = shared;
  shared->parts = shared->count + 1;
  return 0;
}

static void release_schema(struct ArrowSchema *schema) {
  struct shared *shared = (struct shared *)schema->private_data;
  for (int64_t place = 0; place < schema->n_children; place++)
    if (schema->children[place]->release)
      schema->children[place]->release(schema->children[place]);
  if (schema->dictionary && schema->dictionary->release)
    schema->dictionary->release(schema->dictionary);
  schema->release = NULL;
  let_go(shared);
}

/* A copy of a text, with a zero behind it. */
static char *copy_text(struct selqumar_bytes text, char **room) {
  char *copy = *room;
  memcpy(copy, text.data, text.length);
  copy[text.length] = 0;
  *room += text.length + 1;
  return copy;
}

/* How many bytes the texts of the nodes have, with a zero behind each; 0 where a name has a zero byte. */
static size_t text_length(const struct shared *shared) {
  size_t length = 1;
  for (size_t place = 0; place < shared->count; place++) {
    const struct selqumar_node *node = &shared->nodes[place];
    if (memchr(node->name.data, 0, node->name.length))
      return 0;
    length += node->format.length + node->name.length + 2;
  }
  return length;
}

/* The schema of a snapshot. */
static int put_schema(const struct selqumar_snapshot *snapshot, struct ArrowSchema *out) {
  struct shared *shared = share(snapshot, NULL, NULL, 1);
  struct ArrowSchema *schemas, **inside, **columns;
  size_t texts;
  char *text;
  if (!shared)
    return ENOMEM;
  texts = text_length(shared);
  free(shared->room);
  shared->room = calloc(1, (shared->count + 1) * (sizeof *out + 2 * sizeof(void *)) + texts);
  if (!texts || !shared->room) {
    let_go(shared);
    return texts ? ENOMEM : EINVAL;
  }
  schemas = (struct ArrowSchema *)shared->room;
  inside = (struct ArrowSchema **)(schemas + shared->count);
  columns = inside + shared->count;
  text = (char *)(columns + shared->count);
  memset(out, 0, sizeof *out);
  for (size_t place = 0; place < shared->count; place++) {
    const struct selqumar_node *node = &shared->nodes[place];
    if (place == 0 || !has_inside(node - 1))
      columns[out->n_children++] = &schemas[place];
    inside[place] = &schemas[place + 1];
    schemas[place].format = copy_text(node->format, &text);
    schemas[place].name = copy_text(node->name, &text);
    schemas[place].flags = node->nullable ? ARROW_FLAG_NULLABLE : 0;
    schemas[place].n_children = (int64_t)node->children;
    schemas[place].children = node->children ? &inside[place] : NULL;
    schemas[place].dictionary = node->dictionary ? inside[place] : NULL;
    schemas[place].release = release_schema;
    schemas[place].private_data = shared;
  }
  out->format = "+s";
  out->name = "";
  out->children = columns;
  out->release = release_schema;
  out->private_data = shared;
  shared->parts = shared->count + 1;
  return 0;
}

/* The batches of a snapshot that are still to come. */
struct batches {
  struct selqumar_snapshot snapshot;
  size_t next, count;
  int code;
};

static int get_schema(struct ArrowArrayStream *stream, struct ArrowSchema *out) {
  struct batches *batches = (struct batches *)stream->private_data;
  return batches->code = put_schema(&batches->snapshot, out);
}

static int get_next(struct ArrowArrayStream *stream, struct ArrowArray *out) {
  struct batches *batches = (struct batches *)stream->private_data;
  if (batches->next == batches->count) {
    memset(out, 0, sizeof *out);
    return batches->code = 0;
  }
  batches->code = put_batch(&batches->snapshot, batches->next, out);
  batches->next += !batches->code;
  return batches->code;
}

static const char *get_last_error(struct ArrowArrayStream *stream) {
  const int code = ((struct batches *)stream->private_data)->code;
  return code == ENOMEM ? "selqumar: a request for memory was refused" : code == EINVAL ? "selqumar: a name has a zero byte" : NULL;
}

static void release_stream(struct ArrowArrayStream *stream) {
  struct batches *batches = (struct batches *)stream->private_data;
  selqumar_snapshot_close(&batches->snapshot);
  free(batches);
  stream->release = NULL;
}

/* A stream of the batches of a snapshot, which stays the caller's. */
uint32_t selqumar_arrow_snapshot_stream(const struct selqumar_snapshot *snapshot, struct ArrowArrayStream *stream) {
  struct batches *batches = (struct batches *)calloc(1, sizeof *batches);
  uint32_t status = batches ? selqumar_snapshot_share(snapshot, &batches->snapshot) : (uint32_t)SELQUMAR_NO_MEMORY;
  if (status == SELQUMAR_GIVEN)
    status = selqumar_batch_count(&batches->snapshot, &batches->count);
  if (status != SELQUMAR_GIVEN) {
    free(batches);
    return status;
  }
  stream->get_schema = get_schema;
  stream->get_next = get_next;
  stream->get_last_error = get_last_error;
  stream->release = release_stream;
  stream->private_data = batches;
  return SELQUMAR_GIVEN;
}

/* A stream of the batches of the table that is open. What is added to it later isn't in the stream. */
uint32_t selqumar_arrow_stream(const struct selqumar_handle *handle, struct ArrowArrayStream *stream) {
  struct selqumar_snapshot snapshot = SELQUMAR_CLOSED;
  uint32_t status = selqumar_snapshot_open(handle, &snapshot);
  if (status == SELQUMAR_GIVEN)
    status = selqumar_arrow_snapshot_stream(&snapshot, stream);
  selqumar_snapshot_close(&snapshot);
  return status;
}
