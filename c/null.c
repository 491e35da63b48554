/* The calls of `selqumar.h`: each is the proved one, to which an address is handed on in place of null. */
#include "proved.h"

#include <stdlib.h>

/* An address of nothing, aligned for whatever it stands for. No byte of it is ever changed. */
static void *no_bytes(void) {
  static uint64_t nothing[2];
  return nothing;
}

uint32_t selqumar_version(void) {
  return SELQUMAR_VERSION;
}

static const uint8_t *some(const uint8_t *bytes) {
  return bytes ? bytes : (const uint8_t *)no_bytes();
}

static uint8_t *some_out(uint8_t *out) {
  return out ? out : (uint8_t *)no_bytes();
}

static struct selqumar_bytes some_bytes(struct selqumar_bytes bytes) {
  bytes.data = some(bytes.data);
  return bytes;
}

/* ---- files */

/* The files, each of which has data that isn't null: those that are handed in, or a copy. None where there is no memory for it. */
static const struct selqumar_bytes *some_files(const struct selqumar_bytes *files, size_t count) {
  struct selqumar_bytes *copy;
  size_t place = 0;
  while (place < count && files[place].data)
    place++;
  if (place == count)
    return files ? files : (const struct selqumar_bytes *)no_bytes();
  copy = (struct selqumar_bytes *)calloc(count, sizeof *copy);
  for (place = 0; copy && place < count; place++)
    copy[place] = some_bytes(files[place]);
  return copy;
}

/* Frees a copy. */
static uint32_t freed(const struct selqumar_bytes *copy, const struct selqumar_bytes *files, uint32_t status) {
  if (files && copy != files)
    free((void *)copy);
  return status;
}

uint32_t selqumar_stats(const struct selqumar_bytes *files, size_t count, uint8_t *out, size_t room, size_t *needed) {
  const struct selqumar_bytes *given = some_files(files, count);
  return given ? freed(given, files, selqumar_proved_stats(given, count, some_out(out), room, needed)) : (uint32_t)SELQUMAR_NO_MEMORY;
}

uint32_t selqumar_export(const struct selqumar_bytes *files, size_t count, uint8_t *out, size_t room, size_t *needed) {
  const struct selqumar_bytes *given = some_files(files, count);
  return given ? freed(given, files, selqumar_proved_export(given, count, some_out(out), room, needed)) : (uint32_t)SELQUMAR_NO_MEMORY;
}

uint32_t selqumar_query(const struct selqumar_bytes *files, size_t count, const uint8_t *query, size_t query_length, uint8_t *out, size_t room, size_t *needed) {
  const struct selqumar_bytes *given = some_files(files, count);
  return given ? freed(given, files, selqumar_proved_query(given, count, some(query), query_length, some_out(out), room, needed)) : (uint32_t)SELQUMAR_NO_MEMORY;
}

uint32_t selqumar_validate(const struct selqumar_bytes *files, size_t count, uint8_t *out, size_t room, size_t *needed) {
  const struct selqumar_bytes *given = some_files(files, count);
  return given ? freed(given, files, selqumar_proved_validate(given, count, some_out(out), room, needed)) : (uint32_t)SELQUMAR_NO_MEMORY;
}

uint32_t selqumar_open(const struct selqumar_bytes *files, size_t count, struct selqumar_handle *handle, uint8_t *out, size_t room, size_t *needed) {
  const struct selqumar_bytes *given = some_files(files, count);
  return given ? freed(given, files, selqumar_proved_open(given, count, handle, some_out(out), room, needed)) : (uint32_t)SELQUMAR_NO_MEMORY;
}

/* ---- nodes */

/* A copy of the nodes, none of whose bytes are null. None where there is no memory for it. */
static struct selqumar_node *some_nodes(const struct selqumar_node *nodes, size_t count) {
  struct selqumar_node *copy = (struct selqumar_node *)calloc(count + 1, sizeof *copy);
  for (size_t place = 0; copy && place < count; place++) {
    copy[place] = nodes[place];
    copy[place].format = some_bytes(nodes[place].format);
    copy[place].name = some_bytes(nodes[place].name);
    copy[place].validity = some_bytes(nodes[place].validity);
    copy[place].first = some_bytes(nodes[place].first);
    copy[place].second = some_bytes(nodes[place].second);
  }
  return copy;
}

static uint32_t freed_nodes(struct selqumar_node *copy, uint32_t status) {
  free(copy);
  return status;
}

uint32_t selqumar_new(const struct selqumar_node *nodes, size_t count, struct selqumar_handle *handle, uint8_t *out, size_t room, size_t *needed) {
  struct selqumar_node *given = some_nodes(nodes, count);
  return given ? freed_nodes(given, selqumar_proved_new(given, count, handle, some_out(out), room, needed)) : (uint32_t)SELQUMAR_NO_MEMORY;
}

uint32_t selqumar_append(struct selqumar_handle *handle, uint32_t worker, uint32_t rows, const struct selqumar_node *nodes, size_t count, uint8_t *out,
                         size_t room, size_t *needed) {
  struct selqumar_node *given = some_nodes(nodes, count);
  return given ? freed_nodes(given, selqumar_proved_append(handle, worker, rows, given, count, some_out(out), room, needed)) : (uint32_t)SELQUMAR_NO_MEMORY;
}

uint32_t selqumar_add_column(struct selqumar_handle *handle, const struct selqumar_node *nodes, size_t count, uint8_t *out, size_t room, size_t *needed) {
  struct selqumar_node *given = some_nodes(nodes, count);
  return given ? freed_nodes(given, selqumar_proved_add_column(handle, given, count, some_out(out), room, needed)) : (uint32_t)SELQUMAR_NO_MEMORY;
}

/* ---- a table that is open */

uint32_t selqumar_compact(struct selqumar_handle *handle, uint32_t max_rows, uint8_t *out, size_t room, size_t *needed) {
  return selqumar_proved_compact(handle, max_rows, some_out(out), room, needed);
}

uint32_t selqumar_open_stats(const struct selqumar_handle *handle, uint32_t workers, uint8_t *out, size_t room, size_t *needed) {
  return selqumar_proved_stats_of(handle, workers, some_out(out), room, needed);
}

uint32_t selqumar_open_export(const struct selqumar_handle *handle, uint8_t *out, size_t room, size_t *needed) {
  return selqumar_proved_open_export(handle, some_out(out), room, needed);
}

uint32_t selqumar_open_query(const struct selqumar_handle *handle, const uint8_t *query, size_t query_length, uint8_t *out, size_t room, size_t *needed) {
  return selqumar_proved_open_query(handle, some(query), query_length, some_out(out), room, needed);
}

void selqumar_close(struct selqumar_handle *handle) {
  if (handle)
    selqumar_proved_close(handle);
}

/* ---- snapshots */

uint32_t selqumar_snapshot_open(const struct selqumar_handle *handle, struct selqumar_snapshot *snapshot) {
  return selqumar_proved_snapshot(handle, snapshot);
}

uint32_t selqumar_snapshot_share(const struct selqumar_snapshot *snapshot, struct selqumar_snapshot *copy) {
  return selqumar_proved_snapshot_share(snapshot, copy);
}

uint32_t selqumar_snapshot_stats(const struct selqumar_snapshot *snapshot, uint32_t workers, uint8_t *out, size_t room, size_t *needed) {
  return selqumar_proved_snapshot_stats(snapshot, workers, some_out(out), room, needed);
}

uint32_t selqumar_snapshot_export(const struct selqumar_snapshot *snapshot, uint8_t *out, size_t room, size_t *needed) {
  return selqumar_proved_snapshot_export(snapshot, some_out(out), room, needed);
}

uint32_t selqumar_snapshot_query(const struct selqumar_snapshot *snapshot, const uint8_t *query, size_t query_length, uint8_t *out, size_t room, size_t *needed) {
  return selqumar_proved_snapshot_query(snapshot, some(query), query_length, some_out(out), room, needed);
}

uint32_t selqumar_answer(const struct selqumar_snapshot *snapshot, const uint8_t *query, size_t query_length, struct selqumar_handle *handle, uint8_t *out, size_t room,
                         size_t *needed) {
  return selqumar_proved_answer(snapshot, some(query), query_length, handle, some_out(out), room, needed);
}

uint32_t selqumar_batch_count(const struct selqumar_snapshot *snapshot, size_t *count) {
  return selqumar_proved_batch_count(snapshot, count);
}

/* So many columns of nothing, for the proved functions want whole nodes to write over. */
static struct selqumar_node *empty_nodes(struct selqumar_node *nodes, size_t room) {
  const struct selqumar_bytes none = {(const uint8_t *)no_bytes(), 0};
  const struct selqumar_node empty = {none, none, 0, 0, 0, 0, 0, none, none, none};
  for (size_t place = 0; place < room; place++)
    nodes[place] = empty;
  return nodes ? nodes : (struct selqumar_node *)no_bytes();
}

uint32_t selqumar_lend(const struct selqumar_snapshot *snapshot, size_t batch, uint32_t *rows, struct selqumar_node *nodes, size_t room, size_t *needed) {
  return selqumar_proved_lend(snapshot, batch, rows, empty_nodes(nodes, room), room, needed);
}

uint32_t selqumar_lend_fields(const struct selqumar_snapshot *snapshot, struct selqumar_node *nodes, size_t room, size_t *needed) {
  return selqumar_proved_lend_fields(snapshot, empty_nodes(nodes, room), room, needed);
}

void selqumar_snapshot_close(struct selqumar_snapshot *snapshot) {
  if (snapshot)
    selqumar_proved_snapshot_close(snapshot);
}
