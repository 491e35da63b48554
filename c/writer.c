/* Calls that give their text to a writer: each is a call of `selqumar.h` over a buffer of which nobody has to know how long it has to be. */
#define _DEFAULT_SOURCE
#include "selqumar.h"

#include <sys/mman.h>

/* More addresses than a text has bytes, and bytes where so many can't be reserved. */
static const size_t RESERVED = (size_t)1 << 42, ROOM = (size_t)1 << 20;

/* A call with all that it is handed but its buffer. */
struct call {
  uint32_t (*run)(const struct call *call, uint8_t *out, size_t room, size_t *needed);
  const struct selqumar_bytes *files;
  const struct selqumar_handle *handle;
  const struct selqumar_snapshot *snapshot;
  size_t count;
  const uint8_t *query;
  size_t query_length;
};

/* Zeros at addresses that take no memory until they are written; null where they can't be had. A process that locks its memory (mlockall) locks none of it: so they
   begin as addresses that nobody may touch. */
static uint8_t *reserve(size_t room) {
  void *found = mmap(NULL, room, PROT_NONE, MAP_PRIVATE | MAP_ANONYMOUS | MAP_NORESERVE, -1, 0);
  if (found == MAP_FAILED)
    return NULL;
  if (!munlock(found, room) && !mprotect(found, room, PROT_READ | PROT_WRITE))
    return (uint8_t *)found;
  munmap(found, room);
  return NULL;
}

/* Makes a call over the first of some rooms that can be had, and over one that is long enough where it was short. */
static uint32_t give(const struct call *call, selqumar_writer *writer, void *state) {
  size_t room = RESERVED, needed = 0;
  for (;;) {
    uint32_t status;
    uint8_t *out = reserve(room);
    if (!out && room == RESERVED) {
      room = ROOM;
      continue;
    }
    if (!out)
      return SELQUMAR_NO_MEMORY;
    status = call->run(call, out, room, &needed);
    if (status == SELQUMAR_GIVEN || status == SELQUMAR_FAULT)
      writer(state, status, out, needed);
    munmap(out, room);
    if (status != SELQUMAR_SHORT)
      return status;
    room = needed;
  }
}

static uint32_t stats(const struct call *call, uint8_t *out, size_t room, size_t *needed) {
  return selqumar_stats(call->files, call->count, out, room, needed);
}

static uint32_t export(const struct call *call, uint8_t *out, size_t room, size_t *needed) {
  return selqumar_export(call->files, call->count, out, room, needed);
}

static uint32_t query(const struct call *call, uint8_t *out, size_t room, size_t *needed) {
  return selqumar_query(call->files, call->count, call->query, call->query_length, out, room, needed);
}

static uint32_t open_stats(const struct call *call, uint8_t *out, size_t room, size_t *needed) {
  return selqumar_open_stats(call->handle, (uint32_t)call->count, out, room, needed);
}

static uint32_t open_export(const struct call *call, uint8_t *out, size_t room, size_t *needed) {
  return selqumar_open_export(call->handle, out, room, needed);
}

static uint32_t open_query(const struct call *call, uint8_t *out, size_t room, size_t *needed) {
  return selqumar_open_query(call->handle, call->query, call->query_length, out, room, needed);
}

static uint32_t snapshot_stats(const struct call *call, uint8_t *out, size_t room, size_t *needed) {
  return selqumar_snapshot_stats(call->snapshot, (uint32_t)call->count, out, room, needed);
}

static uint32_t snapshot_export(const struct call *call, uint8_t *out, size_t room, size_t *needed) {
  return selqumar_snapshot_export(call->snapshot, out, room, needed);
}

static uint32_t snapshot_query(const struct call *call, uint8_t *out, size_t room, size_t *needed) {
  return selqumar_snapshot_query(call->snapshot, call->query, call->query_length, out, room, needed);
}

uint32_t selqumar_stats_to(const struct selqumar_bytes *files, size_t count, selqumar_writer *writer, void *state) {
  const struct call call = {.run = stats, .files = files, .count = count};
  return give(&call, writer, state);
}

uint32_t selqumar_export_to(const struct selqumar_bytes *files, size_t count, selqumar_writer *writer, void *state) {
  const struct call call = {.run = export, .files = files, .count = count};
  return give(&call, writer, state);
}

uint32_t selqumar_query_to(const struct selqumar_bytes *files, size_t count, const uint8_t *text, size_t length, selqumar_writer *writer, void *state) {
  const struct call call = {.run = query, .files = files, .count = count, .query = text, .query_length = length};
  return give(&call, writer, state);
}

uint32_t selqumar_open_stats_to(const struct selqumar_handle *handle, uint32_t workers, selqumar_writer *writer, void *state) {
  const struct call call = {.run = open_stats, .handle = handle, .count = workers};
  return give(&call, writer, state);
}

uint32_t selqumar_open_export_to(const struct selqumar_handle *handle, selqumar_writer *writer, void *state) {
  const struct call call = {.run = open_export, .handle = handle};
  return give(&call, writer, state);
}

uint32_t selqumar_open_query_to(const struct selqumar_handle *handle, const uint8_t *text, size_t length, selqumar_writer *writer, void *state) {
  const struct call call = {.run = open_query, .handle = handle, .query = text, .query_length = length};
  return give(&call, writer, state);
}

uint32_t selqumar_snapshot_stats_to(const struct selqumar_snapshot *snapshot, uint32_t workers, selqumar_writer *writer, void *state) {
  const struct call call = {.run = snapshot_stats, .snapshot = snapshot, .count = workers};
  return give(&call, writer, state);
}

uint32_t selqumar_snapshot_export_to(const struct selqumar_snapshot *snapshot, selqumar_writer *writer, void *state) {
  const struct call call = {.run = snapshot_export, .snapshot = snapshot};
  return give(&call, writer, state);
}

uint32_t selqumar_snapshot_query_to(const struct selqumar_snapshot *snapshot, const uint8_t *text, size_t length, selqumar_writer *writer, void *state) {
  const struct call call = {.run = snapshot_query, .snapshot = snapshot, .query = text, .query_length = length};
  return give(&call, writer, state);
}
