/* A table of Arrow record batches, and what `arrowtab` prints of Arrow integration files (JSON), in one's own process. `selqumar_arrow.h` hands on the
   batches of other libraries.

   Each call takes the bytes of files, one file after the other, or columns that lie in memory, and answers a status:

     SELQUMAR_GIVEN      All of the text is at the front of `out`, and `*needed` is its length. The rest of `out` stays as it was.
     SELQUMAR_FAULT      A fault stands. Its line is at the front of `out`, and `*needed` is its length. It names a file by its number,
                         from 0. The rest of `out` stays as it was.
     SELQUMAR_SHORT      `out` has no room for the text, or for the line: `*needed` is its length. `out` stays as it was.
     SELQUMAR_NO_MEMORY  A request for memory was refused. `out` and `*needed` stay as they were.
     SELQUMAR_NOT_OPEN   No table is open in the handle, or no snapshot. `out` and `*needed` stay as they were.
     SELQUMAR_NO_BATCH   The snapshot has no such batch. Nothing is written.

   The text is UTF-8, without a zero behind it. A call that answers SELQUMAR_SHORT has cost as much as another: where the length isn't known, a call whose
   name ends in `_to` gives the text to a writer, and nothing is computed twice.

   Nothing stays between calls but what is open in a handle: the table of files that `selqumar_open` read, or one that `selqumar_new` made and
   `selqumar_append` filled. A call that is refused leaves it as it was. Calls may run at once in several threads, each with buffers of its own: on one
   handle or snapshot those that only look at it, which take it by a pointer to const. All others have it alone, as under a lock. A call needs 128 kB of
   stack. What the caller owes is checked by nothing:

     - `files` and `nodes` have `count` entries, and each `data` has `length` bytes; a length is below 2^63. Nothing that these bytes say is trusted, but
       nobody writes to `files`, `nodes`, `query` or what they point to before the call returns.
     - A pointer may be null where there is nothing behind it: a count, a length or `room` of 0.
     - `out` has `room` bytes, all of them initialized. Neither `out` nor `needed` nor a handle overlaps anything else that is handed in, and
       no other thread writes to any of it before the call returns.
     - A handle begins as all zeros, or with SELQUMAR_CLOSED, and only calls change it. It may be moved, but of two copies only one is used
       from then on. One that is open is closed in the end, or its memory stays taken.
     - `malloc`, `realloc` and `free` are of one allocator, which aligns a block to each power of two up to 16 that divides its size.
     - No call comes from a signal handler, nor from the forked child of a process with threads. */
#ifndef SELQUMAR_H
#define SELQUMAR_H

#include <stdbool.h>
#include <stddef.h>
#include <stdint.h>

/* Counts the versions of what stands here. The shared library of this one is libselqumar.so.2. */
#define SELQUMAR_VERSION 2
/* The version of all that came with it. */
#define SELQUMAR_RELEASE "0.1.0"

#ifdef __cplusplus
extern "C" {
#endif

enum { SELQUMAR_GIVEN = 0, SELQUMAR_FAULT = 1, SELQUMAR_SHORT = 2, SELQUMAR_NO_MEMORY = 3, SELQUMAR_NOT_OPEN = 4, SELQUMAR_NO_BATCH = 5 };

/* The SELQUMAR_VERSION of the library that is loaded. */
uint32_t selqumar_version(void);

/* The bytes of a file. */
struct selqumar_bytes {
  const uint8_t *data;
  size_t length;
};

/* What `arrowtab stats` prints: how many rows there are, and the statistics of each column. */
uint32_t selqumar_stats(const struct selqumar_bytes *files, size_t count, uint8_t *out, size_t room, size_t *needed);

/* What `arrowtab export` prints: one file with the batches of all. */
uint32_t selqumar_export(const struct selqumar_bytes *files, size_t count, uint8_t *out, size_t room, size_t *needed);

/* What `arrowtab query --query QUERY` prints: a line for each group. */
uint32_t selqumar_query(const struct selqumar_bytes *files, size_t count, const uint8_t *query, size_t query_length, uint8_t *out, size_t room,
                        size_t *needed);

/* Nothing, where all files are read and can be loaded into one table. */
uint32_t selqumar_validate(const struct selqumar_bytes *files, size_t count, uint8_t *out, size_t room, size_t *needed);

/* A column, or what lies in one: its field and its array, as `ArrowSchema` and `ArrowArray` have them, with the lengths of its buffers. The node of a list is
   followed by that of its items, that of a dictionary's indices by that of its texts. Where there is no validity or no second buffer, there are no bytes. */
struct selqumar_node {
  /* `c C s S i I l L b u U +l +L`; with a dictionary that of its indices, whose texts are `u`. */
  struct selqumar_bytes format;
  /* UTF-8. That of a dictionary isn't read. */
  struct selqumar_bytes name;
  /* 0 where its slots may not be null, and 0 where it has no dictionary. */
  uint32_t nullable, dictionary;
  /* 1 of a list, else 0. */
  uint64_t children;
  /* How many slots there are, and how many of them are null, or UINT64_MAX where that isn't known. */
  uint64_t length, null_count;
  /* A bit for each slot; numbers, bits, offsets or indices; and the bytes of texts. */
  struct selqumar_bytes validity, first, second;
};

/* A table that stays open between calls, or none. */
struct selqumar_handle {
  bool is_open;
  void *table;
};

#define SELQUMAR_CLOSED {false, 0}

/* Opens a table of the files in the handle, in place of the one that is open there. Nothing is printed, so that `*needed` is 0. Where it
   answers another status than SELQUMAR_GIVEN, what was open stays open. */
uint32_t selqumar_open(const struct selqumar_bytes *files, size_t count, struct selqumar_handle *handle, uint8_t *out, size_t room, size_t *needed);

/* Opens an empty table of the fields that the nodes name, in place of the one that is open. Their lengths, null counts and buffers aren't looked at. What is
   printed, and where the table that was open stays, is as for `selqumar_open`. */
uint32_t selqumar_new(const struct selqumar_node *nodes, size_t count, struct selqumar_handle *handle, uint8_t *out, size_t room, size_t *needed);

/* Adds the batch of so many rows that the nodes are to the table that is open, all of it or nothing. It is copied once and checked once. Of which worker it is
   counts for the statistics alone. Nothing is printed. Appends of several threads take turns, which is the caller's to see to. */
uint32_t selqumar_append(struct selqumar_handle *handle, uint32_t worker, uint32_t rows, const struct selqumar_node *nodes, size_t count, uint8_t *out,
                         size_t room, size_t *needed);

/* Puts a column of the field that the nodes name behind the others, null in each row. Nothing is printed. */
uint32_t selqumar_add_column(struct selqumar_handle *handle, const struct selqumar_node *nodes, size_t count, uint8_t *out, size_t room, size_t *needed);

/* Joins neighbouring batches into ones of at most so many rows. No answer of a query changes by it. Nothing is printed. */
uint32_t selqumar_compact(struct selqumar_handle *handle, uint32_t max_rows, uint8_t *out, size_t room, size_t *needed);

/* What `arrowtab stats` prints of the table that is open, with so many workers. */
uint32_t selqumar_open_stats(const struct selqumar_handle *handle, uint32_t workers, uint8_t *out, size_t room, size_t *needed);

/* What `arrowtab export` prints of it. */
uint32_t selqumar_open_export(const struct selqumar_handle *handle, uint8_t *out, size_t room, size_t *needed);

/* What `arrowtab query` prints of it: a line for each group. */
uint32_t selqumar_open_query(const struct selqumar_handle *handle, const uint8_t *query, size_t query_length, uint8_t *out, size_t room, size_t *needed);

/* Closes the table that is open in the handle, if one is. The handle may be null. */
void selqumar_close(struct selqumar_handle *handle);

/* ---- A table at a moment */

/* A snapshot of a table, or none. It stays as it is, whatever is added to the table or changed there, and also when that is closed. What is said of a handle holds of
   it: it begins as all zeros, or with SELQUMAR_CLOSED, and only calls change it. Threads may read one while another adds to the table. */
struct selqumar_snapshot {
  bool is_open;
  void *version;
};

/* Opens a snapshot of the table that is open in the handle, in place of the one that is held. No row is copied. Where it answers another status than
   SELQUMAR_GIVEN, what was held stays. */
uint32_t selqumar_snapshot_open(const struct selqumar_handle *handle, struct selqumar_snapshot *snapshot);

/* The same of the moment of another snapshot, which stays as it is. */
uint32_t selqumar_snapshot_share(const struct selqumar_snapshot *snapshot, struct selqumar_snapshot *copy);

/* What `arrowtab stats` prints of it, with so many workers. */
uint32_t selqumar_snapshot_stats(const struct selqumar_snapshot *snapshot, uint32_t workers, uint8_t *out, size_t room, size_t *needed);

/* What `arrowtab export` prints of it. */
uint32_t selqumar_snapshot_export(const struct selqumar_snapshot *snapshot, uint8_t *out, size_t room, size_t *needed);

/* What `arrowtab query` prints of it: a line for each group. */
uint32_t selqumar_snapshot_query(const struct selqumar_snapshot *snapshot, const uint8_t *query, size_t query_length, uint8_t *out, size_t room, size_t *needed);

/* Opens a table of what the query answers of it in the handle, in place of the table that is open there: a row for each line that `selqumar_snapshot_query`
   prints, a column for each item of a key and each aggregate. The snapshot stays as it is. Nothing is printed; where it answers another status than
   SELQUMAR_GIVEN, what was open in the handle stays open. */
uint32_t selqumar_answer(const struct selqumar_snapshot *snapshot, const uint8_t *query, size_t query_length, struct selqumar_handle *handle, uint8_t *out, size_t room,
                         size_t *needed);

/* How many batches it has. */
uint32_t selqumar_batch_count(const struct selqumar_snapshot *snapshot, size_t *count);

/* Lends the columns of a batch, numbered from 0, as nodes over the table's own bytes: nothing is copied. `*rows` is how many rows each has, `*needed` how many nodes they
   are, which stand at the front of `nodes`. A column of texts whose offsets have 32 bits is one of indices, of 32 bits, with a dictionary, which begins that of the whole
   table: an index means the same text in each batch. How many slots are null isn't said. What is lent stands until the snapshot is closed, or another is opened in its
   place; it is read only. The name of a dictionary is empty, and it may be null.

     SELQUMAR_GIVEN      `*rows`, `*needed` and so many nodes are written.
     SELQUMAR_SHORT      `nodes` has no room for `*needed` nodes. `*rows` stays as it was.
     SELQUMAR_NO_MEMORY, SELQUMAR_NOT_OPEN, SELQUMAR_NO_BATCH   `*rows` and `*needed` stay as they were.

   Of `nodes` nothing needs to be initialized; those behind the ones that are lent, or all where none are, become columns of nothing. */
uint32_t selqumar_lend(const struct selqumar_snapshot *snapshot, size_t batch, uint32_t *rows, struct selqumar_node *nodes, size_t room, size_t *needed);

/* Lends nodes that name the fields as those of the batches do, without rows and without buffers, also where there is no batch. Otherwise as `selqumar_lend`. */
uint32_t selqumar_lend_fields(const struct selqumar_snapshot *snapshot, struct selqumar_node *nodes, size_t room, size_t *needed);

/* Closes the snapshot that is open, if one is. What it lent is gone then. The snapshot may be null. */
void selqumar_snapshot_close(struct selqumar_snapshot *snapshot);

/* ---- Texts for a writer */

/* Gets the text of a call, with SELQUMAR_GIVEN, or the line of its fault, with SELQUMAR_FAULT: all of it, once. It is gone when the writer returns. `state` is what the
   caller handed in. A writer may make calls of its own, with the handle or the snapshot that is asked those that only look. */
typedef void selqumar_writer(void *state, uint32_t status, const uint8_t *text, size_t length);

/* Each is the call without `_to`, but for the writer. None answers SELQUMAR_SHORT; with another status than SELQUMAR_GIVEN and SELQUMAR_FAULT nothing is written.
   The text is computed once where 4 TiB of addresses may be reserved, and twice at most. */
uint32_t selqumar_stats_to(const struct selqumar_bytes *files, size_t count, selqumar_writer *writer, void *state);
uint32_t selqumar_export_to(const struct selqumar_bytes *files, size_t count, selqumar_writer *writer, void *state);
uint32_t selqumar_query_to(const struct selqumar_bytes *files, size_t count, const uint8_t *query, size_t query_length, selqumar_writer *writer, void *state);
uint32_t selqumar_open_stats_to(const struct selqumar_handle *handle, uint32_t workers, selqumar_writer *writer, void *state);
uint32_t selqumar_open_export_to(const struct selqumar_handle *handle, selqumar_writer *writer, void *state);
uint32_t selqumar_open_query_to(const struct selqumar_handle *handle, const uint8_t *query, size_t query_length, selqumar_writer *writer, void *state);
uint32_t selqumar_snapshot_stats_to(const struct selqumar_snapshot *snapshot, uint32_t workers, selqumar_writer *writer, void *state);
uint32_t selqumar_snapshot_export_to(const struct selqumar_snapshot *snapshot, selqumar_writer *writer, void *state);
uint32_t selqumar_snapshot_query_to(const struct selqumar_snapshot *snapshot, const uint8_t *query, size_t query_length, selqumar_writer *writer, void *state);

/* ---- What a line says */

/* The number of a fault, and its place. What isn't told is SELQUMAR_NOWHERE. */
struct selqumar_fault {
  /* A letter and a number, as `J` and 3. */
  uint32_t group, number;
  /* From 0: the file, its batch, and the column and the row in a batch. */
  uint64_t file, batch, column, row;
};

#define SELQUMAR_NOWHERE UINT64_MAX

/* Reads the line of a fault. Whether it has a number; what is told without one is of a file at most. */
bool selqumar_fault_of(const uint8_t *line, size_t length, struct selqumar_fault *fault);

#ifdef __cplusplus
}
#endif

#endif
