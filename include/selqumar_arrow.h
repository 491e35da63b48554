/* Record batches of Arrow's C data interface, and streams of them, for a table of `selqumar.h`
   (https://arrow.apache.org/docs/format/CDataInterface.html, https://arrow.apache.org/docs/format/CStreamInterface.html).

   Each call answers a status, as those of `selqumar.h` do. A batch is a struct, whose children are its columns. They are handed on as nodes over the very
   buffers of the batch, cut to its rows: of a list the items between its first offset and its last, of a dictionary the texts up to the greatest index. Only a bitmap
   that begins inside a byte is moved, and offsets that don't begin with 0. What a table doesn't keep, and what lies, the library refuses. What no node says is refused
   here:

     E1 NotStruct                 the schema is that of no struct
     E2 NullRow row=ROW           a row is null as a whole
     E3 ChildrenDiffer column=C   the schema hasn't the children that it counts, or has a child, or a dictionary, that the array hasn't
     E4 TooShort column=C         a column has fewer slots than the batch has rows
     E5 OutOfRange column=C       a length or an offset is below 0, or 2^48 or more; a schema has 2^31 columns or more
     E6 Stream code=CODE          a stream has no schema or no next batch, for this reason of <errno.h>; for ENOMEM the status says it. Behind `: ` stands what the
                                  producer says of it, in one line, as far as `out` has room
     E7 Released column=C         the schema, the array, or a part of it is released. Of a stream that is released, or that was taken, no column is told

   What the interface promises is relied on, since nothing in it can show a lie: buffers, and lists of children, are as long as their lengths say, and the bytes of
   texts reach to the last offset. Nobody writes to them before the call returns; bytes that change all the same are copied before they are checked. */
#ifndef SELQUMAR_ARROW_H
#define SELQUMAR_ARROW_H

#include "selqumar.h"

#ifdef __cplusplus
extern "C" {
#endif

#ifndef ARROW_C_DATA_INTERFACE
#define ARROW_C_DATA_INTERFACE

#define ARROW_FLAG_DICTIONARY_ORDERED 1
#define ARROW_FLAG_NULLABLE 2
#define ARROW_FLAG_MAP_KEYS_SORTED 4

struct ArrowSchema {
  const char *format;
  const char *name;
  const char *metadata;
  int64_t flags;
  int64_t n_children;
  struct ArrowSchema **children;
  struct ArrowSchema *dictionary;
  void (*release)(struct ArrowSchema *);
  void *private_data;
};

struct ArrowArray {
  int64_t length;
  int64_t null_count;
  int64_t offset;
  int64_t n_buffers;
  int64_t n_children;
  const void **buffers;
  struct ArrowArray **children;
  struct ArrowArray *dictionary;
  void (*release)(struct ArrowArray *);
  void *private_data;
};

#endif

#ifndef ARROW_C_STREAM_INTERFACE
#define ARROW_C_STREAM_INTERFACE

struct ArrowArrayStream {
  int (*get_schema)(struct ArrowArrayStream *, struct ArrowSchema *out);
  int (*get_next)(struct ArrowArrayStream *, struct ArrowArray *out);
  const char *(*get_last_error)(struct ArrowArrayStream *);
  void (*release)(struct ArrowArrayStream *);
  void *private_data;
};

#endif

/* ---- Batches in */

/* Opens an empty table of the fields of a schema, in place of the one that is open. */
uint32_t selqumar_arrow_new(const struct ArrowSchema *schema, struct selqumar_handle *handle, uint8_t *out, size_t room, size_t *needed);

/* Puts a column of nulls behind the others: the one that a schema has. */
uint32_t selqumar_arrow_add_column(struct selqumar_handle *handle, const struct ArrowSchema *schema, uint8_t *out, size_t room, size_t *needed);

/* Adds a batch, of a worker. Schema and array stay the caller's, who releases them once it returns. */
uint32_t selqumar_arrow_append(struct selqumar_handle *handle, uint32_t worker, const struct ArrowSchema *schema, const struct ArrowArray *batch, uint8_t *out,
                               size_t room, size_t *needed);

/* Adds each batch of a stream, of a worker, up to the first that is refused; those before it stay. `*batches` and `*rows` say how many came in. The stream is taken, as
   by `selqumar_arrow_take`, and released, and so is what it gave. `out` wants 96 bytes, since no fault is told twice. */
uint32_t selqumar_arrow_append_stream(struct selqumar_handle *handle, uint32_t worker, struct ArrowArrayStream *stream, uint64_t *batches, uint64_t *rows,
                                      uint8_t *out, size_t room, size_t *needed);

/* The same with a new table of the stream's schema, in place of the one that is open. */
uint32_t selqumar_arrow_open_stream(struct selqumar_handle *handle, uint32_t worker, struct ArrowArrayStream *stream, uint64_t *batches, uint64_t *rows,
                                    uint8_t *out, size_t room, size_t *needed);

/* Moves a stream, as the interface says: what is left behind is released. Whether it was there: of several threads that take one stream, one gets it. */
bool selqumar_arrow_take(struct ArrowArrayStream *stream, struct ArrowArrayStream *taken);

/* ---- Batches out

   A stream of the batches of a table, as it stands. Nothing of a column is copied: what is handed out lies in the table's memory, and is held by a snapshot of
   its own, which its release closes, in whichever thread. Texts are dictionary-encoded, as the table keeps them. What stands against a call of the stream is
   ENOMEM where a request for memory was refused, and EINVAL where a name has a zero byte, which no schema says. */

/* A stream of the batches of the table that is open. What is added to it later isn't in the stream. */
uint32_t selqumar_arrow_stream(const struct selqumar_handle *handle, struct ArrowArrayStream *stream);

/* A stream of the batches of a snapshot, which stays the caller's. */
uint32_t selqumar_arrow_snapshot_stream(const struct selqumar_snapshot *snapshot, struct ArrowArrayStream *stream);

/* ---- For Python's capsules */

/* The name of a stream's capsule, which stays where it is as long as the library is loaded: a capsule keeps the address. */
extern const char selqumar_arrow_stream_name[];

/* Room for the stream of a capsule, which lets go of nothing yet; null where there is none. */
struct ArrowArrayStream *selqumar_arrow_room(void);

/* What becomes of a capsule's stream at the capsule's end: whoever took the stream left none behind. */
void selqumar_arrow_end_capsule(void *capsule);

#ifdef __cplusplus
}
#endif

#endif
