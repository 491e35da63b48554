/* Capsules of Python that hold a stream. */
#include "selqumar_arrow.h"

#include <stdlib.h>

/* Python's own, where the process is one of Python. */
extern void *PyCapsule_GetPointer(void *capsule, const char *name) __attribute__((weak));

const char selqumar_arrow_stream_name[] = "arrow_array_stream";

struct ArrowArrayStream *selqumar_arrow_room(void) {
  return (struct ArrowArrayStream *)calloc(1, sizeof(struct ArrowArrayStream));
}

void selqumar_arrow_end_capsule(void *capsule) {
  struct ArrowArrayStream *stream = (struct ArrowArrayStream *)PyCapsule_GetPointer(capsule, selqumar_arrow_stream_name);
  if (stream && stream->release)
    stream->release(stream);
  free(stream);
}
