/* What the line of a fault says. */
#include "selqumar.h"

/* Whether a text begins with this. It is moved behind it then. */
static bool passed(struct selqumar_bytes *text, const char *front) {
  size_t length = 0;
  while (front[length]) {
    if (length == text->length || text->data[length] != (uint8_t)front[length])
      return false;
    length++;
  }
  text->data += length;
  text->length -= length;
  return true;
}

/* Whether a text begins with a number, which is noted. It is moved behind it then. */
static bool passed_number(struct selqumar_bytes *text, uint64_t *number) {
  const size_t before = text->length;
  uint64_t found = 0;
  while (text->length && *text->data >= '0' && *text->data <= '9') {
    found = found * 10 + (uint64_t)(*text->data - '0');
    text->data++;
    text->length--;
  }
  if (text->length < before)
    *number = found;
  return text->length < before;
}

/* Passes over what a line is about: a file, the query or the column, and a batch. */
static void pass_subject(struct selqumar_bytes *text, struct selqumar_fault *fault) {
  struct selqumar_bytes front = *text;
  uint64_t number = 0;
  if (passed_number(&front, &number) && passed(&front, ": ")) {
    fault->file = number;
    *text = front;
  } else if (!passed(text, "query: ")) {
    passed(text, "column: ");
  }
  front = *text;
  if (passed(&front, "batch ") && passed_number(&front, &number) && passed(&front, ": ")) {
    fault->batch = number;
    *text = front;
  }
}

/* Reads the column and the row behind the number of a fault. Behind a path, and in what a producer says of its stream, any text may stand. */
static void read_places(struct selqumar_bytes text, struct selqumar_fault *fault) {
  for (; text.length && !passed(&text, " at /") && !passed(&text, " code="); text.data++, text.length--) {
    struct selqumar_bytes front = text;
    if (passed(&front, " column="))
      passed_number(&front, &fault->column);
    else if (passed(&front, " row="))
      passed_number(&front, &fault->row);
  }
}

bool selqumar_fault_of(const uint8_t *line, size_t length, struct selqumar_fault *fault) {
  struct selqumar_bytes text = {line, length};
  uint64_t number = 0;
  fault->group = fault->number = 0;
  fault->file = fault->batch = fault->column = fault->row = SELQUMAR_NOWHERE;
  if (!passed(&text, "arrowtab: "))
    return false;
  pass_subject(&text, fault);
  if (!text.length || *text.data < 'A' || *text.data > 'Z')
    return false;
  fault->group = *text.data++;
  text.length--;
  if (!passed_number(&text, &number))
    return false;
  fault->number = (uint32_t)number;
  read_places(text, fault);
  return true;
}
