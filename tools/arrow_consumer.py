"""A consumer of Arrow's C stream interface, by ctypes: the values of each column, read as the format says, after its parts were moved elsewhere."""
import ctypes as c
import struct

from arrow_producer import Array, Schema, Stream

# Of each format of numbers how Python calls it.
CODES = {"c": "b", "C": "B", "s": "h", "S": "H", "i": "i", "I": "I", "l": "q", "L": "Q"}

_pointer_of = c.pythonapi.PyCapsule_GetPointer
_pointer_of.restype, _pointer_of.argtypes = c.c_void_p, [c.py_object, c.c_char_p]


def moved(part):
    """The part at another place. What was there is released, as far as anyone can tell."""
    found = type(part)()
    c.memmove(c.byref(found), c.byref(part), c.sizeof(part))
    part.release = type(part.release)()
    return found


def release(part):
    if part.release:
        part.release(c.byref(part))
    assert not part.release, "what is released says so"


def _bits(place, start, count):
    return [bool(c.c_uint8.from_address(place + bit // 8).value >> bit % 8 & 1) for bit in range(start, start + count)]


def _numbers(letter, place, start, count):
    size = struct.calcsize(CODES[letter])
    return memoryview(c.string_at(place + start * size, count * size)).cast(CODES[letter]).tolist() if count else []


def values(schema, array):
    """The values of an array, None for null."""
    kind, start, count = schema.format.decode(), array.offset, array.length
    validity = array.buffers[0]
    valid = _bits(validity, start, count) if validity else [True] * count
    if array.null_count >= 0:
        assert array.null_count == valid.count(False), "the null count is right"
    if schema.dictionary:
        texts = values(schema.dictionary.contents, array.dictionary.contents)
        # What stands under a null is no index.
        found = [texts[code] if is_valid else None for is_valid, code in zip(valid, _numbers(kind, array.buffers[1], start, count))]
    elif kind in CODES:
        found = _numbers(kind, array.buffers[1], start, count)
    elif kind == "b":
        found = _bits(array.buffers[1], start, count) if count else []
    else:
        ends = _numbers("i" if kind in ("u", "+l") else "l", array.buffers[1], start, count + 1) if count else [0]
        if kind in "uU":
            found = [c.string_at(array.buffers[2] + one, other - one).decode() for one, other in zip(ends, ends[1:])]
        else:
            items = values(schema.children[0].contents, array.children[0].contents)
            found = [items[one:other] for one, other in zip(ends, ends[1:])]
    return [it if is_valid else None for is_valid, it in zip(valid, found)]


class Taken:
    """A stream that was taken out of its capsule: its schema, and its batches as they come."""

    def __init__(self, source):
        capsule = source.__arrow_c_stream__()
        self.stream = moved(Stream.from_address(_pointer_of(capsule, b"arrow_array_stream")))
        self.schema = Schema()
        code = self.stream.get_schema(c.byref(self.stream), c.byref(self.schema))
        assert code == 0, self.stream.get_last_error(c.byref(self.stream))

    def batches(self):
        while True:
            batch = Array()
            code = self.stream.get_next(c.byref(self.stream), c.byref(batch))
            assert code == 0, self.stream.get_last_error(c.byref(self.stream))
            if not batch.release:
                return
            yield batch

    def fields(self):
        return [self.schema.children[place].contents for place in range(self.schema.n_children)]

    def close(self):
        release(self.schema)
        release(self.stream)


def columns_of(batch):
    """The columns of a batch at places of their own. The batch itself is released."""
    found = [moved(batch.children[place].contents) for place in range(batch.n_children)]
    release(batch)
    return found


def rows_of_stream(source):
    """All values of what is streamed, by the columns' names. Each batch is let go of before its columns are read, and the stream before the last."""
    taken = Taken(source)
    fields = taken.fields()
    batches = [columns_of(batch) for batch in taken.batches()]
    release(taken.stream)
    found = {field.name.decode(): [it for columns in batches for it in values(field, columns[place])] for place, field in enumerate(fields)}
    for columns in reversed(batches):
        for column in columns:
            release(column)
    release(taken.schema)
    return found
