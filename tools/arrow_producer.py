"""A producer of Arrow's C data and stream interfaces, by ctypes: columns of values in every form that the interface allows, and a count of what was released."""
import ctypes as c
import re
from itertools import accumulate, chain

FORMATS = {"int8": "c", "uint8": "C", "int16": "s", "uint16": "S", "int32": "i", "uint32": "I", "int64": "l", "uint64": "L", "bool": "b", "utf8": "u",
           "largeutf8": "U", "list": "+l", "largelist": "+L"}
NULLABLE = 2


class Schema(c.Structure):
    pass


class Array(c.Structure):
    pass


class Stream(c.Structure):
    pass


SCHEMA_RELEASE, ARRAY_RELEASE, STREAM_RELEASE = (c.CFUNCTYPE(None, c.POINTER(it)) for it in (Schema, Array, Stream))
Schema._fields_ = [("format", c.c_char_p), ("name", c.c_char_p), ("metadata", c.c_void_p), ("flags", c.c_int64), ("n_children", c.c_int64),
                   ("children", c.POINTER(c.POINTER(Schema))), ("dictionary", c.POINTER(Schema)), ("release", SCHEMA_RELEASE), ("private_data", c.c_void_p)]
Array._fields_ = [("length", c.c_int64), ("null_count", c.c_int64), ("offset", c.c_int64), ("n_buffers", c.c_int64), ("n_children", c.c_int64),
                  ("buffers", c.POINTER(c.c_void_p)), ("children", c.POINTER(c.POINTER(Array))), ("dictionary", c.POINTER(Array)),
                  ("release", ARRAY_RELEASE), ("private_data", c.c_void_p)]
GET_SCHEMA, GET_NEXT = c.CFUNCTYPE(c.c_int, c.POINTER(Stream), c.POINTER(Schema)), c.CFUNCTYPE(c.c_int, c.POINTER(Stream), c.POINTER(Array))
LAST_ERROR = c.CFUNCTYPE(c.c_char_p, c.POINTER(Stream))
Stream._fields_ = [("get_schema", GET_SCHEMA), ("get_next", GET_NEXT), ("get_last_error", LAST_ERROR), ("release", STREAM_RELEASE), ("private_data", c.c_void_p)]


def bits(flags):
    """Flags as bits, the first of them the lowest of its byte."""
    packed = bytearray((len(flags) + 7) // 8)
    for place, flag in enumerate(flags):
        packed[place // 8] |= bool(flag) << place % 8
    return bytes(packed)


def offsets(width, parts):
    return b"".join(it.to_bytes(width, "little", signed=True) for it in accumulate(map(len, parts), initial=0))


class Column:
    """A column of a type with these values, behind slots of no meaning: from `offset` on. `is_bare` leaves a validity out where nothing is null, and the null
    count unknown. The type `dictionary<T>` has indices of T."""

    def __init__(self, name, kind, values, offset=0, is_bare=False, count_known=True):
        self.name, self.kind, self.offset, self.length = name, kind, offset, len(values)
        self.children, self.dictionary, self._blocks = [], None, None
        junk = [None] * offset
        slots = junk + list(values)
        nulls = sum(it is None for it in values)
        self.null_count = nulls if count_known else -1
        self.buffers = [None if is_bare and not nulls else bits([it is not None for it in slots]), *self._parts(slots)]

    def _parts(self, slots):
        listed = re.fullmatch(r"(list|largelist)<(.*)>", self.kind)
        coded = re.fullmatch(r"dictionary<(.*)>", self.kind)
        if listed:
            self.format = FORMATS[listed[1]]
            lists = [[] if it is None else it for it in slots]
            self.children = [Column("item", listed[2], list(chain.from_iterable(lists)), is_bare=True)]
            return [offsets(4 if listed[1] == "list" else 8, lists)]
        if coded:
            self.format = FORMATS[coded[1]]
            entries = list(dict.fromkeys(it for it in reversed(slots) if it is not None))
            self.dictionary = Column("", "utf8", entries, offset=2, is_bare=True)
            codes = {entry: code for code, entry in enumerate(entries)}
            return [b"".join(self._number(coded[1], codes.get(it, 0)) for it in slots)]
        self.format = FORMATS[self.kind]
        if self.kind == "bool":
            return [bits(slots)]
        if self.kind.endswith("utf8"):
            texts = [b"" if it is None else it.encode() for it in slots]
            return [offsets(4 if self.kind == "utf8" else 8, texts), b"".join(texts)]
        return [b"".join(self._number(self.kind, it or 0) for it in slots)]

    def blocks(self):
        """The buffers as blocks of memory, the same in each batch."""
        if self._blocks is None:
            self._blocks = [None if it is None else c.create_string_buffer(it, max(len(it), 1)) for it in self.buffers]
        return self._blocks

    @staticmethod
    def _number(kind, number):
        return number.to_bytes(int(kind.lstrip("uint")) // 8, "little", signed=kind[0] == "i")


class Producer:
    """Schemas, arrays and streams of columns. Whatever they point to stays as long as this does, and it is counted how often each was released."""

    def __init__(self):
        self.kept, self.released = [], {"schema": 0, "array": 0, "stream": 0}
        self._on_schema, self._on_array, self._on_stream = (kind(self._note(what)) for kind, what in
                                                            ((SCHEMA_RELEASE, "schema"), (ARRAY_RELEASE, "array"), (STREAM_RELEASE, "stream")))

    def _note(self, what):
        def release(pointer):
            self.released[what] += 1
            pointer.contents.release = type(pointer.contents.release)()
        return release

    def _pointers(self, kind, items):
        self.kept.append(items)
        found = (c.POINTER(kind) * max(len(items), 1))(*map(c.pointer, items))
        self.kept.append(found)
        return found

    def field(self, column, flags=NULLABLE):
        made = Schema(column.format.encode(), column.name.encode(), None, flags, len(column.children))
        made.children = self._pointers(Schema, [self.field(it) for it in column.children])
        if column.dictionary:
            made.dictionary = self._pointers(Schema, [self.field(column.dictionary)])[0]
        made.release = self._on_schema
        return made

    def array(self, column):
        made = Array(column.length, column.null_count, column.offset, len(column.buffers), len(column.children))
        held = column.blocks()
        places = (c.c_void_p * len(held))(*(None if it is None else c.addressof(it) for it in held))
        self.kept += [held, places]
        made.buffers = places
        made.children = self._pointers(Array, [self.array(it) for it in column.children])
        if column.dictionary:
            made.dictionary = self._pointers(Array, [self.array(column.dictionary)])[0]
        made.release = self._on_array
        return made

    def schema(self, columns):
        made = Schema(b"+s", b"", None, 0, len(columns))
        made.children = self._pointers(Schema, [self.field(it) for it in columns])
        made.release = self._on_schema
        return made

    def batch(self, columns, rows, offset=0):
        """A batch of so many rows, from a row of its columns on."""
        made = Array(rows, 0, offset, 1, len(columns))
        places = (c.c_void_p * 1)(None)
        self.kept.append(places)
        made.buffers = places
        made.children = self._pointers(Array, [self.array(it) for it in columns])
        made.release = self._on_array
        return made

    def stream(self, schema, batches, code=0):
        """A stream that ends with the last batch, or with a failure."""
        left = list(batches)

        def get_schema(_, out):
            c.memmove(out, c.byref(schema()), c.sizeof(Schema))
            return 0

        def get_next(_, out):
            if not left:
                c.memset(out, 0, c.sizeof(Array))
                return code
            c.memmove(out, c.byref(left.pop(0)()), c.sizeof(Array))
            return 0

        made = Stream(GET_SCHEMA(get_schema), GET_NEXT(get_next), LAST_ERROR(lambda _: b"a failure"), self._on_stream)
        self.kept.append(made)
        return made


_new = c.pythonapi.PyCapsule_New
_new.restype, _new.argtypes = c.py_object, [c.c_void_p, c.c_char_p, c.c_void_p]


def capsule(made, name):
    return _new(c.addressof(made), name, None)


class Exporter:
    """An object with the methods by which other libraries hand on what they have."""

    def __init__(self, schema=None, batch=None, stream=None):
        if stream is not None:
            self.__arrow_c_stream__ = lambda requested_schema=None: capsule(stream, b"arrow_array_stream")
        if batch is not None:
            self.__arrow_c_array__ = lambda requested_schema=None: (capsule(schema, b"arrow_schema"), capsule(batch, b"arrow_array"))
        if schema is not None:
            self.__arrow_c_schema__ = lambda: capsule(schema, b"arrow_schema")
