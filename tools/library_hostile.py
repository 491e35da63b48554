"""What `hostile.c` does, over the library and with sanitizers: each case prints what is wanted, and nothing is read or written where nothing is. Each case is a name
and its fault, none where it is as it should be."""
import glob
import os
import re
import subprocess

from refusals import TOP, compiler

SECONDS = 120
SANITIZERS = ["-g", "-O1", "-fsanitize=address,undefined", "-fno-sanitize-recover"]

# What each case prints: the table is opened, and then a line.
OPENED = "0\n"


def refused(fault, column=0):
    return f"1 arrowtab: {fault} column={column}\n"


def no_array(fault):
    return OPENED + f"1 arrowtab: X6 Layout column=0: {fault}\n"


WANTED = {
    "released_schema": refused("E7 Released"),
    "released_field": refused("E7 Released"),
    "released_array": OPENED + refused("E7 Released"),
    "released_column": OPENED + refused("E7 Released"),
    "released_dictionary": refused("E7 Released"),
    "fewer_children": refused("E3 ChildrenDiffer"),
    "absent_children": refused("E3 ChildrenDiffer"),
    "null_child": refused("E3 ChildrenDiffer"),
    "countless_children": refused("E5 OutOfRange"),
    "list_without_children": refused("E3 ChildrenDiffer"),
    "list_of_null": refused("E3 ChildrenDiffer"),
    "list_of_two": refused("X3 ChildrenDiffer"),
    "list_of_fewer": refused("E3 ChildrenDiffer"),
    "list_of_countless": refused("X3 ChildrenDiffer"),
    "list_with_dictionary": refused("X3 ChildrenDiffer"),
    "dictionary_in_list": refused("C2 DictInList"),
    "dictionary_of_dictionary": refused("X3 ChildrenDiffer"),
    "depth": refused("X5 TooDeep"),
    "itself": refused("X3 ChildrenDiffer"),
    "no_format": refused("X2 UnknownFormat"),
    "no_children_in_array": OPENED + refused("E3 ChildrenDiffer"),
    "no_buffers": no_array("V3 BufferTooShort"),
    "fewer_buffers": no_array("V3 BufferTooShort"),
    "offsets_of_no_byte": OPENED + OPENED,
    "offsets_below_0": no_array("V4 OffsetNegative"),
    "offsets_that_decrease": no_array("V5 OffsetDecreases row=1"),
    "offsets_that_end_before": no_array("V5 OffsetDecreases row=0"),
    "texts_that_are_absent": no_array("V6 OffsetPastEnd"),
    "offsets_past_memory": OPENED + refused("E5 OutOfRange"),
    "lists_past_their_items": no_array("V6 OffsetPastEnd"),
    "lists_that_begin_past_their_items": no_array("V6 OffsetPastEnd"),
    "lists_without_a_row": OPENED + OPENED,
    "items_below_0": OPENED + refused("E5 OutOfRange"),
    "index_past_dictionary": no_array("V9 IndexPastDictionary row=1"),
    "dictionary_below_0": OPENED + refused("E5 OutOfRange"),
    "stream_twice": OPENED + "0\n2 batches, 8 rows, 1 released\n1 arrowtab: E7 Released\n0 batches, 0 rows, 1 released\n",
    "own_stream_twice": OPENED + "0\n0\n0\n1 arrowtab: E7 Released\n",
    "stream_in_threads": "2000 of 2000 streams were read once, 2000 released\n",
    "failure_with_a_text": OPENED + "1 arrowtab: E6 Stream code=5: the disk is on fire\n1 batches, 4 rows, 1 released\n",
    "failure_with_a_long_text": OPENED + f"1 arrowtab: E6 Stream code=5: {'é' * 33}\n1 batches, 4 rows, 1 released\n",
    "failure_without_a_text": OPENED + "1 arrowtab: E6 Stream code=-1\n1 batches, 4 rows, 1 released\n",
    "failure_for_want_of_memory": OPENED + "3\n1 batches, 4 rows, 1 released\n",
    "batch_of_a_stream_that_is_refused": OPENED + refused("E4 TooShort") + "0 batches, 0 rows, 1 released\n",
    "short_buffer": OPENED + "2\n31 bytes\n",
    "lookers": OPENED * 4 + "0, and 1\n",
    "slices": (OPENED + "4096 rows\n") * 4,
}


def difference(found, wanted):
    return None if found == wanted else f"{found!r:.500} and not {wanted!r:.500}"


def cases(archive, folder):
    """The cases over the library of this archive; what stands in c/ is compiled anew, with sanitizers."""
    with open(os.path.join(TOP, "tools", "hostile.c"), encoding="utf-8") as file:
        names = re.findall(r"\bCASE\((\w+)\),", file.read())
    yield "the cases of hostile.c", difference(sorted(names), sorted(WANTED))
    out = os.path.join(folder, "hostile")
    words = ["-std=c11", "-Wall", "-Wextra", "-Wpedantic", "-Werror", "-pthread", f"-I{TOP}/include", os.path.join(TOP, "tools", "hostile.c"),
             *sorted(glob.glob(os.path.join(TOP, "c", "*.c"))), archive, "-o", out]
    built = subprocess.run([*compiler(), *SANITIZERS, *words], capture_output=True, text=True, timeout=SECONDS)
    if built.returncode:
        print("not tried: sanitizers", flush=True)
        subprocess.run([*compiler(), "-O1", *words], check=True, timeout=SECONDS)
    # What a case hands in stays its own.
    env = {**os.environ, "ASAN_OPTIONS": "detect_leaks=0"}
    for name, wanted in WANTED.items():
        ran = subprocess.run([out, name], env=env, capture_output=True, text=True, timeout=SECONDS)
        yield f"hostile {name}", difference((ran.returncode, ran.stdout, ran.stderr), (0, wanted, ""))
