"""The library of `refusals.c`, which refuses requests for memory of the program that it is loaded into."""
import os
import shutil
import subprocess

TOP = os.path.dirname(os.path.dirname(os.path.abspath(__file__)))


def compiler():
    """A compiler of C that is there: the system's, or the kit's, which has no headers."""
    for name in ("cc", "clang", "gcc"):
        if shutil.which(name):
            return [name]
    page = subprocess.run(["rt", "doc"], stdout=subprocess.PIPE, check=True, text=True).stdout.strip()
    tools = os.path.join(os.path.dirname(page), "toolchain", "bin")
    return [os.path.join(tools, "clang"), "-nostdinc", "-fuse-ld=lld", "-B", tools]


def built(room):
    """The library, built in this folder."""
    library = os.path.join(room, "refusals.so")
    source = os.path.join(TOP, "tools", "refusals.c")
    subprocess.run([*compiler(), "-O2", "-shared", "-fPIC", "-nostdlib", "-fno-builtin", "-o", library, source], check=True)
    return library
