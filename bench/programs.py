"""The programs that are measured: `crates/bench`, and the plain Rust beside it."""
import functools
import os
import shutil
import subprocess

TOP = os.path.dirname(os.path.dirname(os.path.abspath(__file__)))


@functools.lru_cache(maxsize=None)
def built():
    """The path of the program of `crates/bench`, proved and built of the sources as they are: once for a script."""
    folder = os.path.join(TOP, "crates", "bench")
    subprocess.run(["rt", "run"], cwd=folder, stdout=subprocess.DEVNULL, check=True)
    return os.path.join(folder, "out", "bench")


def ours(subject):
    """The first words of a run of it."""
    return [built(), subject]


def plain(name, folder):
    """The path of the plain Rust program of this name, built by cargo in a folder of its own. Where VENDORED names a folder
    of vendored crates, cargo takes others' crates from there."""
    for file in ["Cargo.toml", "kernels.rs", "export.rs", "query.rs"]:
        shutil.copy(os.path.join(TOP, "bench", file), folder)
    words = ["cargo", "build", "--release", "--quiet", "--bin", name]
    vendored = os.environ.get("VENDORED")
    if vendored:
        words += ["--offline", "--config", 'source.crates-io.replace-with="vendored"',
                  "--config", f'source.vendored.directory="{vendored}"']
    # ours are built for this level
    environment = {**os.environ, "RUSTFLAGS": "-C target-cpu=x86-64-v2"}
    subprocess.run(words, cwd=folder, check=True, env=environment)
    return os.path.join(folder, "target", "release", name)
