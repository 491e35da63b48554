"""Makes the wheel of `selqumar`, with the shared library that `tools/library build` left: what `pip install ./python` asks for (PEP 517), and for
`pip install -e ./python` one that leads to this folder (PEP 660). Two wheels of one tree are the same bytes."""
import base64
import hashlib
import os
import platform
import re
import subprocess
import time
import zipfile

HERE = os.path.dirname(os.path.abspath(__file__))
TOP = os.path.dirname(HERE)
PACKAGE = os.path.join(HERE, "selqumar")
METADATA = """Metadata-Version: 2.1
Name: selqumar
Version: {version}
Summary: {description}
Requires-Python: {requires-python}
Description-Content-Type: text/markdown

{readme}"""
WHEEL = "Wheel-Version: 1.0\nGenerator: wheel_of_selqumar\nRoot-Is-Purelib: {pure}\nTag: {tag}\n"
# The library wants no symbol of glibc that is newer.
PLATFORM = "manylinux_2_17"
# The seconds of the first and the last date that a zip file can have.
FIRST, LAST = 315532800, 4354819198


def build_wheel(wheel_directory, config_settings=None, metadata_directory=None):
    """Writes the wheel, and gives its name."""
    modules = [os.path.join(PACKAGE, name) for name in os.listdir(PACKAGE) if name.endswith(".py") or name == "py.typed"]
    files = {f"selqumar/{os.path.basename(path)}": read(path) for path in sorted([*modules, library()], key=os.path.basename)}
    return written(wheel_directory, files, f"py3-none-{PLATFORM}_{platform.machine()}", "false")


def build_editable(wheel_directory, config_settings=None, metadata_directory=None):
    """Writes a wheel that leads to this folder, whose module takes the library in `build`; and gives its name."""
    if re.search(r"[\r\n]", HERE):
        raise SystemExit("selqumar: a folder whose name has an end of line can't be installed to be edited")
    return written(wheel_directory, {"selqumar.pth": os.fsencode(HERE) + b"\n"}, "py3-none-any", "true")


def project():
    """The members of the project's table in pyproject.toml that are texts."""
    with open(os.path.join(HERE, "pyproject.toml"), encoding="utf-8") as file:
        return dict(re.findall(r'^([\w-]+) = "(.*)"$', file.read().partition("[project]\n")[2], re.M))


def library():
    """The place of the shared library, under the name that the module looks for. It has to be as new as its sources."""
    with open(os.path.join(PACKAGE, "_library.py"), encoding="utf-8") as file:
        name = next(line.split('"')[1] for line in file if line.startswith("LIBRARY = "))
    build = os.path.join(TOP, "build")
    told = subprocess.run(["sh", os.path.join(TOP, "tools", "library"), "--check", build], stdin=subprocess.DEVNULL, capture_output=True)
    if told.returncode:
        raise SystemExit(told.stderr.decode(errors="replace").rstrip())
    return os.path.join(build, name)


def date():
    """The date that each file has: what SOURCE_DATE_EPOCH says, else the first."""
    told = os.environ.get("SOURCE_DATE_EPOCH") or "0"
    if not re.fullmatch(r"[0-9]{1,18}", told):
        raise SystemExit(f"selqumar: SOURCE_DATE_EPOCH is no number of seconds: {told!r}")
    return time.gmtime(min(max(int(told), FIRST), LAST))[:6]


def written(folder, files, tag, pure):
    """Writes a wheel of these files, and gives its name."""
    given = project()
    info = f"selqumar-{given['version']}.dist-info"
    readme = read(os.path.join(TOP, "README.md")).decode()
    files[f"{info}/METADATA"] = METADATA.format(**given, readme=readme).encode()
    files[f"{info}/WHEEL"] = WHEEL.format(tag=tag, pure=pure).encode()
    files[f"{info}/RECORD"] = record(files, info).encode()
    name, at = f"selqumar-{given['version']}-{tag}.whl", date()
    with zipfile.ZipFile(os.path.join(folder, name), "w") as wheel:
        for path, data in files.items():
            entry = zipfile.ZipInfo(path, at)
            entry.compress_type, entry.create_system, entry.external_attr = zipfile.ZIP_DEFLATED, 3, 0o100644 << 16
            wheel.writestr(entry, data)
    return name


def read(path):
    with open(path, "rb") as file:
        return file.read()


def record(files, info):
    """The list of all files with their sums, as a wheel has it."""
    sums = {path: base64.urlsafe_b64encode(hashlib.sha256(data).digest()).rstrip(b"=").decode() for path, data in files.items()}
    lines = [f"{path},sha256={sums[path]},{len(data)}\n" for path, data in files.items()]
    return "".join(lines) + f"{info}/RECORD,,\n"
