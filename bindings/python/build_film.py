"""Builds the package for pip, as pyproject.toml asks it to: a wheel with the shared library inside, or sources that have it too. Python's own library is all it
needs, and a file comes out byte for byte the same whenever it is built of the same.

pip calls the functions whose names begin with build_ (PEP 517 and 660)."""

import base64
import contextlib
import gzip
import hashlib
import importlib.util
import io
import pathlib
import re
import stat
import sys
import tarfile
import zipfile

HERE = pathlib.Path(__file__).resolve().parent
PACKAGES = ("film", "film_command")
SOURCES = ("pyproject.toml", "build_film.py")

# The library is for this machine, and the packages are for every Python of it; a link to them is for every machine.
FOR_THIS_MACHINE, FOR_ALL = "py3-none-linux_x86_64", "py3-none-any"

# The earliest time that a file in a wheel can have, and what may be done with it.
TIME = (1980, 1, 1, 0, 0, 0)
MODE = 0o644

# A build leaves nothing in the tree: no bytecode of what it imports, and not its own, which Python has written by now.
sys.dont_write_bytecode = True
with contextlib.suppress(OSError):
    OWN = pathlib.Path(importlib.util.cache_from_source(__file__))
    OWN.unlink()
    OWN.parent.rmdir()


def settings(text):
    """The texts of a file in TOML, by section and name; Python can read all of TOML only from 3.11 on."""
    found, section = {}, ""
    for line in text.splitlines():
        head, value = re.fullmatch(r"\[(.+)\]", line), re.fullmatch(r'([\w-]+) = "(.*)"', line)
        if head:
            section = head[1]
        elif value:
            found.setdefault(section, {})[value[1]] = value[2]
    return found


SETTINGS = settings((HERE / "pyproject.toml").read_text())
PROJECT = SETTINGS["project"]
STEM = f"{PROJECT['name'].replace('-', '_')}-{PROJECT['version']}"


def library():
    """The shared library that the package loads here, by the name that it has in the package: it has to be there, and of this very version."""
    try:
        import film
    except ImportError as why:
        sys.exit(str(why))
    major, minor, patch = map(int, PROJECT["version"].split("."))
    path = pathlib.Path(film._calls.library._name)
    if film.version() != 1000000 * major + 1000 * minor + patch:
        sys.exit(f"{path} is not of version {PROJECT['version']}: run tools/build-library")
    return {f"film/libfilm.so.{major}": path.read_bytes()}


def packages():
    """Every file of the packages, the library among them."""
    files = library()
    for path in (path for package in PACKAGES for path in (HERE / package).glob("**/*")):
        if path.is_file() and path.parent.name != "__pycache__":
            files.setdefault(path.relative_to(HERE).as_posix(), path.read_bytes())
    return files


def metadata():
    return "".join(
        f"{name}: {value}\n"
        for name, value in (
            ("Metadata-Version", "2.1"),
            ("Name", PROJECT["name"]),
            ("Version", PROJECT["version"]),
            ("Summary", PROJECT["description"]),
            ("Requires-Python", PROJECT["requires-python"]),
        )
    ).encode()


def record(files, own):
    """The list of a wheel's files, each with its sum and its length, but for the list itself."""
    for name, content in files.items():
        digest = base64.urlsafe_b64encode(hashlib.sha256(content).digest()).decode().rstrip("=")
        yield f"{name},sha256={digest},{len(content)}\n"
    yield f"{own},,\n"


def write_wheel(folder, files, tag):
    """Writes a wheel with these files, and gives its name."""
    info = f"{STEM}.dist-info"
    commands = "".join(f"{name} = {function}\n" for name, function in SETTINGS["project.scripts"].items())
    files = {
        **dict(sorted(files.items())),
        f"{info}/METADATA": metadata(),
        f"{info}/WHEEL": f"Wheel-Version: 1.0\nGenerator: build_film\nRoot-Is-Purelib: false\nTag: {tag}\n".encode(),
        f"{info}/entry_points.txt": f"[console_scripts]\n{commands}".encode(),
    }
    files[f"{info}/RECORD"] = "".join(record(files, f"{info}/RECORD")).encode()
    name = f"{STEM}-{tag}.whl"
    with zipfile.ZipFile(pathlib.Path(folder) / name, "w") as wheel:
        for path, content in files.items():
            entry = zipfile.ZipInfo(path, TIME)
            entry.compress_type, entry.external_attr = zipfile.ZIP_DEFLATED, (stat.S_IFREG | MODE) << 16
            wheel.writestr(entry, content)
    return name


def build_wheel(wheel_directory, config_settings=None, metadata_directory=None):
    return write_wheel(wheel_directory, packages(), FOR_THIS_MACHINE)


def build_editable(wheel_directory, config_settings=None, metadata_directory=None):
    """A wheel that leads Python here."""
    return write_wheel(wheel_directory, {f"{PROJECT['name']}.pth": f"{HERE}\n".encode()}, FOR_ALL)


def build_sdist(sdist_directory, config_settings=None):
    files = {**packages(), **{name: (HERE / name).read_bytes() for name in SOURCES}, "PKG-INFO": metadata()}
    name = f"{STEM}.tar.gz"
    with open(pathlib.Path(sdist_directory) / name, "wb") as file, gzip.GzipFile("", "wb", fileobj=file, mtime=0) as packed:
        with tarfile.open(fileobj=packed, mode="w", format=tarfile.PAX_FORMAT) as sources:
            for path, content in sorted(files.items()):
                entry = tarfile.TarInfo(f"{STEM}/{path}")
                entry.size, entry.mode = len(content), MODE
                sources.addfile(entry, io.BytesIO(content))
    return name
