"""The finding of the shared library, and its loading, with the types of its functions; or an ImportError that says why it is not taken."""

import ctypes
import os
import pathlib

from ._functions import FUNCTIONS
from ._structs import u8
from ._version import MAJOR, __version__

_WANTED = f"this binding is for version {__version__} or a later {MAJOR}"


def shared_library(package: pathlib.Path) -> pathlib.Path:
    """The library that FILM_LIBRARY names, or the one in the folder that it names. Where it names none, the library inside the package, or else the one that
    tools/build-library has made in the checkout around it. An ImportError says that there is none, and what to do."""
    named = os.environ.get("FILM_LIBRARY")
    if named and os.path.isfile(named):
        return pathlib.Path(named).parent.resolve() / pathlib.Path(named).name
    folders = [pathlib.Path(named)] if named else [package, package / "../../../target/film"]
    for folder in folders:
        for name in (f"libfilm.so.{MAJOR}", "libfilm.so"):
            # from the root on: a bare name would be looked up where the system keeps libraries
            path = folder.resolve() / name
            if os.path.isfile(path):
                return path
    if named:
        raise ImportError(
            f"FILM_LIBRARY is {named!r}, where there is no libfilm.so.{MAJOR}: it names the folder in which libfilm.so lies,"
            " target/film of a checkout or PREFIX/lib after tools/install PREFIX"
        )
    raise ImportError(f"libfilm.so.{MAJOR} is not there: run tools/build-library, or set FILM_LIBRARY to the folder of libfilm.so")


def _version_of(library: ctypes.CDLL, path: pathlib.Path) -> str:
    """The version of a library. One of another major version is not taken: its structs may be laid out otherwise."""
    if not hasattr(library, "film_version"):
        raise ImportError(f"{path} tells no version; {_WANTED}")
    library.film_version.argtypes, library.film_version.restype = [], ctypes.c_uint32
    number = library.film_version()
    written = f"{number // 1000000}.{number // 1000 % 1000}.{number % 1000}"
    if number // 1000000 != MAJOR:
        raise ImportError(f"{path} is of major version {number // 1000000}; {_WANTED}: it is version {written}")
    return written


def load(path: pathlib.Path) -> ctypes.CDLL:
    """The library at a path."""
    try:
        library = ctypes.CDLL(str(path))
    except OSError as why:
        raise ImportError(f"{path} cannot be loaded: {why}") from None
    version = _version_of(library, path)
    output = [ctypes.POINTER(u8), ctypes.c_size_t]
    for name, declared in FUNCTIONS.items():
        if not hasattr(library, f"film_{name}"):
            raise ImportError(f"{path} is version {version} and has no film_{name}; {_WANTED}")
        function = getattr(library, f"film_{name}")
        function.argtypes = [c_type for kind in declared.takes for c_type in kind.c_types] + (output if declared.room else [])
        function.restype = declared.gives
    return library
