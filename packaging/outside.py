"""Checks the package film from outside: it is that of the Python which runs this, has its types, and has loaded the library of one folder and no other.

    python outside.py FOLDER    with package in the place of FOLDER for the folder of the package itself"""

import pathlib
import sys

import film

package = pathlib.Path(film.__file__).parent
folder = package if sys.argv[1] == "package" else pathlib.Path(sys.argv[1])
# the libraries of this process, as the kernel tells them
loaded = {line.split(maxsplit=5)[5].strip() for line in open("/proc/self/maps") if "libfilm" in line}

assert pathlib.Path(sys.prefix) in package.parents, f"{package} is not of {sys.prefix}"
assert (package / "py.typed").is_file(), f"{package} has no py.typed"
assert len(loaded) == 1 and pathlib.Path(*loaded).parent == folder.resolve(), f"{loaded} were loaded, and not from {folder}"
