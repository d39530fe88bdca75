"""Tests of what builds the package for pip, in a copy of the packages: what a wheel and the sources hold, that they come out the same each time and leave
nothing behind, that the package works where a wheel is unpacked, and what is said where the library is missing."""

import ast
import base64
import csv
import hashlib
import os
import pathlib
import shutil
import subprocess
import sys
import tarfile
import tempfile
import unittest
import zipfile

from words import BINDING, film

try:
    import tomllib
except ImportError:
    tomllib = None

LIBRARY = pathlib.Path(film._calls.library._name)
IN_PACKAGE = f"film/libfilm.so.{film.__version__.split('.')[0]}"
STEM = f"gorishanda_film-{film.__version__}"
INFO = f"{STEM}.dist-info"


def python(code, folder, library=None, **variables):
    """What a new Python ended with and said that runs this code in a folder, with FILM_LIBRARY set to that folder or not set. It may write bytecode."""
    environment = {name: value for name, value in os.environ.items() if name not in ("FILM_LIBRARY", "PYTHONDONTWRITEBYTECODE")}
    environment.update(variables, **({"FILM_LIBRARY": str(library)} if library else {}))
    ended = subprocess.run([sys.executable, "-c", code], cwd=folder, env=environment, stdout=subprocess.PIPE, stderr=subprocess.STDOUT, universal_newlines=True)
    return ended.returncode, ended.stdout.strip()


def files_of(folder):
    return {path.relative_to(folder).as_posix(): path.read_bytes() for path in folder.glob("**/*") if path.is_file()}


def folders_of(folder):
    return {path for path in folder.glob("**/*") if path.is_dir()}


class Tests(unittest.TestCase):
    def setUp(self):
        folder = tempfile.TemporaryDirectory()
        self.addCleanup(folder.cleanup)
        self.room = pathlib.Path(folder.name).resolve()
        self.copy = self.copied("copy")

    def copied(self, name):
        """A copy of what a package is built of, in a checkout that has no library."""
        copy = self.room / name / "bindings/python"
        copy.mkdir(parents=True)
        for package in ("film", "film_command"):
            shutil.copytree(BINDING / package, copy / package, ignore=shutil.ignore_patterns("__pycache__", "libfilm*"))
        for file in ("pyproject.toml", "build_film.py"):
            shutil.copyfile(BINDING / file, copy / file)
        return copy

    def built(self, function, copy, library=LIBRARY.parent):
        """The file that a function builds; nothing else is written to the copy."""
        built, before = self.room / f"built{len(list(self.room.iterdir()))}", (files_of(copy), folders_of(copy))
        built.mkdir()
        status, said = python(f"import build_film; print(build_film.{function}({str(built)!r}))", copy, library)
        self.assertEqual((status, [file.name for file in built.iterdir()]), (0, [said]), said)
        self.assertEqual((files_of(copy), folders_of(copy)), before)
        return built / said

    def test_wheel(self):
        """A wheel has every file of the packages, the library, what pip wants to know, and the sums of all of it."""
        due = {name: content for name, content in files_of(self.copy).items() if "/" in name}
        (self.copy / "film/__pycache__").mkdir()
        (self.copy / "film/__pycache__/_text.pyc").write_text("bytecode")
        wheel = self.built("build_wheel", self.copy)
        self.assertEqual(wheel.name, f"{STEM}-py3-none-linux_x86_64.whl")
        with zipfile.ZipFile(wheel) as opened:
            files = {name: opened.read(name) for name in opened.namelist()}
            self.assertEqual({(entry.external_attr >> 16, entry.date_time) for entry in opened.infolist()}, {(0o100644, (1980, 1, 1, 0, 0, 0))})
        self.assertEqual({name: content for name, content in files.items() if not name.startswith(INFO)}, {**due, IN_PACKAGE: LIBRARY.read_bytes()})
        self.assertIn("film/py.typed", due)
        self.assertIn(f"Name: gorishanda-film\nVersion: {film.__version__}\nSummary: The proved film reader", files[f"{INFO}/METADATA"].decode())
        self.assertIn("\nRequires-Python: >=3.8\n", files[f"{INFO}/METADATA"].decode())
        self.assertIn("\nRoot-Is-Purelib: false\nTag: py3-none-linux_x86_64\n", files[f"{INFO}/WHEEL"].decode())
        self.assertEqual(files[f"{INFO}/entry_points.txt"].decode(), "[console_scripts]\nfilm = film_command:main\n")
        rows = list(csv.reader(files[f"{INFO}/RECORD"].decode().splitlines()))
        self.assertEqual([row[0] for row in rows], list(files))
        self.assertEqual(list(files)[:-4], sorted({*due, IN_PACKAGE}))
        for name, digest, length in rows[:-1]:
            own = base64.urlsafe_b64encode(hashlib.sha256(files[name]).digest()).decode().rstrip("=")
            self.assertEqual((digest, length), (f"sha256={own}", str(len(files[name]))), name)
        self.assertEqual(rows[-1], [f"{INFO}/RECORD", "", ""])

    def test_same_again(self):
        """Built in another place of files with other times and modes, a wheel and the sources are the same; so is a wheel that is built of the sources."""
        other = self.copied("other")
        for path in other.glob("**/*"):
            os.utime(path, (0, 10**9))
            path.chmod(0o700)
        wheels, sources = ([self.built(function, copy) for copy in (self.copy, other)] for function in ("build_wheel", "build_sdist"))
        for one, again in (wheels, sources):
            self.assertEqual(one.read_bytes(), again.read_bytes())
        # the time that gzip tells, and those of the files
        self.assertEqual(sources[0].read_bytes()[4:8], bytes(4))
        with tarfile.open(sources[0]) as opened:
            self.assertEqual({(entry.mtime, entry.mode, entry.uid, entry.uname) for entry in opened}, {(0, 0o644, 0, "")})
            opened.extractall(self.room)
        due = {**files_of(self.copy), IN_PACKAGE: LIBRARY.read_bytes()}
        with zipfile.ZipFile(wheels[0]) as opened:
            due["PKG-INFO"] = opened.read(f"{INFO}/METADATA")
        self.assertEqual((sources[0].name, files_of(self.room / STEM)), (f"{STEM}.tar.gz", due))
        self.assertEqual(self.built("build_wheel", self.room / STEM, library=None).read_bytes(), wheels[0].read_bytes())

    def test_unpacked(self):
        """The package reads where a wheel is unpacked, with the library inside, and its command starts."""
        unpacked = self.room / "unpacked"
        with zipfile.ZipFile(self.built("build_wheel", self.copy)) as opened:
            opened.extractall(unpacked)
        code = "import film; print(film._calls.library._name, film.text_of(film.encode_line(film.characters_of('AN ITEM'), 65)).text)"
        self.assertEqual(python(code, self.room, PYTHONPATH=str(unpacked)), (0, f"{unpacked / IN_PACKAGE} AN ITEM"))
        code = "import sys, runpy; sys.argv[1:] = ['--version']; runpy.run_module('film', run_name='__main__')"
        status, said = python(code, self.room, PYTHONPATH=str(unpacked))
        self.assertEqual((status, film.__version__ in said), (0, True), said)

    def test_link(self):
        with zipfile.ZipFile(self.built("build_editable", self.copy, library=None)) as opened:
            self.assertEqual(opened.read("gorishanda-film.pth").decode(), f"{self.copy}\n")

    def test_no_library(self):
        """Where there is no library, or one of another version, one sentence says so."""
        for function in ("build_wheel", "build_sdist"):
            code = f"import build_film; build_film.{function}('.')"
            for library, says in ((None, "is not there: run tools/build-library"), (self.room, f"FILM_LIBRARY is '{self.room}'")):
                status, said = python(code, self.copy, library)
                self.assertEqual((status, len(said.splitlines()), says in said), (1, 1, True), said)
        settings = self.copy / "pyproject.toml"
        settings.write_text(settings.read_text().replace(film.__version__, "4.0.999"))
        self.assertEqual(python(code, self.copy, LIBRARY.parent), (1, f"{LIBRARY} is not of version 4.0.999: run tools/build-library"))

    @unittest.skipUnless(tomllib, "Python reads TOML from 3.11 on")
    def test_settings(self):
        """What is read of pyproject.toml is what Python reads of it, and nothing that a wheel needs is left out."""
        due = tomllib.loads((BINDING / "pyproject.toml").read_text())
        status, said = python("import build_film; print(build_film.SETTINGS)", self.copy)
        self.assertEqual(status, 0, said)
        scripts = due["project"].pop("scripts")
        self.assertEqual(ast.literal_eval(said), {"build-system": {"build-backend": "build_film"}, "project": due["project"], "project.scripts": scripts})


if __name__ == "__main__":
    unittest.main()
