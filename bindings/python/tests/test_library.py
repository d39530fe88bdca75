"""Tests of finding and loading the shared library: which folder is looked in, and what an ImportError says where the library is not taken."""

import os
import pathlib
import shutil
import subprocess
import sys
import tempfile
import unittest
import unittest.mock

from words import BINDING, film

from film import _loading

MAJOR = film.version() // 1000000
NAMES = (f"libfilm.so.{MAJOR}", "libfilm.so")
LOADED = pathlib.Path(film._calls.library._name)


def found(package, named):
    """The library that is found for a package where FILM_LIBRARY is this, or None where it is not set."""
    environment = {name: value for name, value in os.environ.items() if name != "FILM_LIBRARY"}
    with unittest.mock.patch.dict(os.environ, environment if named is None else {**environment, "FILM_LIBRARY": str(named)}, clear=True):
        return _loading.shared_library(package)


class Finding(unittest.TestCase):
    def setUp(self):
        folder = tempfile.TemporaryDirectory()
        self.addCleanup(folder.cleanup)
        self.root = pathlib.Path(folder.name).resolve()
        self.package, self.built, self.other = (self.root / path for path in ("bindings/python/film", "target/film", "other"))
        for one in (self.package, self.built, self.other):
            one.mkdir(parents=True)

    def is_none(self, named, *words):
        with self.assertRaises(ImportError) as caught:
            found(self.package, named)
        for word in words:
            self.assertIn(word, str(caught.exception))

    def test_not_set(self):
        """The library inside the package, or else that of the checkout; in each the one with the major number first. An empty FILM_LIBRARY is as none."""
        for named in (None, ""):
            self.is_none(named, NAMES[0], "run tools/build-library, or set FILM_LIBRARY to the folder of libfilm.so")
        for folder in (self.built, self.package):
            for name in reversed(NAMES):
                (folder / name).touch()
                for named in (None, ""):
                    self.assertEqual(found(self.package, named), folder / name)

    def test_folder(self):
        """The folder that FILM_LIBRARY names, and no other."""
        for name in reversed(NAMES):
            for folder in (self.package, self.built):
                (folder / name).touch()
            self.assertEqual(found(self.package, self.built), self.built / name)
        for named in (self.other, self.root / "nowhere"):
            self.is_none(named, repr(str(named)), f"no {NAMES[0]}", "the folder in which libfilm.so lies")

    def test_file(self):
        """The library that FILM_LIBRARY names, whatever it is called, as up to version 4.8.0, and no other."""
        for name in (*NAMES, "other.so"):
            for folder in (self.package, self.built, self.other):
                (folder / name).touch()
            self.assertEqual(found(self.package, self.built / name), self.built / name)
        self.is_none(self.built / "nothing.so", repr(str(self.built / "nothing.so")))

    def test_here(self):
        """A folder that is named from where the program runs gives a path that the loader looks up nowhere else."""
        (self.other / NAMES[1]).touch()
        before = os.getcwd()
        self.addCleanup(os.chdir, before)
        os.chdir(self.root)
        self.assertEqual(found(self.package, "other"), self.other / NAMES[1])
        os.chdir(self.other)
        self.assertEqual(found(self.package, "."), self.other / NAMES[1])


class Loading(unittest.TestCase):
    def setUp(self):
        folder = tempfile.TemporaryDirectory()
        self.addCleanup(folder.cleanup)
        self.folder = pathlib.Path(folder.name)

    def compiled(self, name, source):
        path = self.folder / name
        subprocess.run([os.environ.get("CC", "gcc"), "-shared", "-fPIC", "-x", "c", "-", "-o", path], input=source.encode(), check=True)
        return path

    def test_other_libraries(self):
        """A library of another major version is not taken, nor one that tells none, nor an older one without a function, nor a file that is no library."""
        (self.folder / "text.so").write_text("no library")
        wanted = f"this binding is for version {film.__version__} or a later {MAJOR}"
        for says, path in (
            (
                f"is of major version {MAJOR + 1}; {wanted}: it is version {MAJOR + 1}.2.3",
                self.compiled("later.so", f"unsigned film_version(void) {{ return {MAJOR + 1}002003; }}"),
            ),
            (
                f"is of major version {MAJOR - 1}; {wanted}: it is version {MAJOR - 1}.0.1",
                self.compiled("earlier.so", f"unsigned film_version(void) {{ return {MAJOR - 1}000001; }}"),
            ),
            (f"tells no version; {wanted}", self.compiled("other.so", "int other;")),
            (f"is version {MAJOR}.0.7 and has no film_sum; {wanted}", self.compiled("old.so", f"unsigned film_version(void) {{ return {MAJOR}000007; }}")),
            ("cannot be loaded: ", self.folder / "text.so"),
            ("cannot be loaded: ", self.folder / "nothing.so"),
        ):
            with self.assertRaises(ImportError) as caught:
                _loading.load(path)
            self.assertIn(f"{path} {says}", str(caught.exception))

    def imported(self, folder):
        """What a new Python says that imports the package with this FILM_LIBRARY."""
        environment = {**os.environ, "FILM_LIBRARY": str(folder), "PYTHONPATH": str(BINDING)}
        ended = subprocess.run(
            [sys.executable, "-B", "-c", "import film; print(film._calls.library._name, film.read_line(film.encode_line(bytes(50), 65), 5).number)"],
            env=environment, cwd=self.folder, stdout=subprocess.PIPE, stderr=subprocess.STDOUT, universal_newlines=True,
        )
        return ended.returncode, ended.stdout.splitlines()[-1]

    def test_importing(self):
        shutil.copy(LOADED, self.folder / NAMES[1])
        for folder in (self.folder, "."):
            self.assertEqual(self.imported(folder), (0, f"{self.folder.resolve() / NAMES[1]} 65"))
        status, said = self.imported(self.folder / "nowhere")
        self.assertEqual((status, said.split(",")[0]), (1, f"ImportError: FILM_LIBRARY is '{self.folder / 'nowhere'}'"))


if __name__ == "__main__":
    unittest.main()
