"""Tests of the package as a whole: its public names, their types and documentation, and its version."""

import doctest
import importlib
import inspect
import pkgutil
import types
import typing
import unittest

from words import BINDING, film

MODULES = [importlib.import_module(f"film.{found.name}") for found in pkgutil.iter_modules(film.__path__) if found.name != "__main__"]
PUBLIC = {name: getattr(film, name) for name in film.__all__}
CLASSES = [one for one in PUBLIC.values() if isinstance(one, type)]
FUNCTIONS = [one for one in PUBLIC.values() if inspect.isfunction(one)]


def own_functions(one):
    """The functions that a class has of its own, those of its class methods and properties too; of a named tuple none, since they are made of its fields."""
    for value in vars(one).values() if not hasattr(one, "_fields") else ():
        value = getattr(value, "fget", getattr(value, "__func__", value))
        if inspect.isfunction(value):
            yield value


class Tests(unittest.TestCase):
    def test_names(self):
        """__all__ has each public name once, and all are said to be of the package."""
        named = [name for name, value in vars(film).items() if not name.startswith("_") and not isinstance(value, types.ModuleType)]
        self.assertEqual(sorted(film.__all__), sorted([*named, "__version__"]))
        self.assertGreater(len(CLASSES) + len(FUNCTIONS), 30)
        for one in CLASSES + FUNCTIONS:
            self.assertEqual((one.__module__, getattr(film, one.__name__)), ("film", one))

    def test_types(self):
        """Every parameter, result and field that is public has a type, and the marker that says so lies in the package."""
        self.assertTrue((BINDING / "film/py.typed").is_file())
        for function in [*FUNCTIONS, *(function for one in CLASSES for function in own_functions(one))]:
            signature = inspect.signature(function)
            untyped = [name for name, parameter in signature.parameters.items() if parameter.annotation is parameter.empty and name not in ("self", "cls")]
            self.assertEqual((untyped, signature.return_annotation is signature.empty), ([], False), function)
            typing.get_type_hints(function)
        for one, given in (
            (film.Refused, (6,)), (film.ImproperSheet, (b"", 2)), (film.NoCharacter, (0, "a")), (film.TooLong, (50,)), (film.Register, ()),
        ):
            self.assertLessEqual(set(vars(one(*given))), set(typing.get_type_hints(one)))

    def test_documentation(self):
        """Everything public says what it is, and every example in the package's files gives what it says."""
        for one in [film, *MODULES, *CLASSES, *FUNCTIONS]:
            self.assertTrue(one.__doc__, one)
        results = [doctest.testmod(module, extraglobs={"film": film}) for module in (film, *MODULES)]
        examples = sum(path.read_text().count("    >>> ") for path in (BINDING / "film").glob("*.py"))
        self.assertEqual((sum(result.failed for result in results), sum(result.attempted for result in results)), (0, examples))

    def test_version(self):
        major, minor, patch = map(int, film.__version__.split("."))
        self.assertEqual(film.version(), 1000000 * major + 1000 * minor + patch)


if __name__ == "__main__":
    unittest.main()
