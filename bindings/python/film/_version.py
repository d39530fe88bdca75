"""The version of the binding; tools/tables writes it from version.txt."""

__version__ = "4.8.0"

# A library of another major version is not taken.
MAJOR = int(__version__.split(".")[0])
