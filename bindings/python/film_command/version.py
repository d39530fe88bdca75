"""The version of the command, which is that of the package `film`, and of the library, where it loads."""

import importlib.util
import pathlib
from typing import Any, Dict


def own_version() -> str:
    """The version of the package, which cannot be imported where there is no library."""
    found = importlib.util.find_spec("film")
    # by its loader: tools/install packs the packages into one file
    told: Dict[str, Any] = {}
    exec(found.loader.get_data(str(pathlib.Path(found.origin).with_name("_version.py"))), told)
    return told["__version__"]


def versions() -> str:
    try:
        import film
    except ImportError:
        return f"film {own_version()}"
    number = film.version()
    return f"film {film.__version__}, library {number // 1000000}.{number // 1000 % 1000}.{number % 1000}"
