"""The start of the command film where tools/install has put it: PREFIX/bin/film, one file, takes the library of PREFIX/lib, wherever PREFIX lies now.

FILM_LIBRARY, where it is set, names another folder."""

import os
import pathlib
import sys

# this file lies in the archive PREFIX/bin/film, which may have been called by a link
archive = pathlib.Path(__file__).parent.resolve()
if not os.environ.get("FILM_LIBRARY"):
    os.environ["FILM_LIBRARY"] = str(archive.parents[1] / "lib")

from film_command import main

sys.exit(main())
