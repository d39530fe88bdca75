"""`python3 -m film` runs the command `film`."""

import sys

from film_command import main

if __name__ == "__main__":
    sys.exit(main())
