"""What the tools in Python share: help, and the words that are taken."""

import sys


def words(head, *taken):
    """The words given, each one of those taken. --help or -h prints the tool's head and ends; any other word is refused with 2."""
    given = sys.argv[1:]
    if "--help" in given or "-h" in given:
        print(head.strip())
        sys.exit(0)
    for word in given:
        if word not in taken:
            print(f"{sys.argv[0]}: '{word}' is not taken; --help says which words are", file=sys.stderr)
            sys.exit(2)
    return given
