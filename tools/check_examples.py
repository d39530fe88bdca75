"""Checks README.md: the example of each binding has five lines or fewer, and each is a line of the example that tools/test-bindings runs.

It takes no words."""

import pathlib
import re
import sys

sys.dont_write_bytecode = True
from shared import words

ROOT = pathlib.Path(__file__).resolve().parents[1]
EXAMPLES = {"c": "bindings/c/example_text.c", "rust": "bindings/rust/examples/read_text.rs", "python": "bindings/python/example_text.py"}


def main():
    blocks = dict(re.findall(r"```(\w+)\n(.*?)```", (ROOT / "README.md").read_text(), re.DOTALL))
    for language, file in EXAMPLES.items():
        lines = [line.strip() for line in blocks.get(language, "").splitlines()]
        run = {line.strip() for line in (ROOT / file).read_text().splitlines()}
        other = [line for line in lines if line not in run]
        if not 1 <= len(lines) <= 5 or other:
            sys.exit(f"README.md, {language}: {len(lines)} lines; not in {file}: {other}")


if __name__ == "__main__":
    words(__doc__)
    main()
