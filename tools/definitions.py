"""The definitions in the crates' specs/, the types that the code declares, and which of them the contracts of given functions reach."""

import pathlib
import re
from typing import NamedTuple

CRATES = pathlib.Path(__file__).resolve().parents[1] / "crates"

# `Rattle.NAME.specs.File.{..}`, or `.. as A`; a type of the code is declared.Type, or declared.module.Type, its cases declared.Type.TheVariants
USE = re.compile(r"^(?:ghost )?use Rattle\.(\w+)\.specs\.(declared\.(?:[a-z]\w*\.)*)?(\w+?)(?:\.TheVariants)?(?:\.\{([^}]*)\}| as (\w+));?$", re.MULTILINE)
# what is std's is not counted
OURS = re.compile(r"^(?:ghost )?use Rattle\.(?!std\.)", re.MULTILINE)
CODE_USE = re.compile(r"^(?:pub )?use (\w+)::(?:[a-z]\w*::)*(?:\{([^}]*)\}|(\w+));", re.MULTILINE)
SIGNATURE = re.compile(r"(?:(?:abbrev|unfoldable|pub) )*(?:(?:record|data) )?(\S+)")
BEGINS = ("pub ", "abbrev ", "unfoldable ", "record ", "data ")
DECLARED = re.compile(r"^(?:pub )?(?:enum|struct) (\w+) \{\n.*?^\}", re.MULTILINE | re.DOTALL)
# an operator is declared and imported as ◌then◌, and written `p then q`
HOLE = "◌"


class Place(NamedTuple):
    """Where a definition stands: a crate, a file of its specs/ (`declared` for a type of its code), and the name."""

    crate: str
    file: str
    name: str


class Definition:
    """The lines of a definition, comments and empty lines apart, and the names in them."""

    def __init__(self, source):
        self.source = source
        self.lines = []

    def words(self):
        """Names as they are written: `line.Reads` is one, a projection (`.held`) is none."""
        found = re.findall(r"[^\s(){};,]+", " ".join(self.lines))
        return {word.rstrip(".") for word in found if not word.startswith(".")}


class Source:
    """A file: what its `use` lines bring, and its own definitions by each name that leads to one."""

    def __init__(self, crate, file, text):
        self.crate, self.file = crate, file
        self.used, self.renamed, self.own = {}, {}, {}
        lines = [line for line in USE.findall(text) if line[0] != "std"]
        if len(lines) != len(OURS.findall(text)):
            raise ValueError(f"{crate}, {file}: a `use` line of a form that is not known here")
        for used, declared, name, names, alias in lines:
            place = (used, "declared" if declared else name)
            if alias:
                self.renamed[alias] = (place, name if declared else None)
            for one in filter(None, map(str.strip, names.split(","))):
                self.used[one.strip(HOLE)] = Place(*place, name if declared else one.strip(HOLE))

    def place_of(self, word):
        """The place of what a word of this file names, or None for a word of another kind."""
        head, dot, rest = word.partition(".")
        if dot and head in self.renamed:
            place, declared = self.renamed[head]
            return Place(*place, declared or rest)
        if word in self.own:
            return Place(self.crate, self.file, word)
        return self.used.get(word)


def without_comments(text, mark):
    return [line for line in text.splitlines() if line.strip() and not line.lstrip().startswith(mark)]


def specification(crate, path):
    source = Source(crate, path.stem, path.read_text())
    current, is_data = None, False
    for line in without_comments(path.read_text(), "--"):
        if line.startswith(("use ", "pub mod ", "infix ")):
            continue
        if line.startswith(BEGINS):
            current = Definition(source)
            source.own[SIGNATURE.match(line).group(1).strip(HOLE)] = current
            is_data = line.startswith(("data ", "pub data "))
        elif is_data and (case := re.match(r"  (\S+) : ", line)):
            source.own[case.group(1)] = current
        if current is None:
            raise ValueError(f"{path}: no definition begins so: {line}")
        current.lines.append(line)
    return source


def everything():
    """All definitions, by crate and file."""
    sources = {(path.parts[-3], path.stem): specification(path.parts[-3], path) for path in sorted(CRATES.glob("*/specs/*.antt"))}
    for path in sorted(CRATES.glob("*/src/*.rt")):
        crate, text = path.parts[-3], path.read_text()
        source = sources.setdefault((crate, "declared"), Source(crate, "declared", ""))
        for used, names, name in CODE_USE.findall(text):
            for one in filter(None, map(str.strip, (names or name).split(","))):
                source.used[one] = Place(used, "declared", one)
        for found in DECLARED.finditer(text):
            source.own[found.group(1)] = definition = Definition(source)
            definition.lines = without_comments(found.group(0), "//")
    return sources


def contract(crate, function):
    """The `use` lines above a function, and the words of its signature and contract."""
    for path in sorted((CRATES / crate / "src").glob("*.rt")):
        text = path.read_text()
        found = re.search(rf"\bfn {function}(?:<'\w+>)?\((.*?)\n *\{{\n", text, re.DOTALL)
        if found:
            # a clause's own name is none of a definition
            words = re.sub(r"\b(requires|ensures)\*? \w+ \{", r"\1 {", found.group(1))
            return Source(crate, "contract", text), re.findall(r"[^\s(){};,:<>&]+", words)
    raise LookupError(f"{crate} has no function {function}")


def reached(functions):
    """The definitions that the signatures and contracts of these functions reach, each with its place."""
    sources = everything()
    met, waiting = {}, []
    for crate, function in functions:
        source, words = contract(crate, function)
        types = sources[crate, "declared"]
        waiting += [source.place_of(word) or types.place_of(word) for word in words]
    while waiting:
        place = waiting.pop()
        source = place and sources.get(place[:2])
        definition = source and source.own.get(place.name)
        if source and not definition and place.file != "declared":
            raise LookupError(f"{place.crate}, {place.file}: no definition {place.name} was found")
        if definition and definition not in met:
            met[definition] = place
            waiting += [definition.source.place_of(word) for word in definition.words()]
    return met
