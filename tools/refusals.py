"""The copies of refusals.txt and version.txt: which parts of which files of the tree repeat them, and what has to stand there.

tools/tables writes and checks them. Each part begins after a text that stands once in its file and ends before the next text that is named;
all else in the file is kept as it is."""

import re
from typing import NamedTuple

# The bindings have a constant or a case of this name beside the refusals' own.
TAKEN = ("Done", "LastRefusal", "Unknown")


class Malformed(Exception):
    """A file is not in the form that it has to have; the message says where and why."""


class Refusal(NamedTuple):
    number: int
    name: str
    given: str
    todo: str


class Version(NamedTuple):
    major: int
    minor: int
    patch: int

    def written(self):
        return f"{self.major}.{self.minor}.{self.patch}"

    def as_number(self):
        """As FILM_VERSION writes it."""
        return 1000000 * self.major + 1000 * self.minor + self.patch


# ---- Reading the two files


def refusal_of(line):
    """The refusal of a line, or a ValueError that says why there is none."""
    parts = line.split(" | ")
    if len(parts) != 4 or "" in [part.strip() for part in parts]:
        raise ValueError("number | name | given when | what to do are wanted")
    number, name, given, todo = parts
    if not re.fullmatch("[0-9]+", number) or not 1 <= int(number) <= 255:
        raise ValueError(f"{number} is no number from 1 to 255")
    if not re.fullmatch("([A-Z][a-z]+)+", name) or name in TAKEN:
        raise ValueError(f"{name} is no name for a refusal: words that begin with a capital, and none of {', '.join(TAKEN)}")
    for unfit in ("|", '"', "\\", "*/"):
        if unfit in given + todo:
            raise ValueError(f"{unfit} cannot stand in every copy")
    return Refusal(int(number), name, given, todo)


def refusals_of(text):
    """The refusals that a text has, in the order of their numbers."""
    refusals = []
    for i, line in enumerate(text.splitlines(), 1):
        if line.startswith("#"):
            continue
        try:
            refusal = refusal_of(line)
        except ValueError as why:
            raise Malformed(f"refusals.txt, line {i}: {why}")
        if refusal.number in [other.number for other in refusals]:
            raise Malformed(f"refusals.txt, line {i}: the number {refusal.number} stands twice")
        if refusal.name in [other.name for other in refusals]:
            raise Malformed(f"refusals.txt, line {i}: the name {refusal.name} stands twice")
        refusals.append(refusal)
    if not refusals:
        raise Malformed("refusals.txt has no refusal")
    return sorted(refusals)


def version_of(text):
    match = re.fullmatch(r"(0|[1-9][0-9]{0,2})\.(0|[1-9][0-9]{0,2})\.(0|[1-9][0-9]{0,2})\n", text)
    if not match:
        raise Malformed("version.txt: major.minor.patch is wanted, each from 0 to 999")
    return Version(*map(int, match.groups()))


# ---- What stands in a part: a function from the refusals and the version to its text


def upper(name):
    """The name as a constant is written: NoLine as NO_LINE."""
    return re.sub("(?<=.)(?=[A-Z])", "_", name).upper()


def sentence(words):
    return words[0].upper() + words[1:] + "."


def each(form, between=""):
    """The form filled in for each refusal."""

    def text(refusals, version):
        return between.join(form.format(upper=upper(r.name), sentence=sentence(r.given), **r._asdict()) for r in refusals)

    return text


def last(form):
    """The form filled in with the highest number."""
    return lambda refusals, version: form.format(refusals[-1].number)


def versioned(form):
    return lambda refusals, version: form.format(v=version, written=version.written(), number=version.as_number())


def header_enum(refusals, version):
    """The constants of film.h, with their comments below one another."""
    rows = [(f"FILM_{upper(r.name)} = {r.number},", r.given) for r in refusals]
    rows.append((f"FILM_LAST_REFUSAL = {refusals[-1].number}", "the highest of these numbers"))
    width = max(len(constant) for constant, _ in rows)
    return "".join(f"    {constant:{width}} /* {words} */\n" for constant, words in rows)


# ---- The parts: a file, the pattern that a part stands after, the text that it ends before (None is the end of the file), and what stands there

PARTS = [
    ("crates/refusal/src/lib.rt", r"pub enum Refusal \{\n", "}", each("    {name},\n")),
    ("crates/refusal/src/lib.rt", r"    match r \{\n", "    }", each("        Refusal::{name} => {number},\n")),
    ("crates/refusal/specs/Number.antt", r"TheVariants\.\{", "}", each("{name}", ", ")),
    ("crates/refusal/specs/Number.antt", r"number_of : .*\n", None, each("-- {given}\nnumber_of {name} = {number}\n")),
    ("crates/refusal/proofs/Numbered.antt", r"TheVariants\.\{", "}", each("{name}", ", ")),
    ("crates/refusal/proofs/Numbered.antt", r"\nrefusals = ", "[]", each("{name} ∷ ")),
    ("crates/refusal/proofs/Numbered.antt", r"most : number_of r ≤ ", "\n", last("{}")),
    (
        "crates/refusal/proofs/Numbered.antt",
        r"unfolding refusal_of first_with_lem refusals\n",
        None,
        each("numbered {name} = record {{ named = refl; least = omega arith; most = omega arith }}\n"),
    ),
    ("include/film.h", r"    FILM_DONE = 0,\n", "};", header_enum),
    ("bindings/rust/src/refusal.rs", r"pub enum Refusal \{\n", "    /// A number", each("    /// {sentence}\n    {name},\n")),
    ("bindings/rust/src/refusal.rs", r"pub const ALL: .*\n", "    ]", each("        Refusal::{name},\n")),
    ("bindings/rust/src/refusal.rs", r"        match self \{\n", "            Refusal::Unknown(", each("            Refusal::{name} => {number},\n")),
    ("bindings/rust/src/refusal.rs", r"let why = match self \{\n", "            Refusal::Unknown(", each('            Refusal::{name} => "{given}",\n')),
    ("bindings/python/film/_refusals.py", r"\nREFUSALS: .* = \{\n", "}", each('    {number}: "{given}",\n')),
    ("second/refusals.rs", r"#!\[allow\(dead_code\)\]\n\n", None, each("/// {sentence}\npub const {upper}: u8 = {number};\n")),
    ("docs/HANDBOOK.md", r"\n\| 0 \| Done.*\n", "\n\n", each("| {number} | {sentence} | {todo} |", "\n")),
    ("packaging/man/film.3", r"tools/tables writes those below .*\n", ".SH ", each(".TP\n.B {number} FILM_{upper}\n{sentence}\n")),
    ("packaging/man/film.3", r'\n\.TH FILM 3 "" "film ', '"', versioned("{written}")),
    ("packaging/man/film.1", r'\n\.TH FILM 1 "" "film ', '"', versioned("{written}")),
    ("include/film.h", r"#define FILM_VERSION_MAJOR ", "\n", versioned("{v.major}")),
    ("include/film.h", r"#define FILM_VERSION_MINOR ", "\n", versioned("{v.minor}")),
    ("include/film.h", r"#define FILM_VERSION_PATCH ", "\n", versioned("{v.patch}")),
    ("crates/film/src/lib.rt", r"const VERSION: u32 = ", ";", versioned("{number}")),
    ("crates/film/specs/Version.antt", r"\nversion = ", "\n", versioned("{number}")),
    ("bindings/rust/src/lib.rs", r"pub const VERSION: u32 = ", ";", versioned("{number}")),
    ("bindings/rust/Cargo.toml", r'\nversion = "', '"', versioned("{written}")),
    ("bindings/rust/Cargo.lock", r'\nname = "film"\nversion = "', '"', versioned("{written}")),
    ("bindings/python/film/_version.py", r'\n__version__ = "', '"', versioned("{written}")),
    ("bindings/python/pyproject.toml", r'\nversion = "', '"', versioned("{written}")),
    ("second/library.rs", r"const VERSION: u32 = ", ";", versioned("{number}")),
]


def filled(path, text, after, until, words):
    """A file's text with one part replaced."""
    starts = [match.end() for match in re.finditer(after, text)]
    if len(starts) != 1:
        raise Malformed(f"{path}: {len(starts)} places for what tools/tables writes after {after!r}, where one is wanted")
    end = len(text) if until is None else text.find(until, starts[0])
    if end < 0:
        raise Malformed(f"{path}: nothing ends what tools/tables writes after {after!r}")
    return text[: starts[0]] + words + text[end:]


def copies(root):
    """Each file that repeats the refusals or the version, with the text that it has to have."""
    refusals = refusals_of((root / "refusals.txt").read_text())
    version = version_of((root / "version.txt").read_text())
    texts = {}
    for path, after, until, words in PARTS:
        text = texts.get(path) or (root / path).read_text()
        texts[path] = filled(path, text, after, until, words(refusals, version))
    for path, text in texts.items():
        yield root / path, text
