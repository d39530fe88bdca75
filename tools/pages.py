"""The pages (README.md and docs/), read for what they name: paths, links, tables, names of definitions and of edits."""

import pathlib
import re
from typing import NamedTuple

ROOT = pathlib.Path(__file__).resolve().parents[1]
FOLDERS = [".ci", "bench", "bindings", "crates", "docs", "fuzz", "include", "packaging", "samples", "second", "tools"]

TICKED = re.compile(r"`([^`]+)`")
# a crate has the name of the folder panel/ too, but the files of its definitions begin with capitals
PATH = re.compile(rf"(?<![\w./·-])((?:{'|'.join(map(re.escape, FOLDERS))}|panel(?!/[A-Z]))/[\w./*-]*)")
LINK = re.compile(r"\]\(([^)\s]+)\)")
EDITS = re.compile(r"\bedits? ((?:`\w+`(?:, and |, | and )?)+)")


class Row(NamedTuple):
    """A line of a page: where it stands, its text, whether it is code, and, in a table, its cells and those of the table's head."""

    where: str
    text: str
    is_code: bool
    heading: str
    cells: list
    head: list


def split(line):
    return [cell.strip() for cell in line.strip().strip("|").split("|")]


def rows(path):
    """The lines of a page."""
    fenced, heading, head = False, "", []
    for number, line in enumerate(path.read_text().splitlines(), 1):
        fence = line.startswith("```")
        fenced ^= fence
        in_table = line.startswith("|") and not fenced
        head = head or split(line) if in_table else []
        if line.startswith("#") and not fenced:
            heading = line.lstrip("# ")
        is_code = fenced or fence or line.startswith("    ")
        yield Row(f"{path.relative_to(ROOT)}:{number}", line, is_code, heading, split(line) if in_table else [], head)


def pages():
    return [ROOT / "README.md", *sorted((ROOT / "docs").glob("**/*.md"))]


def all_rows():
    return [row for page in pages() for row in rows(page)]


def paths(row):
    """The paths that a line names, with * for what a reader puts in; links are taken from the page's own folder."""
    for path in PATH.findall(row.text):
        if ".." not in path:
            yield path, ROOT, re.sub(r"\b(?:NAME|CRATE|FILE)\b", "*", path.rstrip("."))
    for link in LINK.findall(row.text):
        if "://" not in link and not link.startswith("#"):
            yield link, (ROOT / row.where.split(":")[0]).parent, link.split("#")[0]


def headings(path):
    """The headings of a page as links name them: small letters, a hyphen for each blank, and no signs."""
    return {re.sub(r"[^\w -]", "", line.lstrip("#").strip().lower()).replace(" ", "-") for line in path.read_text().splitlines() if line.startswith("#")}


def headings_named(row):
    """The headings that the links of a line lead to, each with its page."""
    for link in LINK.findall(row.text):
        page, sign, heading = link.partition("#")
        if sign and "://" not in link:
            own = ROOT / row.where.split(":")[0]
            yield heading, own.parent / page if page else own


def edits(row):
    """The edits that a line names: `the edit x`, and in the table of wrong answers what stands in parentheses."""
    named = [name for names in EDITS.findall(row.text) for name in TICKED.findall(names)]
    return named + (re.findall(r"\(`(\w+)`", row.text) if row.cells and "wrong answers" in row.heading else [])


def is_of_functions(row):
    """Whether this is a row of a table of functions: those in the first cell belong to the crates in the second."""
    return bool(row.cells) and row.head[:2] in (["Entry point", "Crate"], ["Function", "Crate"]) and row.cells != row.head and not set(row.cells[0]) <= set("-: ")


def functions(row):
    """The functions in the first cell of such a row, `at0` to `at20` being 21, each with the crates that it can be of."""
    for name in TICKED.findall(re.sub(r"`([a-z_]+)(\d+)` to `\1(\d+)`", lambda m: "".join(f"`{m[1]}{i}`" for i in range(int(m[2]), int(m[3]) + 1)), row.cells[0])):
        yield name.split("(")[0].split("::")[-1], row.cells[1].split(", ")


def names(row):
    """The definitions that a line names, each as the places where it can stand: a crate, a file, and a name or ''.

    `crate/File.name` and `crate/File` are whole names. In a table `File.name` is of a crate that the row names before it, and a name alone is of a file that the
    cell names before it."""
    crates = row.cells[1].split(", ") if is_of_functions(row) else []
    for cell in row.cells or [row.text]:
        files = []
        for word in TICKED.findall(EDITS.sub("", cell)):
            if whole := re.fullmatch(r"(\w+)/([A-Z]\w*)(?:\.([^\s.]+))?", word):
                crate, file, name = whole.groups(default="")
                if crate in FOLDERS:
                    continue
                crates = [*crates, crate]
                files += [(crate, file)] if row.cells else []
                yield word, [(crate, file, name)]
            elif row.cells and (part := re.fullmatch(r"([A-Z]\w*)\.([^\s.()]+)", word)) and crates:
                files += [(crate, part[1]) for crate in crates]
                yield word, [(crate, *part.groups()) for crate in reversed(crates)]
            elif files and re.fullmatch(r"[^\s.:/()]+", word):
                yield word, [(*file, word) for file in reversed(files)]
