#!/usr/bin/env python3
"""Spells the repository's own definitions, fields, constructors and lemmas as today's Rattle does: words of one name are joined by '_'.

tools/respell.py           rewrites crates/*/specs, crates/*/proofs and the clauses of crates/*/src in place
tools/respell.py --try     says what it would do, and where two names would fall together, and writes nothing

It was run once, after port.py (docs/PORT.md). Types and modules keep their capitals, and so does what Rust declares. In a function's own
proof file the names of its goals stay, but for the name of the proof, which is now F_spec."""

import pathlib
import re
import sys

ROOT = pathlib.Path(__file__).resolve().parents[1]
NAME = r"[^\s(){}\[\];,.λ«»\"⌜⌝⟨⟩]+"
DECLARED = re.compile(rf"^(?:abbrev |unfoldable |opaque |data )?(?:pub )?(?:abbrev |unfoldable )?({NAME})(?: \{{[^}}]*\}})* :(?:\s|$)")
FIELD = re.compile(rf"^\s+(?:pub )?({NAME}) :(?:\s|$)")
PROOF_FILES = ("Proof.antt", "Answers.antt", "Invariants.antt")


def snake(name):
    words = re.sub(r"(?<=[a-z0-9])[A-Z]", lambda m: "_" + m[0].lower(), name)
    return words.replace("-", "_")


def is_proof_file(path):
    return path.name in PROOF_FILES and path.parent.name != "proofs"


def declared():
    """The names that our specs and lemma files declare, and the fields of their records."""
    names = {}
    for path in sorted((ROOT / "crates").glob("*/*/**/*.antt")) + sorted((ROOT / "crates").glob("*/*/*.antt")):
        if "out" in path.parts or is_proof_file(path):
            continue
        inside = False
        for line in path.read_text().splitlines():
            if re.match(r"^(?:pub )?(?:record|data) ", line):
                inside = True
                continue
            if line and not line[0].isspace():
                inside = False
            m = DECLARED.match(line) or (FIELD.match(line) if inside or line.lstrip().startswith("pub ") else None)
            if m:
                names.setdefault(m[1], path)
    return names


def odd(name):
    # a name whose first letter is a capital is a type's, and what stands behind its dash alone is turned
    return "-" in name or re.search(r"^[a-zα-ω][^-]*[a-z0-9][A-Z]", name)


def turned(name):
    if name[0].isupper():
        head, _, rest = name.partition("-")
        return head + "-" + snake(rest) if rest else name
    if re.match(r"^[≤<+*∸≡¬-]", name):
        return name
    return snake(name)


def tokens(text):
    return set(re.findall(NAME, text))


def imports(text):
    """The names that a file brings in from our own crates, and those from elsewhere."""
    ours, others = set(), set()
    for path, names in re.findall(r"^(?:ghost |pub )*use ([^\s{]+)\.\{([^}]*)\}", text, re.M):
        these = {n.split(" as ")[-1].strip() for n in names.split(",")}
        if path.startswith("Rattle.") and not re.match(r"Rattle\.(std|core)\.", path):
            ours |= these
        else:
            others |= these
    return ours, others


def main(words):
    trial = words == ["--try"]
    if words and not trial:
        raise SystemExit(__doc__)
    names = {n: turned(n) for n in declared() if odd(n)}
    names = {n: t for n, t in names.items() if n != t}
    # a lemma that would have its function's name
    taken = set(declared()) | {t for n, t in names.items() if "-" not in n}
    for n, t in names.items():
        if "-" in n and t in taken:
            names[n] = t + "_lem"
            print(f"together: {n} -> {t}_lem")
    changed = 0
    files = [p for p in sorted((ROOT / "crates").glob("*/**/*")) if p.suffix in (".antt", ".rt") and "out" not in p.parts and p.is_file()]
    for path in files:
        text = path.read_text()
        ours, others = imports(text)
        in_proof = is_proof_file(path)
        here = tokens(text)
        active = {}
        for n, t in names.items():
            if n not in here:
                continue
            if n in others:
                print(f"elsewhere: {path.relative_to(ROOT)}: {n}")
                continue
            if t in here:
                print(f"meets: {path.relative_to(ROOT)}: {n} -> {t}")
            active[n] = t
        def swap(m):
            n = m[0]
            if n not in active:
                return n
            before = text[max(0, m.start() - 40):m.start()]
            if in_proof and n not in ours and not before.endswith("."):
                return n
            if re.search(r"\b(?:tie|goal)\.$", before) or (in_proof and re.search(r"(?<![\w)])c( ?\.[\w-]+)*\.$", before)):
                return n
            return active[n]
        new = re.sub(NAME, swap, text)
        if in_proof:
            f = path.parent.name.lstrip("+")
            new = re.sub(r"^pub ([\w-]+)-spec :", lambda m: f"pub {m[1].replace('-', '_')}_spec :", new, flags=re.M)
            new = re.sub(r"^([\w-]+)-spec =", lambda m: f"{m[1].replace('-', '_')}_spec =", new, flags=re.M)
        if new != text:
            changed += 1
            if not trial:
                path.write_text(new)
    print(f"{len(names)} names, {changed} files")


main(sys.argv[1:])
