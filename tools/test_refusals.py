"""Tests of tools/refusals.py: what is refused and why, and that one more line reaches every copy. It takes no words."""

import pathlib
import sys
import tempfile
import unittest

sys.dont_write_bytecode = True
import refusals
from shared import words

ROOT = pathlib.Path(__file__).resolve().parents[1]
LINE = "6 | NoLine | no line within the radius | Scan again.\n"


class Tests(unittest.TestCase):
    def malformed(self, says, of, text):
        with self.assertRaises(refusals.Malformed) as caught:
            of(text)
        self.assertIn(says, str(caught.exception))

    def test_refusals(self):
        given = refusals.refusals_of("# a comment\n20 | LateOne | late | Wait.\n" + LINE)
        self.assertEqual(given, [(6, "NoLine", "no line within the radius", "Scan again."), (20, "LateOne", "late", "Wait.")])
        self.assertEqual(refusals.upper("NoLine"), "NO_LINE")
        self.assertEqual(refusals.sentence("radius over 5"), "Radius over 5.")

    def test_malformed_lines(self):
        for line in ("", "13", "13 | Name | given", "13 | Name | given | todo | more", "13 | Name |  | todo", "13|Name|given|todo"):
            self.malformed("line 2: number | name | given when | what to do are wanted", refusals.refusals_of, LINE + line + "\n")
        for number in ("0", "256", "-1", "1x", "²"):
            self.malformed(f"line 1: {number} is no number from 1 to 255", refusals.refusals_of, f"{number} | Name | given | todo\n")
        for name in ("noLine", "No_Line", "No Line", "NoLine2", "NOLine", "Unknown", "Done", "LastRefusal"):
            self.malformed(f"line 1: {name} is no name for a refusal", refusals.refusals_of, f"13 | {name} | given | todo\n")
        for words in ('a "word"', "a\\b", "a */ b", "a|b"):
            self.malformed("cannot stand in every copy", refusals.refusals_of, f"13 | Name | {words} | todo\n")
        self.malformed("line 2: the number 6 stands twice", refusals.refusals_of, LINE + "6 | Other | given | todo\n")
        self.malformed("line 2: the name NoLine stands twice", refusals.refusals_of, LINE + "7 | NoLine | given | todo\n")
        self.malformed("has no refusal", refusals.refusals_of, "# a comment\n")

    def test_versions(self):
        version = refusals.version_of("2.13.999\n")
        self.assertEqual((version, version.written(), version.as_number()), ((2, 13, 999), "2.13.999", 2013999))
        for text in ("", "1.0\n", "1.0.0", "1.0.0.0\n", "01.0.0\n", "1.0.1000\n", "v1.0.0\n", "1.0.0\n\n"):
            self.malformed("major.minor.patch is wanted", refusals.version_of, text)

    def test_parts(self):
        self.assertEqual(refusals.filled("x", "a{1}b{2}", r"b\{", "}", "3"), "a{1}b{3}")
        self.assertEqual(refusals.filled("x", "a{1}b{2}", r"b\{", None, "3"), "a{1}b{3")
        self.malformed("x: 0 places", lambda text: refusals.filled("x", text, "c", "}", "3"), "a{1}")
        self.malformed("x: 2 places", lambda text: refusals.filled("x", text, "a", "}", "3"), "aa}")
        self.malformed("x: nothing ends", lambda text: refusals.filled("x", text, "a", "}", "3"), "a")

    def test_one_more_line(self):
        """A refusal more, after a gap, and another version: each part of the tree's own files says so, and else they stay as they are."""
        late, version = "late", "2.13.999"
        with tempfile.TemporaryDirectory() as folder:
            root = pathlib.Path(folder)
            for path in {"refusals.txt", "version.txt", *(part[0] for part in refusals.PARTS)}:
                (root / path).parent.mkdir(parents=True, exist_ok=True)
                (root / path).write_text((ROOT / path).read_text())
            before = dict(refusals.copies(root))
            highest = refusals.refusals_of((root / "refusals.txt").read_text())[-1].number
            with (root / "refusals.txt").open("a") as file:
                file.write(f"{highest + 2} | LateOne | {late} | Wait.\n")
            (root / "version.txt").write_text(version + "\n")
            after = dict(refusals.copies(root))
            self.assertEqual(before.keys(), after.keys())
            for path, text in after.items():
                path.write_text(text)
                lines = set(before[path].splitlines())
                more = "\n".join(line for line in text.splitlines() if line not in lines)
                self.assertRegex(more, "LateOne|LATE_ONE|late|Late|2013999|2.13.999", path)
                self.assertLessEqual(len(more.splitlines()), 12, path)
            self.assertEqual(dict(refusals.copies(root)), after)


if __name__ == "__main__":
    words(__doc__)
    unittest.main()
