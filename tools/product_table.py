"""Lays out the 4,096 products of the field for a finger: as the table that the code looks products up in, and as a page that can be printed."""

ELEMENTS = 64
# rows and columns stand in eights, and a ruler before each eight rows, so that the eye keeps its place
GROUP = 8
# a page has half of the columns, so that it fits a sheet of paper
COLUMNS = 32
CORNER = "u \\ v"

SOURCE_HEAD = "// The products of the field of 64 elements: u times v stands in the row of u, in the column of v. tools/tables writes it; docs/PRODUCTS.md is its page.\n"

PAGE_HEAD = """# Products

The products of the field of 64 elements, to be looked up with a finger: an appendix to the [handbook](HANDBOOK.md). `tools/tables` writes this page.

- **u times v**: go down to the row of u and along to the column of v. 32 times 2 is 3, and 33 times 2 is 1. It does not matter which of the two is the
  row: v times u is the same. 0 has a row and a column like every other element, and needs no rule of its own.
- **u by v**, the quotient: go down to the row of v, the divisor, and along to u. The number of that column is the quotient. The row of every v but 0 has
  each element once, so there is one quotient and no other; the row of 0 has only zeros, and a quotient by 0 is refused with 13.
- **The inverse of v** is the column in which the row of v has 1.

These are the numbers that the library looks up (`crates/field/src/table.rt`). The checker has held all 4,096 of them against the definition of the product,
polynomials over bits reduced by x^6 + x + 1. The gate reads this page by its rulers, each entry by the columns of the text in which it stands, and holds it
against the library.
"""


def groups(numbers):
    return [numbers[k : k + GROUP] for k in range(0, len(numbers), GROUP)]


def aligned(numbers, between, gap):
    """Numbers of a line in their columns, with a wider gap between eights."""
    return gap.join(between.join(f"{number:2}" for number in group) for group in groups(numbers))


def with_rulers(ruler, row, gap):
    """The line of every row, with a ruler before each eight of them and after the last."""
    return gap.join(["\n".join([ruler, *map(row, group)]) for group in groups(range(ELEMENTS))] + [ruler])


def source(product):
    """The table as the code has it."""
    columns = range(ELEMENTS)

    def row(u):
        return f"    /* {u:2} */ [{aligned([product(u, v) for v in columns], ', ', ',  ')}], // {u:2}"

    ruler = f"    // {CORNER}  {aligned(columns, '  ', '   ')}"
    return f"{SOURCE_HEAD}#[rattlefmt::skip]\npub const PRODUCTS: [[u8; {ELEMENTS}]; {ELEMENTS}] = [\n{with_rulers(ruler, row, chr(10))}\n];\n"


def part(product, columns):
    """A part of the page: every row, and some of the columns."""

    def row(u):
        return f"{u:5} |  {aligned([product(u, v) for v in columns], ' ', '  ')}  | {u:2}"

    ruler = f"{CORNER}    {aligned(columns, ' ', '  ')}"
    return f"\n## v from {columns[0]} to {columns[-1]}\n\n```text\n{with_rulers(ruler, row, chr(10) * 2)}\n```\n"


def page(product):
    """The table as a page."""
    return PAGE_HEAD + "".join(part(product, range(first, first + COLUMNS)) for first in range(0, ELEMENTS, COLUMNS))
