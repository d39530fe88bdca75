"""How clear scans are, from the brightness of each cell: of one scan, and counted over a spool of them."""

from ._calls import ask
from ._kinds import BytesLike
from ._readings import Clarities, Scan
from ._structs import RATIO


def scan_clarity(cells: BytesLike, threshold: int) -> Scan:
    """How clear a scan is, from the brightness of each of CELLS cells; one below the threshold is dark, any other bright. With n cells on a side, their sum s
    and the sum of their squares q (1 dark, 2 bright) the ratio is (s2 n1 - s1 n2)² / (n2² (n1 q1 - s1²) + n1² (n2 q2 - s2²)), rounded once.

    >>> cells = bytes([10, 30] * 100 + [200, 220] * 89)
    >>> film.scan_clarity(cells, 128)
    Scan(ratio=180.5, dark=20.0, bright=210.0)
    """
    result = ask("scan_clarity", cells, threshold)
    return Scan(result.ratio if result.kind == RATIO else None, result.dark, result.bright)


def spool_clarity(cells: BytesLike, threshold: int) -> Clarities:
    """Counts what scan_clarity gives and raises for each of up to PLACES scans, one after the other, with one threshold. A refused scan stops no other."""
    result = ask("spool_clarity", cells, threshold)
    return Clarities(result.ratios, result.no_spreads, result.refusals)
