"""The field of 64 elements, and the recorder's register, which encodes by the character."""

from ._calls import ask
from ._kinds import BytesLike, as_bytes
from ._structs import CHECKS


def sum(u: int, v: int) -> int:
    """The sum of two elements of the field."""
    return int(ask("sum", u, v).value)


def product(u: int, v: int) -> int:
    """The product of two elements of the field."""
    return int(ask("product", u, v).value)


def quotient(u: int, v: int) -> int:
    """The quotient of two elements of the field; a quotient by 0 is refused with 13."""
    return int(ask("quotient", u, v).value)


class Register:
    """The recorder's register, which encodes by the character: eleven characters, highest degree first, and how many were taken."""

    held: bytes
    count: int

    def __init__(self, held: BytesLike = bytes(CHECKS), count: int = 0) -> None:
        self.held = as_bytes(held)
        self.count = count
        if len(self.held) != CHECKS:
            raise ValueError(f"a register holds eleven characters, not {len(self.held)}")

    def step(self, character: int) -> None:
        """Takes one more character; a refused step leaves the register as it was."""
        after = ask("step", (self.held, self.count), character).after
        self.held, self.count = bytes(after.held), after.count

    def checks(self) -> bytes:
        """The checks, of a register that has taken 52 characters."""
        return bytes(ask("checks", (self.held, self.count)).checks)
