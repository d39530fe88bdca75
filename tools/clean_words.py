"""Clean words, plainly, for the handbook's picture of a sheet: filled in from their other characters, and found within five, as the method of 1968 finds them."""

import functools
import operator

ELEMENTS = 64
ALPHA = 2
CHARACTERS = 63
CHECKS = 11
MENDED = 5
# S_-5 to S_5
SUMS = range(-MENDED, MENDED + 1)


class Code:
    """The code, over the field that has these products."""

    def __init__(self, product):
        self.products = [[product(u, v) for v in range(ELEMENTS)] for u in range(ELEMENTS)]
        self.inverses = [0] + [row.index(1) for row in self.products[1:]]
        self.powers = [1]
        while len(self.powers) < CHARACTERS:
            self.powers.append(self.products[ALPHA][self.powers[-1]])

    def term(self, j, address):
        """What a character 1 at an address adds to S_j."""
        return self.powers[j * (CHARACTERS - 1 - address) % CHARACTERS]

    def sums(self, word):
        """The eleven power sums of a word, S_-5 first; a clean word's are 0."""
        return [functools.reduce(operator.xor, (self.products[c][self.term(j, a)] for a, c in enumerate(word))) for j in SUMS]

    def solution(self, rows):
        """What solves a square system, each row with its right side last; None where it is singular."""
        rows = list(rows)
        for k in range(len(rows)):
            pivot = next((i for i in range(k, len(rows)) if rows[i][k]), None)
            if pivot is None:
                return None
            rows[k], rows[pivot] = rows[pivot], rows[k]
            by = self.products[self.inverses[rows[k][k]]]
            rows[k] = [by[u] for u in rows[k]]
            for i in range(len(rows)):
                if i != k:
                    times = self.products[rows[i][k]]
                    rows[i] = [u ^ times[v] for u, v in zip(rows[i], rows[k])]
        return [row[-1] for row in rows]

    def values(self, addresses, sums):
        """The characters that have these sums, as many of them as there are addresses, where they stand at the addresses alone."""
        return self.solution([*(self.term(j, a) for a in addresses), s] for j, s, _ in zip(SUMS, sums, addresses))

    def filled(self, word, addresses):
        """The clean word that has a word's characters, but at eleven addresses."""
        known = [0 if a in addresses else c for a, c in enumerate(word)]
        return added(known, dict(zip(addresses, self.values(addresses, self.sums(known)))))

    def errors(self, sums):
        """The at most five characters that have these sums, by address; None where there are none such."""
        for count in range(MENDED + 1):
            locator = self.solution([sums[i : i + count + 1] for i in range(count)])
            if locator is None:
                continue
            addresses = [a for a in range(CHARACTERS) if self.value([*locator, 1], self.term(1, a)) == 0]
            if len(addresses) == count:
                errors = dict(zip(addresses, self.values(addresses, sums)))
                if self.sums(added([0] * CHARACTERS, errors)) == sums:
                    return errors
        return None

    def value(self, polynomial, x):
        """The value of a polynomial, its lowest coefficient first."""
        return functools.reduce(lambda total, c: self.products[total][x] ^ c, reversed(polynomial))

    def kept(self, word):
        """The clean word within five of a word, or the word as it is where there is none."""
        return added(word, self.errors(self.sums(word)) or {})


def added(word, errors):
    """A word with errors added to it, each at its address."""
    return [c ^ errors.get(a, 0) for a, c in enumerate(word)]
