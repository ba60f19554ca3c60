#!/usr/bin/env python3
"""tools/diagrams.py NAME > LIST: makes the list of operations of one of the measurements of decision diagrams, for crates/bdd_client and tools/buddy.c.

NAME is queens8, queens9, adder60, counter12, shift24, mult9 or mult10; a bare run names them. Other sizes are taken too (queens6, mult8 ..). A list is a row of numbers of 32 bits, the low byte first: how many variables
there are, and then three numbers for each operation, its code and two operands. --text prints an operation a line instead.
"""
import re
import struct
import sys

VARIABLE, CONSTANT, AND, OR, NOT, EXISTS, RENAME, DROP, COUNT = range(9)
WORDS = ["variable", "constant", "and", "or", "not", "exists", "rename", "drop", "count"]


class Functions:
    """A list that grows: each operation that makes a function gives its number."""

    def __init__(self, variables):
        self.variables = variables
        self.made = 0
        self.lines = []

    def make(self, code, first, second=0):
        self.lines.append((code, first, second))
        self.made += 1
        return self.made - 1

    def variable(self, number):
        return self.make(VARIABLE, number)

    def constant(self, value):
        return self.make(CONSTANT, int(value))

    def both(self, f, g):
        return self.make(AND, f, g)

    def either(self, f, g):
        return self.make(OR, f, g)

    def negation(self, f):
        return self.make(NOT, f)

    def exists(self, f, variable):
        return self.make(EXISTS, f, variable)

    def rename(self, f):
        return self.make(RENAME, f)

    def drop(self, *numbers):
        for number in numbers:
            self.lines.append((DROP, number, 0))

    def count(self, f):
        self.lines.append((COUNT, f, 0))

    def then_both(self, f, g):
        """The conjunction; neither operand is needed any more."""
        r = self.both(f, g)
        self.drop(f, g)
        return r

    def then_either(self, f, g):
        r = self.either(f, g)
        self.drop(f, g)
        return r

    def differ(self, f, g):
        """Exclusive or, by negations, conjunctions and a disjunction; the operands stay."""
        not_f, not_g = self.negation(f), self.negation(g)
        one, other = self.both(f, not_g), self.both(not_f, g)
        self.drop(not_f, not_g)
        return self.then_either(one, other)

    def sum_and_carry(self, f, g, h):
        """The sum of three bits, and what it carries; the operands stay."""
        half = self.differ(f, g)
        total = self.differ(half, h)
        carried = self.then_either(self.both(f, g), self.both(half, h))
        self.drop(half)
        return total, carried


def queens(n):
    """So many queens on a board, none of which attacks another: variable n * row + column. The count is of all boards as one function."""
    of = Functions(n * n)
    square = [[of.variable(n * i + j) for j in range(n)] for i in range(n)]
    empty = [[of.negation(square[i][j]) for j in range(n)] for i in range(n)]
    board = of.constant(True)
    for i in range(n):
        row = of.constant(False)
        for j in range(n):
            more = of.either(row, square[i][j])
            of.drop(row)
            row = more
        board = of.then_both(board, row)
    for i in range(n):
        for j in range(n):
            free = of.constant(True)
            for k in range(n):
                for l in range(n):
                    if (k, l) != (i, j) and (k == i or l == j or abs(k - i) == abs(l - j)):
                        unless = of.either(empty[i][j], empty[k][l])
                        free = of.then_both(free, unless)
            board = of.then_both(board, free)
    of.count(board)
    return of


def adder(n):
    """The sums of two numbers of n bits from the first bit on, which is the lowest; bit i is variables 2 i and 2 i + 1. The counts are of each sum and of the last carry."""
    of = Functions(2 * n)
    carry = of.constant(False)
    sums = []
    for i in range(n):
        f, g = of.variable(2 * i), of.variable(2 * i + 1)
        total, carried = of.sum_and_carry(f, g, carry)
        of.drop(f, g, carry)
        sums.append(total)
        carry = carried
    for total in sums + [carry]:
        of.count(total)
    return of


def images(of, relation, start, olds, steps, every):
    """So many images of a set by a relation: conjunction, each old variable quantified, and renamed. What was reached is counted now and then."""
    reached, ring = start, of.both(start, start)
    for step in range(1, steps + 1):
        image = of.both(relation, ring)
        of.drop(ring)
        for variable in olds:
            less = of.exists(image, variable)
            of.drop(image)
            image = less
        ring = of.rename(image)
        of.drop(image)
        more = of.either(reached, ring)
        of.drop(reached)
        reached = more
        if step % every == 0 or step == steps:
            of.count(reached)
    return reached


def counter(n, steps):
    """A counter of n bits, one up at each step: bit b is variable 2 b at the old state and 2 b + 1 at the new one, the lowest bit last."""
    of = Functions(2 * n)
    carry = of.constant(True)
    relation = of.constant(True)
    start = of.constant(True)
    for b in reversed(range(n)):
        old, new = of.variable(2 * b), of.variable(2 * b + 1)
        flipped = of.differ(old, carry)
        differs = of.differ(new, flipped)
        relation = of.then_both(relation, of.negation(differs))
        carry = of.then_both(carry, old)
        start = of.then_both(start, of.negation(of.variable(2 * b)))
        of.drop(new, flipped, differs)
    of.count(relation)
    images(of, relation, start, range(0, 2 * n, 2), steps, 256)
    return of


def shift(n):
    """A shift register of n bits with a free input, and beside it the parity of what it holds: bit b is variables 2 b and 2 b + 1, the parity the last. n images reach all."""
    of = Functions(2 * n + 2)
    old = [of.variable(2 * b) for b in range(n + 1)]
    new = [of.variable(2 * b + 1) for b in range(n + 1)]
    relation = of.constant(True)
    start = of.constant(True)
    for b in range(n + 1):
        start = of.then_both(start, of.negation(old[b]))
    for b in range(1, n):
        differs = of.differ(new[b], old[b - 1])
        relation = of.then_both(relation, of.negation(differs))
        of.drop(differs)
    # The parity changes by the bit that comes in and the one that goes out.
    flip = of.differ(new[0], old[n - 1])
    next_parity = of.differ(old[n], flip)
    differs = of.differ(new[n], next_parity)
    relation = of.then_both(relation, of.negation(differs))
    of.count(relation)
    images(of, relation, start, range(0, 2 * n + 2, 2), n + 1, 1)
    return of


def multiplier(n):
    """The product of two numbers of n bits, row by row: bit i is variables i and n + i, the highest bit last. The counts are of each bit of the product."""
    of = Functions(2 * n)
    first = [of.variable(i) for i in range(n)]
    second = [of.variable(n + i) for i in range(n)]
    product = [of.constant(False) for _ in range(2 * n)]
    for i in range(n):
        carry = of.constant(False)
        for j in range(n):
            part = of.both(first[j], second[i])
            total, carried = of.sum_and_carry(product[i + j], part, carry)
            of.drop(part, carry, product[i + j])
            product[i + j] = total
            carry = carried
        product[i + n] = carry
    for bit in product:
        of.count(bit)
    return of


def made(name):
    match = re.fullmatch(r"([a-z]+)([0-9]+)", name)
    if not match:
        sys.exit(__doc__)
    n = int(match.group(2))
    makers = {"queens": queens, "adder": adder, "counter": lambda n: counter(n, 2**n), "shift": shift, "mult": multiplier}
    if match.group(1) not in makers:
        sys.exit(__doc__)
    return makers[match.group(1)](n)


def packed(of):
    return struct.pack("<I", of.variables) + b"".join(struct.pack("<III", *line) for line in of.lines)


def main():
    words = [word for word in sys.argv[1:] if word != "--text"]
    if len(words) != 1:
        sys.exit(__doc__)
    of = made(words[0])
    if "--text" in sys.argv:
        print(of.variables, "variables")
        for code, first, second in of.lines:
            print(WORDS[code], first, second)
    else:
        sys.stdout.buffer.write(packed(of))


if __name__ == "__main__":
    main()
