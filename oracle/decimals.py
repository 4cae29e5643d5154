#!/usr/bin/env python3
"""Writes crates/cells/stdin and crates/cells/stdout: what the program `cells` is run on by `rt ci`, and what it must answer.

Run it with no arguments, from anywhere: python3 oracle/decimals.py
It needs Python 3.9 or newer and nothing else, and writes the same files every time (its random numbers are its own).

A line of stdin is a cell, a line of stdout 0 and the double's bits, 16 hex digits, or f, which is refusal 15.

How the answers are made: from the text alone, by document 02's request 8.
  16 lower-case hex digits   are the bits; a NaN is told as 7ff8000000000000.
  a decimal                  is Python's float() of it, which rounds to nearest, halves to even. That neither neighbour is nearer to the exact decimal, nor as
                             near, is worked out in fractions; a difference stops the script.
  anything else              is refused.
A fifth of the decimals lie as near to halfway between two doubles as 15 digits can. The last line that is printed says at how many decimals two ways that
round more than once would answer otherwise: n * (1 / 10^k), and k products by 0.1."""
import math
import os
import re
import struct
from fractions import Fraction

ALL = (1 << 64) - 1
HEX = re.compile(rb"[0-9a-f]{16}\Z")
DECIMAL = re.compile(rb"-?([0-9]+)(?:\.([0-9]+))?\Z")
HOW_MANY = 5000             # decimals


# ---- the answers

def bits(x):
    return struct.unpack(">Q", struct.pack(">d", x))[0]


def digits(cell):
    """A decimal's digits as one number, and how many of them stand after the point; None where it is no decimal."""
    m = DECIMAL.match(cell)
    if not m or len(m[1]) + len(m[2] or b"") > 15:
        return None
    return int(m[1] + (m[2] or b"")), len(m[2] or b"")


def nearest(cell):
    n, k = digits(cell)
    x, exact = float(cell), Fraction(-n if cell.startswith(b"-") else n, 10 ** k)
    for y in (math.nextafter(x, math.inf), math.nextafter(x, -math.inf)):
        assert abs(Fraction(x) - exact) < abs(Fraction(y) - exact), cell
    assert (math.copysign(1.0, x) < 0) == cell.startswith(b"-"), cell
    return x


def answer(cell):
    if HEX.match(cell):
        b = int(cell, 16)
        nan = b & ALL >> 1 > 0x7FF << 52
        return "0 %016x\n" % (0x7FF8 << 48 if nan else b)
    if digits(cell) is None:
        return "f\n"
    return "0 %016x\n" % bits(nearest(cell))


def by_reciprocal(cell):
    n, k = digits(cell)
    return n * (1 / float(10 ** k))


def by_tenths(cell):
    n, k = digits(cell)
    x = float(n)
    for _ in range(k):
        x *= 0.1
    return x


# ---- the cells

class Random:
    """splitmix64"""

    def __init__(self, seed):
        self.state = seed

    def word(self):
        self.state = self.state + 0x9E3779B97F4A7C15 & ALL
        w = self.state
        w = (w ^ w >> 30) * 0xBF58476D1CE4E5B9 & ALL
        w = (w ^ w >> 27) * 0x94D049BB133111EB & ALL
        return w ^ w >> 31

    def below(self, high):
        return self.word() % high

    def of(self, items):
        return items[self.below(len(items))]


random = Random(20261116)


def spelled(n, k, least=0):
    """n / 10^k, with at least so many digits."""
    s = b"%d" % n
    s = s.rjust(max(k + 1, least), b"0")
    return s if k == 0 else s[:-k] + b"." + s[-k:]


def signed(cell):
    return b"-" + cell if random.below(10) < 3 else cell


def near_halfway(k):
    """Decimals n / 10^k of 15 digits at most, each t parts in 5^k of a step from halfway between two doubles, t small: n * 2^a is t * 2^k more than an odd
    multiple of 10^k, where a step is 2^(1 - a)."""
    p = 5 ** k
    for b in range(int((14 - k) * math.log2(10)) - 6, int((15 - k) * math.log2(10)) + 1):
        a = 53 - b
        if a < k:
            continue
        low = math.ceil(Fraction(2) ** b * 10 ** k)
        high = min(math.ceil(Fraction(2) ** (b + 1) * 10 ** k), 10 ** 15)
        if low >= high:
            continue
        inverse = pow(2 ** (a - k), -1, p)
        for t in (t for t in range(-7, 8) if 0 < 2 * abs(t) < p):
            n = low + (t * inverse - low) % p
            if high - low > p:
                n += p * random.below((high - low) // p)
            for n in (n, n + p):
                if n < high and (n * 2 ** (a - k) - t) // p % 2 == 1:
                    yield spelled(n, k)
                    break


def damaged(cell):
    i = random.below(len(cell) + 1)
    return cell[:i] + random.of([b"0", b".", b"-", b"+", b"e", b"E", b"a", b"f", b"_", b" ", b"\t", b"\r", b",", b"x"]) + cell[i + random.below(2):]


def any_decimal():
    least = random.of([1, 2, 3, 5, 8, 12, 14, 15, 15, 15])
    return signed(spelled(random.below(10 ** least), random.below(least), least))


FIRST = (
    "0.1 -1.5 123456789.123456 999999999999999 -999999999999999 0.00000000000001 0 -0 0.0 -0.0 0.000000 007 0.05 1 -1 0.30 99999999999999.9 000000000000000 "
    "0.000000000000001 12345678901234.56 -12345678901234.56 0000000000000000. -0000000000000000 00000000000000.00 "
    "- . -. .. .5 5. -.5 -5. +1 1e3 --1 -1- 1- 1.2.3 1..2 1.-5 1,5 0x10 nan inf -inf 12a 1/2 1:2 "
    "3ff0000000000000 8000000000000000 0000000000000000 1234567890123456 9999999999999999 7ff0000000000000 fff0000000000000 7ff8000000000000 fff0000000000001 "
    "0000000000000001 abcdefabcdefabcd 3FF0000000000000 3ff000000000000 3ff00000000000000 -3ff0000000000000 3ff000000000000g 3ff.000000000000"
).encode().split(b" ") + [b"", b" ", b" 1", b"1 ", b"1\r", b"\r", b"\t1", b"1\t2", b"0" * 300, b"1" + b"0" * 15, b"0." + b"0" * 200, b"\xef\xbc\x91"]


def cells():
    hard = [signed(c) for k in range(1, 15) for c in near_halfway(k)]
    out = FIRST + hard
    out += [b"%016x" % random.word() for _ in range(100)]
    out += [b"%016d" % random.below(10 ** 16) for _ in range(50)]
    out += [damaged(any_decimal()) for _ in range(250)] + [damaged(b"%016x" % random.word()) for _ in range(50)]
    out += [any_decimal() for _ in range(HOW_MANY - sum(digits(c) is not None for c in out))]
    assert not any(b"\n" in c for c in out)
    return out, len(hard)


def main():
    asked, hard = cells()
    told = [answer(c) for c in asked]
    folder = os.path.join(os.path.dirname(os.path.dirname(os.path.abspath(__file__))), "crates", "cells")
    with open(os.path.join(folder, "stdin"), "wb") as f:
        f.writelines(c + b"\n" for c in asked)
    with open(os.path.join(folder, "stdout"), "w", newline="\n") as f:
        f.writelines(told)
    some = [c for c in asked if digits(c) is not None]
    print("%d cells: %d decimals, %d of them near halfway; %d of hex digits; %d refused" % (len(asked), len(some), hard, sum(map(bool, map(HEX.match, asked))), told.count("f\n")))
    print("otherwise by a reciprocal: %d; by tenths: %d" % tuple(sum(abs(nearest(c)) != way(c) for c in some) for way in (by_reciprocal, by_tenths)))


main()
