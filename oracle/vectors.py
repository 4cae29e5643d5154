#!/usr/bin/env python3
"""Writes crates/vectors/stdin and crates/vectors/stdout: what the program `vectors` is run on by `rt ci`, and what it must answer.

Run it with no arguments, from anywhere: python3 oracle/vectors.py
It needs Python 3.8 or newer and nothing else, and writes the same files every time (its random numbers are its own).

A line of stdin is three doubles x y z, a line of stdout sqrt(x) max(x, y) min(x, y) clamp(x, y, z), each as 16 hex digits of its bit pattern.

How the answers are made: on the bit patterns, as whole numbers, by document 01's rules ("Arithmetic"), with no floating-point operation.
  sqrt   the pattern is taken apart to n * 4^k exactly, with n of 105 or 106 binary digits; q = isqrt(n) has 53, and is raised by one where the
         exact root is above q + 1/2, which is where n > q * q + q. It is never q + 1/2 itself, whose square is no whole number.
  order  the sign and the other 63 bits as a whole number: the doubles that are no NaN stand in the order of these, and -0 and +0 are equal.
  max    of the numbers that are no NaN, the first of those that stand highest; NaN where there is none. min likewise with lowest.
  clamp  x below y gives y, else x above z gives z, else x; a NaN is neither below nor above anything.
Each root is held to the processor's, math.sqrt, and each comparison to the processor's `<`; a difference stops the script."""
import math
import os
import struct

SIGN = 1 << 63
INF = 0x7FF << 52
NAN = 0x7FF8 << 48
ONE = 0x3FF << 52
LEAST = 1                   # 2^-1074
NORMAL = 1 << 52            # 2^-1022
LARGEST = INF - 1


# ---- the answers

def is_nan(b):
    return b & ~SIGN > INF


def root(b):
    if is_nan(b):
        return NAN
    if b & ~SIGN == 0 or b == INF:
        return b
    if b & SIGN:
        return NAN
    field, digits = b >> 52, b & (NORMAL - 1)
    if field:
        n, e = digits + NORMAL, field - 1075
    else:
        n, e = digits, -1074
    # the value is n * 2^e: give n 105 digits, or 106 where e would be odd
    s = 105 - n.bit_length()
    s += (e - s) % 2
    n, e = n << s, e - s
    q = math.isqrt(n)
    if n > q * q + q:
        q += 1
    assert NORMAL <= q < 2 * NORMAL
    return (e // 2 + 1075 << 52) + q - NORMAL


def order(b):
    return -(b & ~SIGN) if b & SIGN else b


def below(x, y):
    return not is_nan(x) and not is_nan(y) and order(x) < order(y)


def outermost(numbers, pick):
    numbers = [b for b in numbers if not is_nan(b)]
    if not numbers:
        return NAN
    end = pick(order(b) for b in numbers)
    return [b for b in numbers if order(b) == end][0]


def clamp(x, low, high):
    if below(x, low):
        return low
    if below(high, x):
        return high
    return NAN if is_nan(x) else x


def answers(x, y, z):
    return root(x), outermost((x, y), max), outermost((x, y), min), clamp(x, y, z)


# ---- the processor's word on them

def double(b):
    return struct.unpack("<d", struct.pack("<Q", b))[0]


def bits(d):
    return NAN if d != d else struct.unpack("<Q", struct.pack("<d", d))[0]


def cross_check(x, y, z):
    a, b, c = double(x), double(y), double(z)
    assert root(x) == (NAN if not a >= 0 else bits(math.sqrt(a))), hex(x)
    for p, q, u, v in ((x, y, a, b), (x, z, a, c), (y, z, b, c)):
        assert below(p, q) == (u < v) and below(q, p) == (v < u), (hex(p), hex(q))


# ---- the questions

class Random:
    """splitmix64"""

    def __init__(self, seed):
        self.state = seed

    def word(self):
        self.state = self.state + 0x9E3779B97F4A7C15 & SIGN * 2 - 1
        w = self.state
        w = (w ^ w >> 30) * 0xBF58476D1CE4E5B9 & SIGN * 2 - 1
        w = (w ^ w >> 27) * 0x94D049BB133111EB & SIGN * 2 - 1
        return w ^ w >> 31

    def between(self, low, high):
        return low + self.word() % (high - low + 1)

    def of(self, items):
        return items[self.word() % len(items)]


random = Random(20261115)


def pattern(n, e):
    """The pattern of n * 2^e, for an n of at most 53 digits that a double holds there; None beyond the doubles."""
    s = min(53 - n.bit_length(), e + 1074)
    if s < 0 or e - s > 971:
        return None
    n, e = n << s, e - s
    return n if n < NORMAL else (e + 1075 << 52) + n - NORMAL


def anywhere(n, e):
    """The pattern of n * 4^j * 2^e for some j at which it is a normal double: its root has the same digits."""
    while True:
        b = pattern(n, e % 2 + 2 * random.between(-563, 485))
        if b is not None and b >= NORMAL:
            return b


def odd_root(r, k):
    """An s with s * s = r modulo 2^k, for an r that is 1 modulo 8."""
    s = 1
    for j in range(3, k):
        if (s * s - r) >> j & 1:
            s += 1 << j - 1
    assert (s * s - r) % (1 << k) == 0
    return s


def hardest():
    """Doubles nearest to the square of a number h / 2 that is halfway between two roots: x * 2^k = h * h - r for a small r."""
    for r in sorted(range(-399, 402, 8), key=abs):
        for k in (54, 55):
            s = odd_root(r, k)
            for h in sorted({t % (1 << k) for t in (s, -s, s + (1 << k - 1), -s + (1 << k - 1))}):
                x = (h * h - r) >> k
                if 1 << 53 < h < 1 << 54 and NORMAL <= x < 2 * NORMAL:
                    yield pattern(x, k - 108)
                    yield anywhere(x, k)


def halfway():
    """The doubles just below and just above the square of a number halfway between two roots, of normal and of subnormal size."""
    for _ in range(330):
        h = random.between(1 << 53, (1 << 54) - 1) | 1
        k = (h * h).bit_length() - 53
        x = h * h >> k
        yield from (anywhere(x, k), anywhere(x + 1, k) if x + 1 < 2 * NORMAL else ONE)
    for _ in range(110):
        h = random.between(1 << 53, (1 << 54) - 1) | 1
        k = (h * h).bit_length() - random.between(2, 51)
        x = h * h >> k + k % 2
        yield from (x, x + 1)


def squares():
    """Exact squares and the doubles beside them."""
    for _ in range(170):
        q = random.between(1, (1 << random.between(2, 26)) - 1)
        b = anywhere(q * q, 0)
        yield from (b - 1, b, b + 1)
    for q in range(1, 41):
        yield pattern(q * q, 0)
        yield pattern(q * q, -1074)


def powers():
    """Powers of two and their neighbours."""
    for e in sorted({*range(-1074, 1024, 9), *range(-1074, -1064), *range(-1026, -1018), *range(-8, 9), *range(1016, 1024)}):
        b = pattern(1, e)
        yield from (b - 1, b, b + 1)


def plenty():
    """Patterns of every kind."""
    for _ in range(200):
        yield random.word()
    for _ in range(150):
        yield random.word() & ~SIGN
    for _ in range(250):
        yield random.word() >> random.between(12, 63)
    for _ in range(200):
        yield random.between(1015 << 52, 1031 << 52)
    for _ in range(60):
        yield pattern(random.between(1, 10 ** 6), 0)


NANS = [NAN, NAN | SIGN, INF + 1, INF + 1 | SIGN, NAN - 1, 2 * SIGN - 1, NAN + 0x123456789, INF + (1 << 50)]
ENDS = [0, SIGN, LEAST, LEAST | SIGN, NORMAL - 1, NORMAL, ONE - 1, ONE, ONE + 1, ONE | SIGN, pattern(2, 0), LARGEST, LARGEST | SIGN, INF, INF | SIGN]
FEW = [0, SIGN, LEAST, LEAST | SIGN, ONE, ONE + 1, ONE | SIGN, INF, INF | SIGN, NANS[0], NANS[3]]


def beside(x):
    """A double to compare x with: often x itself, its negative, or a neighbour."""
    return random.of([x, x ^ SIGN, x + 1 & 2 * SIGN - 1, x - 1 & 2 * SIGN - 1, random.word(), random.of(ENDS), random.of(NANS)])


def questions():
    for x in FEW:
        for y in FEW:
            for z in FEW:
                yield x, y, z
    for x in ENDS + NANS:
        for y in ENDS + NANS:
            yield x, y, random.of(ENDS + NANS)
    for source in (hardest, halfway, squares, powers, plenty):
        for x in source():
            yield x, beside(x), beside(x)


def text(words):
    return " ".join("%016x" % w for w in words) + "\n"


def main():
    asked = list(questions())
    for q in asked:
        cross_check(*q)
    folder = os.path.join(os.path.dirname(os.path.dirname(os.path.abspath(__file__))), "crates", "vectors")
    for name, lines in (("stdin", map(text, asked)), ("stdout", (text(answers(*q)) for q in asked))):
        with open(os.path.join(folder, name), "w", newline="\n") as f:
            f.writelines(lines)
    print(len(asked), "records,", 119 * len(asked), "bytes")


main()
