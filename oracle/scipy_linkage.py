#!/usr/bin/env python3
"""scipy_linkage.py CALLS ANSWERS: holds the merge rows that the Rust gave to those of scipy.cluster.hierarchy.linkage.

Takes each recorded call of linkage_children on 2 or more assets whose matrix is symmetric, positive and below 1e100 (so that no square
overflows), where no two distances, and no two merge heights of scipy's, are within 1e-9: elsewhere the two break ties by different rules.
Not part of the gate. Needs scipy."""
import struct
import sys

import numpy
from scipy.cluster.hierarchy import linkage
from scipy.spatial.distance import squareform

METHODS = ["single", "complete", "average", "ward"]
APART = 1e-9
MOST = 1e100


def apart(values):
    return len(values) < 2 or numpy.diff(numpy.sort(values)).min() > APART


def double(token):
    return struct.unpack(">d", bytes.fromhex(token))[0]


def main(calls, answers):
    taken = dict.fromkeys(METHODS, 0)
    left = 0
    differ = 0
    largest = 0
    for call, answer in zip(open(calls), open(answers)):
        call, answer = call.split(), answer.split()
        if call[0] != "a" or answer[0] != "0":
            continue
        method = METHODS[int(call[2])]
        n = int(call[4], 16)
        d = numpy.array([double(t) for t in call[6:]]).reshape(n, n)
        off = d[~numpy.eye(n, dtype=bool)]
        if n < 2 or not ((off > 0) & (off < MOST)).all() or (d != d.T).any():
            left += 1
            continue
        numpy.fill_diagonal(d, 0.0)
        pairs = squareform(d)
        rows = linkage(pairs, method)
        if not apart(pairs) or not apart(rows[:, 2]):
            left += 1
            continue
        taken[method] += 1
        largest = max(largest, n)
        theirs = [int(x) for x in rows[:, :2].ravel()]
        ours = [int(t, 16) for t in answer[3:-1]]
        if ours != theirs:
            differ += 1
            print("differ:", method, n, ours, theirs)
    print("compared:", taken, "largest:", largest, "left out:", left, "differ:", differ)
    return differ != 0


sys.exit(main(*sys.argv[1:]))
