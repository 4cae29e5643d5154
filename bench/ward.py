#!/usr/bin/python3
"""ward.py MATRICES TIMES: Ward by scipy and by fastcluster, timed on the matrices that bench/run timed ours on; TIMES is what that printed. A line
'WHAT N THEIRS-ns OURS-ns RATIO' for each, the ratio being ours to theirs. Theirs are calls from Python on the condensed matrix, with the checks that
their packages make. Needs Debian's python3-scipy and python3-fastcluster."""
import struct
import sys
import time

import fastcluster
import numpy
from scipy.cluster.hierarchy import linkage
from scipy.spatial.distance import squareform

SAMPLES = 51
SAMPLE = 2e6  # a sample repeats its call for about so many nanoseconds


def nanoseconds(call, times):
    start = time.perf_counter_ns()
    for _ in range(times):
        call()
    return (time.perf_counter_ns() - start) / times


def median(call):
    times = max(1, int(SAMPLE / max(nanoseconds(call, 3), 1)))
    return sorted(nanoseconds(call, times) for _ in range(SAMPLES))[SAMPLES // 2]


def matrix(line):
    size, *cells = line.split()
    doubles = [struct.unpack(">d", bytes.fromhex(cell))[0] for cell in cells]
    return int(size), numpy.array(doubles).reshape(int(size), int(size))


def main(matrices, times):
    ours = {int(line.split()[1]): float(line.split()[2]) for line in open(times) if line.startswith("merge_ward ")}
    for line in open(matrices):
        n, square = matrix(line)
        condensed = squareform(square)
        for what, call in [("scipy_ward", linkage), ("fastcluster_ward", fastcluster.linkage)]:
            theirs = median(lambda: call(condensed, "ward"))
            print(f"{what} {n} {theirs:.1f} {ours[n]:.1f} {ours[n] / theirs:.2f}")


if __name__ == "__main__":
    main(*sys.argv[1:])
