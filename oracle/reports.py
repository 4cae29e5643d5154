#!/usr/bin/env python3
"""Makes the pages that the program `reports` must print, from document 02's request 5 (and documents 01 and 02 for the lines of a listing) alone.

    oracle/reports.py            writes crates/reports/stdin, inputs parted by a byte 0, and crates/reports/stdout, the same bytes at each run
    oracle/reports.py --check    writes nothing: ends with status 1 where the two files are not what it makes
    oracle/reports.py --report   reads the listings of jobs from standard input and prints what `report` must print for them, and on standard error
                                 the number of the line at fault
    oracle/reports.py --random SEED COUNT PROGRAM
                                 hands COUNT inputs, good and damaged, to PROGRAM, each in pieces, and holds what it prints to the page made here

It needs Python 3.9 or newer and nothing else, and takes nothing from the crates. Of each input there is its page, or the line of its refusal, and a line `-- N 0 0 0`: N is the
number of the line at fault, or 0, and after it `reports` says how many entries of the three lent buffers are left that are not zero."""
import os
import random
import re
import subprocess
import sys

NAME = re.compile(rb"[\x21-\x7e]{1,16}")
BITS = re.compile(rb"[0-9a-f]{16}")
NUMBER = re.compile(rb"0|[1-9][0-9]{0,8}")
MOST_LINE = 5 + 256 * 17


class Fault(Exception):
    """A refusal: its number, and the number of the line at fault."""


def is_name(w):
    return NAME.fullmatch(w) is not None and w not in (b"order", b"refused")


def is_amount(w):
    """"millionths above 1,000,000", "numbers with leading zeros" are of another form; a ceiling likewise."""
    return NUMBER.fullmatch(w) is not None and int(w) <= 1_000_000


def report(text):
    """The page of an input, or a Fault."""
    table = {}
    jobs = accepted = 0
    job = None  # the open job's lines, as pairs of a name and its millionths
    lines = text.split(b"\n")
    rest = lines.pop()
    for at, line in enumerate(lines, 1):
        fields = line.split(b"\t")
        if len(line) > MOST_LINE:
            raise Fault(15, at)
        if fields[0] == b"refused":
            if len(fields) != 2 or NUMBER.fullmatch(fields[1]) is None or not 1 <= int(fields[1]) <= 20 or job is not None:
                raise Fault(15, at)
            if jobs == 200:
                raise Fault(9, at)
            jobs += 1
        elif fields[0] == b"order":
            if not all(is_name(w) for w in fields[1:]) or job is None or len(fields) - 1 != len(job):
                raise Fault(15, at)
            if sum(m for _, m in job) != 1_000_000:
                raise Fault(15, at)
            accepted += 1
            for name in {name for name, _ in job}:
                table[name]["jobs"] += 1
            job = None
        else:
            if len(fields) not in (3, 4) or not is_name(fields[0]) or BITS.fullmatch(fields[1]) is None or not all(map(is_amount, fields[2:])):
                raise Fault(15, at)
            if job is None:
                if jobs == 200:
                    raise Fault(9, at)
                jobs += 1
                job = []
            name, m = fields[0], int(fields[2])
            if name not in table:
                if len(table) == 256:
                    raise Fault(9, at)
                table[name] = {"jobs": 0, "held": []}
            table[name]["held"].append(m)
            job.append((name, m))
    if rest or job is not None:
        raise Fault(15, len(lines) + 1)
    page = [b"jobs\t%d\t%d\n" % (accepted, jobs - accepted)]
    for name in sorted(table):
        held = table[name]["held"]
        page.append(b"%s\t%d\t%d\t%d\t%d\n" % (name, table[name]["jobs"], min(held), max(held), sum(held)))
    return b"".join(page)


def told(text):
    try:
        return report(text), 0
    except Fault as fault:
        number, line = fault.args
        return b"refused\t%d\n" % number, line


# ---- inputs at random

def amounts(rng, n):
    """n whole numbers that total 1,000,000."""
    kind = rng.randrange(4)
    if kind == 0:
        cuts = sorted(rng.randrange(1_000_001) for _ in range(n - 1))
        return [b - a for a, b in zip([0] + cuts, cuts + [1_000_000])]
    if kind == 1:
        out = [0] * n
        out[rng.randrange(n)] = 1_000_000
        return out
    out = [1_000_000 // n + (i < 1_000_000 % n) for i in range(n)]
    rng.shuffle(out)
    return out


def names(rng, n):
    def one():
        while True:
            k = rng.choice((1, 1, 2, 3, 7, 8, 9, 15, 16))
            w = bytes(rng.choice((rng.randrange(0x21, 0x7f), 0x41 + rng.randrange(3))) for _ in range(k))
            if is_name(w):
                return w
    pool = [one() for _ in range(n)]
    if rng.random() < 0.2:
        pool += [w[:-1] for w in pool if len(w) > 1 and is_name(w[:-1])] + [b"jobs", b"ORDER", b"Refused", b"orders"]
    return pool


def job_lines(rng, pool, most):
    if rng.random() < 0.15:
        return [b"refused\t%d" % rng.randrange(1, 21)]
    n = rng.randrange(1, most + 1)
    held = [rng.choice(pool) for _ in range(n)] if rng.random() < 0.4 or n > len(pool) else rng.sample(pool, n)
    ceilings = rng.random() < 0.4
    out = []
    for name, m in zip(held, amounts(rng, n)):
        line = b"%s\t%016x\t%d" % (name, rng.getrandbits(64), m)
        out.append(line + (b"\t%d" % rng.choice((m, 1_000_000, rng.randrange(m, 1_000_001))) if ceilings else b""))
    rng.shuffle(held)
    return out + [b"order\t" + b"\t".join(held)]


def damage(rng, text):
    kind = rng.randrange(9)
    lines = text.split(b"\n")
    at = rng.randrange(len(text) + 1)
    if kind == 0:
        return text[:at]
    if kind == 1:
        return text[:at] + bytes([rng.choice((9, 10, 0x30, 0x20, 0x41, 0x7f, 13, rng.randrange(1, 256)))]) + text[at:]
    if kind == 2 and text:
        at = rng.randrange(len(text))
        return text[:at] + bytes([rng.choice((9, 10, 0x30, 0x31, 0x20, 0x47, rng.randrange(1, 256)))]) + text[at + 1:]
    if kind == 3 and text:
        at = rng.randrange(len(text))
        return text[:at] + text[at + 1:]
    if kind == 4:
        lines.pop(rng.randrange(len(lines)))
    elif kind == 5:
        lines.insert(rng.randrange(len(lines)), rng.choice(lines))
    elif kind == 6:
        lines.insert(rng.randrange(len(lines)), rng.choice((b"refused\t15", b"refused\t0", b"refused\t21", b"refused\t015", b"refused", b"order", b"", b"order\tA", b"A\t3ff0000000000000\t1000000",
            b"A\t3ff0000000000000\t1000001", b"A\t3FF0000000000000\t0", b"A\t3ff000000000000\t0", b"A\t3ff0000000000000\t00", b"A\t3ff0000000000000\t0\t0\t0", b"order" + b"\tABCDEFGHIJKLMNOP" * 256,
            b"order" + b"\tABCDEFGHIJKLMNOP" * 257, b"x" * rng.choice((4357, 4358, 9000)))))
    elif kind == 7:
        i, j = rng.randrange(len(lines)), rng.randrange(len(lines))
        lines[i], lines[j] = lines[j], lines[i]
    else:
        i = rng.randrange(len(lines))
        lines[i] = lines[i].replace(b"\t", b" ", 1)
    return b"\n".join(lines)


def sample(rng):
    """An input, good as a rule or damaged, at the limits now and then."""
    kind = rng.randrange(10)
    if kind == 0:
        pool, count, most = names(rng, rng.choice((250, 256, 257, 270))), rng.randrange(5, 60), 64
    elif kind == 1:
        pool, count, most = names(rng, 5), rng.choice((199, 200, 201, 202)), 3
    else:
        pool, count, most = names(rng, rng.choice((1, 2, 5, 20, 60))), rng.randrange(0, 12), rng.choice((1, 3, 10, 64))
    text = b"".join(line + b"\n" for _ in range(count) for line in job_lines(rng, pool, most))
    if kind == 0 and rng.random() < 0.5:
        # every name of the pool once, one job after the other
        held = list(dict.fromkeys(pool))[:rng.choice((255, 256, 257, 300))]
        text = b""
        while held:
            part, held = held[:64], held[64:]
            text += b"".join(b"%s\t%016x\t%d\n" % (w, rng.getrandbits(64), m) for w, m in zip(part, amounts(rng, len(part)))) + b"order\t" + b"\t".join(part) + b"\n"
    return damage(rng, text) if rng.random() < 0.5 else text


# ---- inputs written for one thing that each shows

A = b"A\t3ff0000000000000\t1000000"
B = b"B\t3fe0000000000000\t500000"
C = b"C\t3fe0000000000000\t500000"
THREE = [b"C\t3fe0000000000000\t500000", b"A\t3fd0000000000000\t250000", b"B\t3fd0000000000000\t250000", b"order\tC\tA\tB"]
JOB = [A, b"order\tA"]


def text_of(*lines):
    return b"".join(line + b"\n" for line in lines)


def many(n, at=0, ceilings=False):
    """A job of n names, from number `at` on."""
    held = [b"N%03d" % (at + i) for i in range(n)]
    lines = [b"%s\t3f00000000000000\t%d" % (w, 1_000_000 // n + (i < 1_000_000 % n)) + (b"\t1000000" if ceilings else b"") for i, w in enumerate(held)]
    return lines + [b"order" + b"".join(b"\t" + w for w in held)]


def written():
    """The inputs of the request's own sentences."""
    bits = b"3ff0000000000000"
    yield b""
    yield text_of(*THREE)
    yield text_of(*THREE, b"refused\t15", *JOB, *JOB)
    yield text_of(b"refused\t1", b"refused\t20", b"refused\t12", b"refused\t19")
    # a name twice in a job; both kinds of lines mixed; a holding of nothing
    yield text_of(b"A\t" + bits + b"\t600000\t1000000", b"A\t" + bits + b"\t400000", b"order\tA\tA", *JOB)
    yield text_of(b"A\t" + bits + b"\t0", b"B\t" + bits + b"\t1000000\t1000000", b"order\tB\tA")
    yield text_of(b"A\t" + bits + b"\t0\t0", A, b"order\tA\tB")
    # byte order
    yield text_of(*[w + b"\t" + bits + b"\t%d" % m for w, m in ((b"b", 100000), (b"B", 100000), (b"AB", 100000), (b"A", 100000), (b"A!", 100000), (b"a", 100000), (b"~", 100000), (b"!", 100000), (b"ABCDEFGH", 50000), (b"ABCDEFGHI", 50000), (b"ABCDEFGHIJKLMNOP", 50000), (b"ABCDEFGHIJKLMNOQ", 50000))], b"order" + b"\tx" * 12)
    # names that other lines begin with, or nearly
    yield text_of(*[w + b"\t" + bits + b"\t250000" for w in (b"jobs", b"orders", b"Order", b"refuse")], b"order\tjobs\torders\tOrder\trefuse")
    # forms of a holding's line
    for w in (b"", b"ABCDEFGHIJKLMNOPQ", b"A B", b"A\x7f", b"\xc3\xa9", b"A\r"):
        yield text_of(w + b"\t" + bits + b"\t1000000", b"order\tA")
    for w in (b"", bits[:-1], bits + b"0", bits.upper(), b"3ff000000000000g", b"-ff0000000000000", b"7ff8000000000000", b"ffffffffffffffff", b"abcdef0123456789"):
        yield text_of(b"A\t" + w + b"\t1000000", b"order\tA")
    for w in (b"", b"01000000", b"0", b"00", b"1000001", b"9999999", b"10000000", b"1000000000", b"-0", b"+1", b"1e6", b"1000000.", b" 1000000", b"1000000\r", b"x"):
        yield text_of(b"A\t" + bits + b"\t" + w, b"order\tA")
        yield text_of(b"A\t" + bits + b"\t1000000\t" + w, b"order\tA")
    yield text_of(A + b"\t1000000\t1000000", b"order\tA")
    yield text_of(b"A\t" + bits, b"order\tA")
    yield text_of(b"A", b"order\tA")
    # forms of the order line
    for w in (b"order", b"order\tB", b"order\tA\tA", b"order\t", b"order\tA\t", b"order\torder", b"order\trefused", b"order\tABCDEFGHIJKLMNOPQ", b"order A", b"Order\tA", b"orders\tA", b" order\tA", b"order\tA\r"):
        yield text_of(A, w)
    yield text_of(b"order")
    yield text_of(b"order\tA")
    yield text_of(*JOB, b"order\tA")
    # forms of the refused line
    for w in (b"", b"0", b"1", b"9", b"10", b"20", b"21", b"99", b"01", b"015", b"15\t", b"15\t6", b"15 ", b"x", b"-1", b"4294967311"):
        yield text_of(b"refused\t" + w)
    yield text_of(b"refused")
    # totals
    yield text_of(b"A\t" + bits + b"\t999999", b"order\tA")
    yield text_of(A, b"B\t" + bits + b"\t1", b"order\tA\tB")
    yield text_of(A, A, b"order\tA\tA")
    yield text_of(A, b"B\t" + bits + b"\t0", b"order\tA")
    # broken off
    yield text_of(A)
    yield text_of(A, b"refused\t15")
    yield text_of(*JOB, A)
    yield text_of(*JOB)[:-1]
    yield text_of(*JOB) + b"o"
    yield text_of(A)[:-1]
    yield text_of(*JOB) + b"refused\t15"
    yield b"\n"
    yield text_of(*JOB) + b"\n"
    yield b"\n" + text_of(*JOB)
    yield text_of(*JOB).replace(b"\n", b"\r\n")
    # 200 jobs and 201, refused ones among them; 15 before 9 on the line that is one too many
    for last in ([], [b"refused\t9"], JOB, [b"refused\t09"], [b"order\tA"], [b"A\t3ff0000000000000\t1000001"], [b"order"], [b"x"]):
        yield text_of(*(JOB * 200), *last)
        yield text_of(*([b"refused\t18"] * 200), *last)
        yield text_of(*((JOB + [b"refused\t6"]) * 100), *last)
    # 256 names and 257; 15 before 9 on the line of the one too many
    for n in (64, 256):
        full = [line for at in range(0, 256, n) for line in many(n, at)]
        yield text_of(*full)
        yield text_of(*full, *many(64, 100, True))
        yield text_of(*full, *many(64, 193))
        yield text_of(*full, b"M\t3f00000000000000\t1000000", b"order\tM")
        yield text_of(*full, b"M\t3f00000000000000\t1000001")
        yield text_of(*full, b"N000\t3f00000000000000\t1000000", b"order\tM")
        yield text_of(*full, b"refused\t2")
    yield text_of(*many(257))
    # both at once: the 201st job with a 257th name
    yield text_of(*[line for at in range(0, 256, 64) for line in many(64, at)], *(JOB * 0), *([b"refused\t1"] * 196), b"M\t3f00000000000000\t1000000", b"order\tM")
    # the longest lines
    wide = [b"ABCDEFGHIJKL%04d" % i for i in range(256)]
    yield text_of(*[b"%s\t3f00000000000000\t%d" % (w, 1_000_000 // 256 + (i < 1_000_000 % 256)) for i, w in enumerate(wide)], b"order\t" + b"\t".join(wide))
    yield text_of(*[b"%s\t3f00000000000000\t%d" % (w, 1_000_000 // 256 + (i < 1_000_000 % 256)) for i, w in enumerate(wide)], b"order\t" + b"\t".join(wide) + b"\tA")
    yield text_of(*(b"A\t3f00000000000000\t%d" % (1_000_000 * (i == 7)) for i in range(2176)), b"order" + b"\tA" * 2176)
    yield text_of(*(b"A\t3f00000000000000\t%d" % (1_000_000 * (i == 7)) for i in range(2177)), b"order" + b"\tA" * 2177)
    for n in (4357, 4358, 20000):
        yield text_of(*JOB, b"x" * n)
        yield text_of(*JOB) + b"x" * n
        yield text_of(*JOB, b"order" + b"\tA" * (n // 2))


def inputs():
    rng = random.Random(20261117)
    out = list(written())
    while len(out) < 700:
        text = sample(rng)
        if b"\0" not in text and len(text) < 4_000:
            out.append(text)
    return out


def main(args):
    here = os.path.join(os.path.dirname(os.path.abspath(__file__)), "..", "crates", "reports")
    if args == ["--report"]:
        page, line = told(sys.stdin.buffer.read())
        sys.stdout.buffer.write(page)
        if line:
            print("line %d is at fault" % line, file=sys.stderr)
        return 0
    if args[:1] == ["--random"]:
        seed, count, program = int(args[1]), int(args[2]), args[3:]
        rng = random.Random(seed)
        bad = 0
        for k in range(count):
            text = sample(rng)
            page, line = told(text)
            run = subprocess.Popen(program, stdin=subprocess.PIPE, stdout=subprocess.PIPE, stderr=subprocess.PIPE)
            try:
                at = 0
                while at < len(text):
                    step = rng.choice((1, 2, 7, 100, 4096, 65536)) if len(text) < 20000 else rng.choice((100, 4096, 65536))
                    run.stdin.write(text[at:at + step])
                    run.stdin.flush()
                    at += step
                run.stdin.close()
            except BrokenPipeError:
                pass
            out, err = run.stdout.read(), run.stderr.read()
            run.wait()
            if out != page or (line and b"%d" % line not in err.split()) or (not line and err):
                bad += 1
                print("input %d: %r %r, expected %r line %d" % (k, out[:60], err[:60], page[:60], line))
        print("%d inputs, %d disagree" % (count, bad))
        return 1 if bad else 0
    texts = inputs()
    files = {"stdin": b"\0".join(texts), "stdout": b"".join(page + b"-- %d 0 0 0\n" % line for page, line in map(told, texts))}
    for name, made in files.items():
        if args == ["--check"]:
            with open(os.path.join(here, name), "rb") as f:
                if f.read() != made:
                    return 1
        elif args:
            print(__doc__, file=sys.stderr)
            return 2
        else:
            with open(os.path.join(here, name), "wb") as f:
                f.write(made)
    return 0


if __name__ == "__main__":
    sys.exit(main(sys.argv[1:]))
