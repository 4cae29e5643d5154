#!/usr/bin/env python3
"""Makes the listings and sheets that the program `sheets` must print, from document 01's words (and document 02's requests 1, 3, 8, 10 and 13) alone.

    oracle/sheets.py            reads crates/sheets/stdin and writes crates/sheets/stdout
    oracle/sheets.py --check    writes nothing: ends with status 1 where crates/sheets/stdout is not what it makes
    oracle/sheets.py --job      reads one job text from standard input and prints what `weights` must print for it
    oracle/sheets.py --sheet    the same for `sheet`
    oracle/sheets.py --names    the same for `named_sheet`

It needs Python 3.9 or newer and nothing else. The texts, parted by a byte 0, stand in crates/sheets/stdin alone.

Sums, products and quotients are Python's doubles, which round once to nearest even; math.sqrt is correctly rounded. Nothing is taken from the Rust's
code but what the documents hand over to it (`Linkage::update`, the names, the two tail-risk measures), and nothing from the crates. Of each text there are
three blocks: its listing, its sheet, its sheet with names; a refused text has the line of its refusal in each. A block is followed by a line `-- 0`: `sheets`
says there how many bytes past it the call left that are not zero."""
import math
import os
import re
import struct
import sys
from fractions import Fraction

EPSILON = 2.0 ** -52
NAN = struct.unpack(">d", bytes.fromhex("7ff8000000000000"))[0]


class Refused(Exception):
    """A refusal, by its number."""


# ---- arithmetic: "each operation rounds once, to nearest even"

def div(x, y):
    if y != 0 or y != y:
        return x / y
    if x == 0 or x != x:
        return NAN
    return math.copysign(math.inf, x) * math.copysign(1.0, y)


def root(x):
    """"+0, -0 and +infinity give themselves; NaN and negatives give NaN"."""
    return math.sqrt(x) if x >= 0 else NAN


def most(x, y):
    """"Max and min with one NaN give the other number, with two NaN; of equals, the first." """
    return y if x != x or x < y else x


def least(x, y):
    return y if x != x or y < x else x


def clamp(x, low, high):
    """"Clamp changes only a number beyond its ends, so NaN and -0 stay." """
    return low if x < low else high if x > high else x


def total(terms):
    """"sums run first to last from +0"."""
    s = 0.0
    for t in terms:
        s += t
    return s


def bits(x):
    """"An answer that is NaN has the bits 7ff8000000000000." """
    return "7ff8000000000000" if x != x else struct.pack(">d", x).hex()


# ---- from prices to distances

def returns_of(prices):
    """"Returns: under 2 sampled rows is 1. price / previous - 1; the first zero price met as a denominator ends the scan with 1." Request 8: "Such a job
    keeps every day"."""
    if len(prices) < 2:
        raise Refused(1)
    if any(price == 0 for day in prices[:-1] for price in day):
        raise Refused(1)
    return [[price / previous - 1.0 for price, previous in zip(day, before)] for before, day in zip(prices, prices[1:])]


def mean(terms):
    return total(terms) / len(terms)


def covariance(returns):
    """"no covariance and under 2 return rows 1"; "means first, then sums of products over rows, divided by rows - 1, for i <= j, copied across". Request 8:
    "shrinks nothing"."""
    rows = len(returns)
    if rows < 2:
        raise Refused(1)
    from_mean = [[x - m for x in column] for column, m in ((column, mean(column)) for column in zip(*returns))]
    n = len(from_mean)
    out = [[0.0] * n for _ in range(n)]
    for i in range(n):
        for j in range(i, n):
            out[i][j] = out[j][i] = total(x * y for x, y in zip(from_mean[i], from_mean[j])) / (rows - 1)
    return out


def expected_returns(returns):
    """"Expected returns: mean times 252"; request 8: "estimates by `mean`"."""
    return [mean(column) * 252.0 for column in zip(*returns)]


def correlations(cov):
    n = len(cov)
    if any(cov[i][i] <= 0 for i in range(n)):
        raise Refused(1)
    deviation = [root(cov[i][i]) for i in range(n)]
    return [[div(cov[i][j], deviation[i] * deviation[j]) for j in range(n)] for i in range(n)]


def hrp_distance(c):
    return root(most(1.0 - clamp(c, -1.0, 1.0), 0.0) / 2.0)


def hcaa_distance(c):
    return root(most(2.0 * (1.0 - clamp(c, -1.0, 1.0)), 0.0))


def distance_of_distances(d):
    """"diagonal taken as 0, root of the sum of squared column differences, i < j, copied"."""
    n = len(d)
    d = [[0.0 if i == j else d[i][j] for j in range(n)] for i in range(n)]
    out = [[0.0] * n for _ in range(n)]
    for i in range(n):
        for j in range(i + 1, n):
            s = total((d[k][i] - d[k][j]) * (d[k][i] - d[k][j]) for k in range(n))
            out[i][j] = out[j][i] = root(s)
    return out


# ---- tree and leaf order

def update(linkage, d_xi, d_yi, d_xy, n_x, n_y, n_i):
    """`Linkage::update`, in its order of operations."""
    if linkage == "single":
        return least(d_xi, d_yi)
    if linkage == "complete":
        return most(d_xi, d_yi)
    if linkage == "average":
        return (n_x * d_xi + n_y * d_yi) / (n_x + n_y)
    t = 1.0 / (n_x + n_y + n_i)
    return root(most((n_i + n_x) * t * d_xi * d_xi + (n_i + n_y) * t * d_yi * d_yi - n_i * t * d_xy * d_xy, 0.0))


def merge_rows(distances, linkage):
    n = len(distances)
    d = [row[:] for row in distances]
    ids, sizes, live = list(range(n)), [1.0] * n, [True] * n
    rows = []
    for k in range(n - 1):
        best = None
        for a in range(n):
            for b in range(a + 1, n):
                if not (live[a] and live[b]):
                    continue
                dist, pair = d[a][b], (min(ids[a], ids[b]), max(ids[a], ids[b]))
                # "a later pair replaces it if its distance + 1e-12 is below the best's, or if the double |difference| is <= 1e-12
                # .. and its (smaller id, larger id) comes first"
                if best is None or dist + 1e-12 < best[2] or (abs(dist - best[2]) <= 1e-12 and pair < best[3]):
                    best = (a, b, dist, pair)
        x, y, d_xy, pair = best
        for i in range(n):
            if live[i] and i != x and i != y:
                d[x][i] = d[i][x] = update(linkage, d[x][i], d[y][i], d_xy, sizes[x], sizes[y], sizes[i])
        rows.append(pair)
        ids[x], sizes[x], live[y] = n + k, sizes[x] + sizes[y], False
    return rows


def leaves(rows, n, node):
    return [node] if node < n else leaves(rows, n, rows[node - n][0]) + leaves(rows, n, rows[node - n][1])


# ---- sharing out

def inverse_variance_weights(cov, assets):
    inverse = [div(1.0, cov[i][i]) for i in assets]
    s = total(inverse)
    if s <= 0:
        raise Refused(1)
    return [div(x, s) for x in inverse]


def cluster_variance(cov, assets):
    w = inverse_variance_weights(cov, assets)
    terms = (w[i] * cov[a][b] * w[j] for i, a in enumerate(assets) for j, b in enumerate(assets))
    return most(total(terms), 0.0)


def cluster_sharpe(cov, expected, assets):
    """"a cluster's ratio is its weighted expectation over the root of its variance, 0 where that variance is 0"."""
    expectation = total(w * expected[a] for w, a in zip(inverse_variance_weights(cov, assets), assets))
    variance = cluster_variance(cov, assets)
    return div(expectation, root(variance)) if variance > 0 else 0.0


# request 8: "uses the double nearest 0.05 as confidence"
CONFIDENCE = 0.05


def quantile(values, q):
    """Request 1: "index q*(list length - 1) worked out in double, rounded to the nearest whole, halves to even, in the list sorted ascending with -0 before
    +0 and every NaN last"."""
    ordered = sorted(values, key=lambda x: (1, 0.0, 0.0) if x != x else (0, x, math.copysign(1.0, x)))
    return ordered[round(q * float(len(values) - 1))]  # round() goes to the even one of two that are as near


def portfolio(returns, cov, assets):
    """Each day's return: the assets' returns times their inverse-variance weights, added up in the order listed."""
    weights = inverse_variance_weights(cov, assets)
    return [total(day[a] * w for a, w in zip(assets, weights)) for day in returns]


def expected_shortfall(returns, cov, assets):
    """`cluster_expected_shortfall` of the source: minus the sum of the days at or below the quantile, over their number; 0 where there are none."""
    days = portfolio(returns, cov, assets)
    threshold = quantile(days, CONFIDENCE)
    tail = [x for x in days if x <= threshold]
    return -total(tail) / len(tail) if tail else 0.0


def conditional_drawdown(returns, cov, assets):
    """`cluster_conditional_drawdown` of the source: the mean of the drawdowns at or above the quantile. Request 1: "Drawdowns use 1 - confidence and count
    the starting wealth"."""
    wealth = [1.0]
    for x in portfolio(returns, cov, assets):
        wealth.append(wealth[-1] * (1.0 + x))
    peak, drawdowns = wealth[0], []
    for v in wealth:
        peak = v if v > peak else peak
        drawdowns.append((peak - v) / peak if peak > 0 else 0.0)
    threshold = quantile(drawdowns, 1.0 - CONFIDENCE)
    tail = [x for x in drawdowns if x >= threshold]
    return mean(tail) if tail else 0.0


def left_factor(left, right):
    return 1.0 - div(left, left + right + EPSILON)


def share(cov, returns, metric, rows, clusters):
    n = len(cov)
    weights = [0.0] * n
    expected = expected_returns(returns)

    def factor(node):
        sides = [leaves(rows, n, child) for child in rows[node - n]]
        left, right = (cluster_variance(cov, side) for side in sides)
        if metric == "minimum_variance":
            f = left_factor(left, right)
        elif metric == "minimum_standard_deviation":
            f = left_factor(root(left), root(right))
        elif metric == "sharpe_ratio":
            # "l/(l + r) when both are >= 0 and the sum > 0, else the variance factor"
            l, r = (cluster_sharpe(cov, expected, side) for side in sides)
            f = l / (l + r) if l >= 0 and r >= 0 and l + r > 0 else left_factor(left, right)
        elif metric == "expected_shortfall":
            f = left_factor(*(expected_shortfall(returns, cov, side) for side in sides))
        elif metric == "conditional_drawdown_risk":
            f = left_factor(*(conditional_drawdown(returns, cov, side) for side in sides))
        else:
            f = 0.5
        # "A non-finite factor is 0.5; others clamp to 0..1."
        return clamp(f, 0.0, 1.0) if math.isfinite(f) else 0.5

    def down(node, weight):
        if node < n:
            weights[node] = weight
        elif node - n + clusters >= n:
            f = factor(node)
            down(rows[node - n][0], weight * f)
            down(rows[node - n][1], weight * (1.0 - f))
        else:
            members = leaves(rows, n, node)
            within = [1.0 / len(members)] * len(members) if metric == "equal_weighting" else inverse_variance_weights(cov, members)
            for asset, w in zip(members, within):
                weights[asset] = weight * w

    down(2 * n - 2, 1.0)
    return weights


def bisect(cov, order):
    weights = [1.0] * len(order)

    def halve(part, weight):
        if len(part) == 1:
            weights[part[0]] = weight
            return
        left, right = part[:len(part) // 2], part[len(part) // 2:]
        f = left_factor(cluster_variance(cov, left), cluster_variance(cov, right))
        halve(left, weight * f)
        halve(right, weight * (1.0 - f))

    halve(order, 1.0)
    s = total(weights)
    return [div(w, s) for w in weights] if s > 0 else weights


# ---- the two allocators, of a covariance alone or of prices alone

SIX = ("minimum_variance", "minimum_standard_deviation", "sharpe_ratio", "equal_weighting", "expected_shortfall", "conditional_drawdown_risk")


def tree(cov, to_distance, by, linkage):
    d = [[to_distance(c) for c in row] for row in correlations(cov)]
    rows = merge_rows(distance_of_distances(d) if by == "distance_of_distances" else d, linkage)
    return rows, leaves(rows, len(cov), 2 * len(cov) - 2)


def hcaa(n, priced, cells, metric, linkage, by, clusters):
    if metric not in SIX:
        raise Refused(2)
    if n == 0:
        raise Refused(1)
    returns = returns_of(cells) if priced else []
    cov = covariance(returns) if priced else cells
    if metric == "sharpe_ratio" and not returns:
        raise Refused(4)
    if metric in SIX[4:] and not returns:
        raise Refused(16)
    if clusters is None:
        clusters = n
    if not 1 <= clusters <= n:
        raise Refused(6)
    rows, order = tree(cov, hcaa_distance, by, linkage)
    return share(cov, returns, metric, rows, clusters), rows, order


def hrp(n, priced, cells, by):
    if n == 0:
        raise Refused(1)
    cov = covariance(returns_of(cells)) if priced else cells
    rows, order = tree(cov, hrp_distance, by, "single")
    return bisect(cov, order), rows, order


# ---- job texts

def double(cell):
    """"each cell 16 lower-case hex digits". Request 8: "A cell may also be an optional minus, digits, an optional point with digits after it, up to 15 digits
    in all, at least one before the point. The value is the double nearest the exact decimal, halves to even." """
    if re.fullmatch(rb"[0-9a-f]{16}", cell):
        return struct.unpack(">d", bytes.fromhex(cell.decode()))[0]
    if not re.fullmatch(rb"-?[0-9]+(\.[0-9]+)?", cell) or sum(c in b"0123456789" for c in cell) > 15:
        raise Refused(15)
    x, exact = float(cell), Fraction(cell.decode())
    # "Minus zero gives -0."
    assert (math.copysign(1.0, x) < 0) == cell.startswith(b"-"), cell
    for neighbour in (math.nextafter(x, math.inf), math.nextafter(x, -math.inf)):
        assert abs(Fraction(x) - exact) < abs(Fraction(neighbour) - exact), cell
    return x


def read(text):
    """The job of a text: the first line's fields, the names, whether the cells are prices, the rows of cells, and the ceilings, or None."""
    if len(text) > 65536:
        raise Refused(9)
    lines = text.split(b"\n")
    # "lines ended by a newline": nothing stands after the last
    if lines.pop() != b"" or not lines:
        raise Refused(15)
    first, *rows = [line.split(b"\t") for line in lines]
    if first[0] not in (b"hrp", b"hcaa"):
        raise Refused(15)
    # "`hrp` and distance; or `hcaa`, metric, linkage, distance, clusters"; request 8: "the first line gains a last field `prices`"; request 10: "`ceilings` as
    # the last field of its first line"
    fields = 2 if first[0] == b"hrp" else 5
    more = first[fields:]
    if len(first) < fields or more not in ([], [b"prices"], [b"ceilings"], [b"prices", b"ceilings"]):
        raise Refused(15)
    priced, ceiled = b"prices" in more, b"ceilings" in more
    # "clusters (1 to 9 digits, or `-` for all)"
    if first[0] == b"hcaa" and not re.fullmatch(rb"-|[0-9]{1,9}", first[4]):
        raise Refused(15)
    if priced:
        # "then a line of names, then one line of cells for each day"
        if not rows:
            raise Refused(15)
        names, *rows = rows
        if ceiled:
            # "in a prices job a line of ceilings follows the names"
            if not rows or len(rows[0]) != len(names):
                raise Refused(15)
            ceilings, *rows = rows
    else:
        # "Then per asset: a name .. and its covariance row"
        names, rows = [name for name, *_ in rows], [row for _, *row in rows]
        if ceiled:
            # "each asset's line then ends with its ceiling"
            if any(not row for row in rows):
                raise Refused(15)
            ceilings, rows = [row[-1] for row in rows], [row[:-1] for row in rows]
    for name in names:
        # "a name of 1 to 16 bytes 21 to 7e hex, not `order` or `refused`"
        if not re.fullmatch(rb"[\x21-\x7e]{1,16}", name) or name in (b"order", b"refused"):
            raise Refused(15)
    if any(len(row) != len(names) for row in rows):
        raise Refused(15)
    return first, names, priced, [[double(cell) for cell in row] for row in rows], [ceiling(field) for field in ceilings] if ceiled else None


def ceiling(field):
    """Request 10: "15 for a ceiling that isn't 1 to 7 digits or is above 1,000,000"."""
    if not re.fullmatch(rb"[0-9]{1,7}", field) or int(field) > 1000000:
        raise Refused(15)
    return int(field)


def millionths(weights):
    """"the whole part of its exact value times 1,000,000; -0 is 0"; then request 3: "give one more millionth each to the assets with the largest fractions
    left over, the lower asset number first on a tie, until the total is 1,000,000"."""
    if not all(0 <= weight <= 1 for weight in weights):
        raise Refused(13)
    exact = [Fraction(weight) * 1000000 for weight in weights]
    whole = [math.floor(x) for x in exact]
    missing = 1000000 - sum(whole)
    if not 0 <= missing <= len(weights):
        raise Refused(18)
    for asset in sorted(range(len(weights)), key=lambda i: whole[i] - exact[i])[:missing]:  # sorted keeps the lower number first on a tie
        whole[asset] += 1
    return whole


def under(ceilings, parts):
    """Request 10: "cut every asset to its ceiling, then hand the cut total out in asset order, each one filled up to its ceiling". One millionth at a time
    would be the same; the loop hands out what the first asset with room takes."""
    if ceilings is None:
        return parts
    # "20 .. exactly when no list of whole millionths, none above its ceiling, totals one million"
    if sum(ceilings) < 1000000:
        raise Refused(20)
    cut = [min(part, ceiling) for part, ceiling in zip(parts, ceilings)]
    while sum(cut) < 1000000:
        asset = next(i for i in range(len(cut)) if cut[i] < ceilings[i])
        cut[asset] = min(ceilings[asset], cut[asset] + 1000000 - sum(cut))
    return cut


def allocated(text):
    """The names, weights, millionths, ceilings or None, merge rows and leaf order of a text's job."""
    first, names, priced, cells, ceilings = read(text)
    linkage = first[2].lower().decode("latin-1") if first[0] == b"hcaa" else "single"
    by = first[3 if first[0] == b"hcaa" else 1].lower().decode("latin-1")
    if linkage not in ("single", "complete", "average", "ward"):
        raise Refused(8)
    if by not in ("correlation", "distance_of_distances"):
        raise Refused(7)
    # "then as before, the allocator's 9 for over 64 assets or 4,096 cells"
    if len(names) > 64 or len(cells) * len(names) > 4096:
        raise Refused(9)
    if first[0] == b"hrp":
        weights, rows, order = hrp(len(names), priced, cells, by)
    else:
        weights, rows, order = hcaa(len(names), priced, cells, first[1].decode("latin-1"), linkage, by, None if first[4] == b"-" else int(first[4]))
    return names, weights, under(ceilings, millionths(weights)), ceilings, rows, order


# ---- what is printed

def listing(names, weights, parts, ceilings, rows, order):
    lines = [b"\t".join((name, bits(w).encode(), b"%d" % m)) for name, w, m in zip(names, weights, parts)]
    if ceilings is not None:
        # "the listing, where ceilings are given, shows it as a fourth field"
        lines = [b"%s\t%d" % (line, c) for line, c in zip(lines, ceilings)]
    return b"".join(line + b"\n" for line in lines) + b"\t".join([b"order"] + [names[i] for i in order]) + b"\n"


def branches(rows, n, node, depth):
    """Request 13: "a line per node from the root down, left first". Of the node and of every node below it: the node, "the nodes above it", and its leaves."""
    found = [(node, depth, leaves(rows, n, node))]
    for child in rows[node - n] if node >= n else ():
        found += branches(rows, n, child, depth + 1)
    return found


def line(parts, depth, under):
    """"depth, size, subtotal of the listing's millionths, tabs between"; request 10: they are after ceilings."""
    return b"%d\t%d\t%d" % (depth, len(under), sum(parts[i] for i in under))


def sheet(names, weights, parts, ceilings, rows, order):
    n = len(names)
    return b"".join(line(parts, depth, under) + b"\n" for _, depth, under in branches(rows, n, 2 * n - 2, 0))


def named_sheet(names, weights, parts, ceilings, rows, order):
    """The same lines, for a person: each two blanks further in for each node above it, and at the end of a leaf's a tab and the asset's name."""
    n = len(names)
    lines = []
    for node, depth, under in branches(rows, n, 2 * n - 2, 0):
        lines.append(b"  " * depth + line(parts, depth, under) + (b"\t" + names[node] if node < n else b"") + b"\n")
    return b"".join(lines)


def printed(text, *forms):
    """A text in each of these forms, or the line of its refusal as often."""
    try:
        answer = allocated(text)
    except Refused as refusal:
        return [b"refused\t%d\n" % refusal.args[0]] * len(forms)
    return [form(*answer) for form in forms]


def sheets(texts):
    return b"".join(block + b"-- 0\n" for text in texts for block in printed(text, listing, sheet, named_sheet))


if __name__ == "__main__":
    sys.setrecursionlimit(10000)
    folder = os.path.join(os.path.dirname(os.path.abspath(__file__)), "..", "crates", "sheets")
    asked = sys.argv[1:]
    forms = {"--job": listing, "--sheet": sheet, "--names": named_sheet}
    if len(asked) == 1 and asked[0] in forms:
        sys.stdout.buffer.writelines(printed(sys.stdin.buffer.read(), forms[asked[0]]))
        sys.exit()
    if asked not in ([], ["--check"]):
        sys.exit("usage: oracle/sheets.py [--check | --job | --sheet | --names]")
    with open(os.path.join(folder, "stdin"), "rb") as file:
        made = sheets(file.read().split(b"\0"))
    if asked == ["--check"]:
        with open(os.path.join(folder, "stdout"), "rb") as file:
            sys.exit(0 if file.read() == made else "oracle/sheets.py: crates/sheets/stdout is not what it makes")
    with open(os.path.join(folder, "stdout"), "wb") as file:
        file.write(made)
