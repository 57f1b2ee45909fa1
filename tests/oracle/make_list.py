#!/usr/bin/env python3
"""Make the list that the program `replay` is run on, and the text that it must write: crates/replay/stdin and stdout.

    python3 make_list.py RUST       RUST: the folder of the Rust text (src--*.txt)

The oracle is built from that text (build_oracle.py). The streams below are drawn from a fixed seed and handed to
`oracle_run --dump --env`, one by one, and to the same program built with overflow checks, which must say the same.
What document 01 says of a stream's lines is checked here too.

The list is each stream's length, 4 bytes little-endian, and its bytes. The text is for each stream a line `stream K`
and what the oracle wrote: each record's line, the whole state after it, and the environments of every site from the
chain's two ends, left before right; the oracle's other walks are left out. Where the work slice that is lent, 1,344
numbers, is too short for the cap (D 5 and above), every call of the port but start is refused by 2, so there the
oracle's walks are left out altogether.

    streams   of what
          9   the run cases of document 01, by name
         40   gates that permute the four bit pairs, with phases 1, -1, i, -i, and zeros of both signs; named gates
         36   random complex gates, unitary, general and sparse
         40   gates of extreme magnitudes: 1e150, 1e-160, 1e300, subnormal, mixed
         18   amplitudes near 1e-80, and near 1e150, 9 of each: rotations from overlaps whose squares are out of range
          7   overlaps: the example of docs/DIFFERENCES.md, sizes that are ties, sizes that digits far down decide
         16   amplitudes that become infinite or NaN: 7
         38   truncation at D 1 to 4, values beside the resolution
          8   searched for: a QR column whose third pass shows, environments with infinities beside zeros
         39   every qubit read: columns that QR drops, equal singular values
         24   Jacobi's rotations: parallel columns in blocks, pairs beside the tolerance
         30   workspace refusals: 6, at the first cut of a route or behind some of its swaps
          7   exponents 63 to 255, on the route that exponent 5 refuses
         16   starts refused by 1 and 2, and the start after them
          3   calls refused by 4
          4   calls refused by 5
         84   streams that are cut off: one at every byte, one beside the fields of a gate
         55   bad codes, bits, kinds and lengths, records before a start, a second start: 8
         12   boundary sizes: n 1, 32, 64, D 1 to 11, store and work just long enough or too short
         24   one qubit measured, reset and projected again and again
         32   epsilon and clamp, 0 and above
        542   with 2,720 records: 2,375 accepted, 345 refused
"""
import math
import pathlib
import random
import re
import struct
import subprocess
import sys
import tempfile
from collections import Counter

HERE = pathlib.Path(__file__).resolve().parent
sys.path.insert(0, str(HERE.parent))
import size_compare

REPLAY = HERE.parent.parent / "crates" / "replay"
SEED = 1
INF, NAN = float("inf"), float("nan")
SWAP, CX, CZ = 0, 1, 2


# ---- records

def record(kind, body):
    return struct.pack("<HH", 2 + len(body), kind) + body


def start(n, d, exponent=63, epsilon=0.0, clamp=0.0):
    return record(1, struct.pack("<BBBdd", n, d, exponent, epsilon, clamp))


def gate(q0, q1, entries):
    """entries: 16 pairs of real and imaginary part, rows in order."""
    return record(2, struct.pack("<BB32d", q0, q1, *[x for z in entries for x in z]))


def named(q0, q1, code):
    return record(3, struct.pack("<BBB", q0, q1, code))


def project(q, bit):
    return record(4, struct.pack("<BB", q, bit))


def measure(q, flag, draw):
    return record(5, struct.pack("<BBd", q, flag, draw))


def reset(q, draw):
    return record(6, struct.pack("<Bd", q, draw))


# ---- gates, by operations that IEEE 754 fixes: the same list on every machine

def ones(*places):
    return [(1.0, 0.0) if (k // 4, k % 4) in places else (0.0, 0.0) for k in range(16)]


E = ones((0, 0), (3, 0))
IDENTITY = ones((0, 0), (1, 1), (2, 2), (3, 3))


class Draw(random.Random):
    def small(self):
        return self.uniform(-1.0, 1.0)

    def phases(self):
        """A permutation with phases 1, -1, i, -i; the zeros of either sign."""
        row_of = self.sample(range(4), 4)
        zero = lambda: self.choice([0.0, 0.0, -0.0])
        phase = lambda: self.choice([(1.0, zero()), (-1.0, zero()), (zero(), 1.0), (zero(), -1.0)])
        return [phase() if row_of[c] == r else (zero(), zero()) for r in range(4) for c in range(4)]

    def general(self):
        return [(self.small(), self.small()) for _ in range(16)]

    def unitary(self):
        """Rows by Gram-Schmidt; unitary as far as rounding goes."""
        rows = []
        for _ in range(4):
            v = [(self.small(), self.small()) for _ in range(4)]
            for u in rows:
                re = sum(a * c + b * d for (a, b), (c, d) in zip(u, v))
                im = sum(a * d - b * c for (a, b), (c, d) in zip(u, v))
                v = [(c - (re * a - im * b), d - (re * b + im * a)) for (a, b), (c, d) in zip(u, v)]
            size = sum(a * a + b * b for a, b in v) ** 0.5
            rows.append([(a / size, b / size) for a, b in v])
        return [z for row in rows for z in row]

    def sparse(self):
        g = [(0.0, 0.0)] * 16
        for _ in range(self.randrange(1, 5)):
            g[self.randrange(16)] = (self.choice([1.0, -1.0, 0.5, self.small()]), self.choice([0.0, -0.0, 1.0]))
        return g

    def blocks(self):
        """Two blocks on the diagonal, each of rank 1: columns that are parallel inside a block and orthogonal across."""
        g = [(0.0, 0.0)] * 16
        for b in (0, 2):
            rows, columns = [self.small(), self.small()], [(self.small(), self.small()), (self.small(), self.small())]
            for r in range(2):
                for c in range(2):
                    g[4 * (b + r) + b + c] = (rows[r] * columns[c][0], rows[r] * columns[c][1])
        return g

    def beside_skip(self):
        """A gate after which two columns of a fresh pair are orthogonal within an ulp of Jacobi's tolerance."""
        while True:
            a, c = self.uniform(0.5, 2.0), self.uniform(0.5, 2.0)
            b = 1e-15 * c * (1 + self.randrange(-8, 8) * 2.0**-52)
            pp, qq, square = a * a, b * b + c * c, (a * b) * (a * b)
            if (square <= 1e-15 * 1e-15 * pp * qq) != (square <= 1e-15 * pp * 1e-15 * qq):
                return [(a, 0.0) if k == 0 else (b, 0.0) if k == 4 else (c, 0.0) if k == 12 else (0.0, 0.0) for k in range(16)]

    def scaled(self, size):
        g = self.choice([self.unitary, self.general])()
        return [(size * a, size * b) for a, b in g]

    def unlike(self, *sizes):
        """Rows of two sizes in turn: on a fresh pair the two columns of its matrix have these sizes."""
        return [(sizes[k // 4 % 2] * a, sizes[k // 4 % 2] * b) for k, (a, b) in enumerate(self.general())]

    def extreme(self):
        sizes = [1e150, -1e150, 1e-160, 5e-324, 1e-310, 2.2250738585072014e-308, 1e200, 1e300, 0.0, -0.0, 1.0]
        return [(self.choice(sizes) * self.small(), self.choice(sizes) * self.small()) for _ in range(16)]

    def not_finite(self):
        g = self.general()
        bad = self.choice([INF, -INF, NAN])
        k = self.randrange(16)
        g[k] = (bad, 0.0) if self.random() < 0.5 else (0.0, bad)
        return g

    def pair(self, n):
        return self.sample(range(n), 2)

    def draw(self):
        return self.choice([0.0, -0.0, 0.5, 1 - 2.0**-53, 5e-324, self.random(), self.random()])

    def outcome(self, n):
        """A projection, a measurement or a reset."""
        q = self.randrange(n)
        return self.choice([project(q, self.randrange(2)), measure(q, self.choice([0, 5, 63]), self.draw()), reset(q, self.draw())])

    def qubits(self):
        return self.choice([2, 2, 3, 3, 3, 4, 4, 5])

    def cap(self, n, most=4):
        """A cap with 4nD² numbers in a store of 512."""
        return self.choice([d for d in range(1, most + 1) if 4 * n * d * d <= 512])


# ---- the streams

streams = []  # category, name, bytes, what its lines are (or None), what its text holds


def add(category, name, records, lines=None, holds=()):
    data = records if isinstance(records, bytes) else b"".join(records)
    if len(data) > 4096:
        sys.exit(f"{category}, {name}: {len(data)} bytes")
    streams.append((category, name, data, lines, holds))


def add_drawn(r, category, count, head, gates, length=(3, 6)):
    """head: a start for a number of qubits and a cap; gates: how to draw a gate."""
    for k in range(count):
        n = r.qubits()
        records = [head(n, r.cap(n))]
        for _ in range(r.randint(*length)):
            records.append(gate(*r.pair(n), r.choice(gates)()) if r.random() < 0.7 else r.outcome(n))
        add(category, f"{k}: n {n}", records)


def run_cases():
    add("run cases", "the whole case", [start(2, 2, 5), named(0, 1, CX), project(0, 0)], ["1 0", "3 0", "4 0 3FF0000000000000"])
    add("run cases", "E, D 2: bond 2, then Kept 0.5", [start(2, 2, 5), gate(0, 1, E), project(0, 1)],
        ["1 0", "2 0", "4 0 3FE0000000000000"], ["# site 0 bonds 1 2 :"])
    add("run cases", "E, D 1: bond 1, discarded 0.5", [start(2, 1, 5), gate(0, 1, E)],
        ["1 0", "2 0"], ["# site 0 bonds 1 1 :", "discarded 3FE0000000000000", "# discarded by bond 3FE0000000000000"])
    add("run cases", "E on (1,2), then Cx on (0,2): 6 in mid-route", [start(3, 2, 5), gate(1, 2, E), named(0, 2, CX)],
        ["1 0", "2 0", "3 6"], ["# qubits by site 0 2 1"])
    add("run cases", "exponent 5 accepts a first cut", [start(2, 2, 5), gate(0, 1, E)], ["1 0", "2 0"])
    add("run cases", "exponent 4 refuses a first cut", [start(2, 2, 4), gate(0, 1, E)], ["1 0", "2 6"])
    add("run cases", "n 4, pair (0,3)", [start(4, 2, 5), named(0, 3, CX)], ["1 0", "3 0"], ["# qubits by site 0 3 1 2"])
    add("run cases", "kind 9", [bytes([2, 0, 9, 0])], ["0 8"])
    add("run cases", "nothing", [], [])


def permutations(r):
    """Bits and phases; a named gate now and then."""
    head = lambda n, d: start(n, d, r.choice([5, 5, 20, 63]), r.choice([0.0, 1e-12]), 0.0)
    add_drawn(r, "permutation and phase gates", 34, head, [r.phases], (3, 7))
    for k in range(6):
        n = r.qubits()
        records = [start(n, r.cap(n), 5)]
        for _ in range(7):
            records.append(named(*r.pair(n), r.randrange(3)) if r.random() < 0.6 else r.outcome(n))
        add("permutation and phase gates", f"named {k}: n {n}", records)


def random_gates(r):
    head = lambda n, d: start(n, d, 63, r.choice([0.0, 1e-12]), r.choice([0.0, 1e-30]))
    add_drawn(r, "random complex gates", 36, head, [r.unitary, r.unitary, r.general, r.sparse])


def magnitudes(r):
    head = lambda n, d: start(n, d, 63, r.choice([0.0, 0.0, 1e-12]), 0.0)
    for size in (1e150, 1e-160, 5e-324, 1e-310, 1e300):
        add_drawn(r, "extreme magnitudes", 5, head, [lambda: r.scaled(size)], (2, 5))
    add_drawn(r, "extreme magnitudes", 15, head, [r.extreme], (2, 5))


def squares_out_of_range(r):
    """A gate that makes amplitudes small or large, then unitary ones: overlaps are in range, their squares subnormal or
    infinite, and the pairs are rotated all the same."""
    first = {
        "amplitudes near 1e-80": lambda: r.scaled(r.choice([1e-80, 3e-81])),
        "amplitudes near 1e150": lambda: r.unlike(1e150, r.choice([1e5, 1e8, 1e12])),
    }
    for category, scaled in first.items():
        for k in range(9):
            n, tiny = r.choice([2, 3, 3, 4]), lambda: r.choice([0.0, 1e-300])
            records = [start(n, r.choice([2, 3, 4]), 63, tiny(), tiny()), gate(0, 1, scaled())]
            records += [gate(*r.pair(n), r.unitary()), gate(*r.pair(n), r.unitary()), r.outcome(n)]
            add(category, f"{k}: n {n}", records)


def overlaps():
    """A fresh pair's two columns with an overlap that is given."""
    gates = lambda *column: [column[k // 4] if k % 4 == 0 else (0.0, 0.0) for k in range(16)]
    # the example of docs/DIFFERENCES.md: the weight is 0.49984379881287098
    g = gates((1e-80, 0.0), (1.5e-82, 2e-82), (0.0, 0.0), (1e-80, 0.0))
    add("overlaps", "(1.5 + 2i)e-162", [start(2, 2), gate(0, 1, g), project(0, 1)], ["1 0", "2 0", "4 0 3FDFFD70D8409EAA"])
    for x, y, size in size_compare.TIES + size_compare.ABOVE:
        parts = struct.unpack("<2d", struct.pack("<2Q", x, y))
        scale = 0.5 ** math.frexp(parts[0])[1]
        g = gates((1.0, 0.0), (scale * parts[0], scale * parts[1]), (0.0, 0.0), (0.75, 0.0))
        add("overlaps", f"size {size:016X}, scaled", [start(2, 2), gate(0, 1, g), project(0, 1)])


def not_a_number(r):
    """An amplitude that is infinite or a NaN: most cuts then have a NaN singular value (7)."""
    huge = lambda: [(1e308 * a, 1e308 * b) for a, b in r.general()]
    for k in range(16):
        n = r.choice([2, 3])
        records = [start(n, r.choice([1, 2, 3]), 63), gate(0, 1, huge()), gate(*r.pair(n), r.choice([huge, r.unitary])())]
        records += [r.outcome(n), gate(*r.pair(n), r.choice([huge, r.general])()), r.outcome(n)]
        add("NaN and infinite amplitudes", f"{k}: n {n}", records)


def truncations(r):
    for d in (1, 2, 3, 4):
        for k in range(8):
            n = r.choice([n for n in (2, 3, 4, 5) if 4 * n * d * d <= 512])
            epsilon = r.choice([0.0, 0.0, 1e-12, 1e-3, 0.3])
            records = [start(n, d, 63, epsilon)] + [gate(*r.pair(n), r.choice([r.unitary, r.general])()) for _ in range(4)]
            add("truncation", f"D {d}, {k}: n {n}", records + [r.outcome(n)])


def every_qubit_read(r):
    """Pairs with amplitudes that are exactly zero, every qubit read in some order: columns that a centre move drops."""
    for k in range(20):
        n = r.choice([2, 3, 4])
        records = [start(n, r.choice([2, 3]), 63)]
        for _ in range(r.choice([1, 2])):
            records.append(gate(*r.pair(n), r.choice([lambda: E, r.sparse, r.phases])()))
        for q in r.sample(range(n), n):
            records.append(r.choice([project(q, 1), project(q, r.randrange(2)), measure(q, q, r.draw()), reset(q, r.draw())]))
        add("every qubit read", f"{k}: n {n}", records + [gate(*r.pair(n), r.unitary())])
    # two pairs, each across the middle bond: after a projection its columns are parallel in twos
    for k in range(16):
        records = [start(4, 4, 63), gate(0, 1, r.unitary()), gate(2, 3, r.unitary()), named(1, 2, SWAP)]
        first, second = r.choice([(1, 2), (2, 1)])
        records += [project(first, r.randrange(2)), measure(second, 0, r.draw()), project(r.choice([0, 3]), r.randrange(2))]
        add("every qubit read", f"pairs across the middle {k}", records)
    for d in (2, 3, 4):
        records = [start(4, d), gate(0, 1, E), gate(2, 3, E), named(1, 2, SWAP), project(1, 1), project(2, 1), gate(0, 3, E)]
        add("every qubit read", f"four equal values, D {d}", records)


def jacobi_cases(r):
    """Cuts of four columns in two blocks, and pairs that Jacobi's tolerance just skips or just rotates."""
    for k in range(20):
        records = [start(4, r.choice([2, 3, 4]), 63, r.choice([0.0, 1e-12]))]
        records += [gate(0, 1, r.choice([r.unitary, r.general, lambda: E])()), gate(2, 3, r.choice([r.unitary, lambda: E])())]
        records += [gate(1, 2, r.blocks()), gate(*r.choice([(1, 2), (2, 1)]), r.choice([r.blocks, r.phases])())]
        add("Jacobi's rotations", f"blocks {k}", records)
    for k in range(4):
        add("Jacobi's rotations", f"tolerance {k}", [start(2, 2), gate(0, 1, r.beside_skip()), r.outcome(2)])


def third_pass(seed):
    """Gates on neighbours, swaps and outcomes; with some seeds a QR column comes up whose third pass shows."""
    r = Draw(f"third pass {seed}")
    n, d = r.choice([4, 5, 6]), r.choice([3, 4])
    gates = [r.unitary, r.general, r.sparse, r.blocks, lambda: E]
    records = [start(n, d)]
    for _ in range(r.randint(5, 9)):
        a = r.randrange(n - 1)
        records.append(r.outcome(n) if r.random() < 0.25 else named(a, a + 1, SWAP) if r.random() < 0.2 else gate(a, a + 1, r.choice(gates)()))
    return records


def infinite_environment(seed):
    """Two parts of a chain, each of finite weight: together the environments overflow; with some seeds beside zeros."""
    r = Draw(f"infinite environment {seed}")
    grown = lambda g: [(1e40 * a, 1e40 * b) for a, b in g]
    records = [start(6, 4), gate(*r.choice([(0, 1), (1, 0)]), r.scaled(1e130))]
    for a in (2, 4, 3, r.choice([2, 3, 4])):
        g = r.choice([lambda: E, r.sparse, r.blocks, r.phases])()
        records.append(named(a, a + 1, SWAP) if r.random() < 0.3 else gate(a, a + 1, grown(g) if r.random() < 0.4 else g))
    return records


def searched():
    """Streams of the two kinds above with the seeds that a search found."""
    for seed in (60, 126, 1422, 6457):
        add("searched for", f"third pass {seed}", third_pass(seed))
    for seed in (152, 380, 1182, 1744):
        add("searched for", f"infinite environment {seed}", infinite_environment(seed))


def resolutions(r):
    """A value below epsilon and beside 4 * 2^-52 of the first: whether a centre is established for the cut."""
    for x in (2.0**-49, 2.0**-50, 2.0**-50 * (1 + 2.0**-52), 3 * 2.0**-52, 2.0**-51, 2.0**-52):
        g = [(1.0, 0.0) if k == 0 else (x, 0.0) if k == 12 else (0.0, 0.0) for k in range(16)]
        add("truncation", f"resolution {x.hex()}", [start(3, 2, 63, 1e-12), gate(0, 1, g), gate(1, 2, g), gate(2, 1, r.unitary())])


def workspaces(r):
    """Bonds grow under a small exponent until a cut or a swap on the way is refused by 6."""
    for k in range(30):
        n, exponent = r.choice([3, 3, 4, 5]), r.choice([5, 5, 6, 7])
        records = [start(n, r.cap(n), exponent)]
        for _ in range(4):
            a = r.randrange(n - 1)
            records.append(gate(a, a + 1, r.unitary()))
        records += [gate(0, n - 1, r.unitary()), named(n - 1, 0, r.randrange(3)), r.outcome(n)]
        add("workspace refusals", f"{k}: n {n} exponent {exponent}", records)


def starts_refused():
    for name, args in [
        ("n 0", (0, 2)), ("n 65", (65, 1)), ("D 0", (2, 0)), ("D 129", (1, 129)),
        ("epsilon 1", (2, 2, 5, 1.0)), ("epsilon below 0", (2, 2, 5, -5e-324)), ("epsilon NaN", (2, 2, 5, NAN)),
        ("clamp 1", (2, 2, 5, 0.0, 1.0)), ("clamp below 0", (2, 2, 5, 0.0, -1.0)), ("clamp infinite", (2, 2, 5, 0.0, INF)),
    ]:
        add("refusals 1 and 2", name, [start(*args), start(2, 2, 5, -0.0, -0.0), named(0, 1, CX)], ["1 1", "1 0", "3 0"])
    for n, d in [(2, 9), (1, 12), (33, 2), (64, 2), (8, 5), (1, 128)]:
        add("refusals 1 and 2", f"n {n} D {d}: store too short", [start(n, d), start(1, 1), project(0, 0)],
            ["1 2", "1 0", "4 0 3FF0000000000000"])


def exponents():
    """Exponents above 63: the route that 5 refuses is done, the multiples of 64 among them."""
    for exponent in (63, 64, 65, 127, 128, 192, 255):
        add("exponents above 63", f"exponent {exponent}", [start(3, 2, exponent), gate(1, 2, E), named(0, 2, CX), project(1, 1)],
            ["1 0", "2 0", "3 0", "4 0 3FE0000000000000"])


def calls_refused(r):
    for n in (2, 3, 4):
        calls = [gate(0, n, r.general()), gate(n, 0, r.not_finite()), gate(1, 1, r.general()), gate(0, 255, r.general())]
        calls += [named(1, 1, SWAP), named(0, n, CX), project(n, 0), measure(n, 0, 0.5), measure(0, 64, 2.0), reset(255, 0.5)]
        add("refusal 4", f"n {n}", [start(n, 2), gate(0, 1, r.unitary())] + calls)
    for k in range(4):
        n = r.choice([2, 3])
        calls = [gate(0, 1, r.not_finite()), gate(1, 0, r.not_finite())]
        calls += [measure(0, 63, x) for x in r.sample([1.0, 1.5, -5e-324, -1.0, INF, NAN], 3)]
        calls += [reset(1, x) for x in r.sample([1.0, -1.0, -INF, NAN], 2)]
        add("refusal 5", f"{k}", [start(n, 2), gate(0, 1, r.unitary())] + calls + [measure(0, 63, -0.0)])


def cut_off(r):
    """A stream cut at every byte, and a gate record cut where a field ends and beside it."""
    whole = b"".join([start(2, 2, 5), named(0, 1, CX), project(0, 0), measure(1, 3, 0.5), reset(1, 0.25)])
    for k in range(len(whole)):
        add("cut at every byte", f"{k} bytes", whole[:k])
    head = start(2, 1, 5)
    long = gate(0, 1, r.phases())
    for k in (1, 2, 3, 4, 5, 6, 7, 13, 14, 15, 21, 22, 23, 133, 134, 135, 253, 254, 255, 260, 261):
        add("cut at every byte", f"gate, {k} bytes", head + long[:k])


def malformed():
    head = [start(2, 2, 5), named(0, 1, CX)]
    last = [project(0, 0)]
    for code in (3, 4, 255):
        add("bad codes, kinds and lengths", f"code {code}", head + [named(0, 1, code)] + last, ["1 0", "3 0", "0 8"])
    for bit in (2, 255):
        add("bad codes, kinds and lengths", f"bit {bit}", head + [project(0, bit)] + last, ["1 0", "3 0", "0 8"])
    for kind in (0, 7, 9, 255, 256, 257, 65535):
        for body in (0, 3):
            add("bad codes, kinds and lengths", f"kind {kind}, body {body}", head + [record(kind, bytes(body))] + last, ["1 0", "3 0", "0 8"])
    sizes = {1: 19, 2: 258, 3: 3, 4: 2, 5: 10, 6: 9}
    for kind, size in sizes.items():
        for body in (0, size - 1, size + 1):
            before = [] if kind == 1 else head
            add("bad codes, kinds and lengths", f"kind {kind}, body {body}", before + [record(kind, bytes(body))] + last,
                ["0 8"] if kind == 1 else ["1 0", "3 0", "0 8"])
    for size in (0, 1, 2, 3, 256, 65535):
        add("bad codes, kinds and lengths", f"length {size}", head + [struct.pack("<HH", size, 3), bytes(260)], ["1 0", "3 0", "0 8"])
    for first in (gate(0, 1, IDENTITY), named(0, 1, CX), project(0, 0), measure(0, 0, 0.5), reset(0, 0.5)):
        add("bad codes, kinds and lengths", f"kind {first[2]} before a start", [first, start(2, 2)], ["0 8"])
        add("bad codes, kinds and lengths", f"kind {first[2]} after a refused start", [start(0, 2), first], ["1 1", "0 8"])
    add("bad codes, kinds and lengths", "a start after an accepted one", head + [start(2, 2, 5)] + last, ["1 0", "3 0", "0 8"])
    add("bad codes, kinds and lengths", "a start that would be refused after an accepted one", head + [start(0, 2)], ["1 0", "3 0", "0 8"])


def boundaries(r):
    add("boundary sizes", "n 1 D 1", [start(1, 1), project(0, 0), project(0, 1), measure(0, 0, 0.5), reset(0, 0.5), named(0, 0, CX)])
    add("boundary sizes", "n 64 D 1", [start(64, 1), gate(0, 1, r.unitary()), gate(63, 60, r.unitary()), measure(63, 63, 0.3)])
    add("boundary sizes", "n 64 D 1, end to end", [start(64, 1, 5), named(0, 63, CX), gate(63, 0, r.phases())])
    add("boundary sizes", "n 32 D 2", [start(32, 2), gate(15, 16, r.unitary()), gate(17, 14, r.unitary()), reset(16, 0.6)])
    for d in (5, 8, 11):
        add("boundary sizes", f"n 1 D {d}: work too short", [start(1, d), project(0, 0), measure(0, 0, 0.5), reset(0, 0.5)],
            ["1 0", "4 2", "5 2", "6 2"])
    add("boundary sizes", "n 2 D 8: work too short", [start(2, 8), gate(0, 1, r.not_finite()), named(0, 0, CX)], ["1 0", "2 2", "3 2"])
    for n in (8, 7, 6):
        records = [start(n, 4)] + [gate(a, a + 1, r.unitary()) for a in range(3)] + [measure(2, 1, 0.4)]
        add("boundary sizes", f"n {n} D 4", records)
    add("boundary sizes", "n 14 D 3", [start(14, 3), gate(6, 7, r.unitary()), gate(8, 5, r.unitary()), project(6, 1)])


def repeats(r):
    """One qubit measured and reset again and again, with gates before and between."""
    for k in range(24):
        n = r.choice([2, 2, 3, 3, 4])
        q = r.randrange(n)
        records = [start(n, r.cap(n), 63, 0.0, r.choice([0.0, 1e-30])), gate(*r.pair(n), r.unitary())]
        for _ in range(5):
            records.append(r.choice([measure(q, r.choice([0, 7]), r.draw()), reset(q, r.draw()), project(q, r.randrange(2))]))
        records += [gate(*r.pair(n), r.unitary()), measure(q, 1, r.draw()), measure(q, 2, r.draw())]
        add("one qubit again and again", f"{k}: n {n} qubit {q}", records)


def settings(r):
    for epsilon in (0.0, -0.0, 5e-324, 1e-12, 1e-3, 0.1, 0.5, 0.99):
        for clamp in (0.0, 1e-15, 0.1, 0.6):
            n = r.choice([2, 3])
            records = [start(n, r.cap(n, 3), 63, epsilon, clamp)] + [gate(*r.pair(n), r.unitary()) for _ in range(2)]
            add("epsilon and clamp", f"epsilon {epsilon} clamp {clamp}", records + [r.outcome(n), r.outcome(n), r.outcome(n)])


def make_streams():
    draw = lambda category: Draw(f"{SEED} {category}")
    run_cases()
    permutations(draw("permutations"))
    random_gates(draw("random"))
    magnitudes(draw("magnitudes"))
    squares_out_of_range(draw("squares out of range"))
    overlaps()
    not_a_number(draw("not a number"))
    truncations(draw("truncations"))
    resolutions(draw("resolutions"))
    searched()
    every_qubit_read(draw("every qubit read"))
    jacobi_cases(draw("jacobi"))
    workspaces(draw("workspaces"))
    exponents()
    starts_refused()
    calls_refused(draw("refusals"))
    cut_off(draw("cut off"))
    malformed()
    boundaries(draw("boundaries"))
    repeats(draw("repeats"))
    settings(draw("settings"))


# ---- the oracle's text

def kept(text):
    """The oracle's lines, of the environments those from the two ends alone, and none where the work slice is too short."""
    out, n, d = [], 0, 0
    for line in text.splitlines():
        head = re.match(r"# n (\d+) D (\d+) ", line)
        if head:
            n, d = int(head[1]), int(head[2])
        walk = re.match(r"# (left|right) (\d+) (\d+) :", line)
        if walk:
            left = walk[1] == "left"
            if 80 * d * d + 16 * d > 1344 or (int(walk[2]) != 0 if left else int(walk[3]) != n - 1):
                continue
        out.append(line)
    return paired(out)


def paired(lines):
    """Left and right environment of each site next to each other: the oracle has all of one end's walks before the next end's."""
    out, lefts, rights = [], [], []
    for line in lines + [None]:
        if line is not None and line.startswith("# left"):
            lefts.append(line)
        elif line is not None and line.startswith("# right"):
            rights.append(line)
        else:
            assert len(lefts) == len(rights)
            out += [x for pair in zip(lefts, rights) for x in pair]
            lefts, rights = [], []
            out.append(line)
    return out[:-1]


def ask(program, data):
    p = subprocess.run([program, "--dump", "--env"], input=data, stdout=subprocess.PIPE, stderr=subprocess.PIPE)
    if p.returncode:
        sys.exit(f"{program} ended with {p.returncode}: {p.stderr.decode()[-500:]}")
    return p.stdout.decode()


def check(category, name, lines, answers, text, holds):
    if lines is not None and answers != lines:
        sys.exit(f"{category}, {name}: {answers}, and document 01 has {lines}")
    for what in holds:
        if what not in text:
            sys.exit(f"{category}, {name}: no {what!r}")


def moved_by_six(lines):
    """How many records refused by 6 left other labels than they found."""
    labels, count, six = None, 0, False
    for line in lines:
        if re.match(r"\d", line):
            six = line.endswith(" 6")
        if line.startswith("# qubits"):
            count += six and labels != line
            labels = line
    return count


def main():
    if len(sys.argv) != 2:
        sys.exit(__doc__)
    made, answers, stdin, stdout = Counter(), Counter(), [], []
    make_streams()
    with tempfile.TemporaryDirectory() as out:
        subprocess.run([sys.executable, HERE / "build_oracle.py", sys.argv[1], out], check=True)
        for k, (category, name, data, lines, holds) in enumerate(streams):
            text = ask(f"{out}/oracle_run", data)
            if ask(f"{out}/oracle_run_checked", data) != text:
                sys.exit(f"{category}, {name}: the oracle with overflow checks differs")
            own = kept(text)
            said = [line for line in own if line[0] != "#"]
            check(category, name, lines, said, text, holds)
            made[category] += 1
            answers.update(f"refused by {x.split()[1]}" if x.split()[1] != "0" else "accepted" for x in said)
            answers["refused by 6 in mid-route"] += moved_by_six(own)
            stdin.append(struct.pack("<I", len(data)) + data)
            stdout.append("\n".join([f"stream {k}"] + own) + "\n")
    missing = [k for k in (1, 2, 4, 5, 6, 7, 8) if not answers[f"refused by {k}"]]
    if missing or not answers["refused by 6 in mid-route"]:
        sys.exit(f"no record is refused by {missing or '6 in mid-route'}")
    (REPLAY / "stdin").write_bytes(b"".join(stdin))
    (REPLAY / "stdout").write_text("".join(stdout))
    for table in (made, answers):
        for name, count in sorted(table.items(), key=lambda x: x[0]) if table is answers else table.items():
            print(f"{count:6} {name}")
    print(f"{len(streams)} streams, {sum(map(len, stdin))} bytes in, {sum(map(len, stdout))} bytes out")


if __name__ == "__main__":
    main()
