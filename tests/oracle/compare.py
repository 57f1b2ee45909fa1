#!/usr/bin/env python3
"""Hold the port's public calls against the Rust, whole states, bit by bit.

    python3 compare.py ORACLE HARNESS [--seed N] [--only CATEGORY] [--scale N] [--full] [--keep DIR]

ORACLE is the program oracle_calls (build_oracle.py), HARNESS one over the port's calls (build_harness.py;
harness.rt.txt says what it reads and writes). Both read the same words. After each call are compared: the answer, every field of the
record, every number of the store, of the work slice and of the result slice. What the oracle cannot be handed, an
unsound record, is held against documents 01 and 02. The Rust has no reasons: an accepted gate's is found here, by
`reason`, from the values that the oracle's last stored cut had. Nor has it a figure for each bond: the oracle keeps them of
the shares that the Rust adds, and the one of the last stored cut is found here too, by `share`. All NaNs count as one.
"""
import argparse, collections, copy, functools, itertools, math, os, random, resource, struct, subprocess, sys
from array import array

START, GATE, NAMED, PROJECT, MEASURE, RESET, LEFT, RIGHT = 1, 2, 3, 4, 5, 6, 7, 8
RECORD, STORE, WORK, OUT = 10, 11, 12, 13
KINDS = {START: "start", GATE: "gate", NAMED: "named gate", PROJECT: "projection", MEASURE: "measure", RESET: "reset",
         LEFT: "left environment", RIGHT: "right environment"}
NAN = 0x7FF8000000000000
INF = float("inf")
BIG = (1 << 64) - 1

def bits(x):
    return NAN if x != x else struct.unpack("<Q", struct.pack("<d", x))[0]

def float_of(w):
    return struct.unpack("<d", struct.pack("<Q", w))[0]

def canon(w):
    return NAN if (w & 0x7FFFFFFFFFFFFFFF) > 0x7FF0000000000000 else w

def store_room(n, d):
    return 4 * n * d * d

def work_room(d):
    return 80 * d * d + 16 * d

# ---------------------------------------------------------------- why a cut keeps so many values: the buyer's words, W3
# in the order in which the harness numbers them, from 1
REASONS = ["Floor", "Cap", "Tolerance", "Full"]

def leading(values, epsilon):
    """How many values lead that are above epsilon times the first."""
    return sum(1 for _ in itertools.takewhile(lambda s: s > epsilon * values[0], values))

def rank(values, epsilon, cap):
    return min(max(leading(values, epsilon), 1), cap)

def reason(values, epsilon, cap):
    """Floor if the rank was raised to 1, else Cap if it was lowered, else Tolerance if it is below the number of values, else Full."""
    count, kept = leading(values, epsilon), rank(values, epsilon, cap)
    if count < 1: return "Floor"
    if kept < count: return "Cap"
    return "Tolerance" if kept < len(values) else "Full"

def done(why):
    """The answer of a gate that is accepted for this reason."""
    return 1, 1 + REASONS.index(why)

# the answer of an accepted gate, whatever its reason
DONE = (1,)

def squares(values):
    """The sum of the squares, one after the other."""
    return functools.reduce(lambda sum, s: sum + s * s, values, 0.0)

def share(values, kept):
    """What a stored cut adds to the discarded weight, or None: W6."""
    total = squares(values)
    return None if kept >= len(values) or total <= 0 else squares(values[kept:]) / total

# ---------------------------------------------------------------- a record, as 391 words
# the bonds' figures are the last 63
BY_BOND, WORDS = 328, 391

class Record:
    def __init__(self, n, d, exponent=63, epsilon=0.0, clamp=0.0):
        pad = lambda l: list(l) + [0] * (64 - len(l))
        self.n, self.d, self.exponent, self.epsilon, self.clamp = n, d, exponent, epsilon, clamp
        self.bl, self.br = pad([1] * n), pad([1] * n)
        self.l2s, self.s2l = pad(range(n)), pad(range(n))
        self.flags = [0] * 64
        self.center, self.high, self.discarded = None, 1, 0.0
        self.by_bond = [0.0] * 63

    def bonds(self, inner):
        """The bonds between neighbours."""
        for k, b in enumerate(inner):
            self.br[k] = self.bl[k + 1] = b
        self.high = max([1] + list(inner))
        return self

    def permute(self, order):
        for s, q in enumerate(order):
            self.s2l[s], self.l2s[q] = q, s
        return self

    def words(self):
        return ([self.n, self.d, self.exponent, bits(self.epsilon), bits(self.clamp)] + self.bl + self.br + self.l2s + self.s2l
                + self.flags + [0 if self.center is None else self.center + 1, self.high, bits(self.discarded)] + [bits(x) for x in self.by_bond])

ZERO_RECORD = [0] * WORDS

def runs(words):
    """A list of numbers as its length and its runs."""
    out, at, n = [len(words)], 0, len(words)
    while at < n:
        w, to = words[at], at + 1
        while to < n and words[to] == w:
            to += 1
        out += [to - at, w]
        at = to
    return out

# ---------------------------------------------------------------- a case: what is set, what is called
class Case:
    def __init__(self, category, name):
        self.category, self.name, self.steps = category, name, []

    def record(self, r):
        self.steps.append((RECORD, r.words() if isinstance(r, Record) else list(r)))

    def numbers(self, what, words):
        self.steps.append((what, array("Q", [canon(w) for w in words])))

    def call(self, kind, *args, expect=None):
        self.steps.append((kind, list(args), expect))

    def bytes(self):
        out = []
        for s in self.steps:
            out.append(s[0])
            out += runs(s[1]) if s[0] in (STORE, WORK, OUT) else s[1]
        return array("Q", out).tobytes()

# ---------------------------------------------------------------- what the two programs wrote
class Reader:
    def __init__(self, data):
        self.w = array("Q")
        self.w.frombytes(data[: len(data) // 8 * 8])
        self.at = 0

    def words(self, k):
        if self.at + k > len(self.w):
            raise EOFError
        self.at += k
        return list(self.w[self.at - k : self.at])

    def numbers(self):
        (n,) = self.words(1)
        out = array("Q")
        while len(out) < n:
            count, w = self.words(2)
            out.extend(array("Q", [w]) * count)
        return out

# what the oracle writes of a call (oracle_calls.rs); again, values and kept are of the cut that it stored last
Told = collections.namedtuple("Told", "answer record sites env stored retries again values kept")

def told(o):
    answer, record = o.words(2), o.words(WORDS)
    sites = [(o.words(1)[0], o.numbers()) for _ in range(o.words(1)[0])]
    env, cuts, values, (kept,) = o.numbers(), o.words(3), o.numbers(), o.words(1)
    return Told(answer, record, sites, env, *cuts, array("d", values.tobytes()), kept)

class Difference(Exception):
    pass

def same(what, a, b):
    if a != b:
        if hasattr(a, "__len__") and hasattr(b, "__len__") and len(a) == len(b):
            k = next(i for i in range(len(a)) if a[i] != b[i])
            raise Difference(f"{what}: at {k} of {len(a)}: {a[k]:016X} and {b[k]:016X}")
        raise Difference(f"{what}: {a!r:.200} and {b!r:.200}")

zeros = {}
def zero(n):
    if n not in zeros:
        zeros[n] = array("Q", bytes(8 * n))
    return zeros[n]

def answer_name(tag, value):
    why = f", {REASONS[value - 1]}" if tag == 1 and value else ""
    return {0: f"refused by {value}", 1: "done" + why, 2: "kept", 3: "nothing", 4: f"bit {value}", 5: "dimension"}[tag]

def pair_of(rec, args):
    """The sites of a gate's two qubits, the left one first."""
    return sorted((rec[133 + args[0]], rec[133 + args[1]]))

def wanted(kind, args, before, o):
    """The answer that the port has to give: the oracle's, and of an accepted gate the reason of the cut that it stored last."""
    if kind not in (GATE, NAMED):
        same("the oracle's cuts", o.stored, 0)
        return o.answer
    epsilon, cap = float_of(before[3]), before[1]
    if o.stored: same("the oracle's last cut: rank", o.kept, rank(o.values, epsilon, cap))
    if o.answer[0] == 0: return o.answer
    p, q = pair_of(before, args)
    same("the oracle's cuts", o.stored, q - p)
    same("the oracle's last cut: bond", o.kept, o.record[69 + p])
    same("the oracle's last cut: number of values", len(o.values), 2 * min(o.record[5 + p], o.record[69 + p + 1]))
    return list(done(reason(o.values, epsilon, cap)))

def check_figures(kind, args, before, o):
    """The oracle's figures, +0 after a start. A route is cut from its right end to its left, each bond once: the figure of the bond
    that was cut last has that cut's share, and those of bonds that were not cut are as before."""
    first = last = 0
    if kind in (GATE, NAMED) and o.stored:
        last = pair_of(before, args)[1]
        first = last - o.stored
        x = share(o.values, o.kept)
        figure = before[BY_BOND + first]
        same(f"the oracle's figure of bond {first}", o.record[BY_BOND + first], figure if x is None else bits(float_of(figure) + x))
    kept = ZERO_RECORD if kind == START else before
    for a, b in ((BY_BOND, BY_BOND + first), (BY_BOND + last, WORDS)):
        same("the oracle's other figures", o.record[a:b], kept[a:b])

def check_case(case, port, oracle, tally):
    """Raises Difference. port and oracle are Readers."""
    rec, store, work, out = ZERO_RECORD, array("Q"), array("Q"), array("Q")
    for number, s in enumerate(case.steps):
        if s[0] == RECORD:
            rec = s[1]
            continue
        if s[0] in (STORE, WORK, OUT):
            if s[0] == STORE: store = s[1]
            elif s[0] == WORK: work = s[1]
            else: out = s[1]
            continue
        kind, args, expect = s
        try:
            at = f"step {number}, {KINDS[kind]} {args[:2]}"
            try:
                answer = port.words(2)
                p_rec = port.words(WORDS)
                p_store, p_work, p_out = port.numbers(), port.numbers(), port.numbers()
            except EOFError:
                raise Difference("the port ended early")
            try:
                o = told(oracle)
            except EOFError:
                raise Difference("the oracle ended early")
            sites, env = o.sites, o.env
            check_figures(kind, args, rec, o)
            same("answer", answer, wanted(kind, args, rec, o))
            if expect is not None:
                same("answer expected by the papers", answer[: len(expect)], list(expect))
            tag, value = answer
            early = tag == 0 and value <= 5
            same("record", p_rec, o.record)
            walk = kind in (LEFT, RIGHT)
            if early or walk:
                same("record unaltered", p_rec, ZERO_RECORD if kind == START else rec)
                same("store unaltered", p_store, store)
            else:
                n, d = p_rec[0], p_rec[1]
                slot = 4 * d * d
                same("number of sites", len(sites), n)
                for k, (rewritten, data) in enumerate(sites):
                    a, m = k * slot, 4 * p_rec[5 + k] * p_rec[69 + k]
                    same(f"site {k}", p_store[a : a + m], data)
                    if rewritten:
                        same(f"rest of rewritten slot {k}", p_store[a + m : a + slot], zero(slot - m))
                        tally["slots rewritten"] += 1
                    else:
                        same(f"slot {k} not rewritten", p_store[a : a + slot], store[a : a + slot])
                        tally["slots left"] += 1
                same("store past the slots", p_store[n * slot :], store[n * slot :])
            if early or kind == START:
                same("work unaltered", p_work, work)
            else:
                room = work_room(p_rec[1])
                same("work's first part", p_work[:room], zero(room))
                same("work's rest", p_work[room:], work[room:])
            if walk and not early:
                same("dimension", 2 * value * value, len(env))
                same("environment", p_out[: len(env)], env)
                same("result's rest", p_out[len(env) :], out[len(env) :])
                if kind == LEFT and args[0] < args[1] and args[1] - args[0] >= 2:
                    inner = [p_rec[69 + k] for k in range(args[0], args[1] - 1)]
                    if max(inner) > value:
                        tally["walks whose middle bond exceeds the last"] += 1
                if kind == RIGHT and args[0] + 2 <= args[1]:
                    inner = [p_rec[5 + k] for k in range(args[0] + 2, args[1] + 1)]
                    if max(inner) > value:
                        tally["walks whose middle bond exceeds the last"] += 1
            else:
                same("result unaltered", p_out, out)
            note(tally, kind, args, answer, rec, p_rec, o)
            note_figures(tally, kind, answer, rec, p_rec, o)
        except Difference as e:
            raise Difference(f"{at}: {e}") from None
        rec, store, work, out = p_rec, p_store, p_work, p_out
    if port.at != len(port.w):
        raise Difference("the port wrote more than was asked")

def note(tally, kind, args, answer, before, after, o):
    """What the case has shown."""
    (tag, value), sites = answer, o.sites
    tally["calls"] += 1
    tally[f"{KINDS[kind]}: {answer_name(tag, value)}"] += 1
    if kind in (GATE, NAMED) and (tag == 1 or value in (6, 7)):
        n, d, eps, high = before[0], before[1], before[3], before[326]
        p, q = pair_of(before, args)
        if tag == 1: note_reason(tally, REASONS[value - 1], q - p > 1, o)
        if q - p > 1:
            tally["routed gates"] += 1
            if tag == 0 and before[197:261] != after[197:261]:
                tally[f"refused by {value} after swaps that stand"] += 1
        bl, mid, br = before[5 + p], before[69 + p], before[69 + p + 1]
        lose = min(2 * min(bl, br), 4 * mid) > d or (eps << 1 & BIG != 0 and (min(2 * min(bl, br), 4 * mid) >= 128 or high >= 128))
        if q - p == 1 and before[325] == 0 and not lose and after[325] != 0:
            tally["cuts made again with a centre"] += 1
        if q - p == 1 and before[325] == 0 and lose:
            tally["cuts that establish a centre first"] += 1
        if q - p == 1 and before[325] == 0 and after[325] == 0:
            tally["cuts without a centre"] += 1
        if before[325] != 0:
            tally["gates with the centre known"] += 1
        if high >= 128:
            tally["gates with high water 128"] += 1
        if before[327] != after[327]:
            tally["gates that discard"] += 1
        if tag == 0 and value == 7 and before != after:
            tally["refused by 7 with a centre move or swaps that stand"] += 1
    if tag == 2 and value == 0:
        tally["kept 0"] += 1
    if tag == 2 and value == NAN:
        tally["kept NaN"] += 1
    if tag != 0 and any(w & 0x7FF0000000000000 == 0x7FF0000000000000 for rewritten, data in sites if rewritten for w in data):
        tally["accepted calls that write NaN or infinity"] += 1
    if any(0 < w & 0x7FFFFFFFFFFFFFFF < 1 << 52 for rewritten, data in sites if rewritten for w in data):
        tally["calls that write subnormal numbers"] += 1
    if kind in (GATE, NAMED) and (tag == 1 or value == 7) and q - p == 1:
        how = "known" if before[325] else "established first" if lose else "established to cut again" if after[325] else "not needed"
        # a move comes before the cut, and the cut itself leaves the outer bonds
        outer = (bl, br) if how == "established to cut again" else (after[5 + p], after[69 + p + 1])
        note_wide(tally, (outer[0], 0 if how == "established first" else mid, outer[1], after[69 + p]), eps << 1 & BIG != 0, how)
    widest = max(after[5:69])
    if kind in (GATE, NAMED) and tag == 1:
        tally[f"gates with a widest bond of {'1' if widest == 1 else '2 to 4' if widest <= 4 else '5 to 16' if widest <= 16 else 'more than 16'}"] += 1

def note_figures(tally, kind, answer, before, after, o):
    """The bonds' figures, all of which were compared."""
    old, new = before[BY_BOND:], after[BY_BOND:]
    tally["figures of bonds compared"] += len(new)
    tally["figures of bonds compared, not +0"] += sum(w != 0 for w in new)
    if kind == START: return
    moved = [k for k in range(63) if old[k] != new[k]]
    if moved: tally["calls that change a bond's figure"] += 1
    if len(moved) > 1: tally["calls that change two or more bonds' figures"] += 1
    if any(old[k] for k in moved): tally["calls that change a bond's figure that was not +0"] += 1
    if moved and answer[0] == 0: tally[f"calls that change a bond's figure, refused by {answer[1]}"] += 1
    if len(moved) > 1 and answer[0] == 0: tally[f"calls that change two or more bonds' figures, refused by {answer[1]}"] += 1
    if moved and o.retries: tally["calls that change a bond's figure, a cut made again"] += 1
    if 62 in moved: tally["calls that change the last bond's figure at n 64"] += 1

def note_reason(tally, why, routed, o):
    """An accepted gate's reason, alone and with what else there was."""
    tally[f"accepted gates: {why}"] += 1
    if routed: tally[f"accepted gates, routed: {why}"] += 1
    if o.retries: tally[f"accepted gates, a cut made again: {why}"] += 1
    if o.again: tally[f"accepted gates, the last cut made again: {why}"] += 1
    if o.again and routed: tally[f"accepted gates, routed, the last cut made again: {why}"] += 1
    if o.values[0] == INF: tally[f"accepted gates, an infinite value: {why}"] += 1

def note_wide(tally, bonds, above, how):
    """A cut of neighbours: left, middle and right bond, and the middle one after it. 0 where it is not known."""
    if not any(17 <= b <= 127 for b in bonds[:3]): return
    tally["cuts with a bond of 17 to 127"] += 1
    tally[f"such cuts, epsilon {'above 0' if above else '0'}"] += 1
    tally[f"such cuts, centre {how}"] += 1
    for name, b in zip(("left", "middle", "right", "new"), bonds):
        for low, high in ((17, 32), (33, 64), (65, 96), (97, 127)):
            if low <= b <= high: tally[f"such cuts, {name} bond {low} to {high}"] += 1

# ---------------------------------------------------------------- what is drawn
# the kinds of gates in Draw.gate
ALL_GATES = list(range(15))
ENTANGLING, PERMUTATIONS = [0, 1, 2, 3, 8, 9, 14], [5, 6]

# what a figure may be inside the chain, and may not be past its last bond
FIGURES = [-0.0, float("nan"), 1e-300, 1.0, 5e-324]

class Draw:
    def __init__(self, seed):
        self.r = random.Random(seed)
        # the bonds' figures have a generator of their own, so that the rest of a case is drawn as without them
        self.f = random.Random(f"{seed} figures")
        self.gates, self.outcomes = ALL_GATES, 1.0

    def small(self):
        return self.r.uniform(-1, 1)

    def any_number(self):
        """A finite number of any size."""
        k = self.r.randrange(10)
        if k == 0: return self.r.choice([0.0, -0.0])
        if k == 1: return self.r.choice([5e-324, -5e-324, 2.2250738585072014e-308, 1.7976931348623157e308, -1.7976931348623157e308])
        return math.ldexp(self.small(), self.r.randrange(-1080, 1024))

    def special(self):
        return self.r.choice([INF, -INF, float("nan"), 1e200, -1e200, 1e308, 1e-200, 5e-324, 0.0, -0.0])

    def rest(self, k):
        """Words for what must not be touched: random numbers, long runs where k is large."""
        if k > 40000:
            out = []
            while len(out) < k:
                out += [bits(self.small())] * min(k - len(out), self.r.randrange(1, 20000))
            return out
        return [bits(self.small()) if self.r.random() < 0.95 else bits(self.special()) for _ in range(k)]

    def work(self, length):
        k = self.r.randrange(3)
        if k == 0: return [NAN] * length
        if k == 1: return [bits(self.r.choice([INF, 1e300, -3.5]))] * length
        return self.rest(length)

    def unitary(self):
        rows = []
        while len(rows) < 4:
            v = [complex(self.r.gauss(0, 1), self.r.gauss(0, 1)) for _ in range(4)]
            for u in rows:
                p = sum(a.conjugate() * b for a, b in zip(u, v))
                v = [b - p * a for a, b in zip(u, v)]
            norm = math.sqrt(sum(abs(x) ** 2 for x in v))
            rows.append([x / norm for x in v])
        return rows

    def one_qubit(self):
        a, b, c = (self.r.uniform(0, 2 * math.pi) for _ in range(3))
        e = lambda t: complex(math.cos(t), math.sin(t))
        return [[e(b) * math.cos(a), -e(-c) * math.sin(a)], [e(c) * math.sin(a), e(-b) * math.cos(a)]]

    def gate(self):
        """16 complex numbers, all finite."""
        r, k = self.r, self.r.choice(self.gates)
        flat = lambda rows: [z for row in rows for z in row]
        if k <= 2: return flat(self.unitary())
        if k <= 4: return [complex(self.small(), self.small()) for _ in range(16)]
        if k <= 6:
            perm = r.sample(range(4), 4)
            zero_of = lambda: r.choice([0.0, -0.0]) if k == 6 else 0.0
            return [r.choice([1, -1, 1j, -1j]) if perm[i] == j else complex(zero_of(), zero_of()) for i in range(4) for j in range(4)]
        if k == 7: return [complex(math.cos(t), math.sin(t)) if i == j else 0j for i in range(4) for j in range(4) for t in [r.uniform(0, 7)]]
        if k == 8:
            a, b = self.one_qubit(), self.one_qubit()
            return [a[i // 2][j // 2] * b[i % 2][j % 2] for i in range(4) for j in range(4)]
        if k == 9:
            u = self.one_qubit()
            return [1 if i == j and i < 2 else u[i - 2][j - 2] if i >= 2 and j >= 2 else 0j for i in range(4) for j in range(4)]
        if k == 10: return [complex(self.any_number(), self.any_number()) for _ in range(16)]
        if k == 11:
            s = r.choice([1e150, 1e-150, 1e80, 1e-80, 1e300, 1e-300, 1e-310])
            return [z * s for z in flat(self.unitary())]
        if k == 12:
            g = [0j] * 16
            for _ in range(r.randrange(0, 5)): g[r.randrange(16)] = complex(r.choice([1.0, -1.0, 0.5, self.small()]), 0.0)
            return g
        if k == 13: return [complex(r.choice([1.0, -1.0, 0.0, 0.5, 2.0]), r.choice([0.0, -0.0, 1.0, -1.0])) for _ in range(16)]
        e = r.choice([1e-16, 1e-15, 2.0**-50, 2.0**-49, 1e-8, 1e-3, 0.3])
        g = flat([[1 if i == j else 0j for j in range(4)] for i in range(4)])
        t = r.uniform(0, 7)
        return [z + e * complex(self.small(), self.small()) for z in g] if r.random() < 0.7 else [z * complex(math.cos(t), math.sin(t)) for z in g]

    def gate_words(self, g):
        return [bits(x) for z in g for x in (complex(z).real, complex(z).imag)]

    def bad_gate_words(self):
        w = self.gate_words(self.gate())
        w[self.r.randrange(32)] = self.r.choice([bits(INF), bits(-INF), NAN])
        return w

    def draw(self):
        return self.r.choice([0.0, -0.0, 1 - 2.0**-53, 5e-324, 0.5, self.r.random(), self.r.random(), self.r.random()])

    def bad_draw(self):
        return self.r.choice([1.0, 1.5, -5e-324, -1.0, INF, -INF, float("nan")])

    def figures(self, n):
        """The bonds' figures of a chain of n qubits: none yet, ordinary ones, or of any kind."""
        f = self.f
        some = [lambda: 0.0, f.random, lambda: f.choice([0.0, f.random(), 3 * f.random(), *FIGURES, 1e300, -1.5, INF, -INF])]
        draw = f.choice([some[0], some[1], some[1], some[2]])
        return [draw() for _ in range(n - 1)] + [0.0] * (64 - n)

    def epsilon(self):
        return self.r.choice([0.0, 0.0, 0.0, -0.0, 1e-12, 1e-12, 1e-3, 0.1, 0.3, 0.6, 0.99, 5e-324, 2.0**-50])

    def clamp(self):
        return self.r.choice([0.0, 0.0, 0.0, -0.0, 1e-30, 1e-15, 1e-3, 0.1, 0.3, 0.5, 0.99])

def any_call(c, t, n, d, refusals=True, envs=True):
    """One call at random on a chain of n qubits."""
    r = t.r
    q = lambda: r.randrange(n)
    def pair():
        if n == 1: return 0, 0
        a = r.randrange(n)
        b = r.choice([x for x in (a - 1, a + 1) if 0 <= x < n]) if r.random() < 0.6 else r.choice([x for x in range(n) if x != a])
        return a, b
    far = lambda: r.choice([n, n + 1, 63, 64, 255, 1 << 32, BIG])
    k = r.random()
    if refusals and k < 0.06:
        j = r.randrange(9)
        bad = far()
        bad = bad if bad >= n else n
        if j == 0: c.call(GATE, q(), bad, *t.gate_words(t.gate()), expect=(0, 4))
        elif j == 1: c.call(GATE, bad, q(), *t.bad_gate_words(), expect=(0, 4))
        elif j == 2: x = q(); c.call(NAMED, x, x, r.randrange(3), expect=(0, 4))
        elif j == 3: c.call(PROJECT, bad, r.randrange(2), expect=(0, 4))
        elif j == 4: c.call(MEASURE, q(), r.choice([64, 65, 255, BIG]), bits(t.bad_draw()), expect=(0, 4))
        elif j == 5: c.call(RESET, bad, bits(t.draw()), expect=(0, 4))
        elif j == 6 and n > 1: a, b = pair(); c.call(GATE, a, b, *t.bad_gate_words(), expect=(0, 5))
        elif j == 7: c.call(MEASURE, q(), r.randrange(64), bits(t.bad_draw()), expect=(0, 5))
        else: c.call(RESET, q(), bits(t.bad_draw()), expect=(0, 5))
    elif n > 1 and (k < 0.58 or r.random() > t.outcomes):
        a, b = pair()
        c.call(GATE, a, b, *t.gate_words(t.gate()))
    elif k < 0.66 and n > 1:
        a, b = pair()
        c.call(NAMED, a, b, r.randrange(3))
    elif k < 0.76:
        c.call(PROJECT, q(), r.randrange(2))
    elif k < 0.85:
        c.call(MEASURE, q(), r.choice([0, 63, r.randrange(64)]), bits(t.draw()))
    elif k < 0.92:
        c.call(RESET, q(), bits(t.draw()))
    elif envs and k < 0.96:
        c.call(LEFT, q(), r.randrange(n + 1))
    elif envs:
        c.call(RIGHT, r.randrange(n + 1), q())
    else:
        c.call(PROJECT, q(), r.randrange(2))

def lend(c, t, n, d, extra=None):
    """Slices that are long enough, with numbers past their lengths."""
    e = t.r.randrange(6) if extra is None else extra
    c.numbers(STORE, t.rest(store_room(n, d) + e))
    c.numbers(WORK, t.work(work_room(d) + e))
    c.numbers(OUT, t.rest(2 * d * d + e))

def streams(t, count):
    """Calls from a start."""
    cases = []
    for k in range(count):
        r = t.r
        shape = k % 10
        if shape < 4: n, d, calls = r.randrange(2, 6), r.randrange(1, 5), 24
        elif shape < 6: n, d, calls = r.randrange(2, 9), r.choice([2, 3, 4, 8, 16]), 30
        elif shape == 6: n, d, calls = r.randrange(9, 65), r.randrange(1, 5), 25
        elif shape == 7: n, d, calls = r.choice([6, 8, 10, 10, 33, 64]), r.choice([5, 7, 12, 16]), 40
        elif shape == 8: n, d, calls = r.choice([1, 1, 2, 64]), r.randrange(1, 5), 15
        else: n, d, calls = r.randrange(3, 7), r.choice([2, 4, 8]), 30
        exponent = r.choice([63, 62, 40, 20, 16, 64, 200, 255]) if shape != 9 else r.choice([5, 6, 7, 8, 9, 4, 0])
        c = Case("streams", f"{k}: n {n} D {d} exponent {exponent}")
        lend(c, t, n, d)
        eps, clamp = t.epsilon(), t.clamp()
        # one half of the streams mixes all; in the others bonds grow, or stay 1
        style = k // 10 % 4
        t.gates, t.outcomes = [(ALL_GATES, 1.0), (ENTANGLING, 0.15), (ALL_GATES, 1.0), (ENTANGLING if shape != 8 else PERMUTATIONS, 0.3)][style]
        if style % 2 and r.random() < 0.7: eps, clamp = r.choice([0.0, 1e-12]), r.choice([0.0, 1e-30])
        if style == 1: calls *= 2
        c.call(START, n, d, bits(eps), bits(clamp), exponent, expect=(1, 0))
        for _ in range(calls):
            if r.random() < 0.2:
                c.numbers(WORK, t.work(work_room(d) + r.randrange(4)))
            if r.random() < 0.03:
                c.numbers(WORK, t.rest(work_room(d) - r.choice([1, 2, work_room(d)])))
                x = r.randrange(6)
                if x == 0: c.call(NAMED, 0, 0, 1, expect=(0, 2))
                elif x == 1: c.call(PROJECT, BIG, 1, expect=(0, 2))
                elif x == 2: c.call(MEASURE, 0, 0, bits(0.5), expect=(0, 2))
                elif x == 3: c.call(RESET, 0, bits(2.0), expect=(0, 2))
                elif x == 4: c.call(LEFT, 0, n, expect=(0, 2))
                else: c.call(RIGHT, 0, n, expect=(0, 2))
                c.numbers(WORK, t.work(work_room(d)))
            any_call(c, t, n, d)
        if r.random() < 0.3:
            # the record that the stream left, over a store of any numbers
            c.numbers(STORE, t.rest(store_room(n, d) + 3))
            for _ in range(6): any_call(c, t, n, d)
        if r.random() < 0.15:
            c.numbers(STORE, t.rest(store_room(n, d) - 1))
            any_call(c, t, n, d, refusals=False)
            c.steps[-1] = (*c.steps[-1][:2], (0, 2))
            c.call(START, n, d, bits(eps), bits(clamp), exponent, expect=(0, 2))
        cases.append(c)
        t.gates, t.outcomes = ALL_GATES, 1.0
    return cases

def starts(t, count):
    """Start, accepted and refused."""
    cases = []
    for k in range(count):
        r = t.r
        c = Case("starts", str(k))
        n, d = r.choice([1, 2, 7, 64]), r.choice([1, 2, 3, 16])
        lend(c, t, n, d)
        ok = [n, d, bits(t.epsilon()), bits(t.clamp()), r.choice([0, 5, 63, 64, 255])]
        c.call(START, *ok, expect=(1, 0))
        for place, value in [(0, 0), (0, 65), (0, BIG), (1, 0), (1, 129), (1, BIG), (2, bits(1.0)), (2, NAN), (2, bits(-5e-324)), (2, bits(INF)),
                             (3, bits(1.0)), (3, NAN), (3, bits(-1.0)), (3, bits(-INF))]:
            a = list(ok)
            a[place] = value
            c.call(START, *a, expect=(0, 1))
        c.numbers(STORE, t.rest(store_room(n, d) - 1))
        c.call(START, *ok, expect=(0, 2))
        c.call(START, n, d, NAN, *ok[3:], expect=(0, 1))
        c.numbers(STORE, t.rest(store_room(n, d)))
        c.numbers(WORK, [])
        c.call(START, *ok, expect=(1, 0))
        c.call(PROJECT, 0, 0, expect=(0, 2))
        cases.append(c)
    return cases

def sites(t, rec, kind):
    """A store for a record: numbers within the bonds by kind, any numbers behind them."""
    out, r = [], t.r
    slot = 4 * rec.d * rec.d
    hit = r.randrange(rec.n)
    for k in range(rec.n):
        m = 4 * rec.bl[k] * rec.br[k]
        if kind == "plain": v = [t.small() for _ in range(m)]
        elif kind == "gauss":
            s = 1 / math.sqrt(m)
            v = [r.gauss(0, s) for _ in range(m)]
        elif kind == "sizes": v = [t.any_number() for _ in range(m)]
        elif kind == "sparse": v = [r.choice([0.0, -0.0, 0.0, 1.0, -1.0, 0.5]) for _ in range(m)]
        elif kind == "huge": v = [t.small() * 1e160 for _ in range(m)]
        elif kind == "tiny": v = [t.small() * 1e-165 for _ in range(m)]
        elif kind == "infinite": v = [r.choice([INF, -INF, float("nan"), 1e308, 0.0]) if r.random() < 0.15 else t.small() for _ in range(m)]
        elif kind == "zeros and infinite": v = [x for _ in range(m // 2) for x in r.choice([(0.0, 0.0)] * 8 + [(-0.0, 0.0), (INF, 0.0), (1.0, 0.0), (0.0, -INF), (0.5, -2.0)])]
        elif kind == "subnormal": v = [t.small() * r.choice([1e-158, 1e-310, 1e-320, 1.0]) for _ in range(m)]
        elif kind == "near":
            # all nearly one direction, so that the later passes of a factoring are taken
            w, e = [t.small() for _ in range(4)], r.choice([1e-3, 1e-7, 1e-10, 1e-13, 1e-15])
            v = [w[i // (2 * rec.br[k]) % 4] + e * t.small() for i in range(m)]
        elif kind == "deficient":
            # columns and rows that repeat
            w = [t.small() for _ in range(4)]
            v = [w[i % len(w)] for i in range(m)]
        else:
            v = [t.small() for _ in range(m)]
            if kind == "special" or k == hit:
                for _ in range(r.randrange(1, 4)): v[r.randrange(m)] = t.special()
        out += [bits(x) for x in v] + t.rest(slot - m)
    return out + t.rest(r.randrange(5))

NUMBERS = ["plain", "gauss", "sizes", "sparse", "huge", "tiny", "deficient", "one", "special", "subnormal", "near", "infinite", "zeros and infinite"]

def any_record(t, n, d, widest):
    r = t.r
    rec = Record(n, d, r.choice([63, 40, 30, 20, 9, 6]), t.epsilon(), t.clamp())
    rec.bonds([r.randrange(1, widest + 1) for _ in range(n - 1)])
    rec.high = r.randrange(rec.high, d + 1) if r.random() < 0.7 else d
    rec.permute(r.sample(range(n), n))
    rec.flags = [r.randrange(2) for _ in range(64)]
    rec.discarded = r.choice([0.0, -0.0, r.random(), 1e300, INF, -INF, float("nan"), -3.0, 5e-324])
    rec.by_bond = t.figures(n)
    return rec

def records(t, count):
    """Sound records made by hand over any store: every position of the centre, every kind of numbers."""
    cases = []
    for k in range(count):
        r = t.r
        n, d = r.randrange(1, 6), r.choice([1, 2, 3, 4, 5, 8])
        rec = any_record(t, n, d, d)
        rec.center = (k % (n + 1)) - 1 if k % (n + 1) else None
        kind = NUMBERS[k % len(NUMBERS)]
        c = Case("records", f"{k}: n {n} D {d} bonds {rec.br[:n]} centre {rec.center} numbers {kind}")
        c.numbers(OUT, t.rest(2 * d * d + 2))
        store = sites(t, rec, kind)
        for _ in range(12):
            c.record(rec)
            c.numbers(STORE, store)
            c.numbers(WORK, t.work(work_room(d) + r.randrange(3)))
            for _ in range(r.choice([1, 1, 2, 5])): any_call(c, t, n, d)
        cases.append(c)
    return cases

def environments(t, count):
    """Both environments for every pair of indices, beyond the range too."""
    cases = []
    for k in range(count):
        r = t.r
        n, d = r.randrange(1, 6), r.choice([1, 2, 3, 4, 6, 9])
        rec = any_record(t, n, d, d)
        if k % 3 == 0 and n > 2: rec.bonds([1] + [d] * (n - 3) + [1] if n > 3 else [d, 1])
        rec.high = max(rec.high, max(rec.br))
        rec.center = r.choice([None] + list(range(n)))
        kind = NUMBERS[k % len(NUMBERS)]
        c = Case("environments", f"{k}: n {n} D {d} bonds {rec.br[:n]} numbers {kind}")
        c.record(rec)
        c.numbers(STORE, sites(t, rec, kind))
        c.numbers(OUT, t.rest(2 * d * d + r.randrange(3)))
        for a in range(n + 1):
            for s in range(n + 2):
                if r.random() < 0.3: c.numbers(WORK, t.work(work_room(d) + r.randrange(3)))
                elif a == s == 0: c.numbers(WORK, t.work(work_room(d)))
                if r.random() < 0.3: c.numbers(OUT, t.rest(2 * d * d + r.randrange(3)))
                bad = a >= n or s > n
                c.call(LEFT, a, s, expect=(0, 4) if bad else None)
                c.call(RIGHT, s, a, expect=(0, 4) if bad else None)
        c.call(LEFT, BIG, 0, expect=(0, 4))
        c.call(RIGHT, BIG, 0, expect=(0, 4))
        c.numbers(OUT, t.rest(2 * d * d - 1))
        c.call(LEFT, 0, 0, expect=(0, 2))
        c.call(RIGHT, BIG, 0, expect=(0, 2))
        cases.append(c)
    return cases

def high_water(t, count):
    """Cap 128, high water 128 and below, small bonds."""
    cases = []
    for k in range(count):
        r = t.r
        n, d = r.randrange(2, 5), 128
        rec = any_record(t, n, d, r.choice([1, 2, 4, 7]))
        rec.exponent = r.choice([63, 40, 64, 255])
        rec.epsilon = [0.0, 1e-12, 0.3, -0.0, 1e-3][k % 5]
        rec.high = 128 if k % 4 else 127
        rec.center = None if k % 3 == 0 else r.randrange(n)
        c = Case("high water", f"{k}: n {n} bonds {rec.br[:n]} centre {rec.center} high {rec.high} epsilon {rec.epsilon}")
        c.numbers(OUT, t.rest(2 * d * d + 2))
        store = sites(t, rec, NUMBERS[k % len(NUMBERS)])
        for _ in range(2):
            c.record(rec)
            c.numbers(STORE, store)
            c.numbers(WORK, t.work(work_room(d) + 2))
            a = r.randrange(n - 1)
            p, q = rec.s2l[a], rec.s2l[a + 1]
            c.call(GATE, p, q, *t.gate_words(t.gate()))
            any_call(c, t, n, d)
        cases.append(c)
    return cases

def middle(t, count):
    """Cuts with bonds of 17 to 127 left of the pair, between its sites and right of it. One case at a time, since they are long."""
    for k in range(count):
        r = t.r
        # a centre that is moved or established leaves bonds of at most 2, 4, 8, .. from either end, so some chains are long
        n = 12 if k % 8 == 7 else [4, 4, 3, 4, 2, 4, 4][k % 7]
        d = r.randrange(33, 75) if n == 12 else 127 if k % 2 else r.randrange(33, 128)
        bond = lambda: r.randrange(17, min(d, r.choice([32, d, d, d])) + 1)
        rec = Record(n, d, 63, [0.0, 1e-12, 0.0, 0.3, 1e-3, -0.0, 0.05][k // 2 % 7], r.choice([0.0, 1e-30])).bonds([bond() for _ in range(n - 1)])
        if k % 3: rec.high = r.choice([d, r.randrange(rec.high, d + 1)])
        rec.by_bond = t.figures(n)
        rec.permute(r.sample(range(n), n))
        kind = r.choice(["gauss"] * 4 + ["plain", "near", "sparse", "deficient", "tiny", "subnormal"])
        c = Case("middle", f"{k}: n {n} D {d} bonds {rec.br[:n]} epsilon {rec.epsilon} numbers {kind}")
        c.numbers(OUT, [])
        c.numbers(WORK, t.work(work_room(d) + 1))
        c.numbers(STORE, sites(t, rec, kind))
        store = c.steps[-1]
        for j in range(4):
            a = r.randrange(4, 7) if n == 12 else r.choice([1, 1, 0, 2]) if n == 4 else r.randrange(n - 1)
            rec.center = [None, r.choice([a, a + 1]), None, r.randrange(n)][(j + k) % 4]
            c.record(rec)
            c.steps.append(store)
            p, q = r.sample([rec.s2l[a], rec.s2l[a + 1]], 2)
            if r.random() < 0.2: c.call(NAMED, p, q, r.randrange(3))
            else: c.call(GATE, p, q, *t.gate_words(t.gate()))
        yield c

def wide(t, full):
    """Bonds up to 128: a cut of 256 values, moves and walks across wide bonds."""
    cases = []
    shapes = [(2, [128]), (3, [100, 128]), (3, [128, 64]), (4, [2, 128, 2]), (4, [128, 3, 128]), (4, [64, 128, 64]), (3, [128, 128]), (4, [40, 20, 40]), (4, [33, 1, 128])]
    if full: shapes += [(4, [128, 128, 128]), (4, [128, 64, 128])]
    for k, (n, inner) in enumerate(shapes):
        rec = Record(n, 128, 63, [0.0, 1e-12][k % 2], 0.0).bonds(inner)
        rec.center, rec.by_bond = [None, 1, 0][k % 3], t.figures(n)
        c = Case("wide", f"bonds {inner} centre {rec.center} epsilon {rec.epsilon}")
        c.record(rec)
        c.numbers(STORE, sites(t, rec, "gauss"))
        c.numbers(WORK, t.work(work_room(128) + 2))
        c.numbers(OUT, t.rest(2 * 128 * 128 + 2))
        c.call(LEFT, 0, n)
        c.call(RIGHT, 0, n - 1)
        c.call(GATE, n // 2 - 1, n // 2, *t.gate_words([z for row in t.unitary() for z in row]))
        c.call(LEFT, 0, n - 1)
        c.call(MEASURE, 0, 5, bits(0.4))
        c.call(PROJECT, n - 1, 1)
        c.call(RESET, n // 2, bits(0.7))
        if n > 2: c.call(NAMED, 0, n - 1, 1)
        cases.append(c)
    return cases

def weights(t, count):
    """Projections at the edge of the clamp, with infinite totals, with quotients that round to 0."""
    cases = []
    up = lambda x: math.nextafter(x, INF)
    down = lambda x: math.nextafter(x, 0)
    def one(name, a, b, clamp, bit, expect, n=1, center=None):
        rec = Record(n, 2, 63, 0.0, clamp)
        rec.center = center
        c = Case("weights", name)
        c.record(rec)
        store = []
        for k in range(n):
            v = [a, 0.0, b, 0.0] if k == 0 else [1.0, 0.0, 0.0, 0.0]
            store += [bits(x) for x in v] + t.rest(12)
        c.numbers(STORE, store + t.rest(2))
        c.numbers(WORK, [NAN] * (work_room(2) + 3))
        c.numbers(OUT, t.rest(3))
        c.call(PROJECT, 0, bit, expect=expect)
        c.numbers(WORK, [NAN] * (work_room(2) + 3))
        c.call(PROJECT, 0, bit)
        c.call(MEASURE, 0, 7, bits(0.0))
        c.record(rec)
        c.numbers(STORE, store + t.rest(2))
        c.call(MEASURE, 0, 7, bits(1 - 2.0**-53))
        c.record(rec)
        c.numbers(STORE, store + t.rest(2))
        c.call(RESET, 0, bits(t.draw()))
        cases.append(c)
    for n in (1, 2, 3):
        for center in (None, 0):
            if n > 1 and center is None: continue
            say = f" n {n} centre {center}"
            one("infinite total, finite weight: Kept 0" + say, 0.6, 1e200, 0.0, 0, (2, 0), n, center)
            one("infinite weight: Kept NaN" + say, 0.6, 1e200, 0.0, 1, (2, NAN), n, center)
            one("infinite amplitude: Kept 0" + say, 0.6, INF, 0.0, 0, (2, 0), n, center)
            one("NaN amplitude in the other branch" + say, 0.6, float("nan"), 0.0, 0, (2, NAN), n, center)
            one("NaN weight" + say, 0.6, float("nan"), 0.5, 1, (2, NAN), n, center)
            one("quotient rounds to 0" + say, 1e-150, 1e150, 0.0, 0, (2, 0), n, center)
            one("weight equals the clamp: Nothing" + say, 0.5, 0.5, 0.25, 0, (3, 0), n, center)
            one("weight just above the clamp" + say, 0.5, 0.5, down(0.25), 0, (2, bits(0.5)), n, center)
            one("weight just below the clamp" + say, 0.5, 0.5, up(0.25), 1, (3, 0), n, center)
            one("zero weight, clamp 0: Nothing" + say, 1.0, 0.0, 0.0, 1, (3, 0), n, center)
            one("zero weight, clamp -0: Nothing" + say, 1.0, -0.0, -0.0, 1, (3, 0), n, center)
            one("weight that rounds to 0: Nothing" + say, 1e-170, 1.0, 0.0, 0, (3, 0), n, center)
            one("smallest weight" + say, 2.0**-537, 1.0, 0.0, 0, (2, bits(5e-324)), n, center)
    for k in range(count):
        a, b = t.any_number(), t.any_number()
        one(f"any {k}", a, b, t.r.choice([0.0, min(0.99, a * a), t.clamp()]), t.r.randrange(2), None, t.r.randrange(1, 4), 0)
    return cases

def near(x, k=3):
    """x and the k numbers on either side of it."""
    out, up, down = [x], x, x
    for _ in range(k):
        up, down = math.nextafter(up, INF), math.nextafter(down, 0)
        out += [up, down]
    return out

def edges(t):
    """Both sides of each comparison that decides what a call does."""
    cases = []
    def fresh(name, eps, clamp, column, d=2, n=2):
        """A gate on a fresh pair. Its first column is the matrix that is cut, row by row."""
        c = Case("edges", name)
        lend(c, t, n, d)
        c.call(START, n, d, bits(eps), bits(clamp), 20, expect=(1, 0))
        g = [column[k // 4] if k % 4 == 0 else 0j for k in range(16)]
        c.call(GATE, 0, 1, *t.gate_words(g))
        c.call(GATE, n - 2, n - 1, *t.gate_words([z for row in t.unitary() for z in row]))
        cases.append(c)
    for x in near(1e-15, 6):
        fresh(f"skipped pair {x!r}", 0.0, 0.0, [1, x, 0, 1])
        fresh(f"skipped pair, imaginary, {x!r}", 0.0, 0.0, [1, 1j * x, 0, 1])
        fresh(f"skipped pair, scaled, {x!r}", 0.0, 0.0, [3.7, 3.7 * x, 0, 5.1])
    for y in near(2.0**-50):
        for n in (2, 3):
            fresh(f"resolvable {y!r} n {n}", 0.5, 0.0, [1, 0, 0, y], 2, n)
            fresh(f"resolvable {y!r} n {n}, scaled", 0.5, 0.0, [1.7, 0, 0, 1.7 * y], 2, n)
    for eps in (0.5, 0.3, 1e-12):
        for y in near(eps): fresh(f"kept value {y!r}", eps, 0.0, [1, 0, 0, y])
    for clamp in (0.5, 1e-30, 5e-324):
        for y in near(clamp): fresh(f"column at the clamp {y!r}", 0.0, clamp, [1, 0, 0, y])
    for x in (1.0, 1j, -1.0, 0.5): fresh(f"equal columns {x}", 0.0, 0.0, [1, x, 1, x]); fresh(f"tau 0 {x}", 0.0, 0.0, [1, x, x.conjugate(), 1])
    def site(name, column, turned):
        """A move across a bond of 2 from a site whose second column is this one, the first being (1, 0)."""
        rec = Record(2, 2, 63, 0.0, 0.0).bonds([2])
        rec.center = 1 if turned else 0
        c = Case("edges", name + (" to the left" if turned else " to the right"))
        first, second = [1.0, 0.0, 0.0, 0.0], [column[0], 0.0, column[1], 0.0]
        flat = first + second if turned else [1.0, 0.0, column[0], 0.0, 0.0, 0.0, column[1], 0.0]
        other = [t.small() for _ in range(8)]
        a, b = (other, flat) if turned else (flat, other)
        c.record(rec)
        c.numbers(STORE, [bits(x) for x in a] + t.rest(8) + [bits(x) for x in b] + t.rest(10))
        c.numbers(WORK, t.work(work_room(2))); c.numbers(OUT, t.rest(8))
        c.call(PROJECT, 0 if turned else 1, 0)
        cases.append(c)
    for turned in (False, True):
        for x in near(1e-14, 4): site(f"column at the rank's tolerance {x!r}", [1.0, x], turned)
        for x in near(3e-14, 4): site(f"column at the rank's tolerance, scaled, {x!r}", [3.0, x], turned)
        for x in near(math.sqrt(3), 4) + near(3**-0.5, 4): site(f"residual at half {x!r}", [x, 1.0], turned); site(f"residual at half {x!r}", [1.0, x], turned)
        for x in (0.0, -0.0, 5e-324, 1e-170, INF, float("nan")): site(f"column {x!r}", [x, x], turned)
    # a workspace of just 2 to the exponent
    for bl, mid, br, e in [(1, 6, 1, 5), (1, 6, 2, 6), (2, 12, 1, 6), (1, 6, 4, 7), (2, 12, 2, 7), (4, 24, 1, 7), (2, 44, 1, 7)]:
        for exponent in (e - 1, e):
            d = max(bl, mid, br)
            rec = Record(4, d, exponent).bonds([bl, mid, br])
            rec.center = 1
            c = Case("edges", f"workspace {bl} {mid} {br} exponent {exponent}")
            c.record(rec); c.numbers(STORE, sites(t, rec, "gauss")); c.numbers(WORK, t.work(work_room(d))); c.numbers(OUT, [])
            c.call(NAMED, 1, 2, 1, expect=None if (bl, mid) == (2, 44) else DONE if exponent == e else (0, 6))
            cases.append(c)
    # the draw at the share of bit 1
    for amp in (0.5, 1.0, 0.3):
        for x in near(0.5):
            rec = Record(1, 1, 63)
            rec.center = t.r.choice([None, 0])
            for kind in (MEASURE, RESET):
                c = Case("edges", f"draw {x!r}")
                c.record(rec); c.numbers(STORE, [bits(amp), 0, bits(amp), 0]); c.numbers(WORK, t.work(work_room(1))); c.numbers(OUT, [])
                c.call(kind, 0, *([3] if kind == MEASURE else []), bits(x))
                cases.append(c)
    # environments either side of bl * br = 4, entries that are zeros
    for inner in ([1, 4], [4, 1], [2, 2], [2, 3], [5, 1], [1, 5], [3, 1], [2, 1]):
        for kind in ["sparse", "plain", "one", "infinite"] + ["zeros and infinite"] * 6:
            rec = Record(3, 5, 63).bonds(inner)
            c = Case("edges", f"environments, bonds {inner} numbers {kind}")
            c.record(rec); c.numbers(STORE, sites(t, rec, kind)); c.numbers(WORK, t.work(work_room(5))); c.numbers(OUT, t.rest(52))
            for a in range(3):
                for b in range(4): c.call(LEFT, a, b); c.call(RIGHT, b, a)
            cases.append(c)
    return cases

def skewed(t, rec, hit, factors):
    """A store of plain numbers times a factor for each site. The second number of bond `hit` is small on its left and large on
    its right, so that a cut beside that bond finds other values without a centre than with one."""
    out = []
    for k in range(rec.n):
        for a, _, b, _ in itertools.product(range(rec.bl[k]), range(2), range(rec.br[k]), range(2)):
            skew = (0.01 if (k, b) == (hit, 1) else 1.0) * (100.0 if (k, a) == (hit + 1, 1) else 1.0)
            out.append(bits(t.small() * factors[k] * skew))
        out += t.rest(4 * rec.d * rec.d - 4 * rec.bl[k] * rec.br[k])
    return out

def reasons(t, count):
    """Each reason on a fresh chain, without swaps before it and with them; then chains without a centre, many of whose cuts are
    made again with one. Such a cut has no more values than the cap by then, so its own reason is never Cap, but that of the
    gate after a swap can be."""
    cases = []
    diagonal = lambda values: t.gate_words([{0: values[0], 12: values[1]}.get(k, 0) for k in range(16)])
    for eps, d, values, why in [(0.0, 1, (1, 1), "Cap"), (0.5, 1, (1, 0.6), "Cap"), (0.0, 1, (1, 0), "Tolerance"), (0.0, 3, (1, 0), "Tolerance"),
                                (0.5, 1, (1, 0.5), "Tolerance"), (0.5, 2, (1, 0.5), "Tolerance"), (0.0, 2, (1, 1), "Full"), (0.5, 2, (1, 0.6), "Full"),
                                (0.0, 3, (1, 1e-30), "Full"), (0.0, 1, (0, 0), "Floor"), (0.5, 3, (0, 0), "Floor"), (0.0, 2, (1e-170, 0), "Floor"),
                                (0.0, 1, (1e200, 1), "Floor"), (0.0, 2, (1e200, 1e200), "Floor"), (0.5, 2, (1e200, 1), "Floor")]:
        for n in (2, 3, 5):
            c = Case("reasons", f"values {values} epsilon {eps} D {d} n {n}")
            lend(c, t, n, d)
            c.call(START, n, d, bits(eps), 0, 63, expect=(1, 0))
            c.call(GATE, *t.r.sample([0, n - 1], 2), *diagonal(values), expect=done(why))
            cases.append(c)
    # what a centre brings to the pair from the sites beside it: 1, 0, or more than a square can hold
    for factors, why in [([1.0] * 4, "Tolerance"), ([1.0, 1.0, 1.0, 0.0], "Floor"), ([1e40] * 4, "Floor")]:
        for pair in [(0, 1), (1, 0), (0, 2), (2, 0)]:
            rec = Record(4, 2, 63, 0.5)
            c = Case("reasons", f"made again on {pair}, factors {factors}")
            c.record(rec); c.numbers(WORK, t.work(work_room(2))); c.numbers(OUT, [])
            c.numbers(STORE, [w for x in factors for w in [bits(x), 0, 0, 0] + t.rest(12)])
            c.call(GATE, *pair, *diagonal((1, 0.1)), expect=done(why))
            cases.append(c)
    for k in range(count):
        r = t.r
        n, d = r.randrange(4, 6), 2 if k % 4 == 3 else 4
        rec = Record(n, d, 63, r.choice([0.03, 0.1, 0.3])).bonds([2] * (n - 2) + [1] if d == 2 else [r.choice([1, 2, 2, 2]) for _ in range(n - 1)])
        rec.permute(r.sample(range(n), n))
        rec.by_bond = t.figures(n)
        # the sites as they are, one of them zeros, all of them large, and as they are
        factors = [[1.0] * n, [float(s != k // 4 % n) for s in range(n)], [r.choice([1e35, 1e40, 1e75])] * n, [1.0] * n][k % 4]
        c = Case("reasons", f"{k}: n {n} D {d} bonds {rec.br[:n]} epsilon {rec.epsilon} factors {factors}")
        c.numbers(WORK, t.work(work_room(d))); c.numbers(OUT, [])
        for _ in range(12):
            c.record(rec)
            c.numbers(STORE, skewed(t, rec, n - 3 if d == 2 else r.randrange(n - 1), factors))
            a, b = r.sample(range(n), 2)
            if r.random() < 0.2: c.call(NAMED, a, b, r.randrange(3))
            else: c.call(GATE, a, b, *t.gate_words([z for row in t.unitary() for z in row]))
        cases.append(c)
    return cases

def every_call_accepted(c, t, rec, store):
    """Each call once, on this record and this store."""
    calls = [(PROJECT, [0, 0], (2,)), (MEASURE, [0, 3, bits(0.5)], (4,)), (RESET, [rec.n - 1, bits(0.5)], (1, 0)), (LEFT, [0, rec.n], (5,)), (RIGHT, [0, rec.n - 1], (5,))]
    if rec.n > 1:
        a = t.r.randrange(rec.n - 1)
        calls += [(GATE, [a, a + 1, *t.gate_words([z for row in t.unitary() for z in row])], DONE), (NAMED, [a + 1, a, t.r.randrange(3)], DONE)]
    for kind, args, expect in calls:
        c.record(rec)
        c.numbers(STORE, store)
        c.call(kind, *args, expect=expect)

def figures_examined(t):
    """Any figure inside the chain: every call is accepted. Past the last bond none but +0: 3, and nothing written."""
    cases = []
    for n in (1, 2, 3, 5, 63, 64):
        rec = Record(n, 2, 63).bonds([t.r.choice([1, 2]) for _ in range(n - 1)])
        rec.center = t.r.choice([None, 0, n - 1])
        store = sites(t, rec, "gauss")
        c = Case("figures", f"n {n}, each entry's values")
        c.numbers(WORK, t.work(work_room(2) + 1)); c.numbers(OUT, t.rest(9)); c.numbers(STORE, store)
        past = {n - 1, 62, t.r.randrange(n - 1, 63)} if n < 64 else set()
        inside = {0, n - 2, t.r.randrange(n - 1)} if n > 1 else set()
        for k in sorted(inside | past):
            for v in FIGURES + [INF, -INF]:
                x = copy.deepcopy(rec)
                x.by_bond[k] = v
                if k < n - 1: every_call_accepted(c, t, x, store)
                else:
                    c.record(x)
                    every_call(c, t, n, (0, 3))
                    tally_unsound[0] += 1
        cases.append(c)
    return cases

def dropping(t, k):
    """A record and a store for gates on sites p and q, whose route drops weight at each bond: made again with a centre, refused by 6
    or by 7 behind some of its swaps, or done."""
    r = t.r
    if k == 0:
        n, d = r.randrange(4, 8), 4
        rec = Record(n, d, 63, r.choice([0.03, 0.1, 0.3])).bonds([r.choice([1, 2, 2, 2]) for _ in range(n - 1)])
        return rec, skewed(t, rec, r.randrange(n - 1), [1.0] * n), sorted(r.sample(range(n), 2))
    n = r.randrange(5, 10)
    if k == 1:
        # 20 * 5 * 5 + 2 * 5 * 5 numbers are more than 512
        left = r.randrange(2, n - 2)
        rec = Record(n, 5, 9).bonds([5] * left + [3] * (n - 1 - left))
        p, q = r.randrange(0, left - 1), r.randrange(left + 1, n)
    else:
        rec = Record(n, r.choice([1, 2, 3]), 63, r.choice([0.0, 0.0, 0.1]))
        rec.bonds([rec.d] * (n - 1))
        p, q = sorted(r.sample(range(n), 2))
    rec.center = r.choice([q, q, q, q - 1, None])
    store = sites(t, rec, "gauss")
    if k == 2:
        bad = r.randrange(p, q)
        store[4 * rec.d * rec.d * bad + r.randrange(4 * rec.bl[bad] * rec.br[bad])] = r.choice([NAN, bits(INF), bits(1e200)])
    return rec, store, (p, q)

def figures(t, count):
    """What each bond has discarded: streams whose caps drop weight at many bonds, and records with figures of any kind."""
    cases, r = figures_examined(t), t.r
    for k in range(count):
        if k % 4 == 0:
            # the last bond has two values at most, so that a cap of 1 drops one
            n, d, eps = [64, 3, 4, 5, 6, 8, 10][k // 4 % 7], r.choice([1, 2, 2, 3]), r.choice([0.0, 0.0, 1e-12, 0.1, 0.3])
            if n == 64: d = [1, 2][k // 28 % 2]
            c = Case("figures", f"{k}: a stream, n {n} D {d} epsilon {eps}")
            lend(c, t, n, d)
            first = n - 6 if n == 64 else 0
            t.gates, t.outcomes = ENTANGLING, 0.15
            for exponent in (63, r.choice([6, 7, 8, 9])):
                c.call(START, n, d, bits(eps), 0, exponent, expect=(1, 0))
                for _ in range(14):
                    a, b = r.sample(range(first, n), 2) if r.random() < 0.9 else r.sample(range(n), 2)
                    c.call(GATE, a, b, *t.gate_words(t.gate()))
                    if r.random() < 0.2: any_call(c, t, n, d)
            t.gates, t.outcomes = ALL_GATES, 1.0
            c.call(START, n, 0, 0, 0, 63, expect=(0, 1))
        else:
            rec, store, (p, q) = dropping(t, k % 4 - 1)
            rec.by_bond = t.figures(rec.n)
            rec.permute(r.sample(range(rec.n), rec.n))
            c = Case("figures", f"{k}: n {rec.n} D {rec.d} bonds {rec.br[:rec.n]} sites {p} and {q} centre {rec.center} epsilon {rec.epsilon}")
            c.numbers(OUT, []); c.numbers(WORK, t.work(work_room(rec.d)))
            for _ in range(6):
                c.record(rec)
                c.numbers(STORE, store)
                a, b = r.sample([rec.s2l[p], rec.s2l[q]], 2)
                if r.random() < 0.2: c.call(NAMED, a, b, r.randrange(3))
                else: c.call(GATE, a, b, *t.gate_words([z for row in t.unitary() for z in row]))
                a, b = r.sample(range(rec.n), 2)
                c.call(GATE, a, b, *t.gate_words([z for row in t.unitary() for z in row]))
                any_call(c, t, rec.n, rec.d, envs=False)
        cases.append(c)
    return cases

def workspace(t, count):
    """Refused by 6: at the first cut nothing but work's first part is altered; after swaps these stand."""
    cases = []
    for exponent, expect in [(4, (0, 6)), (0, (0, 6)), (5, DONE), (64, DONE), (255, DONE)]:
        for d in (1, 2, 4):
            c = Case("workspace", f"n 2 D {d} exponent {exponent}, fresh")
            lend(c, t, 2, d)
            c.call(START, 2, d, 0, 0, exponent, expect=(1, 0))
            c.numbers(WORK, [NAN] * (work_room(d) + 3))
            c.call(NAMED, 0, 1, 1, expect=expect)
            c.numbers(WORK, [NAN] * work_room(d))
            # a gate of any size may be refused by 7 where 6 does not refuse it
            c.call(GATE, 1, 0, *t.gate_words(t.gate()), expect=expect if expect == (0, 6) else None)
            cases.append(c)
            rec = Record(2, d, exponent)
            rec.discarded, rec.center = 0.125, t.r.choice([None, 0, 1])
            c = Case("workspace", f"n 2 D {d} exponent {exponent}, by hand")
            c.record(rec)
            c.numbers(STORE, sites(t, rec, "plain"))
            c.numbers(WORK, [NAN] * (work_room(d) + 3))
            c.numbers(OUT, t.rest(2))
            c.call(NAMED, 0, 1, 2, expect=expect)
            cases.append(c)
    for k in range(count):
        r = t.r
        n, d = r.randrange(3, 8), r.choice([2, 3, 4, 8])
        rec = any_record(t, n, d, d)
        sizes = [20 * rec.bl[i] * rec.br[i + 1] + 2 * rec.br[i] * rec.br[i + 1] for i in range(n - 1)]
        s = r.choice(sizes)
        rec.exponent = max(0, (s - 1).bit_length() - r.choice([0, 0, 1]))
        rec.center = r.choice([None] + list(range(n)))
        c = Case("workspace", f"{k}: n {n} D {d} bonds {rec.br[:n]} exponent {rec.exponent}")
        store = sites(t, rec, r.choice(["plain", "gauss", "sparse"]))
        c.numbers(OUT, t.rest(2))
        for _ in range(8):
            c.record(rec)
            c.numbers(STORE, store)
            c.numbers(WORK, t.work(work_room(d) + 1))
            a, b = r.sample(range(n), 2)
            c.call(GATE, a, b, *t.gate_words(t.gate()))
            c.call(NAMED, b, a, r.randrange(3))
        cases.append(c)
    return cases

def not_a_number(t, count):
    """NaN and infinity in the sites: 7, or an acceptance that carries them."""
    cases = []
    for k in range(count):
        r = t.r
        n, d = r.randrange(2, 6), r.choice([1, 2, 3, 4])
        rec = any_record(t, n, d, d)
        rec.exponent = 63
        rec.center = (k % (n + 1)) - 1 if k % (n + 1) else None
        c = Case("not a number", f"{k}: n {n} D {d} bonds {rec.br[:n]} centre {rec.center}")
        c.numbers(OUT, t.rest(2 * d * d))
        for _ in range(10):
            store = sites(t, rec, r.choice(["one", "special", "huge", "sizes"]))
            c.record(rec)
            c.numbers(STORE, store)
            c.numbers(WORK, t.work(work_room(d)))
            a, b = r.sample(range(n), 2)
            c.call(GATE, a, b, *t.gate_words(t.gate()))
            any_call(c, t, n, d)
        cases.append(c)
    return cases

def every_call(c, t, n, expect):
    """Each call once, with arguments in range where there are such."""
    r = t.r
    g = t.gate_words(t.gate())
    a, b = (0, 1) if n > 1 else (0, 0)
    c.call(GATE, a, b, *g, expect=expect)
    c.call(GATE, b, b, *t.bad_gate_words(), expect=expect)
    c.call(NAMED, a, b, r.randrange(3), expect=expect)
    c.call(NAMED, BIG, BIG, 0, expect=expect)
    c.call(PROJECT, 0, r.randrange(2), expect=expect)
    c.call(MEASURE, 0, 64, bits(1.0), expect=expect)
    c.call(MEASURE, 0, 3, bits(0.5), expect=expect)
    c.call(RESET, 0, bits(0.5), expect=expect)
    c.call(LEFT, 0, 0, expect=expect)
    c.call(RIGHT, 0, 0, expect=expect)

def short_slices(t):
    """Each slice one number short, at several caps: 2, before 4 and 5."""
    cases = []
    for n in (1, 2, 5):
        for d in (1, 2, 3, 128):
            if d == 128 and n > 2: continue
            rec = any_record(t, n, d, min(d, 5))
            rec.center = t.r.choice([None] + list(range(n)))
            c = Case("short slices", f"n {n} D {d}")
            c.record(rec)
            s, w, o = store_room(n, d), work_room(d), 2 * d * d
            for a, b in [(s - 1, w), (s, w - 1), (s - 1, w - 1), (0, 0), (0, w), (s, 0)]:
                c.numbers(STORE, t.rest(a)); c.numbers(WORK, t.rest(b)); c.numbers(OUT, t.rest(o))
                every_call(c, t, n, (0, 2))
            for z in (o - 1, 0):
                c.numbers(STORE, t.rest(s)); c.numbers(WORK, t.rest(w)); c.numbers(OUT, t.rest(z))
                c.call(LEFT, 0, n, expect=(0, 2)); c.call(LEFT, BIG, BIG, expect=(0, 2))
                c.call(RIGHT, 0, n - 1, expect=(0, 2)); c.call(RIGHT, BIG, n, expect=(0, 2))
            # a result slice is not asked of the other calls
            c.call(PROJECT, 0, 0); c.call(RESET, 0, bits(0.25))
            # exactly long enough
            c.numbers(STORE, sites(t, rec, "plain")[:s]); c.numbers(WORK, t.work(w)); c.numbers(OUT, t.rest(o))
            c.call(LEFT, 0, n); c.call(RIGHT, 0, n - 1); c.call(MEASURE, 0, 0, bits(0.3))
            if n > 1: c.call(GATE, 0, n - 1, *t.gate_words(t.gate()))
            cases.append(c)
    return cases

def unsound(t, count):
    """One thing wrong with a sound record: 3, and nothing written."""
    cases = []
    def fault(rec, n, d, name):
        """A list of (name, change)."""
        r = t.r
        out = []
        def put(what, k, v): out.append((f"{what}[{k}] = {v}", lambda x: getattr(x, what).__setitem__(k, v)))
        def let(what, v): out.append((f"{what} = {v}", lambda x: setattr(x, what, v)))
        for v in (0, 65, 255, BIG): let("n", v)
        if n < 64: let("n", n + 1)
        if n > 1: let("n", n - 1)
        for v in (0, 129, BIG): let("d", v)
        for v in (1.0, -5e-324, float("nan"), INF, -1.0): let("epsilon", v); let("clamp", v)
        for v in (0, 2, 255): put("bl", 0, v); put("br", n - 1, v)
        for v in (n, 64, BIG - 1): let("center", v)
        let("high", d + 1); let("high", BIG); let("high", 0); let("high", max(rec.br) - 1)
        for k in range(n - 1):
            put("br", k, rec.br[k] % 255 + 1); put("bl", k + 1, rec.bl[k + 1] % 255 + 1)
            for v in (0, min(255, rec.high + 1)):
                out.append((f"bond {k} = {v}", lambda x, k=k, v=v: (x.br.__setitem__(k, v), x.bl.__setitem__(k + 1, v))))
        for what in ("l2s", "s2l"):
            for k in range(n): put(what, k, (getattr(rec, what)[k] + 1) % n if n > 1 else 1); put(what, k, n if n < 255 else 0); put(what, k, 255)
        for what in ("bl", "br", "l2s", "s2l"):
            for k in {n, 63, r.randrange(n, 64)} if n < 64 else []: put(what, k, r.choice([1, 255]))
        for k in {n - 1, 62, t.f.randrange(n - 1, 63)} if n < 64 else []:
            for v in FIGURES: put("by_bond", k, v)
        if n >= 3:
            cycle = [1, 2, 0]
            def turn(x):
                for k in range(3): x.l2s[k] = x.s2l[k] = cycle[k]
                for k in range(3, n): x.l2s[k] = x.s2l[k] = k
            out.append(("both maps one cycle", turn))
        if n >= 2:
            def same_maps(x):
                for k in range(n): x.l2s[k] = 0; x.s2l[k] = k
            out.append(("maps (0,0), (0,1)", same_maps))
        return out
    for k in range(count):
        n, d = t.r.choice([1, 2, 3, 4, 64]), t.r.choice([2, 3, 4])
        rec = any_record(t, n, d, d - 1 if d > 2 else d)
        rec.high = max(rec.br)
        rec.center = t.r.choice([None] + list(range(n)))
        faults = fault(rec, n, d, "")
        if n == 64: faults = t.r.sample(faults, 40)
        c = Case("unsound records", f"{k}: n {n} D {d}")
        c.numbers(STORE, t.rest(store_room(n, d) + 1)); c.numbers(WORK, [NAN] * work_room(d)); c.numbers(OUT, t.rest(2 * d * d))
        for name, change in faults:
            x = copy.deepcopy(rec)
            change(x)
            # a shorter n with the bonds and maps as they were is sound only if the entries from n on are 0
            c.record(x)
            every_call(c, t, n, (0, 3))
            tally_unsound[0] += 1
        c.numbers(STORE, []); c.numbers(WORK, []); c.numbers(OUT, [])
        every_call(c, t, n, (0, 3))
        cases.append(c)
    return cases

tally_unsound = [0]

def perturbed(t, count):
    """A sound record with a few entries changed at random: sound or not, the answer is the same on both sides."""
    cases = []
    for k in range(count):
        r = t.r
        n, d = r.choice([1, 2, 3, 4, 63, 64]), r.choice([1, 2, 3])
        rec = any_record(t, n, d, d)
        rec.center = r.choice([None] + list(range(n)))
        c = Case("perturbed records", f"{k}: n {n} D {d}")
        c.numbers(STORE, t.rest(store_room(64, 4))); c.numbers(WORK, t.rest(work_room(4))); c.numbers(OUT, t.rest(32))
        for _ in range(25):
            x = copy.deepcopy(rec)
            for _ in range(r.choice([0, 1, 1, 1, 2])):
                f = r.randrange(10)
                small = r.choice([0, 1, 2, 3, n - 1, n])
                if f == 0: x.n = r.choice([n - 1, n, n + 1])
                elif f == 1: x.d = r.randrange(5)
                elif f == 2: x.exponent = r.choice([0, 62, 63, 64, 128, 255])
                elif f == 3: x.epsilon = r.choice([0.0, -0.0, 1 - 2.0**-53, 1.0])
                elif f == 4: x.clamp = r.choice([0.0, -0.0, 1 - 2.0**-53, 1.0])
                elif f == 5: x.high = r.randrange(5)
                elif f == 6: x.center = r.choice([None, n - 1, n, 0])
                elif f == 7:
                    i, b = r.randrange(64), r.choice([0, 1, 2, 3])
                    x.br[i] = b
                    if i < 63 and r.random() < 0.8: x.bl[i + 1] = b
                elif f == 8: r.choice([x.l2s, x.s2l])[r.randrange(64)] = max(0, small)
                else:
                    i, j = r.randrange(64), r.randrange(64)
                    if i < n and j < n: x.permute([x.s2l[j] if s == i else x.s2l[i] if s == j else x.s2l[s] for s in range(n)])
            if t.f.random() < 0.3: x.by_bond[t.f.randrange(63)] = t.f.choice([0.0, *FIGURES])
            c.record(x)
            c.numbers(STORE, t.rest(store_room(64, 4)) if r.random() < 0.1 else [bits(t.small())] * store_room(64, 4))
            c.call(PROJECT, r.randrange(n), r.randrange(2))
        cases.append(c)
    return cases

def marked(t):
    """The run cases of document 01."""
    e = [1 + 0j if k in (0, 12) else 0j for k in range(16)]
    cases = []
    def case(name, n, d, exponent):
        c = Case("run cases", name)
        lend(c, t, n, d)
        c.call(START, n, d, 0, 0, exponent, expect=(1, 0))
        cases.append(c)
        return c
    c = case("E, D 2: bond 2, Kept 0.5", 2, 2, 5)
    c.call(GATE, 0, 1, *t.gate_words(e), expect=done("Full")); c.call(PROJECT, 0, 1, expect=(2, bits(0.5)))
    c = case("E, D 1: bond 1, discarded 0.5", 2, 1, 5)
    c.call(GATE, 0, 1, *t.gate_words(e), expect=done("Cap"))
    c = case("n 3 D 2 exponent 5: E on (1,2), Cx on (0,2): 6", 3, 2, 5)
    c.call(GATE, 1, 2, *t.gate_words(e), expect=done("Full")); c.call(NAMED, 0, 2, 1, expect=(0, 6))
    c = case("n 4, pair (0,3)", 4, 2, 5)
    c.call(NAMED, 0, 3, 1, expect=done("Tolerance"))
    c = case("the whole run record", 2, 2, 5)
    c.call(NAMED, 0, 1, 1, expect=done("Tolerance")); c.call(PROJECT, 0, 0, expect=(2, bits(1.0)))
    return cases

# ---------------------------------------------------------------- the run
def unlimited():
    resource.setrlimit(resource.RLIMIT_STACK, (resource.RLIM_INFINITY, resource.RLIM_INFINITY))

def run(program, data, timeout=None):
    return subprocess.run([program], input=data, stdout=subprocess.PIPE, stderr=subprocess.PIPE, preexec_fn=unlimited, timeout=timeout)

def categories(scale, full):
    """For each category what draws its cases."""
    k = lambda x: max(1, int(x * scale))
    return {
        "run cases": marked, "starts": lambda t: starts(t, k(20)), "streams": lambda t: streams(t, k(400)),
        "records": lambda t: records(t, k(180)), "environments": lambda t: environments(t, k(60)), "weights": lambda t: weights(t, k(60)), "edges": edges,
        "reasons": lambda t: reasons(t, k(160)), "figures": lambda t: figures(t, k(120)),
        "workspace": lambda t: workspace(t, k(60)), "not a number": lambda t: not_a_number(t, k(80)), "short slices": short_slices,
        "unsound records": lambda t: unsound(t, k(25)), "perturbed records": lambda t: perturbed(t, k(40)), "high water": lambda t: high_water(t, k(50)),
        "middle": lambda t: middle(t, k(150 if full else 12)), "wide": lambda t: wide(t, full),
    }

def drawn(seed, category, make):
    return make(Draw(f"{seed} {category}"))

def check(case, o, p, tally):
    """Raises Difference. o and p are what the oracle and the port ran to."""
    if o.returncode: raise Difference(f"the oracle ended with {o.returncode}: {o.stderr[-300:]}")
    check_case(case, Reader(p.stdout), Reader(o.stdout), tally)
    if p.returncode: raise Difference(f"the port ended with {p.returncode}: {p.stderr[-300:]}")

def main():
    ap = argparse.ArgumentParser()
    ap.add_argument("oracle"); ap.add_argument("harness")
    ap.add_argument("--seed", type=int, default=1); ap.add_argument("--only"); ap.add_argument("--scale", type=float, default=1.0)
    ap.add_argument("--keep", help="a folder for the input of each case that differs")
    ap.add_argument("--full", action="store_true", help="with the cuts of 256 values, and all those with bonds of 17 to 127")
    ap.add_argument("--emit", help="write the inputs of all cases there, joined, and the harness's output beside it")
    a = ap.parse_args()
    total, differ, whole, emitted, written = collections.Counter(), 0, collections.Counter(), [], []
    for category, make in categories(a.scale, a.full).items():
        if a.only and a.only != category: continue
        tally, cases = collections.Counter(), drawn(a.seed, category, make)
        bad = made = 0
        for made, c in enumerate(cases, 1):
            data = c.bytes()
            o, p = run(a.oracle, data), run(a.harness, data)
            if a.emit: emitted.append(data); written.append(p.stdout)
            try:
                check(c, o, p, tally)
            except Difference as e:
                bad += 1
                print(f"DIFFERENCE {category} | {c.name} | {e}", flush=True)
                if a.keep:
                    os.makedirs(a.keep, exist_ok=True)
                    open(os.path.join(a.keep, f"{category.replace(' ', '_')}-{bad}.in"), "wb").write(data)
        print(f"{category}: {made} cases, {tally['calls']} calls, {bad} differences", flush=True)
        total["cases"] += made; total["calls"] += tally["calls"]; differ += bad
        whole.update(tally)
    for name in sorted(whole): print(f"  {whole[name]:8} {name}")
    if tally_unsound[0]: print(f"  {tally_unsound[0]:8} unsound records")
    print(f"seed {a.seed}: {total['cases']} cases, {total['calls']} calls, {differ} differences")
    if a.emit:
        open(a.emit, "wb").write(b"".join(emitted)); open(a.emit + ".out", "wb").write(b"".join(written))
    sys.exit(differ > 0)

if __name__ == "__main__":
    main()
