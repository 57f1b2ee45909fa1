#!/usr/bin/env python3
"""Make the list that the program `layer_replay` is run on, and the text that it must write: crates/layer_replay/stdin and
stdout.

    python3 make_layers.py OUT       OUT has the oracle (build_oracle.py)

The Rust's sequential path has no layers, so the oracle is handed the gates of a layer one by one, as gate records, up to
the first that it refuses; what a layer is refused by before any pair runs is worked out here (`refusal`). For each layer
the text has a line `layer` with 0, the number, or the number and the pair that stopped; how many numbers at the front
of a work slice of 1s are +0 after it; and the oracle's whole state behind the last of its gates, or the one before it.
For each run record it has the oracle's line. The cases are drawn from a fixed seed. layers.py draws others.

    cases   of what
       25   0 to 8 pairs each two times, 10 to 32
       12   two layers of gates that permute the four bit pairs, with phases 1, -1, i, -i, and zeros of both signs
        4   layers of no pairs, n 1 to 64
       18   layers stopped by 6 and by 7, at the first, a middle and the last pair, three of each
       18   4, 9 or 5 at the last pair alone
       24   4, 9 and 5, or two of them, in every order of places
        5   33 pairs
       37   slices whose lengths do not agree: a byte, a number, a gate or a pair more or fewer, 16 numbers a pair
       10   store and work just long enough, or too short
        1   the all-zero record of a refused start: 3
       30   one to three layers among other records
      184   with 255 layers
"""
import collections
import pathlib
import struct
import subprocess
import sys

import make_list
from make_list import CX, CZ, E, INF, NAN, SWAP, Draw, gate, measure, named, project, record, reset, start

PROGRAM = pathlib.Path(__file__).resolve().parent.parent.parent / "crates" / "layer_replay"
SEED = 1
STORE, WORK = 512, 1344
EMPTY = ["# n 0 D 0 center - high 0 discarded 0000000000000000 flags 0000000000000000", "# qubits by site", "# discarded by bond"]


# ---- the list

class Layer:
    def __init__(self, pairs, gates, store=STORE, work=WORK):
        """pairs: bytes, two a pair; gates: numbers, 32 a pair; store, work: how much of both is lent."""
        self.pairs, self.gates, self.store, self.work = bytes(pairs), list(gates), store, work

    def bytes(self):
        head = struct.pack("<5H", 0, len(self.pairs), len(self.gates), self.store, self.work)
        return head + self.pairs + struct.pack(f"<{len(self.gates)}d", *self.gates)

    def records(self):
        """A gate record for each pair."""
        gates = [self.gates[32 * k : 32 * k + 32] for k in range(len(self.pairs) // 2)]
        return [gate(*self.pairs[2 * k : 2 * k + 2], zip(g[::2], g[1::2])) for k, g in enumerate(gates)]


def numbers(g):
    return [x for z in g for x in z]


def layer(pairs, gates, **more):
    """pairs: of qubits; gates: each 16 pairs of real and imaginary part."""
    return Layer([q for pair in pairs for q in pair], [x for g in gates for x in numbers(g)], **more)


def item(x):
    return x.bytes() if isinstance(x, Layer) else x


def listed(cases):
    items = [item(x) for case in cases for x in case]
    return struct.pack("<H", len(items)) + b"".join(items)


# ---- what it must give

def refusal(layer, started, n, d):
    """The number that a layer is refused by before any pair runs, tried in the order 3, 2, 4, 9, 5; 0 if by none."""
    pairs = list(zip(layer.pairs[::2], layer.pairs[1::2]))
    if not started:
        return 3
    if len(layer.pairs) % 2 or len(layer.gates) != 32 * len(pairs) or layer.store < 4 * n * d * d or layer.work < room(d):
        return 2
    if any(a >= n or b >= n or a == b for a, b in pairs):
        return 4
    if any({*p} & {*q} for k, p in enumerate(pairs) for q in pairs[:k]):
        return 9
    return 0 if all(abs(x) < INF for x in layer.gates) else 5


def room(d):
    return 80 * d * d + 16 * d


class Oracle:
    """A session of the oracle: the records that it was handed since the start."""

    def __init__(self, program):
        self.program, self.data, self.lines, self.n, self.d, self.state = program, b"", 0, 0, 0, EMPTY

    def ask(self, more):
        """The lines that it answers to more records, and the state behind the last of them."""
        words = [self.program, "--dump", "--ends", "--last"]
        p = subprocess.run(words, input=self.data + more, stdout=subprocess.PIPE, check=True)
        text = p.stdout.decode().splitlines()
        lines = [x for x in text if x[0] != "#"]
        walks = ("# left", "# right") if room(self.d) > WORK else ("never",)
        return lines[self.lines :], [x for x in text if x[0] == "#" and not x.startswith(walks)]

    def hand(self, records):
        """One of them or more. Those behind the first that is refused are not done, and the answer says which it is."""
        records = list(records)
        lines, state = self.ask(b"".join(records))
        stop = next((k for k, x in enumerate(lines) if not x.split()[1] == "0"), None)
        if stop is not None and stop + 1 < len(records):
            lines, state = self.ask(b"".join(records[: stop + 1]))
        self.data += b"".join(records[: len(lines)])
        self.lines += len(lines)
        self.state = state or EMPTY
        return lines, stop

    def record(self, data):
        if data[2] == 1:
            self.__init__(self.program)
            self.n, self.d = data[4:6]
        return self.hand([data])[0]

    def layer(self, layer):
        number = refusal(layer, self.state != EMPTY, self.n, self.d)
        if number:
            return [f"layer {number}", "# cleared 0"] + self.state
        said = "0"
        if layer.pairs:
            lines, stop = self.hand(layer.records())
            said = "0" if stop is None else f"{lines[stop].split()[1]} {stop}"
        return [f"layer {said}", f"# cleared {room(self.d)}"] + self.state


def text(program, case):
    oracle, out = Oracle(program), []
    for x in case:
        out += oracle.layer(x) if isinstance(x, Layer) else oracle.record(x)
    return out


def answers(lines):
    return [x for x in lines if x[0] != "#"]


# ---- what is drawn

def disjoint(r, n, count):
    qubits = r.sample(range(n), 2 * count)
    return list(zip(qubits[::2], qubits[1::2]))


def huge(r):
    """A gate that no cut can decompose: its squares are infinite."""
    return [(1e308 * a, 1e308 * b) for a, b in r.general()]


def gates_of(r):
    """How to draw a gate."""
    return r.choice([r.unitary, r.unitary, r.general, r.sparse, r.phases, r.extreme, r.blocks, lambda: E])


def between(r, n, count):
    """Other records: gates, by matrix or by name, projections, measurements and resets."""
    some = [lambda: gate(*r.pair(n), r.unitary()), lambda: named(*r.pair(n), r.randrange(3)), lambda: r.outcome(n), lambda: r.outcome(n)]
    return [r.choice(some)() for _ in range(count)]


def random_layer(r, n, count, draw=None):
    draw = draw or gates_of(r)
    return layer(disjoint(r, n, count), [draw() for _ in range(count)])


def random_start(r, n, exponent=63):
    return start(n, r.cap(n), exponent, r.choice([0.0, 0.0, 1e-12, 1e-3]), r.choice([0.0, 1e-30]))


def random_case(r, most=64):
    """One to three layers, with other records before, between and behind them."""
    n = r.choice([2, 3, 4, 5, 6, 7, 8, r.randrange(2, most + 1), r.randrange(2, most + 1)])
    items = [random_start(r, n, r.choice([63, 63, 63, 5, 6, 7, 255]))]
    for _ in range(r.choice([1, 1, 2, 3])):
        items += between(r, n, r.choice([0, 0, 1, 3]))
        items.append(random_layer(r, n, r.randint(0, n // 2)))
    return items + between(r, n, r.choice([0, 1]))


PLACES = {"the first": lambda j, k: j == 0, "a middle": lambda j, k: 0 < j < k - 1, "the last": lambda j, k: j == k - 1}


def stopping_case(r, number):
    """A layer that may stop by a number at some pair."""
    n = r.choice([6, 7, 8, 9, 10])
    pairs = disjoint(r, n, r.randint(3, n // 2))
    if number == 7:
        items = [random_start(r, n)] + between(r, n, r.choice([0, 0, 1]))
        gates = [r.choice([r.unitary, r.phases])() for _ in pairs]
        gates[r.randrange(len(pairs))] = huge(r)
    else:
        items = [start(n, r.choice([2, 2, 3]), r.choice([4, 5, 5, 5, 6]))]
        items += [gate(a, a + 1, r.unitary()) for a in r.sample(range(n - 1), r.choice([0, 1, 2]))]
        gates = [r.choice([r.unitary, r.phases])() for _ in pairs]
    return items + [layer(pairs, gates)] + between(r, n, r.choice([0, 1]))


def stops_at(case, lines, number, place):
    """Whether its one layer stops by the number at such a pair."""
    [of] = [x for x in case if isinstance(x, Layer)]
    [said] = [x.split() for x in answers(lines) if x.startswith("layer")]
    return said[1] == str(number) and PLACES[place](int(said[2]), len(of.pairs) // 2)


def outside(r, n):
    """A pair that 4 refuses."""
    q, bad = r.randrange(n), r.choice([n, n, n + 1, 64, 255])
    return r.choice([(q, bad), (bad, q), (q, q), (bad, bad)])


def meeting(r, own, others):
    """A pair that names a qubit of one of the others, in either place; and beside it one of its own, or another of theirs."""
    q = r.choice(r.choice(others))
    beside = r.choice([*own, *own, *(x for x in r.choice(others) if x != q)])
    return r.choice([(q, beside), (beside, q)])


def refused_layer(r, n, count, wrong):
    """wrong: by place, which of 4, 9 and 5 is its pair's."""
    pairs = disjoint(r, n, count)
    gates = [r.not_finite() if wrong.get(k) == 5 else r.phases() for k in range(count)]
    drawn = dict(enumerate(pairs))
    for place, number in wrong.items():
        if number == 4:
            pairs[place] = outside(r, n)
        if number == 9:
            pairs[place] = meeting(r, drawn[place], [p for k, p in drawn.items() if k not in wrong])
    return layer(pairs, gates)


# ---- the cases

cases = []  # category, name, items, what its layers answer (or None)


def add(category, name, items, said=None):
    cases.append((category, name, items, said))


def counts(r):
    for count in [*range(9), *range(9), 10, 12, 16]:
        n = r.randint(max(2 * count, 2), max(2 * count, 4) + 2)
        draw = r.choice([r.unitary, r.general, r.sparse, r.phases])
        add("0 to 32 pairs", f"{count} of n {n}", [random_start(r, n), random_layer(r, n, count, draw)], ["layer 0"])
    for count in (16, 24, 31, 32):
        n = r.randint(2 * count, min(2 * count + 2, 64))
        add("0 to 32 pairs", f"{count} of n {n}", [start(n, 1), random_layer(r, n, count, r.unitary)], ["layer 0"])


def permutations(r):
    for k in range(12):
        n = r.choice([4, 5, 6, 8])
        items = [start(n, r.cap(n), r.choice([5, 63]))]
        for _ in range(2):
            items += [random_layer(r, n, r.randint(1, n // 2), r.phases), r.outcome(n)]
        add("permutation and phase gates", f"{k}: n {n}", items, ["layer 0"] * 2)


def empty(r):
    for n, d in [(1, 1), (1, 4), (2, 2), (64, 1)]:
        add("no pairs", f"n {n} D {d}", [start(n, d), layer([], []), r.outcome(n), layer([], [])], ["layer 0"] * 2)


def stops(r, program):
    """Drawn until there are three of each."""
    for number in (6, 7):
        for place in PLACES:
            found = 0
            while found < 3:
                case = stopping_case(r, number)
                if stops_at(case, text(program, case), number, place):
                    found += 1
                    add(f"stopped by {number}", f"at {place}, {found}", case)


def last_alone(r):
    for number in (4, 9, 5):
        for k in range(6):
            n, count = r.choice([(6, 3), (7, 3), (8, 4), (2, 1)] if number != 9 else [(6, 3), (7, 3), (8, 4)])
            items = [start(n, 1), *between(r, n, 1), refused_layer(r, n, count, {count - 1: number})]
            add("4, 9 or 5 at the last pair alone", f"{number}, {k}", items, [f"layer {number}"])


def orders(r):
    for numbers in [(4, 9, 5), (4, 5, 9), (9, 4, 5), (9, 5, 4), (5, 4, 9), (5, 9, 4), (4, 9), (9, 4), (4, 5), (5, 4), (9, 5), (5, 9)]:
        for _ in range(2):
            count = len(numbers) + r.randint(1, 2)
            wrong = dict(zip(sorted(r.sample(range(count), len(numbers))), numbers))
            items = [start(2 * count, 1), refused_layer(r, 2 * count, count, wrong)]
            add("4, 9 and 5 in every order of places", f"{wrong}", items, [f"layer {4 if 4 in numbers else 9}"])


def too_many(r):
    """33 pairs: among 66 indices below 64 one comes twice."""
    gates = lambda: [r.phases() for _ in range(33)]
    add("33 pairs", "of two qubits", [start(2, 1), layer([(0, 1)] * 33, gates())], ["layer 9"])
    add("33 pairs", "64 qubits, and one twice", [start(64, 1), layer(disjoint(r, 64, 32) + [(5, 60)], gates())], ["layer 9"])
    add("33 pairs", "and the last gate a NaN", [start(3, 1), layer([(0, 1)] * 33, gates()[:32] + [r.not_finite()])], ["layer 9"])
    add("33 pairs", "the last with index 64", [start(4, 1), layer([(0, 1)] * 32 + [(0, 64)], gates())], ["layer 4"])
    add("33 pairs", "the last a qubit with itself", [start(4, 1), layer([(0, 1)] * 32 + [(2, 2)], gates())], ["layer 4"])


def lengths(r):
    """Slices that do not agree; each also where the layer has a fault that a later number is for."""
    for count in (0, 1, 2, 3):
        n = max(2 * count, 2) + r.randint(0, 1)
        of = random_layer(r, n, count, r.phases)
        b, g = list(of.pairs), of.gates
        wrong = [("a byte more", b + [0], g), ("a number more", b, g + [0.0]), ("a gate more", b, g + numbers(E)), ("a pair more", b + [0, 0], g)]
        if count:
            wrong += [("a byte fewer", b[:-1], g), ("a number fewer", b, g[:-1]), ("16 numbers a pair", b, g[: 16 * count])]
            wrong += [("a pair fewer", b[:-2], g), ("a byte a pair", b[:count], g), ("no numbers", b, []), ("a NaN more", b, g + [NAN])]
        for what, pairs, gates in wrong:
            add("lengths that do not agree", f"{count} pairs, {what}", [start(n, 1), Layer(pairs, gates)], ["layer 2"])


def short(r):
    for n, d in [(2, 1), (3, 2), (2, 3), (8, 4)]:
        store, work = 4 * n * d * d, room(d)
        of = lambda **more: layer([(1, 0)], [r.unitary()], **more)
        bad = lambda **more: layer([(1, 1)], [r.not_finite()], **more)
        items = [start(n, d), of(store=store, work=work), of(store=store - 1, work=work), of(store=store, work=work - 1)]
        add("short slices", f"n {n} D {d}", items, ["layer 0", "layer 2", "layer 2"])
        items = [start(n, d), layer([], [], store=store - 1), bad(work=work - 1), bad(store=0, work=0), bad()]
        add("short slices", f"n {n} D {d}, no pairs, or bad ones", items, ["layer 2"] * 3 + ["layer 4"])
    for d in (5, 8):
        items = [start(2, d), layer([(0, 1)], [r.unitary()]), layer([], []), layer([(0, 0)], [r.not_finite()])]
        add("short slices", f"n 2 D {d}: work too short", items, ["layer 2"] * 3)


def unsound(r):
    """The record of a refused start, which is all zero: 3 before all else."""
    layers = [layer([], []), layer([(0, 1)], [r.phases()]), Layer([0], [0.0]), layer([(1, 1)], [r.not_finite()], store=0, work=0)]
    add("the all-zero record", "of a refused start", [start(0, 1), *layers], ["layer 3"] * 4)


def in_turn(r):
    for k in range(30):
        add("layers among other records", f"{k}", random_case(r, 12))


def make_cases(program):
    draw = lambda category: Draw(f"{SEED} layers: {category}")
    counts(draw("counts"))
    permutations(draw("permutations"))
    empty(draw("empty"))
    stops(draw("stops"), program)
    last_alone(draw("last"))
    orders(draw("orders"))
    too_many(draw("too many"))
    lengths(draw("lengths"))
    short(draw("short"))
    unsound(draw("unsound"))
    in_turn(draw("in turn"))


def main():
    if len(sys.argv) != 2:
        sys.exit(__doc__)
    program = str(pathlib.Path(sys.argv[1]) / "oracle_run")
    made, told, out = collections.Counter(), collections.Counter(), []
    make_cases(program)
    for category, name, items, said in cases:
        lines = text(program, items)
        layers = [x for x in answers(lines) if x.startswith("layer")]
        if said is not None and layers != said:
            sys.exit(f"{category}, {name}: {layers}, and the documents have {said}")
        made[category] += 1
        told.update(" ".join(x.split()[:2]) for x in layers)
        out += lines
    (PROGRAM / "stdin").write_bytes(listed(items for _, _, items, _ in cases))
    (PROGRAM / "stdout").write_text("".join(f"{x}\n" for x in out))
    for table in (made, told):
        for name, count in table.items():
            print(f"{count:6} {name}")
    sizes = [(PROGRAM / name).stat().st_size for name in ("stdin", "stdout")]
    print(f"{len(cases)} cases with {sum(told.values())} layers, {sizes[0]} bytes in, {sizes[1]} bytes out")


if __name__ == "__main__":
    main()
