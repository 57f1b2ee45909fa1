#!/usr/bin/env python3
"""Fresh random layers through the port: against the Rust's gates one by one, and against the bits-and-phase machine.

    python3 tests/oracle/layers.py OUT [--seeds N] [--from SEED] [--jobs N] [--program FILE]

OUT has the oracle (build_oracle.py), FILE, crates/layer_replay/out/layer_replay by default, is the program (rt ci). Each
seed draws 200 cases with a layer of 0 to 32 pairs, and more beside it, for the oracle: answers, numbers that the work
slice has +0, whole states and environments. And it draws 40 lists on fresh chains with gates of one entry in each row and
column, 1, -1, i or -i, for the machine: every answer, and after each layer that all bonds are 1 and nothing is discarded,
that the entries at the machine's bits multiply to its phase, and that all others are zero.
"""
import argparse
import collections
import multiprocessing
import pathlib
import struct
import subprocess
import sys

import make_layers
from make_layers import INF, Draw, Layer, layer
from make_list import gate, measure, named, project, reset, start

TOP = pathlib.Path(__file__).resolve().parent.parent.parent


def run(program, cases):
    """What the program writes for each item of each case."""
    p = subprocess.run([program], input=make_layers.listed(cases), stdout=subprocess.PIPE, timeout=60)
    if p.returncode:
        sys.exit(f"{program} ended with {p.returncode}")
    items = []
    for line in p.stdout.decode().splitlines():
        items[-1].append(line) if line[0] == "#" else items.append([line])
    items.reverse()
    return [[items.pop() for _ in case] for case in cases]


# ---- against the oracle

def whole_layer(r):
    """A layer of 0 to 32 pairs, now and then behind or before other records."""
    count = r.randint(0, 32)
    n = max(2, min(64, 2 * count + r.choice([0, 0, 1, 2, r.randrange(33)])))
    items = [make_layers.random_start(r, n), *make_layers.between(r, n, r.choice([0, 0, 0, 2]))]
    return [*items, make_layers.random_layer(r, n, count), *make_layers.between(r, n, r.choice([0, 0, 1]))]


def refused(r):
    count = r.randint(4, 8)
    numbers = r.sample([4, 9, 5], r.randint(1, 3))
    wrong = dict(zip(r.sample(range(count), len(numbers)), numbers))
    return [start(2 * count, 1), *make_layers.between(r, 2 * count, 1), make_layers.refused_layer(r, 2 * count, count, wrong)]


KINDS = {
    "of 0 to 32 pairs": (120, whole_layer),
    "in turn": (30, make_layers.random_case),
    "that may stop by 6": (20, lambda r: make_layers.stopping_case(r, 6)),
    "that may stop by 7": (10, lambda r: make_layers.stopping_case(r, 7)),
    "with 4, 9 and 5": (20, refused),
}


def against_oracle(r, oracle, program, count):
    kinds = [name for name, (times, _) in KINDS.items() for _ in range(times)]
    cases, faults = [KINDS[name][1](r) for name in kinds], []
    for k, (name, case, got) in enumerate(zip(kinds, cases, run(program, cases), strict=True)):
        want = make_layers.text(oracle, case)
        if [line for item in got for line in item] != want:
            faults.append(f"case {k}, a layer {name}")
        for x, lines in zip(case, got, strict=True):
            if isinstance(x, Layer):
                pairs = len(x.pairs) // 2
                said = lines[0].split()[1:]
                count[f"layers {name}"] += 1
                count["figures of bonds"] += len(lines[4].split()) - 4
                if said == ["0"]:
                    count[f"accepted, of {pairs:2} pairs"] += 1
                elif len(said) == 1:
                    count[f"refused by {said[0]}"] += 1
                else:
                    place = next(name for name, holds in make_layers.PLACES.items() if holds(int(said[1]), pairs))
                    count[f"stopped by {said[0]} at {place} pair"] += 1
    return faults


# ---- against the machine

PHASES = [(1.0, 0.0), (0.0, 1.0), (-1.0, 0.0), (0.0, -1.0)]
NAMED = [{0: 0, 1: 2, 2: 1, 3: 3}, {0: 0, 1: 1, 2: 3, 3: 2}, {0: 0, 1: 1, 2: 2, 3: 3}]


class Machine:
    """A bit for each of n qubits, and a phase: i to the power that is held. Each call answers as its line would."""

    def __init__(self, n, d):
        self.n, self.d, self.bits, self.power = n, d, [0] * n, 0

    def move(self, q0, q1, entries):
        """The row of the nonzero entry in the column of the two bits; the phase is multiplied by the entry."""
        column = 2 * self.bits[q0] + self.bits[q1]
        [row] = [k for k in range(4) if entries[4 * k + column] != (0.0, 0.0)]
        self.bits[q0], self.bits[q1] = divmod(row, 2)
        self.power += PHASES.index(entries[4 * row + column])

    def outside(self, q0, q1):
        return q0 >= self.n or q1 >= self.n or q0 == q1

    def gate(self, q0, q1, entries):
        number = 4 if self.outside(q0, q1) else 0 if all(abs(x) < INF for z in entries for x in z) else 5
        if not number:
            self.move(q0, q1, entries)
        return f"2 {number}"

    def named(self, q0, q1, code):
        if self.outside(q0, q1):
            return "3 4"
        entry = lambda k: (0.0, 0.0) if NAMED[code][k % 4] != k // 4 else (-1.0, 0.0) if (code, k) == (2, 15) else (1.0, 0.0)
        self.move(q0, q1, [entry(k) for k in range(16)])
        return "3 0"

    def project(self, q, bit):
        return "4 4" if q >= self.n else f"4 0 {'3FF0000000000000' if self.bits[q] == bit else '0' * 16}"

    def measure(self, q, flag, draw):
        return "5 4" if q >= self.n or flag > 63 else f"5 0 {self.bits[q]}" if 0 <= draw < 1 else "5 5"

    def reset(self, q, draw):
        number = 4 if q >= self.n else 0 if 0 <= draw < 1 else 5
        if not number:
            self.bits[q] = 0
        return f"6 {number}"

    def refusal(self, x):
        """Of a layer, tried in the order 2, 4, 9, 5."""
        count, odd = divmod(len(x.pairs), 2)
        pairs = [(x.pairs[2 * k], x.pairs[2 * k + 1]) for k in range(count)]
        named = [q for pair in pairs for q in pair]
        if odd or len(x.gates) != 32 * count or x.store < 4 * self.n * self.d**2 or x.work < 80 * self.d**2 + 16 * self.d:
            return 2
        if any(self.outside(*pair) for pair in pairs):
            return 4
        if len({*named}) < len(named):
            return 9
        return 0 if all(abs(g) < INF for g in x.gates) else 5

    def layer(self, x):
        number = self.refusal(x)
        for k in range(0 if number else len(x.pairs) // 2):
            parts = x.gates[32 * k : 32 * k + 32]
            self.move(*x.pairs[2 * k : 2 * k + 2], list(zip(parts[::2], parts[1::2])))
        return f"layer {number}"

    def holds(self, state):
        """Whether a state is of bonds 1 with nothing discarded, and its entries at the bits multiply to the phase, others zero."""
        qubits = [int(q) for q in state[1].split()[4:]]
        if " high 1 discarded 0000000000000000 " not in state[0] or {*state[2].split()[4:]} - {"0" * 16}:
            return False
        product = (1.0, 0.0)
        for q, line in zip(qubits, state[3 : 3 + self.n], strict=True):
            head, _, entries = line.partition(" : ")
            x = [struct.unpack(">d", bytes.fromhex(word))[0] for word in entries.split()]
            at, other = (x[2:], x[:2]) if self.bits[q] else (x[:2], x[2:])
            if not head.endswith("bonds 1 1") or len(x) != 4 or other != [0.0, 0.0]:
                return False
            (a, b), (c, d) = product, at
            product = a * c - b * d, a * d + b * c
        return product == PHASES[self.power % 4]


def layer_for_machine(r, machine):
    """As the machine accepts it, or with some faults; one refused by 2, 4 or 9 may have any gates."""
    n = machine.n
    count = r.randint(0, n // 2)
    pairs = make_layers.disjoint(r, n, count)
    x = layer(pairs, [r.phases() for _ in pairs])
    if r.random() < 0.6:
        return x
    if r.random() < 0.5 and count > 1:
        a, b = r.sample(range(2 * count), 2)
        x.pairs = x.pairs[:a] + bytes([x.pairs[b]]) + x.pairs[a + 1 :]
    if r.random() < 0.3 and count:
        a = r.randrange(2 * count)
        x.pairs = x.pairs[:a] + bytes([r.choice([n, 64, 255, x.pairs[a ^ 1]])]) + x.pairs[a + 1 :]
    if r.random() < 0.4 and count:
        x.gates[r.randrange(32 * count)] = r.choice([INF, -INF, float("nan")])
    if r.random() < 0.2:
        x.gates = x.gates + [0.0] if r.random() < 0.5 else x.gates[:-1]
    if r.random() < 0.1:
        x.pairs = x.pairs + b"\0" if r.random() < 0.5 else x.pairs[:-1]
    if r.random() < 0.1:
        x.work = r.randrange(80 * machine.d**2 + 16 * machine.d)
    if r.random() < 0.1:
        x.store = r.randrange(4 * n * machine.d**2)
    if machine.refusal(x) in (2, 4, 9) and r.random() < 0.5:
        x.gates = [g * r.small() for g in x.gates]
    return x


def call_for_machine(r, machine):
    """A record, and what the machine answers to it."""
    q = r.choice([r.randrange(machine.n)] * 9 + [machine.n])
    draw = r.choice([r.draw()] * 9 + [1.0, -0.5, float("nan")])
    entries = r.phases() if r.random() < 0.9 else r.not_finite()
    pair = r.pair(machine.n) if r.random() < 0.9 else [q, q]
    flag, bit, code = r.choice([0, 5, 63, 64]), r.randrange(2), r.randrange(3)
    make, answer, args = r.choice(
        [
            (project, machine.project, (q, bit)),
            (project, machine.project, (q, bit)),
            (measure, machine.measure, (q, flag, draw)),
            (reset, machine.reset, (q, draw)),
            (gate, machine.gate, (*pair, entries)),
            (named, machine.named, (*pair, code)),
        ]
    )
    return make(*args), answer(*args)


def list_for_machine(r):
    """Calls on a fresh chain, and behind each what the machine has to say: its line, and of a layer the test of the state."""
    n = r.choice([2, 3, 4, 5, 6, r.randrange(2, 65), 64])
    d = r.cap(n)
    machine, case, wants = Machine(n, d), [start(n, d, r.choice([5, 5, 6, 63, 255]), r.choice([0.0, 1e-12, 0.5]), r.choice([0.0, 1e-30, 0.5]))], []
    wants.append("1 0")
    for _ in range(r.randint(3, 9)):
        if r.random() < 0.5:
            x = layer_for_machine(r, machine)
            want = machine.layer(x)
        else:
            x, want = call_for_machine(r, machine)
        case.append(x)
        wants.append((want, machine.bits[:], machine.power) if isinstance(x, Layer) else want)
    return machine, case, wants


def against_machine(r, program, count):
    lists, faults = [list_for_machine(r) for _ in range(40)], []
    for k, ((machine, case, wants), got) in enumerate(zip(lists, run(program, [case for _, case, _ in lists]), strict=True)):
        for x, want, lines in zip(case, wants, got, strict=True):
            if isinstance(x, Layer):
                want, machine.bits, machine.power = want
                count[f"machine: layers answered {want.split()[1]}"] += 1
                count["machine: pairs of accepted layers"] += len(x.pairs) // 2 if want == "layer 0" else 0
                if not machine.holds(lines[2:]):
                    faults.append(f"list {k}: the state behind a layer that the machine answers by {want}")
            else:
                count[f"machine: records answered {want[:3]}"] += 1
            if lines[0] != want:
                faults.append(f"list {k}: {lines[0]}, and the machine {want}")
    return faults


def one_seed(job):
    oracle, program, seed = job
    count = collections.Counter()
    faults = against_oracle(Draw(f"{seed} layers"), oracle, program, count)
    faults += against_machine(Draw(f"{seed} machine"), program, count)
    return count, [f"seed {seed}, {f}" for f in faults]


def main():
    p = argparse.ArgumentParser(description=__doc__, formatter_class=argparse.RawDescriptionHelpFormatter)
    p.add_argument("out")
    p.add_argument("--seeds", type=int, default=30)
    p.add_argument("--from", type=int, default=1000, dest="first")
    p.add_argument("--jobs", type=int, default=2)
    p.add_argument("--program", default=str(TOP / "crates/layer_replay/out/layer_replay"))
    a = p.parse_args()
    oracle = str(pathlib.Path(a.out) / "oracle_run")
    total, faults = collections.Counter(), []
    with multiprocessing.Pool(a.jobs) as pool:
        for count, found in pool.imap_unordered(one_seed, [(oracle, a.program, a.first + k) for k in range(a.seeds)]):
            total.update(count)
            faults += found
    for name, count in sorted(total.items()):
        print(f"{count:8} {name}")
    for f in faults[:20]:
        print(f)
    print(f"{len(faults)} differences")
    sys.exit(1 if faults else 0)


if __name__ == "__main__":
    main()
