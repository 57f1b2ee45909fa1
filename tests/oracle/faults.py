#!/usr/bin/env python3
"""Put one fault at a time into a copy of the crates, compile it with no proof, and say what notices it.

    python3 tests/oracle/faults.py OUT [NAME ...]      NAME: a crate, or crate/fault; all faults if there is none

OUT has the oracle (build_oracle.py). The faults are the must-fail edits of code, and those of tests/oracle/faults/, which
name their crate on a line `crate:`. A fault is looked for by each of these whose program reaches its crate, until one
notices it; that a program traps or does not end is noticed too.

    list      the stored list, whole states (program replay)
    states    the cases of compare.py, whole states against the oracle (program harness)
    cases     tests/chainrun.py (program chainrun)
    exports   functions called by themselves (program exports): roots against the machine's, sizes against whole
              numbers, both also with guesses handed in; lists of gates against the oracle; an f64's bits, a record's
              lengths, what a run starts from, the named gates and lines against what is promised
"""
import collections, math, os, pathlib, re, signal, struct, subprocess, sys
import build_harness, compare

TOP = pathlib.Path(build_harness.TOP)
sys.path.insert(0, str(TOP / "tests"))
import size_compare, stored

SEED = 1

class Fault:
    def __init__(self, path):
        text = path.read_text()
        field = lambda key: re.findall(rf"^{key}: (.*)$", text, re.M)
        self.crate = (field("crate") or [path.parent.parent.name])[0]
        self.name, self.file = f"{self.crate}/{path.stem}", field("file")[0]
        self.changes = list(zip(field("old"), field("new"), strict=True))

    def applied(self, text):
        for old, new in self.changes:
            if text.count(old) != 1:
                raise SystemExit(f"{self.name}: {old!r} stands at {text.count(old)} places")
            text = text.replace(old, new)
        return text

def faults():
    paths = [*TOP.glob("crates/*/must-fail/*.edit"), *TOP.glob("tests/oracle/faults/*.edit")]
    return sorted((f for f in map(Fault, paths) if f.file.startswith("src/")), key=lambda f: f.name)

# ---------------------------------------------------------------- what may notice a fault
def ran(words, data, timeout):
    """Status and output, or None if it does not end. What it started ends with it."""
    with subprocess.Popen(words, stdin=subprocess.PIPE, stdout=subprocess.PIPE, stderr=subprocess.DEVNULL, start_new_session=True) as p:
        try:
            out, _ = p.communicate(data, timeout=timeout)
            return p.returncode, out
        except subprocess.TimeoutExpired:
            os.killpg(p.pid, signal.SIGKILL)
            return None

def list_differs(program):
    return ran([program], (stored.REPLAY / "stdin").read_bytes(), 60) != (0, (stored.REPLAY / "stdout").read_bytes())

def cases_differ(program):
    return ran([sys.executable, TOP / "tests/chainrun.py", program], b"", 60) != (0, b"")

class States:
    """The cases of compare.py. The oracle's answers are kept, except those of the wide bonds, which are long."""
    def __init__(self, oracle):
        self.oracle, self.kept, self.categories = oracle, {}, compare.categories(1.0, False)
        self.order = list(self.categories)

    def answered(self, category):
        if category in self.kept:
            yield from self.kept[category]
            return
        kept = []
        for c in compare.drawn(SEED, category, self.categories[category]):
            data = c.bytes()
            answer = c, data, compare.run(self.oracle, data)
            if category not in ("middle", "wide"): kept.append(answer)
            yield answer
        if kept: self.kept[category] = kept

    def differ(self, program):
        """The category that notices a fault comes first for the next."""
        for category in list(self.order):
            for c, data, o in self.answered(category):
                try:
                    compare.check(c, o, compare.run(program, data, 60), collections.Counter())
                except (compare.Difference, subprocess.TimeoutExpired):
                    self.order.sort(key=category.__ne__)
                    return True
        return False

class Exports:
    """Words for the program exports, and what it has to write."""
    def __init__(self, oracle):
        t = compare.Draw(SEED)
        self.data, self.want = b"", []
        self.ask = lambda *words: struct.pack(f"<{len(words)}Q", *words)
        numbers = [0.0, -0.0, 1.0, 2.0, 4.0, -1.0, 5e-324, compare.INF, -compare.INF, float("nan"), *compare.near(9.0), *(t.any_number() for _ in range(2000))]
        drawn = size_compare.Pairs(SEED)
        for x in numbers:
            root = self.root(x)
            self.data += self.ask(1, compare.bits(x)) + self.ask(9, compare.bits(x), drawn.wrong(root))
            self.want += [root, root]
        for x, y in [pair[:2] for pair in size_compare.CASES] + size_compare.special() + [drawn.drawn(k) for k in range(2000)]:
            size = size_compare.size(x, y)[0]
            self.data += self.ask(2, x, y) + self.ask(10, x, y, drawn.wrong(size))
            self.want += [size, size]
        for n, d, epsilon, clamp in [(2, 2, 0.0, 0.0), (5, 4, 1e-3, 0.0), (8, 4, 0.3, 1e-30), (20, 2, 0.0, 0.5), (32, 2, 1e-12, 1e-30)]:
            self.gates(t, oracle, n, d, epsilon, clamp)
        for w in [0, 1, compare.BIG, *(s | x for s in (0, 1 << 63) for e in (0x7FF0, 0x7FF8) for x in range((e << 48) - 1, (e << 48) + 2))]:
            self.data += self.ask(4, w)
            self.want.append(compare.canon(w))
        for kind, size in enumerate([0, 19, 258, 3, 2, 10, 9, 0, 0]):
            self.data += self.ask(5, kind)
            self.want += [size, 8]
        self.data += self.ask(6)
        self.want += [0, 0, 0]
        for code, ones in enumerate([[0, 6, 9, 15], [0, 5, 11, 14], [0, 5, 10, 15]]):
            self.data += self.ask(7, code)
            self.want += t.gate_words([0 if k not in ones else -1 if (code, k) == (2, 15) else 1 for k in range(16)])
        for number in range(256):
            self.data += self.ask(8, 255 - number, number)
            self.want += f"{255 - number} {number}\n".encode()

    def root(self, x):
        return compare.bits(math.sqrt(x) if x >= 0 else x if x != x else float("nan"))

    def gates(self, t, oracle, n, d, epsilon, clamp):
        """20 gates on a fresh chain, as calls for the oracle and as records."""
        c, records = compare.Case("exports", ""), b""
        compare.lend(c, t, n, d)
        c.call(compare.START, n, d, compare.bits(epsilon), compare.bits(clamp), 63)
        for _ in range(20):
            pair, gate = t.r.sample(range(n), 2), t.gate_words([z for row in t.unitary() for z in row])
            c.call(compare.GATE, *pair, *gate)
            records += struct.pack("<HHBB32Q", 260, 2, *pair, *gate)
        o = compare.Reader(compare.run(oracle, c.bytes()).stdout)
        for _ in range(21):
            last = compare.told(o)
        store = [w for _, site in last.sites for w in [*site, *[0] * (4 * d * d - len(site))]]
        self.data += self.ask(3, n, d, compare.bits(epsilon), compare.bits(clamp), 20) + records
        self.want += [last.record[327], *compare.runs(store + [0] * (512 - len(store))), *compare.runs([0] * 1344)]

    def differ(self, program):
        return ran([program], self.data, 60) != (0, self.ask(*self.want))

# ---------------------------------------------------------------- the run
def main():
    if len(sys.argv) < 2:
        raise SystemExit(__doc__)
    out, names = os.path.join(os.path.abspath(sys.argv[1]), "faults"), sys.argv[2:]
    oracle, scratch = os.path.join(out, "..", "oracle_calls"), os.path.join(out, "scratch")
    build_harness.lay_out(scratch)
    ways = [("list", "replay", list_differs), ("states", "harness", States(oracle).differ),
            ("cases", "chainrun", cases_differ), ("exports", "exports", Exports(oracle).differ)]
    reach = {program: {program, *build_harness.reached(scratch, program)} for _, program, _ in ways}

    def found(fault):
        for way, program, differs in ways:
            if fault is None or fault.crate in reach[program]:
                build_harness.build(scratch, program, out, ["o3"])
                if differs(os.path.join(out, f"{program}_o3")): return way
        return "nothing"

    count = collections.Counter()
    if not names:
        print("no fault: noticed by", found(None), flush=True)
    for fault in faults():
        if names and not {fault.crate, fault.name} & set(names): continue
        path = pathlib.Path(scratch, "crates", fault.crate, fault.file)
        text = path.read_text()
        path.write_text(fault.applied(text))
        way = found(fault)
        path.write_text(text)
        print(f"{fault.name}: {way}", flush=True)
        count[way] += 1
    print(f"{sum(count.values())} faults:", ", ".join(f"{k} by {way}" for way, k in count.most_common()))

if __name__ == "__main__":
    main()
