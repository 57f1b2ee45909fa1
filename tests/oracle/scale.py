#!/usr/bin/env python3
"""Fresh random streams through the port and the Rust, and a byte-flipping fuzz of `chainrun`.

    python3 tests/oracle/scale.py OUT [--seeds N] [--from SEED] [--fuzz N] [--jobs N] [--programs FOLDER]

OUT has the oracle (build_oracle.py), FOLDER, crates by default, `chainrun/out/chainrun` and `replay/out/replay` (rt ci).
Streams: make_list.py's, drawn anew from each seed; those that are the same at every seed are left out. Where one starts
at exponent 63, an exponent from 63 to 255 is drawn for it. The lines of `chainrun` and the whole states and environments
of `replay` are compared with the oracle's text, and those of `replay` at exponents 63, 64, 200 and 255 with each other.
Fuzz: streams of the stored list with bytes changed, put in, taken out or cut off. `chainrun` has to end by itself, with
status 0 and within ten seconds, and to print what the oracle prints.
"""
import argparse
import collections
import multiprocessing
import pathlib
import random
import struct
import subprocess
import sys

import make_list

TOP = pathlib.Path(__file__).resolve().parent.parent.parent
sys.path.insert(0, str(TOP / "tests"))
import stored

FIXED = {"run cases", "exponents above 63", "refusals 1 and 2", "bad codes, kinds and lengths", "searched for", "overlaps"}


def run(words, data):
    p = subprocess.run(words, input=data, stdout=subprocess.PIPE, stderr=subprocess.PIPE, timeout=10)
    return p.returncode, p.stdout


def one_seed(job):
    oracle, programs, seed = job
    make_list.SEED = seed
    make_list.streams.clear()
    make_list.make_streams()
    r = random.Random(seed)
    plain = [(c, n, data) for c, n, data, _, _ in make_list.streams if c not in FIXED]
    drawn = [(c, n, stored.at_exponent(r.randrange(63, 256), data)) for c, n, data in plain]
    replayed = lambda streams: run([programs / "replay/out/replay"], b"".join(struct.pack("<I", len(d)) + d for d in streams))[1]
    text = replayed(d for _, _, d in drawn)
    count, faults = collections.Counter(), []
    for exponent in (63, 64, 200, 255):
        if replayed(stored.at_exponent(exponent, d) for _, _, d in plain) != text:
            faults.append(f"seed {seed}: whole states at exponent {exponent} differ")
    for (category, name, data), (_, _, before), states in zip(drawn, plain, stored.sections(text.decode()), strict=True):
        want = make_list.kept(make_list.ask(oracle, data))
        lines = stored.answers(want)
        count[category] += 1
        count["raised"] += data != before
        count["records"] += len(lines)
        if states != want:
            faults.append(f"seed {seed}, {category}, {name}: whole states differ")
        if run([programs / "chainrun/out/chainrun"], data)[1].decode().splitlines() != lines:
            faults.append(f"seed {seed}, {category}, {name}: chainrun's lines differ")
    return count, faults


def changed(r, stream):
    b = bytearray(stream)
    for _ in range(r.choice([1, 1, 1, 2, 4])):
        at = r.randrange(len(b) + 1)
        what = r.randrange(6)
        if what < 3 and at < len(b):
            b[at] = (b[at] ^ (1 << r.randrange(8))) if what else r.randrange(256)
        elif what == 3:
            b[at:at] = bytes(r.randrange(256) for _ in range(r.choice([1, 1, 2, 8])))
        elif what == 4:
            del b[at : at + r.choice([1, 1, 2, 8])]
        else:
            del b[at:]
    return bytes(b)


def fuzzed(job):
    oracle, programs, seed, count = job
    r, streams = random.Random(seed), [s for s in stored.streams() if s]
    faults, ends = [], collections.Counter()
    for k in range(count):
        data = changed(r, r.choice(streams))
        try:
            status, text = run([programs / "chainrun/out/chainrun"], data)
        except subprocess.TimeoutExpired:
            faults.append(f"fuzz {seed}/{k}: no end within ten seconds: {data.hex()}")
            continue
        _, want = run([oracle], data)
        ends["0 8" if text.endswith(b"0 8\n") else "end of input"] += 1
        if status or text != want:
            faults.append(f"fuzz {seed}/{k}: status {status}, {text!r}, and the oracle {want!r}: {data.hex()}")
    return ends, faults


def main():
    p = argparse.ArgumentParser(description=__doc__, formatter_class=argparse.RawDescriptionHelpFormatter)
    p.add_argument("out")
    p.add_argument("--seeds", type=int, default=60)
    p.add_argument("--from", type=int, default=1000, dest="first")
    p.add_argument("--fuzz", type=int, default=100000)
    p.add_argument("--jobs", type=int, default=2)
    p.add_argument("--programs", type=pathlib.Path, default=TOP / "crates")
    a = p.parse_args()
    oracle = str(pathlib.Path(a.out) / "oracle_run")
    chunk = 1000
    total, faults, ends = collections.Counter(), [], collections.Counter()
    with multiprocessing.Pool(a.jobs) as pool:
        for count, found in pool.imap_unordered(one_seed, [(oracle, a.programs, a.first + k) for k in range(a.seeds)]):
            total.update(count)
            faults += found
        for found_ends, found in pool.imap_unordered(fuzzed, [(oracle, a.programs, k, min(chunk, a.fuzz - k)) for k in range(0, a.fuzz, chunk)]):
            ends.update(found_ends)
            faults += found
    records, raised = total.pop("records", 0), total.pop("raised", 0)
    for category, count in sorted(total.items()):
        print(f"{count:8} {category}")
    print(f"{sum(total.values())} streams, {raised} at an exponent above 63, {records} records; fuzz: {sum(ends.values())} inputs, {dict(ends)}")
    for f in faults[:20]:
        print(f)
    print(f"{len(faults)} differences")
    sys.exit(1 if faults else 0)


if __name__ == "__main__":
    main()
