#!/usr/bin/env python3
"""Small cases of compare.py on the kit's interpreter, and compiled anew three ways (rt try), against a built harness.

    python3 interpret.py HARNESS SCRATCH     both as build_harness.py made them; SCRATCH's harness gets smaller arrays

`rt try` allows ten million steps and 1 MiB of output a run. Cases that need more are counted and left out.
"""
import os, re, subprocess, sys
import compare

ROOM = {compare.STORE: 900, compare.WORK: 1400, compare.OUT: 70}

def fits(case):
    return all(s[0] not in ROOM or len(s[1]) <= ROOM[s[0]] for s in case.steps)

def drawn():
    t = compare.Draw("interpreter")
    out = compare.marked(t)
    for cases, count in ((compare.edges(t), 25), (compare.weights(t, 10), 12), (compare.streams(t, 120), 12), (compare.records(t, 60), 6),
                         (compare.not_a_number(t, 30), 4), (compare.workspace(t, 5), 6), (compare.reasons(t, 12), 24)):
        some = [c for c in cases if fits(c)]
        out += t.r.sample(some, min(count, len(some)))
    return out

def tried(cases, harness, scratch):
    """True if all runs wrote the same, None if a run needs too much."""
    data = b"".join(c.bytes() for c in cases)
    out = compare.run(harness, data).stdout
    if len(out) > 1 << 20:
        return None
    for name, content in (("stdin", data), ("stdout", out)):
        with open(os.path.join(scratch, "crates", "harness", name), "wb") as f:
            f.write(content)
    r = subprocess.run(["rt", "try", "harness"], cwd=scratch, stdout=subprocess.PIPE, stderr=subprocess.STDOUT, text=True, errors="replace")
    if "did not finish within" in r.stdout:
        return None
    if r.returncode:
        print("DIFFERENCE", [c.name for c in cases], r.stdout[:500])
    return r.returncode == 0

def main():
    harness, scratch = sys.argv[1], sys.argv[2]
    path = os.path.join(scratch, "crates", "harness", "src", "main.rt")
    text = open(path).read()
    for name, kind in (("STORE", compare.STORE), ("WORK", compare.WORK), ("OUT", compare.OUT)):
        text = re.sub(rf"const {name}: usize = \d+;", f"const {name}: usize = {ROOM[kind]};", text)
    open(path, "w").write(text)
    todo, same, calls, large, differ = drawn(), 0, 0, 0, 0
    todo = [todo[k : k + 6] for k in range(0, len(todo), 6)]
    while todo:
        cases = todo.pop(0)
        ok = tried(cases, harness, scratch)
        if ok:
            same += len(cases)
            calls += sum(s[0] < compare.RECORD for c in cases for s in c.steps)
        elif ok is None and len(cases) > 1:
            todo += [cases[: len(cases) // 2], cases[len(cases) // 2 :]]
        elif ok is None:
            large += 1
        else:
            differ += len(cases)
    print(f"{same} cases, {calls} calls alike on the interpreter and compiled three ways; {large} need too many steps; {differ} differ")
    sys.exit(differ > 0)

main()
