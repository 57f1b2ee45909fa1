#!/usr/bin/env python3
"""Brings the repository's own definitions and lemmas to snake case, once: `siteOf` and `site-of` become `site_of`.

usage: python3 tools/snake_names.py FOLDER      the top of the repository; files are rewritten in place

What specs/ and the lemma files of proofs/ declare is renamed there, in the contracts, in the proofs, in the must-fail
edits and in the pages. Types keep their capitals. A name that a file brings in from a library stays in that file, and a
lemma that would meet a function's name gets `_lem`. A line 'look:' says where two names now read alike in one file.
"""
import collections
import glob
import re
import sys

TOKEN = re.compile(r"[^\s(){}\[\].;,@\"«»`]+")
DECLARED = re.compile(r"^(?:(?:pattern|unfoldable|abbrev|pub|axiom) )*(?:(?:record|data) )?([^\s(){}.;,@\"«»:]+)(?: [^:=]*)? :(?: |$)")
MEMBER = re.compile(r"^ +(?:pub )?([^\s(){}.;,@\"«»:]+) :(?: |$)")
USE = re.compile(r"^(?:ghost )?use ([^\s;{]+?)(?:\.\{([^}]*)\})?(?: as (\S+?))?;?$")


def snake(name):
    words = re.sub(r"(?<=[a-z0-9])[A-Z](?![A-Z]*[a-z]*['′]*[A-Z])", lambda m: "_" + m[0].lower(), name)
    words = re.sub(r"(?<=[a-z0-9])[A-Z]", lambda m: "_" + m[0].lower(), words)
    return words.replace("-", "_")


def odd(name):
    return name[0].islower() and re.search(r"[a-z0-9][A-Z]|\w-\w", name)


def specs(top):
    return sorted(glob.glob(f"{top}/crates/*/specs/**/*.antt", recursive=True) + glob.glob(f"{top}/crates/*/proofs/*.antt"))


def declared(top):
    names, members, others = collections.defaultdict(set), set(), set()
    for path in specs(top):
        for line in open(path):
            if line.startswith(("--", "use ")):
                continue
            found = DECLARED.match(line) or MEMBER.match(line)
            if found and not odd(found[1]):
                others.add(found[1])
            if found and odd(found[1]):
                names[found[1]].add(path)
                if line[0] == " ":
                    members.add(found[1])
    return names, members, others


def own_crates(top):
    return {line.split(":")[0].strip() for line in open(f"{top}/crates.txt") if ":" in line and not line.startswith("#")}


def brought(text, own):
    """The names that the file takes from libraries, and those that it takes from the repository."""
    theirs, ours = set(), set()
    for line in text.splitlines():
        found = USE.match(line)
        if found:
            steps = found[1].split(".")
            mine = steps[0] == "Rattle" and len(steps) > 1 and steps[1] in own
            names = {n.split(" as ")[0].strip() for n in (found[2] or "").split(",")}
            (ours if mine else theirs).update(names)
    return theirs, ours


def turned(text, names, skip, after_dot, comment):
    """The text with the names renamed. A comment's words are renamed only where they can be nothing else."""
    out = []
    for line in text.split("\n"):
        code, note = line, ""
        cut = re.search(comment, line)
        if cut:
            code, note = line[:cut.start()], line[cut.start():]

        def one(m):
            t = m[0]
            if t not in names or t in skip:
                return t
            if m.start() and code[m.start() - 1] == "." and t not in after_dot:
                return t
            return names[t]

        code = TOKEN.sub(one, code)
        note = re.sub(r"[A-Za-z][\w'-]*", lambda m: names[m[0]] if m[0] in names and (re.search(r"[a-z0-9][A-Z]", m[0]) or "`" in note[:m.start()][-1:]) else m[0], note)
        out.append(code + note)
    return "\n".join(out)


def main(top):
    own = own_crates(top)
    found, members, others = declared(top)
    others |= {n for path in specs(top) for n in brought(open(path).read(), own)[0]}
    names = {n: snake(n) for n in found}
    for n in sorted(names):
        other = snake(n)
        alike = [m for m in names if names[m] == other and m != n] + [m for m in others if m == other]
        if alike and "-" in n:
            print(f"look: {n} would meet {alike}: {other}_lem")
            names[n] = other + "_lem"
    changed = 0
    where = specs(top)
    proofs = sorted(set(glob.glob(f"{top}/crates/*/proofs/**/*.antt", recursive=True)) - set(where))
    for path in where + proofs + sorted(glob.glob(f"{top}/crates/*/src/*.rt")) + sorted(glob.glob(f"{top}/crates/*/must-fail/*.edit")):
        text = open(path).read()
        theirs, ours = brought(text, own)
        mine = names
        if path in proofs:
            mine = {n: names[n] for n in names if n in ours or n in members}
        elif path.endswith(".rt"):
            mine = {n: names[n] for n in names if n in ours or n in members}
        theirs -= ours
        before = set(TOKEN.findall(text))
        for n in mine:
            if n in before and n not in theirs and mine[n] in before and mine[n] != n:
                print(f"look: {path}: {n} meets {mine[n]}")
        new = turned(text, mine, theirs, set(mine) if path not in proofs else members | ours, r"(^|\s)--(\s|$)" if path.endswith(".antt") else r"(^|\s)(//|#)(\s|$)")
        if new != text:
            changed += 1
            open(path, "w").write(new)
    for path in sorted(glob.glob(f"{top}/**/*.md", recursive=True)) + [f"{top}/tests/checks.py"]:
        if "/target/" in path:
            continue
        text = open(path).read()

        def quoted(m):
            return re.sub(r"[A-Za-z][\w'-]*", lambda t: names.get(t[0], t[0]), m[0])

        new = re.sub(r"`[^`\n]*`", quoted, text) if path.endswith(".md") else text
        if new != text:
            changed += 1
            open(path, "w").write(new)
    print(f"{len(names)} names, {changed} files")


main(sys.argv[1].rstrip("/"))
