#!/usr/bin/env python3
"""The must-fail edits, by the promise that each breaks. Writes docs/EDITS.md; tests/checks.py holds the page to it.

An edit's first line is '# Breaks NAME: SENTENCE'. NAME is a public function or one of a program, as crate::function, or a
definition or a theorem of specs/ or proofs/; SENTENCE is what holds and the edited crate does not do."""
import pathlib
import re

TOP = pathlib.Path(__file__).resolve().parent.parent
CRATES = TOP / "crates"
PAGE = TOP / "docs/EDITS.md"
HEAD = """# Must-fail edits

Wrong programs and wrong definitions that the checker refuses, each under the promise that it breaks, with the sentence that holds and that the edited crate does not keep. An edit is `crates/CRATE/must-fail/EDIT.edit`; the tests apply each to a copy of its crate and fail unless the copy is refused. Made by `tests/edits.py` from the edits' first lines.
"""


def edits():
    """Each edit as (crate, name, promise, sentence)."""
    out = []
    for path in sorted(CRATES.glob("*/must-fail/*.edit")):
        m = re.match(r"# Breaks (\S+): (\S.*)\n", path.read_text())
        out.append((path.parent.parent.name, path.stem, *(m.groups() if m else (None, None))))
    return out


def defined():
    """The definitions, laws and promises, by name, each with its files: a definition before a law of the same name."""
    names = {}
    files = [*CRATES.glob("*/specs/**/*.antt"), *CRATES.glob("*/proofs/*.antt"), *CRATES.glob("*/proofs/Laws/**/*.antt")]
    for path in sorted(files, key=lambda p: ("proofs" in p.parts, p)):
        text = path.read_text()
        promised = re.search(r"^pub record Promised .*\n((?:  .*\n|\n)*)", text, re.M)
        fields = re.findall(r"^  pub (\S+) :", promised.group(1), re.M) if promised else []
        for name in fields + re.findall(r"^(?:abbrev |unfoldable )?(?:pub )?(?:record |data )?([^\s:(){}]+) .*?:", text, re.M):
            names.setdefault(name, []).append(path.relative_to(CRATES))
    return names


def functions_of(text):
    """The functions of a source text, as (type or None, name, whether it is public). A trait's methods are as public as the trait."""
    out, owner, of_trait = [], None, False
    for line in text.splitlines():
        block = re.match(r"impl(?:<[^>]*>)? (?:(\S+) for )?(\w+)", line)
        if block:
            owner, of_trait = block.group(2), block.group(1) is not None
        elif line == "}":
            owner = None
        function = re.match(r'( *)(pub )?(?:extern "C" )?fn (\w+)', line)
        if function and (owner is None) == (function.group(1) == ""):
            out.append((owner, function.group(3), bool(function.group(2)) or (owner is not None and of_trait)))
    return out


def named(path, public):
    crate = path.relative_to(CRATES).parts[0]
    return ["::".join(filter(None, (crate, owner, name))) for owner, name, is_public in functions_of(path.read_text()) if is_public or not public]


def public_functions():
    """The public functions and methods, as crate::function and crate::Type::method."""
    return [f for path in sorted(CRATES.glob("*/src/lib.rt")) for f in named(path, True)]


def program_functions():
    """The functions of the programs, as crate::function."""
    return [f for path in sorted(CRATES.glob("*/src/main.rt")) for f in named(path, False)]


def place(promise, crate, names):
    """Where a definition or a theorem stands: in the edit's own crate before another."""
    files = names[promise]
    return next((f for f in files if f.parts[0] == crate), next((f for f in files if f.parts[0] == "model"), files[0]))


def page():
    names = defined()
    contracts, definitions, theorems = [], [], []
    for crate, name, promise, sentence in edits():
        row = f"`{crate}/{name}` | {sentence} |"
        if "::" in promise:
            contracts.append(f"| `{promise}` | {row}")
            continue
        where = place(promise, crate, names)
        group = theorems if {"Laws", "Statements", "Theorems.antt", "Promises.antt"} & set(where.parts) else definitions
        group.append(f"| `{promise}` | `{where}` | {row}")
    text = HEAD
    text += "\n## Contracts\n\n| contract | edit | what holds |\n|---|---|---|\n" + "\n".join(sorted(contracts)) + "\n"
    for title, rows in (("Definitions", definitions), ("Theorems", theorems)):
        text += f"\n## {title}\n\n| name | file under `crates/` | edit | what holds |\n|---|---|---|---|\n" + "\n".join(sorted(rows)) + "\n"
    return text


if __name__ == "__main__":
    PAGE.write_text(page())
