#!/usr/bin/env python3
"""Lists the places that docs/DESIGN-PASS.md counts, in the src/ of every crate, by text alone; a reader judges each.

    tools/places.py [FOLDER]    the repository in FOLDER, else this one

Points: 1 enums, flags and number codes; 2 functions of one name in several crates, and of one body but for names and numbers;
3 loops; 4 conversions, tests and orders by hand; 5 facts that three or more contracts repeat, and parameters that three or
more functions share; 6 slices with a length or an index beside them; 7 switches on a number; 8 answers and lemma files."""
import collections
import pathlib
import re
import sys

TOP = pathlib.Path(sys.argv[1] if len(sys.argv) > 1 else pathlib.Path(__file__).resolve().parent.parent)


def sources():
    for path in sorted((TOP / "crates").glob("*/src/**/*.rt")):
        yield path.relative_to(TOP / "crates").parts[0], re.sub(r"//.*", "", path.read_text())


def lines(pattern):
    return [f"{crate}: {line.strip()}" for crate, text in sources() for line in text.splitlines() if re.search(pattern, line)]


def functions():
    """Each function as crate, name, head (with its clauses) and body."""
    for crate, text in sources():
        for m in re.finditer(r"^( *)((?:pub )?(?:extern \"C\" )?fn (\w+).*?)((?:^\1\{| \{$)$.*?^\1\}$)", text, re.M | re.S):
            yield crate, m[3], m[2], m[4]


def one_name():
    crates = collections.defaultdict(list)
    for crate, name, _, _ in functions():
        crates[name].append(crate)
    return [f"{name}: {', '.join(sorted(c))}" for name, c in sorted(crates.items()) if len(c) > 1 and name != "main"]


def one_shape():
    """Bodies that are the same once their words and numbers are blanked, of at least four lines."""
    shapes = collections.defaultdict(list)
    for crate, name, _, body in functions():
        text = re.sub(r"\s+", " ", body)
        if body.count("\n") >= 4:
            shapes[re.sub(r"\w+", "w", text)].append(f"{crate}::{name}")
    return [", ".join(f) for f in shapes.values() if len(f) > 1]


def shared_facts():
    facts = collections.defaultdict(set)
    for crate, name, head, _ in functions():
        for clause in re.findall(r"requires[^{]*\{(.*)\}$", head, re.M):
            for fact in clause.split("×"):
                facts[fact.strip(" ()")].add(f"{crate}::{name}")
    return [f"{fact}: {len(f)}" for fact, f in sorted(facts.items(), key=lambda x: -len(x[1])) if len(f) > 2]


def shared_parameters():
    """Runs of three or more parameters, with their types, that three or more functions have."""
    groups = collections.defaultdict(set)
    for crate, name, head, _ in functions():
        inside = re.search(r"\((.*?)\)(?: ->|\s|$)", head, re.S)
        parameters = [re.sub(r"\s+", " ", p.strip()) for p in inside[1].split(",") if p.strip()] if inside else []
        for i in range(len(parameters) - 2):
            groups[", ".join(parameters[i : i + 3])].add(f"{crate}::{name}")
    return [f"({g}): {len(f)}" for g, f in sorted(groups.items(), key=lambda x: -len(x[1])) if len(f) > 2]


def proofs():
    count = lambda pattern: len(list((TOP / "crates").glob(pattern)))
    answers = sum(len(re.findall(r"^pub ", p.read_text(), re.M)) for p in (TOP / "crates").glob("*/proofs/**/Answers.antt"))
    size = sum(len(p.read_text().splitlines()) for name in ("Answers", "Invariants") for p in (TOP / "crates").glob(f"*/proofs/**/{name}.antt"))
    return [f"Answers.antt: {count('*/proofs/**/Answers.antt')}, with {answers} answers", f"Invariants.antt: {count('*/proofs/**/Invariants.antt')}", f"their lines: {size}"]


POINTS = {
    "1 enums": lines(r"^(pub )?enum "),
    "1 flags in a struct": lines(r"^ +(pub )?\w+: bool,$"),
    "1 numbers for a refusal or a kind": lines(r"refused: u8|number: u8|-> u8$|kind: u(8|16)|code: u8|Refused\(u8\)|, u8>;"),
    "2 functions of one name": one_name(),
    "2 functions of one shape": one_shape(),
    "3 loops with a count by hand": lines(r"^ *(while|let \w+ = loop|loop)\b"),
    "3 loops over a range": lines(r"^ *for \w+ in [^&]*\.\."),
    "3 loops over items": lines(r"^ *for .* in (&|(?!.*\.\.))|\.iter\(\)|\.iter_mut\(\)|from_fn|copy_within|copy_from_slice|\.fill\("),
    "4 conversions": lines(r"fn (wide|from_bits|to_bits|u8_at|u16_at|u32_at|u64_at|name_of)\b"),
    "4 tests and orders": lines(r"\b(\w+(\.\w+)?) != \1\b|fn (is_nan|finite|is_less|is_done|center_known|smaller|larger|least)\b"),
    "4 operations of a number type as functions": lines(r"fn (add|sub|neg|mul|conj|norm_sqr|scale|unscale|is_zero)\(\w+: Complex"),
    "4 printing": lines(r"fn (hex_digit|hex_text|put_hex|put_decimal|write_decimal|write_hex|show_reason|bit_digit|bit)\b"),
    "5 facts in three or more contracts": shared_facts(),
    "5 parameters that travel together": shared_parameters(),
    "6 fixed arrays": lines(r"\[[\w.]+; \w+\]"),
    "6 lengths beside a slice": lines(r"\b(written|pending|used|wide|chi_kept|n): usize\b"),
    "7 switches on a number": lines(r"^ *match (kind|code|i|answer)\b"),
    "8 proofs": proofs(),
}

for point, found in POINTS.items():
    print(f"{point}: {len(found)}")
    for place in found:
        print(f"    {place}")
