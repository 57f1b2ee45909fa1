#!/usr/bin/env python3
"""Writes the crates as Rust, without clauses and proofs, so that Rust's own lints can count what docs/DESIGN-PASS.md counts.

    tools/as_rust.py OUT [FOLDER]    the repository in FOLDER, else this one
    cd OUT && cargo clippy --workspace -- -W clippy::pedantic --cap-lints warn

What only this language has is left out: clauses, ghost items and fields, tactics. A program's host is a stub."""
import pathlib
import re
import sys

OUT = pathlib.Path(sys.argv[1])
TOP = pathlib.Path(sys.argv[2] if len(sys.argv) > 2 else pathlib.Path(__file__).resolve().parent.parent)
CRATES = TOP / "crates"

HOST = """
pub struct HostRuntime;
impl HostRuntime {
    pub fn stdin(&self) -> std::io::Stdin { std::io::stdin() }
    pub fn stdout(&self) -> std::io::Stdout { std::io::stdout() }
}
fn main() -> io::Result<()> { hosted(HostRuntime) }
"""
# functions that the language's library has beside Rust's
OWN = {
    "f64_from_bits_with_nan": "f64::from_bits",
    "f64_to_bits_with_nan": "f64::to_bits",
    "wrapping_sub_u64": "u64::wrapping_sub",
}


def without_braced(text, opening):
    """Drops each match of `opening`, which ends in a brace, with all up to the brace that closes it."""
    while m := re.search(opening, text, re.M):
        depth, end = 1, m.end()
        while depth:
            depth += {"{": 1, "}": -1}.get(text[end], 0)
            end += 1
        end += text[end : end + 1] in ",;"
        text = text[: m.start()] + text[end:]
    return text


def rust(text):
    text = without_braced(text, r"^ *(pub(\(crate\))? )?ghost (?!use)[^{\n]*\{")
    text = without_braced(text, r"\b(requires|ensures)\b[^{\n]*\{")
    text = re.sub(r"^ *ghost use .*?;\n", "", text, flags=re.M | re.S)
    text = re.sub(r"^ *#!?\[tactic\(.*\)\]\n", "", text, flags=re.M)
    for own, std in OWN.items():
        text = re.sub(rf"\b{own}\b(?=\()", std, text)
    text = re.sub(r"^use std::num::.*;\n", "", text, flags=re.M)
    text = re.sub(r"#\[derive\(Drop\)\]\n", "", text)
    text = re.sub(r"fmt<W: fmt::Write>\(&self, f: &mut fmt::Formatter<W>\)", "fmt(&self, f: &mut fmt::Formatter)", text)
    return text.replace("fn main(rt: HostRuntime)", "fn hosted(rt: HostRuntime)") + (HOST if "fn main(rt" in text else "")


def main():
    members = []
    for line in (TOP / "crates.txt").read_text().splitlines():
        head, _, below = re.sub("#.*", "", line).partition(":")
        if not head.strip():
            continue
        name, static = head.split()[0], "staticlib" in head
        members.append(name)
        needs = "".join(f'{b} = {{ path = "../{b}" }}\n' for b in below.split())
        folder = OUT / name
        for path in (CRATES / name / "src").rglob("*.rt"):
            to = folder / "src" / path.relative_to(CRATES / name / "src").with_suffix(".rs")
            to.parent.mkdir(parents=True, exist_ok=True)
            to.write_text(rust(path.read_text()))
        kind = '[lib]\ncrate-type = ["rlib"]\n' if static else ""
        (folder / "Cargo.toml").write_text(f'[package]\nname = "{name}"\nversion = "0.0.0"\nedition = "2024"\n{kind}[dependencies]\n{needs}')
    (OUT / "Cargo.toml").write_text(f"[workspace]\nresolver = \"2\"\nmembers = {members}\n".replace("'", '"'))


main()
