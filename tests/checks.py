#!/usr/bin/env python3
"""The repository's own checks, on its text. Run from any folder; prints a line for each check and exits with 1 at a fault."""
import pathlib
import re
import subprocess
import sys

import edits

TOP = pathlib.Path(__file__).resolve().parent.parent
CRATES = TOP / "crates"
faults = []


def listed():
    """The crates of crates.txt, each with what it stands on."""
    crates = {}
    for line in (TOP / "crates.txt").read_text().splitlines():
        line = line.split("#")[0].strip()
        if line:
            name, _, needs = line.partition(":")
            crates[name.split()[0]] = needs.split()
    return crates


def check(what, problems):
    print(f"{what}: {'ok' if not problems else 'FAULT'}")
    faults.extend(f"{what}: {p}" for p in problems)


def folders_are_listed(crates):
    there = {p.name for p in CRATES.iterdir() if p.is_dir()}
    return [f"crates/{n} is not in crates.txt" for n in sorted(there - set(crates))] + [
        f"{n} of crates.txt has no folder" for n in sorted(set(crates) - there)
    ]


# Kernels, moves and cuts: their functions have requirements and are reached through the public calls of `chain` alone.
INTERNAL = {
    "columns", "jacobi", "svd", "truncation", "qr", "pair", "fills", "gauge", "walks", "born", "sound", "moves", "cutting", "cuts",
    "layers", "routing", "environments", "outcomes", "refusals", "fresh", "accepted",
}
ABOVE_INTERNAL = INTERNAL | {"chain"}

# Parts of the programs: they write to standard output, of which no contract speaks.
PRINTING = {"state_text"}

# Access by index is the one thing that a public function of a leaf may require.
MAY_REQUIRE = {"complex_at", "set_complex", "u8_at", "u16_at", "u32_at", "u64_at", "f64_at"}


def internal_crates_stay_inside(crates):
    return [f"{n} names the internal crate {m}" for n, needs in crates.items() if n not in ABOVE_INTERNAL for m in needs if m in INTERNAL]


def public_functions_require_nothing():
    """Nor do operators and other methods of a trait: what one asks is its requires, or an item `can_..` of the impl."""
    out = []
    for path in sorted(CRATES.glob("*/src/**/*.rt")):
        if path.relative_to(CRATES).parts[0] in INTERNAL:
            continue
        code = path.read_text()
        # a function's head goes to the brace that begins or ends a line
        for m in re.finditer(r"^\s*pub (?:extern \"C\" )?fn (\w+).*?(?:^\{| \{$)", code, re.M | re.S):
            if "requires" in m.group(0) and m.group(1) not in MAY_REQUIRE:
                out.append(f"{path.relative_to(TOP)}: {m.group(1)} has a requires")
        for m in re.finditer(r"^(impl\b[^\n]* for [^\n]*) \{$.*?^\}$", code, re.M | re.S):
            if re.search(r"\brequires\b|\bghost can_", m.group(0)):
                out.append(f"{path.relative_to(TOP)}: {m.group(1)} asks something")
    return out


def edits_say_what_they_break():
    """Each names a public function, one of a program, or a name of specs/, and docs/EDITS.md is made of them."""
    names, functions, out = edits.defined(), {*edits.public_functions(), *edits.program_functions()}, []
    for crate, name, promise, _ in edits.edits():
        if promise is None:
            out.append(f"{crate}/{name} does not begin with '# Breaks NAME: what holds'")
        elif promise not in functions and promise not in names:
            out.append(f"{crate}/{name} names {promise}, which there is not")
    return out or ([] if edits.PAGE.read_text() == edits.page() else ["docs/EDITS.md is not what tests/edits.py writes"])


def public_contracts_have_two_edits():
    """Of programs, their parts and access by index nothing is asked."""
    broken = [promise for _, _, promise, _ in edits.edits()]
    return [
        f"{f} has fewer than two must-fail edits"
        for f in edits.public_functions()
        if f.split("::")[0] not in INTERNAL | PRINTING and f.split("::")[-1] not in MAY_REQUIRE and broken.count(f) < 2
    ]


def faults_fit_the_code():
    """Those of tests/oracle/faults change lines that are there."""
    out = []
    for path in sorted((TOP / "tests/oracle/faults").glob("*.edit")):
        field = lambda key: re.findall(rf"^{key}: (.*)$", path.read_text(), re.M)
        code = (CRATES / field("crate")[0] / field("file")[0]).read_text()
        out += [f"{path.name}: {old} stands at {code.count(old)} places" for old in field("old") if code.count(old) != 1]
    return out


def promises():
    """The fields of each crate's record Promised, where it has one and one inhabitant of it."""
    out = {}
    for path in sorted(CRATES.glob("*/specs/**/*.antt")):
        for m in re.finditer(r"^pub record Promised : Type 0 where\n((?:  .*\n|\n)*)", path.read_text(), re.M):
            out[path.relative_to(CRATES).parts[0]] = re.findall(r"^  pub (\S+) :", m.group(1), re.M)
    return out


def promises_are_proved_and_named():
    """Each record Promised has an inhabitant, and docs/PROMISES.md names its fields and no others."""
    named = set(re.findall(r"`(\w+)\.(\w+)`", (TOP / "docs/PROMISES.md").read_text()))
    records, out = promises(), []
    for crate, fields in records.items():
        if not any(re.search(r"^pub promised : Promised$", p.read_text(), re.M) for p in CRATES.glob(f"{crate}/*/**/*.antt")):
            out.append(f"{crate} has no promised : Promised")
        out += [f"docs/PROMISES.md does not name {crate}.{f}" for f in fields if (crate, f) not in named]
    return out + [f"docs/PROMISES.md names {c}.{f}, which is no field of a Promised" for c, f in sorted(named) if f not in records.get(c, [])]


def readme_maps_every_crate(crates):
    text = (TOP / "README.md").read_text()
    return [f"{n} is not in README.md's map" for n in crates if f"| `{n}` |" not in text]


# The public calls of `chain`, and nothing else.
CALLS = {"start", "apply_gate", "apply_named_gate", "apply_layer", "project", "measure", "reset", "left_environment", "right_environment"}


def chain_offers_the_calls_alone():
    text = (CRATES / "chain/src/lib.rt").read_text()
    public = set(re.findall(r"^\s*pub (?!fn)(\w+ \w+)", text, re.M)) | set(re.findall(r"^\s*pub fn (\w+)", text, re.M))
    return [f"chain has the public {n}" for n in sorted(public - CALLS)] + [f"chain has no {n}" for n in sorted(CALLS - public)]


def source(crate):
    """The text of a crate without its comments."""
    return "\n".join(re.sub(r"//.*", "", path.read_text()) for path in sorted((CRATES / crate / "src").glob("**/*.rt")))


def functions(crate):
    """A crate's functions as `name` and its methods as `Type::name`, each as its head and, from the brace that ends the head on, its
    body. Those of one name are taken together."""
    out, owner = {}, ""
    block = r"^impl[^\n]*?(\w+)(?:<[^\n>]*>)? \{$"
    function = r"^( *)((?:\S[^\n]* )?fn (\w+).*?)((?:^\2\{| \{$)$.*?^\2\}$)"
    for m in re.finditer(f"{block}|{function}", source(crate), re.M | re.S):
        if m[1]:
            owner = f"{m[1]}::"
        else:
            name = owner + m[4] if m[2] else m[4]
            head, body = out.get(name, ("", ""))
            out[name] = head + m[3], body + m[5]
    return out


# A call, as the field that it is made on, the dot or the path's last word before it, and its name.
CALL = r"(?:(?:\.(\w+))?(\.)|(\w+)::(?:<[^()]*>::)?)?\b(\w+)(?:::<[^()]*>)?\("

# Operators, each with the methods that it may call.
OPERATORS = {r"\+": {"add", "add_assign"}, "-": {"sub", "sub_assign", "neg"}, r"\*": {"mul", "mul_assign"}, "/": {"div", "div_assign"}}


def calls(crate):
    """A crate's functions and methods, each with those of them that it calls. `.g(` calls every method g of the crate, whatever stands
    before the dot; but on a field it calls none unless a type of the crate is named where the field is: in pair, `conj` of a block
    calls that of its complex numbers. `Type::g(` calls that type's, and `g(`, alone or behind a module of the crate, the function g. An
    operator beside `self` or a parameter of the crate's types calls its methods."""
    code, texts, out = source(crate), functions(crate), {}
    # a name of one letter is a parameter, which may stand for a type of the crate
    types = "|".join(["Self", "[A-Z]", *re.findall(r"\b(?:struct|enum|trait|type) (\w+)", code)])
    fields = re.findall(r"^ +(?:pub\S* )?(\w+): (.*),$", code, re.M)
    others = {f for f, _ in fields} - {f for f, named in fields if re.search(rf"\b({types})\b", named)}
    modules = {"", "crate", "self", "super", *re.findall(r"\bmod (\w+)", code)}
    for f, (head, body) in texts.items():
        out[f] = set()
        own = "|".join(["self", *re.findall(rf"\b(\w+): &?(?:mut )?(?:{types})\b", head)])
        for sign, methods in OPERATORS.items():
            if re.search(rf"\b(?:{own})\s*{sign}|{sign}=?\s*(?:{own})\b(?!\.)", body):
                out[f] |= {h for h in texts if h.rpartition("::")[2] in methods and "::" in h}
        for field, dot, path, g in re.findall(CALL, body):
            if dot:
                out[f] |= {h for h in texts if h.endswith(f"::{g}") and field not in others}
            else:
                owner = f.rpartition("::")[0] if path == "Self" else path
                out[f] |= {g if path in modules else f"{owner}::{g}"} & set(texts)
    return out


def nothing_calls_itself(crates):
    """Neither directly nor through others: within a crate, since crates stand one on another. And each function is seen. A function
    that is handed on by its name, and an operator beside a local name, are no calls here."""
    out = []
    for crate in crates:
        called = calls(crate)
        hidden = set(re.findall(r"\bfn (\w+)", source(crate))) - {f.rpartition("::")[2] for f in called}
        out += [f"{crate}::{f} is not seen" for f in sorted(hidden)]
        for f in called:
            reached, todo = set(), {f}
            while todo:
                todo = set().union(*(called[g] for g in todo)) - reached
                reached |= todo
            out += [f"{crate}::{f} calls itself"] if f in reached else []
    return out


def loops_of_the_root_call_nothing():
    """So the number of calls that a root makes is a constant."""
    loop = r"^( +)(?:for|while|\S.*\bloop|loop)\b.*?^\1\}"
    loops = [(f, m.group(0)) for f, (_, body) in functions("root").items() for m in re.finditer(loop, body, re.M | re.S)]
    return [f"a loop of root::{f} calls {g}" for f, text in loops for *_, g in re.findall(CALL, text)] + ([] if loops else ["root has no loop"])


# The forms that document 01 requires: crate, function, what its text has to hold. docs/DECISIONS.md has the same table.
LENT_TO_WRITE = r"&mut store\[[\w.]+\.\.[\w.]+\]"
LENT_TO_READ = r"&store\[[\w.]+\.\.[\w.]+\]"
GATE = r"\[\[Complex; 4\]; 4\]"
FORMS = [
    ("qr", "factorize_gram_schmidt", r"for j in [^{]*\{.*let residual = loop \{.*break r;.*\};"),
    ("moves", "write_right", LENT_TO_WRITE),
    ("moves", "write_left", LENT_TO_WRITE),
    ("cuts", "store_pair", LENT_TO_WRITE),
    ("outcomes", "collapse_site", LENT_TO_WRITE),
    ("fresh", "fresh_store", LENT_TO_WRITE),
    ("root", "from_units", r"f64::from_bits"),
    ("gates", "swap_gate_qubits", rf"gate: {GATE}\) -> {GATE}"),
    ("cuts", "decompose_pair", LENT_TO_READ),
    ("moves", "step_right", LENT_TO_READ),
    ("moves", "step_left", LENT_TO_READ),
    ("environments", "site_at", LENT_TO_READ),
]
# The same of types: crate, what its text has to hold.
TYPES = [
    ("model", r"pub enum Projected \{\s*Kept\(f64\),\s*Nothing,\s*Refused\(u8\),\s*\}"),
    ("model", r"pub struct After<A> \{\s*pub answer: A,\s*pub chain: Chain,\s*\}"),
    ("model", r"pub type Projection = After<Projected>;"),
    ("model", r"pub struct Chain \{[^}]*svd_epsilon: f64,[^}]*norm_clamp_min: f64,"),
    ("complex", r"pub struct Complex \{\s*pub re: f64,\s*pub im: f64,\s*\}"),
]
# Laws that a form asks for: file, name.
LAWS = [("root/proofs/Laws/Theorems.antt", "root_nearest"), ("root/proofs/Laws/Root.antt", "root_one_f")]


def required_forms_are_there():
    pages = (TOP / "docs/DECISIONS.md").read_text()
    out = [f"{c}::{f} has not its form" for c, f, form in FORMS if not re.search(form, "".join(functions(c).get(f, ())), re.S)]
    out += [f"docs/DECISIONS.md does not name {f} of {c}" for c, f, _ in FORMS if f"`crates/{c}/src/lib.rt`" not in pages or f"`{f}`" not in pages]
    out += [f"{c} has no {form}" for c, form in TYPES if not re.search(form, (CRATES / c / "src/lib.rt").read_text())]
    out += [f"{path} has no {law}" for path, law in LAWS if not re.search(rf"^pub {law} :", (CRATES / path).read_text(), re.M)]
    return out


def no_kernel_takes_the_record():
    """Below moves the functions take slices and numbers; the soundness test and what start makes are about the record itself."""
    kernels = ["columns", "jacobi", "svd", "truncation", "qr", "pair", "fills", "gauge", "walks", "born", "cutting", "layers"]
    return [f"{c} names the chain record" for c in kernels if re.search(r"\bChain\b", (CRATES / c / "src/lib.rt").read_text())]


def refusals_page_shows_what_runs():
    printed = "".join(f"    {line}\n" for line in (CRATES / "refusal_table/stdout").read_text().splitlines())
    return [] if printed in (TOP / "docs/REFUSALS.md").read_text() else ["docs/REFUSALS.md does not show crates/refusal_table/stdout"]


def calls_page_shows_what_runs():
    """The worked call is the program, from its first function on."""
    source = (CRATES / "worked_call/src/main.rt").read_text()
    shown = "".join(f"    {line}".rstrip() + "\n" for line in source[source.index("\n// A Hadamard") + 1 :].splitlines())
    printed = "".join(f"    {line}\n" for line in (CRATES / "worked_call/stdout").read_text().splitlines())
    page = (TOP / "docs/CALLS.md").read_text()
    return [f"docs/CALLS.md does not show {what}" for what, text in (("crates/worked_call", shown), ("what it prints", printed)) if text not in page]


def calls_page_has_the_signatures():
    """Each call of `chain`, on one line."""
    page = (TOP / "docs/CALLS.md").read_text()
    source = re.sub(r",?\s*\n\s*\)", ")", (CRATES / "chain/src/lib.rt").read_text())
    heads = [re.sub(r"\(\s+", "(", re.sub(r"\s+", " ", m)) for m in re.findall(r"^pub fn (\w+\([^)]*\) -> \w+)", source, re.M)]
    return [f"docs/CALLS.md does not have {h}" for h in heads if h not in page]


def sample_is_what_its_script_writes():
    """And docs/RUN-RECORD.md shows the script, from its imports on."""
    wrote = subprocess.run([sys.executable, TOP / "samples/ghz.py"], stdout=subprocess.PIPE, check=True).stdout
    source = (TOP / "samples/ghz.py").read_text()
    shown = "".join(f"    {line}".rstrip() + "\n" for line in source[source.index("import ") :].splitlines())
    out = [] if wrote == (TOP / "samples/ghz.run").read_bytes() else ["samples/ghz.py does not write samples/ghz.run"]
    return out + ([] if shown in (TOP / "docs/RUN-RECORD.md").read_text() else ["docs/RUN-RECORD.md does not show samples/ghz.py"])


def nothing_is_left_open():
    out = []
    for path in sorted(CRATES.glob("**/*.antt")):
        for k, line in enumerate(path.read_text().splitlines(), 1):
            if re.search(r"(=|\()\s*\?\w*\s*$", line.split("--")[0]):
                out.append(f"{path.relative_to(TOP)}:{k} has a hole")
    return out


crates = listed()
check("every crate folder is listed", folders_are_listed(crates))
check("internal crates are named from inside alone", internal_crates_stay_inside(crates))
check("public functions require nothing", public_functions_require_nothing())
check("must-fail edits say what they break", edits_say_what_they_break())
check("public contracts have two must-fail edits", public_contracts_have_two_edits())
check("the oracle's faults fit the code", faults_fit_the_code())
check("promises are proved and named", promises_are_proved_and_named())
check("README maps every crate", readme_maps_every_crate(crates))
check("chain offers the calls alone", chain_offers_the_calls_alone())
check("the required forms are there", required_forms_are_there())
check("no function calls itself", nothing_calls_itself(crates))
check("the root's loops call nothing", loops_of_the_root_call_nothing())
check("kernels take slices and numbers", no_kernel_takes_the_record())
check("docs/REFUSALS.md shows what its program prints", refusals_page_shows_what_runs())
check("docs/CALLS.md shows what its program does", calls_page_shows_what_runs())
check("docs/CALLS.md has the signatures", calls_page_has_the_signatures())
check("samples/ghz.run is what samples/ghz.py writes", sample_is_what_its_script_writes())
check("no proof has a hole", nothing_is_left_open())
for f in faults:
    print(f)
sys.exit(1 if faults else 0)
