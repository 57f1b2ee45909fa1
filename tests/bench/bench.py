#!/usr/bin/env python3
"""The port's speed against the Rust's, same machine, same gates, interleaved in one process.

    python3 tests/bench/bench.py RUST OUT [ROUNDS [ONLY]]
    python3 tests/bench/bench.py RUST OUT ROUNDS layers # layers of pairs beside their gates in a call each, alone
    python3 tests/bench/bench.py RUST OUT count         # instructions, by valgrind's callgrind

RUST is the folder of the Rust text, OUT a folder to build in (tests/oracle/build_oracle.py says what that needs). The
port is linked as a static library that `rt lib` writes once it is proved. Three builds of the Rust stand beside it:

    shipped    as it ships, complex size by its own `hypot`: timed, 'Rust' in the tables
    rooted     each square root and complex size taken by the port's functions: timed, 'Rust, our root'
    oracle     complex size replaced by the correctly rounded one: run once for each circuit, not timed

The weights that port, oracle and rooted discard are asserted to be equal to the bit; the shipped Rust's may differ.
Prints microseconds a gate and the ratios, the best of ROUNDS (5); ONLY names the circuits to run. A run of all circuits
also prints nanoseconds a root and a size, and layers, each the best of 20 times as many rounds, after which both stores are
asserted to be equal to the bit; and draws OUT/speed.svg, which docs/SPEED.md shows.
"""
import os, re, shutil, subprocess, sys

import plot

HERE = os.path.dirname(os.path.abspath(__file__))
TOP = os.path.dirname(os.path.dirname(HERE))
if len(sys.argv) < 3:
    raise SystemExit(__doc__)
RUST, OUT = sys.argv[1], os.path.abspath(sys.argv[2])


def run(*words, **more):
    subprocess.run(words, check=True, **more)


def replaced(path, old, new):
    text = open(path).read()
    assert old in text, f"{path} has no {old}"
    open(path, "w").write(text.replace(old, new))


def rust_files(folder):
    return [os.path.join(d, f) for d, _, files in os.walk(folder) for f in files if f.endswith(".rs")]


run("python3", os.path.join(TOP, "tests", "oracle", "build_oracle.py"), RUST, OUT)
for name in ("root_export", "bench_export"):
    run("rt", "lib", cwd=os.path.join(TOP, "crates", name), stdout=subprocess.DEVNULL, stderr=subprocess.DEVNULL)

SIZE = "crate::surround::complex_size(g_pq)"
NOTED = {
    "crate::surround::note_stored(singular_values, chi_kept);": "",
    "crate::surround::note_retry();": "",
    "crate::surround::note_site(left_site);": "",
    "crate::surround::noted_share(discarded / total)": "discarded / total",
}
shipped, rooted, bench = (os.path.join(OUT, name) for name in ("shipped", "rooted", "bench"))
for folder in (shipped, rooted, bench):
    shutil.rmtree(folder, ignore_errors=True)
    shutil.copytree(os.path.join(OUT, "crate"), folder, ignore=shutil.ignore_patterns("target"))
    manifest = os.path.join(folder, "Cargo.toml")
    text = re.sub(r"\[\[bin\]\]\nname = .*\npath = .*\n", "", open(manifest).read())
    open(manifest, "w").write(text)
    # what the oracle notes of its cuts and shares is no part of what is timed
    for noted, shipped_as in NOTED.items():
        replaced(os.path.join(folder, "src", "mps", "mod.rs"), noted, shipped_as)
    for noted in ("begin_shares();", "self.add_shares(take_shares());"):
        replaced(os.path.join(folder, "src", "mps", "access.rs"), noted, "")
for folder, size in ((shipped, "g_pq.norm()"), (rooted, "unsafe { crate::jondwave_norm(g_pq.re, g_pq.im) }")):
    replaced(os.path.join(folder, "Cargo.toml"), 'name = "oracle"', f'name = "{os.path.basename(folder)}"')
    replaced(os.path.join(folder, "src", "mps", "svd.rs"), SIZE, size)

# square roots by the port
for path in rust_files(os.path.join(rooted, "src")):
    text = open(path).read()
    if ".sqrt()" in text:
        lines = text.replace(".sqrt()", ".port_root()").split("\n")
        lines.insert(next(k for k, l in enumerate(lines) if l.startswith("use ")), "use crate::PortRoot;")
        open(path, "w").write("\n".join(lines))
with open(os.path.join(rooted, "src", "lib.rs"), "a") as f:
    f.write("""
unsafe extern "C" {
    fn jondwave_root(x: f64) -> f64;
    pub fn jondwave_norm(re: f64, im: f64) -> f64;
}
pub trait PortRoot {
    fn port_root(self) -> f64;
}
impl PortRoot for f64 {
    fn port_root(self) -> f64 {
        unsafe { jondwave_root(self) }
    }
}
""")

# the benchmark, over all three
shutil.copy(os.path.join(HERE, "port_bench.rs"), os.path.join(bench, "src"))
replaced(os.path.join(bench, "Cargo.toml"), "[dependencies]", '[[bin]]\nname = "port_bench"\npath = "src/port_bench.rs"\n\n[dependencies]\nshipped = { path = "../shipped" }\nrooted = { path = "../rooted" }')
libs = " ".join("-L " + os.path.join(TOP, "crates", name, "out") for name in ("root_export", "bench_export"))
flags = f"{libs} -l static=bench_export -l static=root_export"
run("cargo", "build", "--release", "--offline", "--quiet", "--bin", "port_bench", cwd=bench, env={**os.environ, "RUSTFLAGS": flags + " -Awarnings"})
program = os.path.join(bench, "target", "release", "port_bench")
if sys.argv[3:] != ["count"]:
    rows = []
    with subprocess.Popen([program, *sys.argv[3:]], stdout=subprocess.PIPE, text=True) as timing:
        for line in timing.stdout:
            print(line, end="", flush=True)
            m = re.match(r" *(\S.* D \d+) +\d+ +(\S+) +(\S+) +\S+ +(\S+)", line)
            if m:
                rows.append((m[1], float(m[2]), float(m[3]), float(m[4])))
    if timing.returncode == 0 and len(sys.argv) < 5:
        open(os.path.join(OUT, "speed.svg"), "w").write(plot.picture(rows))
    raise SystemExit(timing.returncode)


def instructions(circuit, function):
    """How many are executed inside the function, in one round of the circuit."""
    words = ["valgrind", "--tool=callgrind", "--callgrind-out-file=/dev/null", f"--toggle-collect={function}", program, "1", circuit]
    text = subprocess.run(words, check=True, stdout=subprocess.PIPE, stderr=subprocess.PIPE, text=True).stderr
    return int(re.search(r"Collected : (\d+)", text)[1])


print(f"{'circuit':>22} {'port':>14} {'Rust':>14} {'ratio':>7} {'Rust, our root':>14} {'ratio':>7}")
for circuit in ("n 16 D 2", "n 16 D 4", "n 16 D 8", "n 16 D 16", "n 16 D 32", "permutation n 64"):
    port, rust, rooted_rust = (instructions(circuit, f) for f in ("jondwave_gates", "by_rust", "by_rooted"))
    print(f"{circuit:>22} {port:>14} {rust:>14} {port / rust:>7.2f} {rooted_rust:>14} {port / rooted_rust:>7.2f}", flush=True)
