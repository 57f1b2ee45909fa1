#!/usr/bin/env python3
"""Build the harness over the port's public calls, with no proof (rt try), outside the repository.

    python3 build_harness.py OUT      OUT gets scratch/ (a copy of the repository's crates with the programs over them)
                                      and harness_o0, harness_o3, harness_checked

`rt try` keeps no compiled program, so a compiler that stands in for the kit's own keeps each module that it is handed.
The interpreter's stack holds 8 MiB: in the harness as it is kept the arrays are larger than in the text, so that
a cap of 128 fits. Nothing else of the modules is altered.
"""
import os, re, shutil, subprocess, sys

HERE = os.path.dirname(os.path.abspath(__file__))
TOP = os.path.dirname(os.path.dirname(HERE))
HOME = os.path.dirname(os.path.dirname(os.path.realpath(shutil.which("rt"))))
OWN = os.path.join(HOME, "on", os.uname().machine)
TOOLS = os.path.join(OWN, "toolchain")
CLANG = os.path.join(TOOLS, "bin", "clang")
# not named .rt here: every file of Rattle in the repository belongs to a listed crate
ADDED = {"words": ("lib", "io libc"), "harness": ("main", "complex gates model chain words io libc"),
         "exports": ("main", "root_export bench_export complex gates bytes_le record lines stream words io libc")}
# what the harness's text has, and what it has as it is kept: store, work, result
SIZES = {70001: 270001, 90001: 1320001, 33001: 34001}
# which of the modules that the compiler is handed, and how it is compiled
KINDS = {"o0": (0, ["-O0"]), "o3": (0, ["-O3", "-Xclang", "-fmerge-functions", "-mllvm", "-mergefunc-use-aliases"]), "checked": (2, ["-O0"])}
COMMON = ["--target=x86_64-unknown-linux-gnu", "-march=x86-64", "-ffunction-sections", "-fdata-sections",
          "-mllvm", "-trap-unreachable", "-mllvm", "-no-trap-after-noreturn", "--no-default-config",
          "-no-canonical-prefixes", "-fno-crash-diagnostics", "-x", "ir", f"--sysroot={TOOLS}"]

def lay_out(scratch):
    """A copy of the repository's crates, with the programs over them."""
    shutil.rmtree(scratch, ignore_errors=True)
    os.makedirs(scratch)
    shutil.copytree(os.path.join(TOP, "crates"), os.path.join(scratch, "crates"))
    shutil.copy(os.path.join(TOP, "crates.txt"), scratch)
    with open(os.path.join(scratch, "crates.txt"), "a") as f:
        for name, (file, needs) in ADDED.items():
            f.write(f"\n{name}: {needs}\n")
            os.makedirs(os.path.join(scratch, "crates", name, "src"))
            shutil.copy(os.path.join(HERE, f"{name}.rt.txt"), os.path.join(scratch, "crates", name, "src", f"{file}.rt"))

def reached(scratch, name):
    """The crates below a program."""
    lists, seen = {}, []
    for path in (os.path.join(scratch, "crates.txt"), os.path.join(HOME, "libs", "libs.txt")):
        for line in open(path):
            n, _, d = line.split("#")[0].partition(":")
            if n.strip():
                lists[n.strip()] = d.split()
    todo = [name]
    while todo:
        for d in lists[todo.pop()]:
            if d not in seen:
                seen.append(d)
                todo.append(d)
    return seen

def stand_in(out, last):
    """A toolchain whose compiler keeps the modules, and fails once it has the last one."""
    tools, kept = os.path.join(out, "toolchain"), os.path.join(out, "modules")
    for d in (tools, kept):
        shutil.rmtree(d, ignore_errors=True)
    os.makedirs(os.path.join(tools, "bin"))
    os.makedirs(kept)
    os.symlink(os.path.join(TOOLS, "lib"), os.path.join(tools, "lib"))
    for f in os.listdir(os.path.join(TOOLS, "bin")):
        if f != "clang":
            os.symlink(os.path.join(TOOLS, "bin", f), os.path.join(tools, "bin", f))
    with open(os.path.join(tools, "bin", "clang"), "w") as f:
        f.write(f"#!/bin/sh\nn=0\nwhile [ -e {kept}/$n.bc ]; do n=$((n + 1)); done\n/bin/cp module.bc {kept}/$n.bc\n"
                f"[ $n -lt {last} ] || exit 1\nexec {CLANG} \"$@\"\n")
    os.chmod(os.path.join(tools, "bin", "clang"), 0o755)
    return tools, kept

def enlarged(text, kind):
    for a, b in SIZES.items():
        want = 4 if kind == "checked" else 3
        hits = len(re.findall(rf"\b({a}|{8 * a})\b", text))
        if hits != want:
            raise SystemExit(f"{a}: {hits} places in the module, wanted {want}")
        text = re.sub(rf"\b{a}\b", str(b), text)
        text = re.sub(rf"\b{8 * a}\b", str(8 * b), text)
    return text

def build(scratch, name, out, kinds):
    """Compiles a program of the crates in scratch to OUT/NAME_KIND, for each kind."""
    last = max(KINDS[k][0] for k in kinds)
    tools, kept = stand_in(out, last)
    words = [os.path.join(OWN, "bin", "rattle-cases"), "--toolchain", tools, "--stdin", "/dev/null",
             os.path.join(scratch, "crates", name, "src", "main.rt"), "--crate-name", name, "--lib", f"std={HOME}/libs/std/src/lib.rt"]
    for d in reached(scratch, name):
        src = os.path.join(scratch, "crates", d, "src", "lib.rt")
        words += ["--lib", f"{d}={src if os.path.exists(src) else os.path.join(HOME, 'libs', d, 'src', 'lib.rt')}"]
    p = subprocess.run(words, stdout=subprocess.PIPE, stderr=subprocess.STDOUT, text=True)
    if not os.path.exists(os.path.join(kept, f"{last}.bc")):
        raise SystemExit(f"{name} does not compile: {p.stdout}")
    lib = os.path.join(TOOLS, "lib")
    for kind in kinds:
        module, opt = KINDS[kind]
        bc, ll, obj = os.path.join(kept, f"{module}.bc"), os.path.join(kept, f"{kind}.ll"), os.path.join(kept, f"{kind}.o")
        subprocess.run([CLANG, *COMMON, bc, "-S", "-emit-llvm", "-Xclang", "-disable-llvm-passes", "-o", ll], check=True)
        if name == "harness":
            text = enlarged(open(ll).read(), kind)
            open(ll, "w").write(text)
        subprocess.run([CLANG, *COMMON, "-c", ll, "-o", obj, "-fPIE", *opt], check=True)
        subprocess.run([os.path.join(TOOLS, "bin", "ld.lld"), "-m", "elf_x86_64", "-pie", "--dynamic-linker", os.path.join(lib, "ld-linux-x86-64.so.2"),
                        "--as-needed", "-z", "relro", "-z", "now", "-z", "noexecstack", "--eh-frame-hdr", "--gc-sections", "--no-dependent-libraries",
                        "-rpath", lib, "-o", os.path.join(out, f"{name}_{kind}")]
                       + [os.path.join(lib, f) for f in ("Scrt1.o", "crti.o", "crtbeginS.o")] + [obj]
                       + [os.path.join(lib, f) for f in ("libm.so.6", "libc.so.6", "libc_nonshared.a", "ld-linux-x86-64.so.2", "libgcc.a", "libgcc_s.so.1", "crtendS.o", "crtn.o")],
                       check=True)

def main():
    if len(sys.argv) != 2:
        raise SystemExit(__doc__)
    out = os.path.abspath(sys.argv[1])
    scratch = os.path.join(out, "scratch")
    lay_out(scratch)
    build(scratch, "harness", out, KINDS)
    for kind in KINDS:
        print("built", os.path.join(out, "harness_" + kind))

if __name__ == "__main__":
    main()
