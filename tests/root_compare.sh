#!/bin/sh
# Compares the root with the machine's sqrt and complex size with whole numbers, bit by bit:
#   root_compare.sh [PATTERNS [PAIRS [SEED]]]
set -eu
cd "$(dirname "$0")/.."
(cd crates/root_export && rt lib > out/lib.log 2>&1) || { tail -n 20 crates/root_export/out/lib.log; exit 1; }
mkdir -p target/tests
gcc -O2 -Wall -Wextra -o target/tests/root_compare tests/root_compare.c crates/root_export/out/libroot_export.a -lm
gcc -shared -o target/tests/libroot_export.so -Wl,--whole-archive crates/root_export/out/libroot_export.a -Wl,--no-whole-archive -lm
target/tests/root_compare "${1:-2000000}" "${3:-1}"
python3 tests/size_compare.py target/tests/libroot_export.so "${2:-100000}" "${3:-1}"
