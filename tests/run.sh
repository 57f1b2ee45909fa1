#!/usr/bin/env bash
# The tests, in stages:
#   tests/run.sh quick         the repository's own checks: seconds
#   tests/run.sh crate NAME    quick, then one crate with what it stands on, and its must-fail edits
#   tests/run.sh [all]         everything: every proof, every must-fail edit, every program, what is executed
# The last line of a whole run that counts is rt's own 'N passed, 0 failed'.
set -euo pipefail
cd "$(dirname "$0")/.."

step() { printf '== %s\n' "$*"; }

quick() {
    step 'the repository'
    python3 tests/checks.py
}

one_crate() { # NAME
    step "$1 and what it stands on (rt check)"
    (cd "crates/$1" && rt check)
    step "the must-fail edits of $1"
    log=$(mktemp)
    trap 'rm -f "$log"' EXIT
    rt must-fail "$1" | tee "$log"
    every_edit_tells "$log"
}

# An edit that cannot be applied or read, and one that only makes a proof file unfit for the code, show nothing; rt passes
# all the same.
every_edit_tells() { # LOG
    if grep -E 'BAD EDIT|only because a proof file names' "$1" || grep '^rt: ok' "$1" | grep -E ', [1-9][0-9]* bad'; then
        echo 'the edits above show nothing of the contracts'
        return 1
    fi
}

everything() {
    log=$(mktemp)
    trap 'rm -f "$log"' EXIT
    quick
    step 'every crate, every must-fail edit, every program (rt ci)'
    rt ci | tee "$log"
    grep -q '^rt: ok' "$log"
    every_edit_tells "$log"
    step 'the root against the machine, complex size against whole numbers'
    tests/root_compare.sh 2000000 100000
    step 'chainrun on the stored streams and on the cases of the format'
    python3 tests/chainrun.py
    tail -n 1 "$log"
}

case ${1:-all} in
quick) quick ;;
crate) quick && one_crate "${2:?the name of a crate}" ;;
all) everything ;;
*)
    sed -n '2,6s/^# //p' "$0"
    exit 2
    ;;
esac
