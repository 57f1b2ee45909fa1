#!/usr/bin/env bash
# Proves and builds chainrun with everything below it, runs it on the sample stream, and says what each line means.
set -euo pipefail
cd "$(dirname "$0")/.."
log=$(mktemp) said=$(mktemp)
trap 'rm -f "$log" "$said"' EXIT
(cd crates/chainrun && rt run < ../../samples/ghz.run) > "$log" 2> "$said" || { tail -n 30 "$said"; exit 1; }
meaning=(
    'start: three qubits under a cap of 4'
    'gate: Hadamard on qubit 0, beside qubit 1'
    'named gate: Cx, qubit 0 controls 1'
    'named gate: Cx, qubit 1 controls 2'
    'projection of qubit 2 on 1: the weight is 0.5'
    'measure qubit 0 by the draw 0.25: it reads 1, as qubit 2 does'
    'named gate on (0, 0): refused by 4, a qubit named twice'
    'reset of qubit 2'
    'projection of qubit 2 on 0: the weight is 1'
    'kind 9: there is none, so reading stops'
)
k=0
while IFS= read -r line; do
    printf '%-24s %s\n' "$line" "${meaning[$k]}"
    k=$((k + 1))
done < "$log"
