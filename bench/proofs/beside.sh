#!/usr/bin/env bash
# Times prover and verifier of this build and of an earlier one, size by size in turn, each beside the Rust's.
#   bench/proofs/beside.sh ORACLE BEFORE [all]
# BEFORE is another tree of this repository in which its own bench/proofs/run.sh has built target/bench/proofs.
before=$(cd "${2:?the second word is BEFORE}" && pwd)/target/bench/proofs
source "$(dirname "$0")/../linked.sh"
wrapped proofs
sizes "${3:-}" | while read -r size; do
    echo "before $("$before" $size)"
    echo "after  $(target/bench/proofs $size)"
done
