#!/usr/bin/env bash
# Times the provers and verifiers of both sides in one program.
#   bench/proofs/run.sh ORACLE [all]
# With `all` also the two sizes at which the Rust's prover takes minutes.
source "$(dirname "$0")/../linked.sh"
wrapped proofs
echo "| m | q | rows each | entries a matrix | prove | the Rust's | ratio | memory | the Rust's | verify | the Rust's | ratio | memory | the Rust's |"
echo "|---|---|---|---|---|---|---|---|---|---|---|---|---|---|"
sizes "${2:-}" | while read -r size; do target/bench/proofs $size; done
