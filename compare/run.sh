#!/usr/bin/env bash
# Compares this repository with the published Rust on the same inputs (docs/COMPARISON.md).
#   compare/run.sh ORACLE                 the full run: fixed seeds, some minutes on two cores
#   compare/run.sh ORACLE SECONDS SEED    random inputs from the seed for so many seconds
# ORACLE is a folder that holds the Rust built in release mode: in target/release libmagnetar_*.rlib, libopen_spartan.rlib,
# libscripted_spartan.rlib and libscripted_hash.rlib (the same files over a transcript that hands out given elements), and deps.
# Needs rt and the rustc that built the Rust. Ends with 1 where something differs that is not on the list.
set -euo pipefail
oracle=$(cd "${1:?usage: run.sh ORACLE [SECONDS SEED]}" && pwd)
shift
cd "$(dirname "$0")/.."
mkdir -p target/bin
for name in magnetar_vectors magnetar_forms magnetar_cases; do
    (cd "crates/$name" && rt run </dev/null) >/dev/null
    cp "crates/$name/out/$name" target/bin
done
(cd crates/magnetar_c && rt lib) >/dev/null
compare/build.sh "$oracle" crates/magnetar_c/out target/compare
RAYON_NUM_THREADS=1 target/compare/compare target/bin "$@"
