# Sourced by the scripts of proofs/, columns/, stray/, tables/ and verifier/, which link the library for C and the built Rust into one program and time both.
# ORACLE, their first word, is a folder that holds the Rust built in release mode: target/release/libmagnetar_*.rlib and
# target/release/deps. Needs rt and the rustc that built it. The figures are written down in docs/PERFORMANCE.md.
set -euo pipefail
release=$(cd "${1:?the first word is ORACLE}" && pwd)/target/release
cd "$(dirname "${BASH_SOURCE[0]}")/.."
(cd crates/magnetar_c && rt lib) >/dev/null
mkdir -p target/bench
export RAYON_NUM_THREADS=1

# linked NAME [WORDS..]: bench/NAME/NAME.rs, to target/bench/NAME
linked() {
    rustc --edition 2021 -C opt-level=3 -C target-feature=+pclmulqdq,+sse4.1 -o "target/bench/$1" "bench/$1/$1.rs" "${@:2}" \
        --extern magnetar_field="$release/libmagnetar_field.rlib" -L dependency="$release/deps" -L native=crates/magnetar_c/out
}

# wrapped NAME [WORDS..]: the same over the Rust crate of bindings/, with the Rust's ends
wrapped() {
    rustc --edition 2021 -C opt-level=3 --crate-type rlib --crate-name magnetar -o target/bench/libmagnetar.rlib bindings/rust/src/lib.rs \
        -L native=crates/magnetar_c/out
    linked "$1" --extern magnetar=target/bench/libmagnetar.rlib --extern magnetar_hash="$release/libmagnetar_hash.rlib" \
        --extern magnetar_spartan="$release/libmagnetar_spartan.rlib" "${@:2}"
}

# the sizes of whole runs: m, q, rows of bin and of fld, entries, segments, proofs, turns of the verifiers; with the word `all` also the two
# at which the Rust's prover takes minutes
sizes() {
    printf '%s\n' "64 16 64 64 256 4 20 20" "1024 64 1024 1024 10000 4 5 20" "4096 256 4096 4096 100000 4 2 20" "65536 16 65536 65536 100000 4 2 20"
    if [ "${1:-}" = all ]; then printf '%s\n' "65536 4096 256 256 100000 4 1 20" "65536 4096 256 256 1048576 4 1 5"; fi
}
