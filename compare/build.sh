#!/usr/bin/env bash
# Links the comparison: build.sh ORACLE ARCHIVE OUT, with the library of the folder ARCHIVE, to the folder OUT.
set -euo pipefail
release=$1/target/release archive=$2 out=$3
here=$(cd "$(dirname "$0")" && pwd)
mkdir -p "$out"
rustc --edition 2021 -C opt-level=3 --crate-type rlib --crate-name magnetar -o "$out/libmagnetar.rlib" "$here/../bindings/rust/src/lib.rs" \
    -L native="$archive"
rustc --edition 2021 -C opt-level=3 -C target-feature=+pclmulqdq,+sse4.1 -o "$out/compare" \
    "$here/src/main.rs" --extern magnetar="$out/libmagnetar.rlib" --extern magnetar_field="$release/libmagnetar_field.rlib" \
    --extern magnetar_hash="$release/libmagnetar_hash.rlib" --extern magnetar_sumcheck="$release/libmagnetar_sumcheck.rlib" \
    --extern magnetar_spartan="$release/libmagnetar_spartan.rlib" --extern open_spartan="$release/libopen_spartan.rlib" \
    --extern scripted_spartan="$release/libscripted_spartan.rlib" --extern scripted_hash="$release/libscripted_hash.rlib" \
    --extern scripted_sumcheck="$release/libscripted_sumcheck.rlib" \
    --extern sha3="$(echo "$release"/deps/libsha3-*.rlib)" -L dependency="$release/deps" -L native="$archive"
