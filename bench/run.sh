#!/usr/bin/env bash
# Proves and links the test program, builds the Rust beside it, and times both in one run.
# Needs rt, cargo, and the sources of the crate sha3 and of what it leans on, as Debian's package librust-sha3-dev has
# them: install it, or name the folder with the unpacked sources in CRATES.
# The figures are written down in docs/PERFORMANCE.md.
set -euo pipefail
cd "$(dirname "$0")/.."
(cd crates/magnetar_vectors && rt run </dev/null) >/dev/null
crates=${CRATES:-$(dirname "$(dpkg -L librust-sha3-dev | grep -m1 '/sha3-[0-9.]*$')")}
cargo build --quiet --release --offline --manifest-path bench/Cargo.toml --target-dir target/bench \
    --config "source.crates-io.replace-with='debian'" --config "source.debian.directory='$crates'"
target/bench/release/bench crates/magnetar_vectors/out/magnetar_vectors
