#!/usr/bin/env bash
# Proves and archives the library, builds the C examples and the Rust ones over it and runs them and the Rust crate's test: the examples of
# each language write example.stdout and vault.stdout, and each verifies what the other proved. Needs rt, cc and cargo.
set -euo pipefail
cd "$(dirname "$0")/.."
(cd crates/magnetar_c && rt lib) >/dev/null
out=target/bindings
mkdir -p "$out"
for name in example vault; do
    cc -std=c11 -Wall -Wextra -Werror -O2 -Ibindings -o "$out/${name}_c" "bindings/$name.c" crates/magnetar_c/out/libmagnetar_c.a
    cargo build --quiet --release --offline --manifest-path bindings/rust/Cargo.toml --target-dir "$out" --example "$name"
    ln -sf "release/examples/$name" "$out/${name}_rust"
done
cargo test --quiet --release --offline --manifest-path bindings/rust/Cargo.toml --target-dir "$out" --lib >/dev/null
for language in c rust; do
    "$out/example_$language" >"$out/example.$language.txt"
    "$out/vault_$language" prove >"$out/proof.$language.txt"
done
cmp "$out/example.c.txt" bindings/example.stdout
cmp "$out/example.rust.txt" bindings/example.stdout
cmp "$out/proof.c.txt" "$out/proof.rust.txt"
"$out/vault_c" verify <"$out/proof.rust.txt" >"$out/verdict.c.txt"
"$out/vault_rust" verify <"$out/proof.c.txt" >"$out/verdict.rust.txt"
cmp "$out/verdict.c.txt" bindings/vault.stdout
cmp "$out/verdict.rust.txt" bindings/vault.stdout
cat "$out/example.c.txt" "$out/verdict.c.txt"
echo "C and Rust wrote the same, and each accepted what the other proved"
