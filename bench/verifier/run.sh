#!/usr/bin/env bash
# Times the verifier of this build and of an earlier one in one program, in turn, beside the Rust's; and what each is lent and takes.
#   bench/verifier/run.sh ORACLE BEFORE [all]
# BEFORE is a tree of this repository from before the scratch was 2m + 2R + 2q words, in which `rt staticlib magnetar_c` has written the
# library. With `all` also the two sizes with 2.1 GB of public words, whose proof takes minutes. Needs objcopy besides.
before=$(cd "${2:?the second word is BEFORE}" && pwd)/target/staticlib/libmagnetar_c.a
source "$(dirname "$0")/../linked.sh"
# the earlier build's verifier under another name; all its other names are its own
objcopy --redefine-sym magnetar_verify_virtual_spartan=before_verify_virtual_spartan \
    --keep-global-symbol=before_verify_virtual_spartan "$before" target/bench/libbefore.a
wrapped verifier -L native=target/bench -l static=before
echo "| m | q | rows each | entries a matrix | verify, before | after | the Rust's | ratio, before | after | after to before | scratch words, before | after | memory, before | after | the Rust's |"
echo "|---|---|---|---|---|---|---|---|---|---|---|---|---|---|---|"
sizes "${3:-}" | while read -r size; do target/bench/verifier $size; done
