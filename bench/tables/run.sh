#!/usr/bin/env bash
# Times the rounds and the eq tables of both sides in one program.
#   bench/tables/run.sh ORACLE
source "$(dirname "$0")/../linked.sh"
linked tables --extern magnetar_sumcheck="$release/libmagnetar_sumcheck.rlib"
target/bench/tables
