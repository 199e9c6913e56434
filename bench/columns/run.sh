#!/usr/bin/env bash
# Times products, fold and both ends where each login has its own public columns, beside the Rust's parts.
#   bench/columns/run.sh ORACLE
source "$(dirname "$0")/../linked.sh"
wrapped columns
echo "| m | q | rows each | entries a matrix | products | the Rust's | ratio | fold | the Rust's | ratio | prove | equal columns | verify | equal columns |"
echo "|---|---|---|---|---|---|---|---|---|---|---|---|---|---|"
target/bench/columns 1024 64 1024 10000 5 20
target/bench/columns 4096 256 4096 100000 2 20
target/bench/columns 65536 16 65536 100000 2 20
