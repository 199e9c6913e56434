#!/usr/bin/env bash
# Times what the search for stray bits takes of the row check.
#   bench/stray/run.sh ORACLE
# The first size has the most rows that 4,096 logins may have, the next ones fewer, to one row with one entry in each matrix.
source "$(dirname "$0")/../linked.sh"
wrapped stray
echo "| m | q | rows each | entries a matrix | row check | the search | its share |"
echo "|---|---|---|---|---|---|---|"
target/bench/stray 65536 4096 256 1024 3
target/bench/stray 65536 4096 256 256 3
target/bench/stray 65536 4096 64 64 5
target/bench/stray 65536 4096 16 16 5
target/bench/stray 65536 4096 4 4 5
target/bench/stray 65536 4096 1 1 5
target/bench/stray 1024 64 1024 10000 5
