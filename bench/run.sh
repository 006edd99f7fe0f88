#!/usr/bin/env bash
# Proves and builds the programs and the static library, compares the library with the plain C reference, and prints the table of both with ratios.
#
#   bash bench/run.sh [ROUNDS]    ROUNDS: 60 if left out
#
# The toolchain compiles for x86-64-v2, so gcc is told to.
set -euo pipefail
cd "$(dirname "$0")/.."
mkdir -p target/bench
bash build.sh > target/build.out 2>&1 || { cat target/build.out; exit 1; }
gcc -O2 -march=x86-64-v2 -std=gnu11 -Wall -Wextra -ffp-contract=off -fno-math-errno -Iinclude bench/bench.c target/staticlib/libshepard.a -lm -o target/bench/bench
target/bench/bench agree 300
target/bench/bench time "${1:-60}"
