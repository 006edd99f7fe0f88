#!/usr/bin/env bash
# Proves and builds the programs and the static library, and runs each program on its stored input.
#
#   bash build.sh    target/bin/shepard_grid, shepard_esri and shepard_replay, and target/staticlib/libshepard.a
set -euo pipefail
cd "$(dirname "$0")"
mkdir -p target/bin target/staticlib
for program in shepard_grid shepard_esri shepard_replay; do
    (cd "crates/$program" && rt run < stdin | cmp - stdout)
    cp "crates/$program/out/$program" target/bin/
done
(cd crates/shepard && rt lib)
cp crates/shepard/out/libshepard.a target/staticlib/
