#!/usr/bin/env bash
# Prints how many instructions a lookup of the library takes, by the number of points, and a grid of 64 by 64 as a grid file and as an Esri ASCII grid,
# counted by callgrind; bench/run.sh builds what it runs.
set -euo pipefail
cd "$(dirname "$0")/.."

counted() {
    valgrind --tool=callgrind --callgrind-out-file=/dev/null target/bench/bench "$@" 2>&1 | sed -n 's/.*Collected : //p'
}

# what one repetition takes
one() {
    echo $((($(counted "$@" 3) - $(counted "$@" 1)) / 2))
}

for points in 5 50 200 256; do
    echo "$points points: $(($(one repeat "$points") / 4096)) instructions a lookup"
done
echo "200 points: $(one grid 200) instructions a grid file, $(one text 200) an Esri ASCII grid"
