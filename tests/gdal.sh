#!/usr/bin/env bash
# Reads the sample survey's Esri ASCII grid with GDAL, and holds what GDAL reads to the grid file: size, origin, cell size, NODATA, and each cell's location and value.
#
#   bash tests/gdal.sh [ESRI_PROGRAM [GRID_PROGRAM]]    target/bin/shepard_esri and target/bin/shepard_grid if left out
#
# Its status is 1 where anything differs. It is no part of the gate, since it needs GDAL: it installs gdal-bin by apt-get where gdalinfo is missing.
set -u
root=$(cd "$(dirname "$0")/.." && pwd)
esri_program=${1:-$root/target/bin/shepard_esri}
grid_program=${2:-$root/target/bin/shepard_grid}

fail() {
    echo "failed: $1"
    exit 1
}

folder=$(mktemp -d)
trap 'rm -rf "$folder"' EXIT

if ! command -v gdalinfo > /dev/null; then
    { apt-get update && DEBIAN_FRONTEND=noninteractive apt-get install --yes --no-install-recommends gdal-bin; } > "$folder/apt-get.out" 2>&1 \
        || { cat "$folder/apt-get.out"; fail 'apt-get: no gdal-bin'; }
fi

"$grid_program" < "$root/sample/worn_drive.rls" > "$folder/grid.rlg" || fail "$grid_program: not run"
"$esri_program" < "$root/sample/worn_drive.rls" > "$folder/grid.asc" || fail "$esri_program: not run"

# GDAL reads decimals as Float32 unless it is told otherwise; both types hold every answer exactly
for type in Float32 Float64; do
    gdalinfo -json -oo DATATYPE=$type "$folder/grid.asc" > "$folder/$type.json" || fail "gdalinfo: $type"
    gdal_translate -q -oo DATATYPE=$type -of XYZ "$folder/grid.asc" "$folder/$type.xyz" || fail "gdal_translate: $type"
done

gdalinfo --version
python3 - "$folder" << 'END' || fail 'GDAL reads other numbers than the grid file has'
import json
import struct
import sys
from fractions import Fraction
from pathlib import Path

folder = Path(sys.argv[1])
data = (folder / "grid.rlg").read_bytes()
if data[-4:] != b"RLG1":
    sys.exit(f"no grid file: {data[:20]!r}")
x0, y0, step, step_y, columns, rows = struct.unpack(">6H", data[-20:-8])
cells = struct.unpack(f">{columns * rows}h", data[:-20])
half = Fraction(step, 2)
wanted = {
    "driver": "AAIGrid",
    "size": [columns, rows],
    "origin": [x0 - half, y0 + (rows - 1) * step + half],
    "pixel size": [step, -step_y],
    "NODATA": -9999,
}
wanted_cells = [
    (x0 + column * step, y0 + row * step, Fraction(cells[row * columns + column], 256))
    for row in reversed(range(rows))
    for column in range(columns)
]


def read(kind: str) -> dict[str, object]:
    """What gdalinfo says of the text."""
    info = json.loads((folder / f"{kind}.json").read_text("ascii"), parse_float=Fraction)
    west, width, skew, north, other_skew, height = info["geoTransform"]
    (band,) = info["bands"]
    if (skew, other_skew, band["type"]) != (0, 0, kind):
        sys.exit(f"turned, or not {kind}: {info['geoTransform']}, {band['type']}")
    return {
        "driver": info["driverShortName"],
        "size": info["size"],
        "origin": [west, north],
        "pixel size": [width, height],
        "NODATA": band["noDataValue"],
    }


def plain(what: object) -> str:
    """A word, a number, or some numbers, to print."""
    if isinstance(what, list):
        return " ".join(map(plain, what))
    return f"{float(what):.12g}" if isinstance(what, Fraction) else str(what)


differ = False
for kind in ("Float32", "Float64"):
    found = read(kind)
    for name, value in found.items():
        alike = value == wanted[name]
        differ |= not alike
        print(f"{kind}: {name} {plain(value)}" + ("" if alike else f", not {plain(wanted[name])}"))
    lines = (folder / f"{kind}.xyz").read_text("ascii").splitlines()
    found_cells = [tuple(map(Fraction, line.split(" "))) for line in lines]
    agree = sum(map(tuple.__eq__, found_cells, wanted_cells))
    print(f"{kind}: {agree} of {len(wanted_cells)} cells agree, {len(found_cells)} read")
    differ |= found_cells != wanted_cells
sys.exit(differ)
END
