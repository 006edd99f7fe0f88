#!/usr/bin/env bash
# Proves and builds the programs, the library and the command, and installs them.
#
#   bash install.sh PREFIX    such as /usr/local or "$HOME/.local"
#
# DESTDIR, where it is set, is put before every path that is written. Nothing is installed unless everything was built. With SHEPARD_BUILT=1 the programs
# and the library are those that stand in target/bin and target/staticlib.
set -eu

if [ $# -ne 1 ] || [ -z "$1" ] || [ "${1#-}" != "$1" ]; then
    echo 'usage: bash install.sh PREFIX' >&2
    exit 2
fi
case $1 in
    /*) prefix=${1%/} ;;
    *) prefix=$PWD/${1%/} ;;
esac
to=${DESTDIR:-}$prefix
cd "$(dirname "$0")"

missing=0
for needed in rt cargo gcc; do
    command -v "$needed" > /dev/null || { echo "missing: $needed" >&2; missing=1; }
done
[ "$missing" -eq 0 ] || exit 1

[ "${SHEPARD_BUILT:-}" = 1 ] || bash build.sh
(cd rust && SHEPARD_LIB_DIR=$PWD/../target/staticlib cargo build --release --offline --locked --target-dir ../target/rust)
gcc -shared -o target/libshepard.so -Wl,--whole-archive target/staticlib/libshepard.a -Wl,--no-whole-archive

version=$(sed -n 's/^version = "\(.*\)"$/\1/p' rust/Cargo.toml)
cat > target/shepard.pc << END
prefix=$prefix
libdir=\${prefix}/lib
includedir=\${prefix}/include

Name: shepard
Description: Read-level maps by Shepard's interpolation
Version: $version
Libs: \${libdir}/libshepard.a
Cflags: -I\${includedir}
END

# put MODE FILE PLACE
put() {
    install -D -m "$1" "$2" "$to/$3"
    echo "installed $to/$3"
}

put 755 target/rust/release/shepard bin/shepard
for program in shepard_grid shepard_esri shepard_replay; do
    put 755 "target/bin/$program" "bin/$program"
done
for page in man/*.1; do
    put 644 "$page" "share/man/man1/${page#man/}"
done
put 644 include/shepard.h include/shepard.h
put 644 target/staticlib/libshepard.a lib/libshepard.a
put 755 target/libshepard.so lib/libshepard.so
put 644 target/shepard.pc lib/pkgconfig/shepard.pc
put 644 python/shepard.py share/shepard/shepard.py

# the Python module looks for the shared object beside itself
ln -sf ../../lib/libshepard.so "$to/share/shepard/libshepard.so"
echo "installed $to/share/shepard/libshepard.so"
