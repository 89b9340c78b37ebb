#!/bin/sh
# usage: bench/run.sh ORACLE [SOURCES]
# Times the proved library beside the original Rust: the same boards and picks through both in one process, answers compared.
# ORACLE: the folder with the original's build.sh and stand-ins (i32 scalar, turns in 64 bits). SOURCES: the original's src, unless
# build.sh knows where it stands. Needs rt and rustc. Everything is built in target/bench: the program twice, once with its code moved by 16 bytes,
# since in one of the two places some loops of both sides are slower by a tenth.
set -eu
oracle=$(cd "${1:?folder of the oracle}" && pwd)
sources=$(cd "${2:-$oracle/../docs/src/src}" && pwd)
cd "$(dirname "$0")/.."
out=$PWD/target/bench
(cd crates/host && rt lib)
mkdir -p "$out"
rm -rf "$out/oracle"
cp -R "$oracle" "$out/oracle"
mkdir -p "$out/oracle/standin/src/algorithms/polygonization" "$out/oracle/standin/src/algorithms/intersection"
sh "$out/oracle/build.sh" "$out/original" "$sources"
build() {
    rustc --edition 2024 -D warnings --check-cfg 'cfg(moved)' -C opt-level=3 -C codegen-units=1 bench/bench.rs -o "$out/$1" \
        -L native=crates/host/out -L "$out/original" --extern rgeometry="$out/original/librgeometry.rlib" $2
}
build bench ""
build bench_moved "--cfg moved"
"$out/bench"
echo
echo "moved by 16 bytes"
"$out/bench_moved"
