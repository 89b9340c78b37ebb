#!/bin/sh
# Builds the static library for hosts, compiles the C and the Rust example over it, runs both and compares what they print
# with hosts/output; runs hosts/untouched.c; and looks whether the library has the same words for refusals. Needs rt, cc and rustc.
set -eu
cd "$(dirname "$0")/.."
out=target/hosts
(cd crates/host && rt lib)
mkdir -p "$out"
cc -std=c11 -Wall -Wextra -Werror -O2 hosts/example.c -o "$out/example_c" crates/host/out/libhost.a
cc -std=c11 -Wall -Wextra -Werror -O2 hosts/untouched.c -o "$out/untouched" crates/host/out/libhost.a
rustc --edition 2024 -D warnings -O hosts/example.rs -o "$out/example_rust" -L native=crates/host/out
for example in example_c example_rust; do
    "$out/$example" >"$out/$example.out"
    diff -u hosts/output "$out/$example.out"
    echo "$example: as hosts/output"
done
"$out/untouched"
sed -n 's/^refusal [0-9]*: //p' hosts/output | while read -r words; do
    grep -qF "\"$words\"" crates/refusal/src/lib.rt || {
        echo "no words of the library: $words" >&2
        exit 1
    }
done
