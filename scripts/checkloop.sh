#!/bin/sh
# usage: sh scripts/checkloop.sh < LOOP.txt
# Checks a loop that was drawn by hand, from its text. Proves and builds the program first if it is not there yet.
set -eu
program=$(cd "$(dirname "$0")/.." && pwd)/crates/checkloop
if [ ! -x "$program/out/checkloop" ]; then
    (cd "$program" && rt run < /dev/null > /dev/null)
fi
"$program/out/checkloop"
