#!/bin/sh
# usage: sh scripts/tour.sh < BOARD.txt
# From a board as a text to its loop. Proves and builds the two programs first if they are not there yet.
set -eu
top=$(cd "$(dirname "$0")/.." && pwd)
for program in makejob tourjob; do
    if [ ! -x "$top/crates/$program/out/$program" ]; then
        (cd "$top/crates/$program" && rt run < /dev/null > /dev/null)
    fi
done
"$top/crates/makejob/out/makejob" | "$top/crates/tourjob/out/tourjob"
