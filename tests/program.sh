#!/bin/sh
# Proves and builds a program, with the crates that it rests on: program.sh NAME. It is crates/NAME/out/NAME then. One that
# is there, and is newer than every source, is left as it is.
set -u
cd "$(dirname "$0")/.." || exit 1
program=crates/$1/out/$1
if [ -x "$program" ] &&
    [ -z "$(find crates crates.txt -newer "$program" -type f \( -name '*.rt' -o -name '*.antt' -o -name crates.txt \) -not -path '*/out/*')" ]; then
    exit 0
fi
cd "crates/$1" && exec rt run </dev/null
