#!/usr/bin/env bash
# How long the check takes: proves each crate from nothing, one after another, over the libraries that `rt ci` has left or
# `rt lib` makes, and prints the seconds by crate, then their sum. Two runs are compared on one machine only, with nothing
# beside them. The edits, the tests and the programs are not counted.
set -u
cd "$(dirname "$0")/.." || exit 1
log=$(mktemp)
trap 'rm -f "$log"' EXIT
sum=0
for name in $(sed -n 's/^\([a-z0-9_]*\)\( *staticlib\)\{0,1\}:.*/\1/p' crates.txt); do
    python3 tests/compiler.py ready "$name" >"$log" 2>&1 || { tail -n 5 "$log"; exit 1; }
    began=$SECONDS
    python3 tests/compiler.py check "$name" >"$log" 2>&1 || { tail -n 5 "$log"; exit 1; }
    printf '%-16s %4d\n' "$name" $((SECONDS - began))
    sum=$((sum + SECONDS - began))
done
printf '%-16s %4d\n' sum "$sum"
