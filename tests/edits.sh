#!/usr/bin/env bash
# Tries wrong answers: tests/edits.sh NAME.. tries each edit of the named crates, and the prover must refuse it. Those of the
# gate stand in crates/NAME/must-fail; those that are tried by hand, when their crate changes, in tests/edits/NAME. Without a
# name: the edits of every crate, which take more than twice as long as the gate's.
#
# It works on a copy of the crates, since `rt must-fail` tries what stands in crates/NAME/must-fail. Each line says what the
# prover refuses first. The last line is 'N passed, M failed'.
set -u
cd "$(dirname "$0")/.." || exit 1
names=("$@")
if [ ${#names[@]} -eq 0 ]; then
    mapfile -t names < <(ls -d crates/*/must-fail tests/edits/* 2>/dev/null | sed 's|crates/||; s|/must-fail||; s|tests/edits/||' | sort -u)
fi
copy=$(mktemp -d)
trap 'rm -rf "$copy"' EXIT
# without crates/*/out: rt takes what was proved in this checkout by itself
tar -c --exclude 'crates/*/out' --exclude 'crates/*/must-fail' crates.txt crates | tar -x -C "$copy"
for name in "${names[@]}"; do
    mkdir "$copy/crates/$name/must-fail" || exit 1
    for edit in "crates/$name/must-fail"/*.edit "tests/edits/$name"/*.edit; do
        [ -f "$edit" ] && cp "$edit" "$copy/crates/$name/must-fail/"
    done
done
began=$SECONDS
there=$(find "$copy/crates" -path '*/must-fail/*.edit' | wc -l)
(cd "$copy" && rt must-fail "${names[@]}") 2>&1 | tee "$copy/log" | grep --line-buffered -E '^rt: ' | grep -v 'begins with what a check kept'
passed=$(grep -cE '^rt: must-fail [^ ]+: refused, as it must be' "$copy/log")
echo "$((SECONDS - began)) s"
echo "$passed passed, $((there - passed)) failed"
[ "$passed" -eq "$there" ] && [ "$there" -gt 0 ]
