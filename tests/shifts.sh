#!/usr/bin/env bash
# Document 02, §4: no 64-bit number is shifted by a variable count, in any crate. Read off the compiler's own forms of each
# crate (tests/shifts.py): of a library and a static library that which is linked, with the crate's functions and all that
# they reach; of a program the module that goes to LLVM, with all that `main` reaches. What a compiler for another processor
# makes of it is not seen here: none for the new computer was at hand (docs/DECISIONS.md, 87).
# Wants the libraries in crates/*/out, as `rt ci` leaves them, else it proves them first. Last line: 'N passed, M failed'.
set -u -o pipefail
cd "$(dirname "$0")/.." || exit 1
work=$(mktemp -d)
trap 'rm -rf "$work"' EXIT
passed=0
failed=0

count() {
    if [ "$2" -eq 0 ]; then
        passed=$((passed + 1))
    else
        failed=$((failed + 1))
        echo "FAILED: $1"
    fi
}

# The shifts that must not be: by a variable count, of a number that is not known to be of 32 bits or fewer.
forbidden() { awk 'NF == 3 && $3 != "constant" && !($2 ~ /^[0-9]+$/ && $2 <= 32)'; }

# found FORM: the functions of the sample in that form in which a shift is forbidden, in a line.
found() { python3 tests/shifts.py "read-$1" "$work/sample.$1" | forbidden | cut -d ' ' -f 1 | tr '\n' ' '; }

# Seven functions by hand, of which five must be found: two shift 64 bits by a variable count, one of them with a sign;
# one shifts a literal, one a field, whose form is not known here, and one a local that is not there.
cat >"$work/sample.mir" <<'END'
[["a::of_a_local", {"locals": [{"ty": "Bool"}, {"ty": {"Int": 64}}], "body": ["Seq", {"Assign": [{"local": 0, "steps": []},
  {"Op2": [{"Shr": "Unsigned"}, {"Copy": {"local": 1, "steps": []}}, {"Copy": {"local": 2, "steps": []}}]}]}, "Return"]}],
 ["a::of_a_literal", {"locals": [], "body": [{"Assign": [{"local": 0, "steps": []},
  {"Op2": ["Shl", {"Int": {"width": 64, "value": 1}}, {"Copy": {"local": 2, "steps": []}}]}]}]}],
 ["a::of_a_field", {"locals": [{"ty": {"Int": 32}}], "body": ["Seq", "Seq", {"If": {"Copy": {"local": 0, "steps": []}}},
  {"Assign": [{"local": 0, "steps": []}, {"Op2": ["Shl", {"Copy": {"local": 0, "steps": [{"Field": 1}]}}, {"Copy": {"local": 2, "steps": []}}]}]}]}],
 ["a::of_no_local", {"locals": [], "body": [{"Assign": [{"local": 0, "steps": []},
  {"Op2": ["Shl", {"Copy": {"local": 7, "steps": []}}, {"Copy": {"local": 2, "steps": []}}]}]}]}],
 ["a::of_a_signed", {"locals": [{"ty": {"Int": 64}}], "body": [{"Assign": [{"local": 0, "steps": []},
  {"Op2": [{"Shr": "Signed"}, {"Copy": {"local": 0, "steps": []}}, {"Copy": {"local": 0, "steps": []}}]}]}]}],
 ["a::of_a_half", {"locals": [{"ty": {"Int": 32}}, {"ty": {"Int": 64}}], "body": [{"Assign": [{"local": 0, "steps": []},
  {"Op2": ["Shl", {"Copy": {"local": 0, "steps": []}}, {"Copy": {"local": 1, "steps": []}}]}]}]}],
 ["a::by_eight", {"locals": [{"ty": {"Int": 64}}], "body": [{"Assign": [{"local": 0, "steps": []},
  {"Op2": [{"Shr": "Unsigned"}, {"Copy": {"local": 0, "steps": []}}, {"Int": {"width": 64, "value": 8}}]}]}]}]]
END
wanted="a::of_a_local a::of_a_literal a::of_a_field a::of_no_local a::of_a_signed "
names=$(found mir)
[ "$names" = "$wanted" ]
count "five of seven functions by hand must be found in the form of a library; found: ${names:-none}" $?

# The same in the other form: a vector has no width that is known here, and a turn of two numbers none either.
cat >"$work/sample.module" <<'END'
define internal noundef i64 @"a::of_a_local"(i64 noundef %a0, i64 noundef %a1) #0 {
  %r2 = lshr i64 %a0, %a1
define internal noundef i64 @"a::of_a_literal"(i64 noundef %a0) #0 {
  %r1 = shl nuw i64 1, %a0
define internal void @"a::of_a_vector"(ptr noundef %a0) #0 {
  %r1 = shl <2 x i64> %r0, %r3
define internal noundef i64 @"a::of_a_turn"(i64 noundef %a0) #0 {
  %r1 = call i64 @llvm.fshl.i64(i64 %a0, i64 %a0, i64 %a0)
define internal noundef i64 @"a::of_a_signed"(i64 noundef %a0, i64 noundef %a1) #0 {
  %r2 = ashr exact i64 %a0, %a1
define internal noundef i32 @"a::of_a_half"(i32 noundef %a0, i32 noundef %a1) #0 {
  %r2 = shl i32 %a0, %a1
define internal noundef i64 @"a::by_eight"(i64 noundef %a0) #0 {
  %r2 = lshr i64 %a0, 8
END
wanted="a::of_a_local a::of_a_literal a::of_a_vector a::of_a_turn a::of_a_signed "
names=$(found module)
[ "$names" = "$wanted" ]
count "five of seven functions by hand must be found in the form of a program; found: ${names:-none}" $?

# The halves themselves are shifted, so a form that is no longer read as here is found out.
halves=$(python3 tests/shifts.py mir halves 2>/dev/null | awk '$1 ~ /^halves::/ && $2 == 32 && $3 == "variable"' | wc -l)
[ "$halves" -eq 9 ]
count "halves shifts a half by a variable count at 9 places; seen: $halves" $?

names=$(sed -n 's/^\([a-z0-9_]*\)\( *staticlib\)\{0,1\}:.*/\1/p' crates.txt)
[ "$(printf '%s\n' "$names" | wc -l)" -eq "$(ls crates | wc -l)" ]
count "crates.txt has as many crates as there are folders" $?

for name in $names; do
    form=mir
    [ -f "crates/$name/src/main.rt" ] && form=module
    if ! python3 tests/shifts.py "$form" "$name" >"$work/form" 2>"$work/err"; then
        tail -n 1 "$work/err"
        count "$name: its form is not there" 1
        continue
    fi
    if grep -qE '^(pub(\([a-z]+\))? )?(extern "C" )?fn ' -r "crates/$name/src" && ! grep -q '^functions [1-9]' "$work/form"; then
        count "$name: its form has none of its functions" 1
        continue
    fi
    forbidden <"$work/form" >"$work/places"
    status=$?
    cat "$work/places"
    [ "$status" -eq 0 ] && [ ! -s "$work/places" ]
    count "$name: a 64-bit number is shifted by a variable count" $?
done
echo "$passed passed, $failed failed"
[ "$failed" -eq 0 ]
