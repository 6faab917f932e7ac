#!/usr/bin/env bash
# The built programs on what one stdin file cannot hold: no input, no last newline, very long lines, any bytes at all, input
# in pieces, a pipe that stays open, pages that are just full, and input or output that fails.
# Wants them in crates/NAME/out, where `rt ci` leaves them, or `rt run` in the folder of each; and a C compiler for
# tests/pieces.c. Last line: 'N passed, M failed'.
set -u
cd "$(dirname "$0")/.." || exit 1
program=bitcalls
work=$(mktemp -d)
trap 'rm -rf "$work"' EXIT
passed=0
failed=0

# run NAME: a built program.
run() { sh tests/run.sh "crates/$1/out/$1"; }

# same NAME: what $program writes for $work/in is $work/wanted, byte for byte.
same() {
    run "$program" <"$work/in" >"$work/got" || echo "exit status $?" >>"$work/got"
    wrote "$1"
}

# wrote NAME: $work/got, what $program wrote, is $work/wanted, byte for byte.
wrote() {
    if cmp -s "$work/got" "$work/wanted"; then
        passed=$((passed + 1))
        echo "ok $program: $1"
    else
        failed=$((failed + 1))
        echo "FAILED $program: $1: see the first lines of what was wanted and what came"
        head -c 300 "$work/wanted"
        echo "--"
        head -c 300 "$work/got"
    fi
}

# pieces MODE..: $program, with its input handed to it as tests/pieces.c says.
pieces() { "$work/pieces" "$@" sh tests/run.sh "crates/$program/out/$program"; }

# told NAME WHY: $work/err, what $program wrote to standard error, is one line that gives its name and WHY.
told() {
    if echo "$program: $2" | cmp -s - "$work/err"; then
        passed=$((passed + 1))
        echo "ok $program: $1"
    else
        failed=$((failed + 1))
        echo "FAILED $program: $1: wanted '$program: $2', and standard error has '$(head -c 300 "$work/err")'"
    fi
}

if ! "${CC:-cc}" -std=c11 -O2 -Wall -Wextra -Werror tests/pieces.c -o "$work/pieces"; then
    failed=$((failed + 1))
    echo "FAILED tests/pieces.c: it was not compiled"
fi

printf 'read_u64 4 9 F01F' >"$work/in"
printf 'ok 13 1FF\n' >"$work/wanted"
same "a last line without its newline"

printf 'read_u64 4 9 F01F\r\nread_u64 4 9 f01f\nread_u64 4  9 F01F\nread_u64 4 9 F01F \n' >"$work/in"
printf 'F 14\nF 14\nF 14\nF 14\n' >"$work/wanted"
same "a carriage return, small letters, two spaces and a trailing one are malformed"

printf 'read_u64 18446744073709551615 1 FF\nread_u64 18446744073709551616 1 FF\n' >"$work/in"
printf 'F 2 1 0\nF 14\n' >"$work/wanted"
same "the largest cursor, and one over it"

for program in bitcalls numbercalls tablecalls samopute readcalls compose; do
    : >"$work/in"
    : >"$work/wanted"
    same "no input, no output"

    printf '\n' >"$work/in"
    printf 'F 14\n' >"$work/wanted"
    same "an empty line is malformed"

    list=crates/$program
    # samopute digests a line of any length, and these are digits: it is 15 there, not 14.
    case $program in samopute) long='F 15 AAAAAA' ;; *) long='F 14' ;; esac
    { head -c 70000 /dev/zero | tr '\0' A; echo; head -n 1 "$list/stdin"; } >"$work/in"
    { echo "$long"; run "$program" <<<"$(head -n 1 "$list/stdin")"; } >"$work/wanted"
    same "a line of 70,000 bytes is answered once, and the next starts clean"

    # Every byte value: each line is malformed, and there is one answer for each.
    LC_ALL=C awk 'BEGIN { for (i = 0; i < 256; i++) if (i != 10) printf "%cZ\n", i }' >"$work/in"
    LC_ALL=C awk 'END { for (i = 0; i < NR; i++) print "F 14" }' "$work/in" >"$work/wanted"
    same "each byte value, and a letter that is no digit"

    # The stored list many times over: nothing is lost or cut at the edges of the reads. awk ends the last line.
    for _ in $(seq 100); do awk 1 "$list/stdin"; done >"$work/in"
    for _ in $(seq 100); do cat "$list/stdout"; done >"$work/wanted"
    same "the stored list a hundred times"

    # A write that a signal interrupts is tried again: nothing is lost, and nothing is told.
    pieces stop <"$work/in" >"$work/got" 2>&1
    wrote "a write that a signal interrupts"

    # The output fails, in the middle of answers that take several lines too: it is told once.
    if [ -w /dev/full ]; then
        run "$program" <"$work/in" 2>"$work/err" >/dev/full
        told "a full device is told on standard error" 'standard output: No space left on device'
    fi
    run "$program" <<<'' 2>"$work/err" >&-
    told "a closed standard output is told on standard error" 'standard output: Bad file descriptor'

    run "$program" <"$work" 2>"$work/err" >"$work/got"
    told "a directory as standard input is told on standard error" 'standard input: Is a directory'

    # A whole line and a part of one in a pipe that does not wait (dd sets that): the second read fails.
    mkfifo "$work/pipe"
    exec 3<>"$work/pipe"
    dd iflag=nonblock count=0 status=none <&3
    printf '\n01F802' >&3
    run "$program" <&3 2>"$work/err" >"$work/got"
    exec 3>&-
    rm "$work/pipe"
    printf 'F 14\n' >"$work/wanted"
    wrote "a line that a failed read cuts short is not answered"
    told "a read that fails in a line is told on standard error" 'standard input: Resource temporarily unavailable'

    # Two lines one after the other, and no end: each is answered before the program waits for the next.
    (
        coproc run "$program"
        for _ in 1 2; do
            echo >&"${COPROC[1]}"
            IFS= read -r -t 10 answer <&"${COPROC[0]}" || break
            echo "$answer"
        done
    ) >"$work/got"
    printf 'F 14\nF 14\n' >"$work/wanted"
    wrote "a line is answered while the input stays open"

    # The stored list's first lines, in pieces: each read gets one of them.
    head -n 40 "$list/stdin" >"$work/in"
    run "$program" <"$work/in" >"$work/wanted"
    for n in 1 7 64 1021; do
        pieces "$n" <"$work/in" >"$work/got"
        wrote "pieces of $n bytes"
    done

    # One piece whose answers are more than a page holds, and no more input: the last line is answered too. Only a page of
    # readcalls holds the answers to a whole piece of empty lines.
    case $program in samopute) lines=52429 ;; readcalls) continue ;; *) lines=13108 ;; esac
    head -c "$lines" /dev/zero | tr '\0' '\n' | pieces hold $((5 * lines)) >"$work/got"
    yes 'F 14' | head -n "$lines" >"$work/wanted"
    wrote "a page is full, and the line that waits is answered before more is read"
done

program=samopute
printf '01F8022AFC5C3DC098FFFF\r\n01F802\r\n\r\n' >"$work/in"
printf 'F 14\nF 14\nF 14\n' >"$work/wanted"
same "a carriage return is no digit"

digits() { head -c "$1" /dev/zero | tr '\0' A; }

{ printf 000001; digits 70000; echo; printf 01F802; digits 70000; echo; printf 01F802; digits 69999; echo; printf 01F802; digits 70000; printf 'a\n'; echo 01F802; } >"$work/in"
printf 'F 15 000001\nP 01F802 35000\nF 7 35000\nF 14\nF 14\nP 01F802 0\nF 4 0\n' >"$work/wanted"
same "lines over 70,000 digits: 15 and 7 with the true length, 14 for a digit too few or a small letter at the end"

{ printf 01F802; digits 446; echo; printf 01F802; digits 448; } >"$work/in"
printf 'P 01F802 223\nR 0 - 0 8 A AA\nR 1 - 8 2 A 2\nR 3 - 16 16 A AAAA\nR 4 - 32 16 A AAAA\nE 64\nP 01F802 224\nF 7 224\n' >"$work/wanted"
same "223 bytes are read, 224 are refused"

# A frame's answer at the end of a page, with each number of bytes left on it from none to one more than the answer has: empty
# lines (5 bytes each) and an unknown PGN (12 bytes) fill the page, and each piece starts a page.
frame=01F8022AFC5C3DC098FFFF
echo "$frame" >"$work/one"
run samopute <"$work/one" >"$work/lines"
size=$(wc -c <"$work/lines")
edges() {
    LC_ALL=C awk -v "size=$size" -v "empty=$1" -v "unknown=$2" -v "frame=$3" -v "end=$4" 'BEGIN {
        for (left = 0; left <= size + 1; left++) {
            fill = 262144 - left
            while (fill % 5 != 0) { printf "%s", unknown; fill -= 12 }
            for (; fill > 0; fill -= 5) printf "%s", empty
            printf "%s%s", frame, end
        }
    }'
}
edges '\n' '01F803\n' "$frame\n" '\001' | tr '\001' '\0' | pieces split >"$work/got"
edges 'F 14\n' 'F 15 01F803\n' "$(sed 's/$/\\n/' "$work/lines" | tr -d '\n')" '' >"$work/wanted"
wrote "a frame at every place of the edge of a page"

# A frame of 151 lines across some edges.
frame=$(grep -m 1 '^01F805.\{446\}$' crates/samopute/stdin)
printf '%s\n' "$frame" >"$work/one"
run samopute <"$work/one" >"$work/lines"
for n in $(seq 0 40); do
    for _ in $(seq "$n"); do echo; done
    for _ in $(seq 20); do printf '%s\n' "$frame"; done
done >"$work/in"
for n in $(seq 0 40); do
    for _ in $(seq "$n"); do echo 'F 14'; done
    for _ in $(seq 20); do cat "$work/lines"; done
done >"$work/wanted"
same "frames of 151 lines across edges of a page"

program=readcalls
printf '64 223 1,800 01\r\n64 223 1,800 01' >"$work/in"
printf 'F 14\nR 0 - 0 8 A 1 U8 1\nE 8 1\nD -\n' >"$work/wanted"
same "a carriage return is no digit, and the last line may lack its newline"

{ printf '64 223 1,800 '; digits 8179; echo; printf '64 223 1,800 '; digits 8180; echo; echo '64 223 1,800 01'; } >"$work/in"
printf 'F 14\nF 14\nR 0 - 0 8 A 1 U8 1\nE 8 1\nD -\n' >"$work/wanted"
same "lines of 8,192 bytes and of one more"

# 1,741 readings to a case: a counter, and a set of 60 fields of one bit with its 29 elements.
{ printf '9999 223 1003D,800'; for _ in $(seq 60); do printf ',100'; done; printf ',1E0000003C0001 1D'; digits 444; echo; } >"$work/one"
run readcalls <"$work/one" >"$work/lines"
if [ "$(wc -l <"$work/lines")" -eq 1743 ] && [ "$(tail -n 2 "$work/lines" | tr '\n' ' ')" = 'E 1748 1741 D - ' ]; then
    passed=$((passed + 1))
    echo "ok $program: a case of 1,741 readings"
else
    failed=$((failed + 1))
    echo "FAILED $program: a case of 1,741 readings: $(tail -n 2 "$work/lines")"
fi
for _ in $(seq 20); do cat "$work/one"; done >"$work/in"
for _ in $(seq 20); do cat "$work/lines"; done >"$work/wanted"
same "cases of more lines than the output buffer holds"

program=compose
printf '01F802 u42 u0 f1.5708 f391.04\r\n01F802 u42 u0 f1.5708 f391.04' >"$work/in"
printf 'F 14\n01F8022AFC5C3DC098FFFF\n' >"$work/wanted"
same "a carriage return is no digit, and the last line may lack its newline"

ones() { head -c "$1" /dev/zero | tr '\0' F; }
{ printf 'T 01,C 223 t'; digits 8180; echo; printf 'T 001,C 223 t'; digits 8180; echo; echo 'T 1,800 1 u1'; } >"$work/in"
{ printf 'F 13 0\nD '; ones 446; printf '\nF 14\nE 1\nD 01\n'; } >"$work/wanted"
same "lines of 8,192 bytes and of one more"

texts() { for _ in $(seq "$1"); do printf ' t'; done; }
{ printf 'T 1,C 3'; texts 2000; echo; printf 'T 1,C 3'; texts 2001; echo; } >"$work/in"
printf 'F 12 1\nD 0000FF\nF 14\n' >"$work/wanted"
same "2,000 values and one more"

words() { printf '1,800'; for _ in $(seq "$1"); do printf ',0'; done; }
{ echo "T $(words 198) 1 u5"; echo "T $(words 199) 1 u5"; } >"$work/in"
printf 'E 1\nD 05\nF 14\n' >"$work/wanted"
same "200 words and one more"

# What was left of an earlier line's values and texts does not show in the next.
printf 'T 2,D,D 8 eFF:414243 e01:44\nT 2,D,800 8 t u1\nT 1,D 8 e02:45\nT 1,200B 4 t\n' >"$work/in"
printf 'E 8\nD 05FF414243030144\nE 2\nD 0101FFFFFFFFFFFF\nE 3\nD 030245FFFFFFFFFF\nE 4\nD FFFFFFFF\n' >"$work/wanted"
same "each line starts clean"

# What compose writes samopute reads: 4,096 courses and speeds, whose raws are known, and a position with two stations.
LC_ALL=C awk 'BEGIN { for (i = 0; i < 4096; i++) printf "01F802 u%d u%d f%.4f f%.2f\n", i % 256, i % 4, (i * 16 + 15) / 10000, (65535 - i * 16) / 100 }' |
    run compose >"$work/in"
LC_ALL=C awk 'function n(raw, none) { return raw == none ? "N" : "A" }
    BEGIN { for (i = 0; i < 4096; i++) {
        print "P 01F802 8"
        printf "R 0 - 0 8 %s %X\nR 1 - 8 2 %s %X\n", n(i % 256, 255), i % 256, n(i % 4, 3), i % 4
        printf "R 3 - 16 16 %s %X\nR 4 - 32 16 %s %X\nE 64\n", n(i * 16 + 15, 65535), i * 16 + 15, n(65535 - i * 16, 65535), 65535 - i * 16
    } }' >"$work/wanted"
program=samopute
same "frames that compose has made: 4,096 of 129026"
echo '01F805 u1 u20000 f43200 f0 f0 f0 u0 u1 u1 u12 f1.2 f-0.01 f0 u2 u3 u2748 f5 u1 u0 f655.35' | run compose >"$work/in"
cat >"$work/wanted" <<'END'
P 01F805 51
R 0 - 0 8 A 1
R 1 - 8 16 A 4E20
R 2 - 24 32 A 19BFCC0B
R 3 - 56 64 A 0
R 4 - 120 64 A 0
R 5 - 184 64 A 0
R 6 - 248 4 A 0
R 7 - 252 4 A 1
R 8 - 256 2 A 1
R 10 - 264 8 A C
R 11 - 272 16 A 78
R 12 - 288 16 A FFFF
R 13 - 304 32 A 0
R 14 - 336 8 A 2
R 15 0 344 4 A 3
R 16 0 348 12 A ABC
R 17 0 360 16 A 1F4
R 15 1 376 4 A 1
R 16 1 380 12 A 0
R 17 1 392 16 N FFFF
E 408
END
same "a frame that compose has made: 129029 with two stations"

# 7,600 m/s do not fit 16 bits at 0.01: the value is refused, and the buffer says that the field is not available.
fault='u42 u0 f1.5708 f7600'
program=compose
{ echo "01F802 $fault"; echo "T 6,800,202,60F,38D1B71702001000,3C23D70A02001000,100F 8 $fault"; } >"$work/in"
printf 'F 10 4\nF 10 4\nD 2AFC5C3DFFFFFFFF\n' >"$work/wanted"
same "7,600 m/s in 16 bits at 0.01"
run compose <"$work/in" | sed -n 's/^D /01F802/p' >"$work/frame"
mv "$work/frame" "$work/in"
printf 'P 01F802 8\nR 0 - 0 8 A 2A\nR 1 - 8 2 A 0\nR 3 - 16 16 A 3D5C\nR 4 - 32 16 N FFFF\nE 64\n' >"$work/wanted"
program=samopute
same "the buffer after 7,600 m/s: the field is not available"

echo "$passed passed, $failed failed"
[ "$failed" -eq 0 ]
