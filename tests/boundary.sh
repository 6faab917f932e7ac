#!/usr/bin/env bash
# The boundary as C and Rust see it: the header, the library by itself, the C examples, hostile input, the stack that it
# takes and the Rust crate. Wants libsamopute_c.a and libsamopute_run.a in target/staticlib, where ./libraries puts them,
# or the folder of them in SAMOPUTE_LIB_DIR. Last line: 'N passed, M failed'.
#
# The library is for x86-64. On another processor C is compiled for x86-64 too, by Debian's g++-x86-64-linux-gnu, and run
# under an emulator (tests/run.sh). Rust, which cannot be had for x86-64 there, and what the address checker watches, which
# runs under no emulator, are compiled for the machine's own processor, and reach the library through tests/across.
set -u
cd "$(dirname "$0")/.." || exit 1
folder=$(realpath -m "${SAMOPUTE_LIB_DIR:-target/staticlib}")
libraries=("$folder/libsamopute_run.a" "$folder/libsamopute_c.a")
case $(uname -m) in x86_64) across='' ;; *) across=x86_64-linux-gnu- ;; esac
cc=${CC:-${across}gcc}
cxx=${CXX:-${across}g++}
run=(sh tests/run.sh)
work=$(mktemp -d)
trap 'rm -rf "$work"' EXIT
passed=0
failed=0

# The rounds of the quick run, and the most bytes of stack that a call may take: docs/BENCHMARKS.md has what was measured.
rounds=1000000
checked_rounds=300000
stack_rounds=5000
stack_limit=2048

# test_of NAME COMMAND..: one test by the command's exit status. What it says is shown if it fails.
test_of() {
    local name=$1
    shift
    if "$@" >"$work/log" 2>&1; then
        passed=$((passed + 1))
        echo "ok boundary: $name"
    else
        failed=$((failed + 1))
        echo "FAILED boundary: $name"
        tail -n 20 "$work/log"
        return 1
    fi
}

# told: the last line of what the last test said.
told() { echo "   $(tail -n 1 "$work/log")"; }

# left_out WHAT WHY: a test that cannot be run here. Where CI is true it must be.
left_out() {
    if [ "${CI:-}" = true ]; then
        failed=$((failed + 1))
        echo "FAILED boundary: $1 cannot be run: $2"
    else
        echo "NOT RUN, NOT COUNTED: $1 ($2)"
    fi
}

finish() {
    echo "$passed passed, $failed failed"
    [ "$failed" -eq 0 ] && [ "$passed" -gt 0 ]
    exit
}

# The names of the calls that the header declares, one a line.
declared() { sed -n 's/^\(uint32_t\|size_t\) \(samopute_[a-z0-9_]*\)(.*/\2/p' include/samopute.h | sort; }

# A file that takes the address of each call and uses each macro: C and C++ alike.
make_user() {
    echo '#include "samopute.h"'
    echo 'typedef void (*any_call)(void);'
    echo 'extern const any_call calls[];'
    echo 'const any_call calls[] = {'
    declared | sed 's/.*/    (any_call)&,/'
    cat <<'END'
};
static const uint64_t table[] = {
    SAMOPUTE_HEAD(2, 1, 223, 1),
    SAMOPUTE_FIELD(SAMOPUTE_NUMBER, 8, 0, SAMOPUTE_MARK_NONE, 0),
    SAMOPUTE_FIELD(SAMOPUTE_NUMBER, 16, 1, SAMOPUTE_MARK_DOUBLE, 0x3C23D70A),
    SAMOPUTE_SET(1, 1, 0, 255),
};
static const uint64_t mismarked[] = {SAMOPUTE_HEAD(1, 0, 0, 0), SAMOPUTE_FIELD(SAMOPUTE_NUMBER, 8, 0, 1025, 0x3C23D70A)};
END
    make_values
    make_in_place
    make_filled
    make_units
    cat <<'END'
int main(void)
{
    uint8_t readings[SAMOPUTE_READINGS_LENGTH(1)] = {1, 0, 0, 0, 0, 0, 0, 0, 5};
    struct samopute_reading reading;
    uint64_t answer[3];
    int64_t whole = 0;
    int wrong;
    double number = 0;
    samopute_reading_at(readings, 0, &reading);
    if (samopute_reading_count(readings, sizeof readings) != 1 || reading.field != 5) {
        return 1;
    }
    reading.value_kind = SAMOPUTE_VALUE_I8;
    reading.value = (uint64_t)-3;
    if (!samopute_value_i64(&reading, &whole) || whole != -3) {
        return 2;
    }
    reading.value_kind = SAMOPUTE_VALUE_F32;
    reading.value = 0x3FC00000;
    if (samopute_value_i64(&reading, &whole) || !samopute_value_double(&reading, &number) || number != 1.5) {
        return 3;
    }
    reading.value_kind = SAMOPUTE_VALUE_BYTES;
    if (samopute_value_double(&reading, &number)) {
        return 4;
    }
    if (samopute_resolution(0.01f) != 0x3C23D70A) {
        return 5;
    }
    /* A number that does not fit is refused, never taken for another. */
    if (SAMOPUTE_FIELD(257, 65792, 2, 0, 0) != SAMOPUTE_FIELD(255, 65535, 1, 0, 0)) {
        return 6;
    }
    if (samopute_check(table, sizeof table / sizeof table[0], answer) != SAMOPUTE_DONE) {
        return 7;
    }
    if (samopute_check(mismarked, 2, answer) != SAMOPUTE_TABLE_REFUSED || answer[0] != SAMOPUTE_RULE_D || answer[1] != 0) {
        return 30;
    }
    if (SAMOPUTE_VERSION != 196608 || samopute_version() != SAMOPUTE_VERSION) {
        return 13;
    }
    wrong = values();
    wrong = wrong != 0 ? wrong : in_place();
    wrong = wrong != 0 ? wrong : filled();
    return wrong != 0 ? wrong : units();
}
END
}

# What the helpers put is what the calls take: each kind of value, written, read, and written again.
make_values() {
    cat <<'END'
static const uint64_t each[] = {
    SAMOPUTE_HEAD(6, 0, 0, 0),
    SAMOPUTE_FIELD(SAMOPUTE_NUMBER, 64, 0, SAMOPUTE_MARK_NONE, 0),
    SAMOPUTE_FIELD(SAMOPUTE_NUMBER, 8, 1, SAMOPUTE_MARK_NONE, 0),
    SAMOPUTE_FIELD(SAMOPUTE_NUMBER, 16, 0, SAMOPUTE_MARK_DOUBLE, 0x3C23D70A),
    SAMOPUTE_FIELD(SAMOPUTE_FLOAT, 32, 0, SAMOPUTE_MARK_NONE, 0),
    SAMOPUTE_FIELD(SAMOPUTE_STRING_LAU, 0, 0, SAMOPUTE_MARK_NONE, 0),
    SAMOPUTE_FIELD(SAMOPUTE_BINARY, 24, 0, SAMOPUTE_MARK_NONE, 0),
};
static int values(void)
{
    static const uint8_t wanted[23] = {8, 7, 6,    5,    4, 3, 2,   1,   0xFD, 0xF4, 1, 0,
                                       0, 0xC0, 0x3F, 4, 1, 'h', 'i', 9,    8,    7, 0xFF};
    static const uint8_t text[5] = {9, 8, 7, 'h', 'i'};
    struct samopute_value as_they_are[6];
    struct samopute_reading reading;
    uint8_t records[SAMOPUTE_VALUES_LENGTH(6)], readings[SAMOPUTE_READINGS_LENGTH(6)];
    uint8_t padding[SAMOPUTE_PADDING_LENGTH], payload[23], again[23];
    uint64_t answer[4], decoded[6];
    size_t i;
    as_they_are[0] = samopute_value_of_u64(0x0102030405060708);
    as_they_are[1] = samopute_value_of_i64(-3);
    as_they_are[2] = samopute_value_of_f64(5);
    as_they_are[3] = samopute_value_of_f32(1.5f);
    as_they_are[4] = samopute_value_of_lau(3, 2, 1);
    as_they_are[5] = samopute_value_of_bytes(0, 3);
    for (i = 0; i < 6; i++) {
        samopute_put_value(records, i, as_they_are[i]);
    }
    if (memcmp(records, as_they_are, sizeof records) != 0) {
        return 8;
    }
    if (samopute_encode(each, 7, records, sizeof records, text, sizeof text, payload, sizeof payload, answer) != 0 ||
        answer[0] != 22 || memcmp(payload, wanted, sizeof wanted) != 0) {
        return 9;
    }
    if (samopute_decode(each, 7, payload, 22, padding, sizeof padding, readings, sizeof readings, decoded) != 0) {
        return 10;
    }
    for (i = 0; i < 6; i++) {
        samopute_reading_at(readings, i, &reading);
        samopute_put_value(records, i, samopute_value_of_reading(&reading));
    }
    if (samopute_encode(each, 7, records, sizeof records, payload, 22, again, sizeof again, answer) != 0 ||
        memcmp(again, wanted, sizeof wanted) != 0) {
        return 11;
    }
    samopute_put_value(records, 1, samopute_value_of(SAMOPUTE_VALUE_I8, 0xFD, 0));
    if (samopute_encode(each, 7, records, sizeof records, payload, 22, again, sizeof again, answer) != 11 ||
        answer[1] != 1) {
        return 12;
    }
    return 0;
}
END
}

# Readings without a copy: a buffer that is a struct, and structs that the library stores.
make_in_place() {
    cat <<'END'
static int in_place(void)
{
    static const uint8_t payload[5] = {2, 0xFE, 0xFF, 0xFF, 0x7F};
    SAMOPUTE_READINGS(3) buffer;
    const struct samopute_reading *r = &buffer.readings[1];
    struct samopute_reading run[4];
    uint8_t padding[SAMOPUTE_PADDING_LENGTH];
    uint64_t answer[6];
    double number = 0;
    if (samopute_decode(table, 4, payload, 5, padding, sizeof padding, (uint8_t *)&buffer, sizeof buffer, answer) !=
            0 || answer[0] != 3 || buffer.count != 3) {
        return 14;
    }
    if (r->field != 1 || r->element != 0 || r->start != 8 || r->bits != 16 || r->availability != SAMOPUTE_AVAILABLE ||
        r->value_kind != SAMOPUTE_VALUE_F64 || r->has_raw != 1 || r->has_encoding != 0 || r->raw != 0xFFFE ||
        r->length != 0 || !samopute_value_double(r, &number) || number != -2 * (double)0.01f) {
        return 15;
    }
    if (r[1].element != 1 || r[1].availability != SAMOPUTE_NOT_AVAILABLE || r[1].raw != 0x7FFF) {
        return 16;
    }
    memset(run, 0x5A, sizeof run);
    if (samopute_decode_run(table, 4, payload, 5, padding, sizeof padding, run, 4, answer) != 0 || answer[0] != 3 ||
        memcmp(run, buffer.readings, sizeof buffer.readings) != 0 || run[3].field != 0x5A5A5A5A5A5A5A5A) {
        return 17;
    }
    memset(run, 0x5A, sizeof run);
    if (samopute_decode_run(table, 4, payload, 5, padding, sizeof padding, run, 2, answer) != SAMOPUTE_NO_ROOM ||
        answer[0] != 2 || answer[2] != 1 || run[2].field != 0x5A5A5A5A5A5A5A5A) {
        return 18;
    }
    return 0;
}
END
}

# A payload that is filled, read, and written again: its text stands past the bytes that were received.
make_filled() {
    cat <<'END'
static int filled(void)
{
    static const uint64_t words[] = {
        SAMOPUTE_HEAD(2, 0, 2, 1),
        SAMOPUTE_FIELD(SAMOPUTE_NUMBER, 8, 0, SAMOPUTE_MARK_NONE, 0),
        SAMOPUTE_FIELD(SAMOPUTE_STRING_FIX, 8, 0, SAMOPUTE_MARK_NONE, 0),
    };
    static const uint8_t received[1] = {1}, wanted[2] = {1, 0xFF};
    uint8_t padding[SAMOPUTE_PADDING_LENGTH], payload[2];
    uint8_t readings[SAMOPUTE_READINGS_LENGTH(2)], records[SAMOPUTE_VALUES_LENGTH(2)];
    struct samopute_reading reading;
    uint64_t answer[6], written[4];
    const uint8_t *working;
    size_t i;
    if (samopute_decode(words, 3, received, 1, padding, sizeof padding, readings, sizeof readings, answer) != 0 ||
        answer[0] != 2 || answer[1] != 2 || answer[2] != 16) {
        return 19;
    }
    working = samopute_working_payload(answer, received, padding);
    if (working != padding || samopute_working_length(answer, 1) != 2) {
        return 20;
    }
    for (i = 0; i < 2; i++) {
        samopute_reading_at(readings, i, &reading);
        samopute_put_value(records, i, samopute_value_of_reading(&reading));
    }
    if (samopute_encode(words, 3, records, sizeof records, working, samopute_working_length(answer, 1), payload, 2,
                        written) != 0 || written[0] != 2 || memcmp(payload, wanted, 2) != 0) {
        return 21;
    }
    /* The received length is another one: the text would lie past it. */
    if (samopute_encode(words, 3, records, sizeof records, working, 1, payload, 2, written) != SAMOPUTE_TEXT_TOO_LONG) {
        return 22;
    }
    if (samopute_decode(words, 3, wanted, 2, padding, sizeof padding, readings, sizeof readings, answer) != 0 ||
        answer[1] != 0 || samopute_working_payload(answer, wanted, padding) != wanted ||
        samopute_working_length(answer, 2) != 2) {
        return 23;
    }
    return 0;
}
END
}

# Refusal 2 tells whether it counts bits or bytes: two of them that carry the same numbers.
make_units() {
    cat <<'END'
static int unit_of(uint64_t first_width, const uint8_t *payload, size_t length, uint64_t unit)
{
    uint64_t words[3], answer[6];
    uint8_t padding[SAMOPUTE_PADDING_LENGTH], readings[SAMOPUTE_READINGS_LENGTH(2)];
    struct samopute_reading run[2];
    words[0] = SAMOPUTE_HEAD(2, 0, 0, 0);
    words[1] = SAMOPUTE_FIELD(SAMOPUTE_NUMBER, first_width, 0, SAMOPUTE_MARK_NONE, 0);
    words[2] = SAMOPUTE_FIELD(SAMOPUTE_STRING_LAU, 0, 0, SAMOPUTE_MARK_NONE, 0);
    if (samopute_decode(words, 3, payload, length, padding, sizeof padding, readings, sizeof readings, answer) !=
            SAMOPUTE_BEYOND || answer[2] != 1 || answer[3] != 8 || answer[4] != 7 || answer[5] != unit) {
        return 0;
    }
    memset(answer, 0x5A, sizeof answer);
    return samopute_decode_run(words, 3, payload, length, padding, sizeof padding, run, 2, answer) ==
               SAMOPUTE_BEYOND && answer[3] == 8 && answer[4] == 7 && answer[5] == unit;
}
static int units(void)
{
    static const uint8_t none[1] = {0}, texts[10] = {0, 10, 1, 'A', 'B', 'C', 'D', 'E', 'F', 'G'}, short_frame[1] = {0x2A};
    uint8_t padding[SAMOPUTE_PADDING_LENGTH], readings[SAMOPUTE_READINGS_LENGTH(1)];
    uint64_t answer[6];
    if (!unit_of(1, none, 1, SAMOPUTE_UNIT_BITS) || !unit_of(8, texts, 10, SAMOPUTE_UNIT_BYTES)) {
        return 24;
    }
    /* 129029 ends before its date. */
    if (samopute_decode_pgn(129029, short_frame, 1, padding, sizeof padding, readings, sizeof readings, answer) !=
            SAMOPUTE_BEYOND || answer[2] != 1 || answer[3] != 16 || answer[4] != 0 ||
        answer[5] != SAMOPUTE_UNIT_BITS) {
        return 25;
    }
    /* 129026 ends before its COG reference: refusal 4 counts nothing. */
    if (samopute_decode_pgn(129026, short_frame, 1, padding, sizeof padding, readings, sizeof readings, answer) !=
            SAMOPUTE_CUT_SHORT || answer[5] != SAMOPUTE_UNIT_NONE) {
        return 26;
    }
    return 0;
}
END
}

# A machine that puts the high byte first has no SAMOPUTE_READINGS: the bytes are other numbers there.
in_place_by_order() {
    local order
    for order in LITTLE BIG; do
        echo '#include "samopute.h"' | "$cc" -std=c99 -I include -U__BYTE_ORDER__ \
            "-D__BYTE_ORDER__=__ORDER_${order}_ENDIAN__" -dM -E - >"$work/macros.$order" || return 1
    done
    grep -q '^#define SAMOPUTE_READINGS(' "$work/macros.LITTLE" &&
        ! grep '^#define SAMOPUTE_READINGS(' "$work/macros.BIG"
}

# header COMPILER FLAGS..: the header compiles without a word, every call is in the library, and the helpers work.
header() {
    local suffix=c
    case $2 in -std=c++*) suffix=cpp ;; esac
    make_user >"$work/user.$suffix" &&
        "$@" -Werror -I include "$work/user.$suffix" "${libraries[@]}" -o "$work/user" && "${run[@]}" "$work/user"
}

# The library's calls are those of the header, no more.
same_calls() {
    "${across}nm" -g --defined-only "$work/all.o" | awk '{ print $3 }' | sort >"$work/there"
    declared | diff - "$work/there"
}

# Nothing is wanted from elsewhere, but for what a compiler puts in for copies.
wants_nothing() {
    local list
    "${across}nm" -u "$work/all.o" | awk '{ print $2 }' | sort >"$work/wanted"
    list=$(paste -s -d ' ' "$work/wanted")
    echo "wanted from elsewhere: ${list:-nothing}"
    ! grep -v -x -e memcpy -e memset -e memmove "$work/wanted"
}

# No section of some size is writable. (.data.rel.ro is: the loader alone writes it, once.)
no_state() {
    "${across}readelf" -SW "$work/all.o" | sed -n 's/^ *\[ *[0-9]*\] //p' |
        awk '$7 ~ /W/ && $5 !~ /^0+$/ && $1 !~ /^\.data\.rel\.ro/ { print "writable: " $1 " of 0x" $5; n++ } END { exit n > 0 }'
}

# example NAME: it prints what its file says.
example() {
    "$cc" -std=c99 -Wall -Wextra -Wpedantic -Werror -I include "examples/c/$1.c" "${libraries[@]}" -o "$work/$1" &&
        "${run[@]}" "$work/$1" >"$work/printed" && diff "$work/printed" "examples/c/$1.stdout"
}

# built FLAGS.. -- PROGRAM ARGUMENTS..: builds tests/PROGRAM.c and runs it.
built() {
    local flags=()
    while [ "$1" != -- ]; do
        flags+=("$1")
        shift
    done
    shift
    "$cc" -std=c11 -Wall -Wextra -Wpedantic -Werror "${flags[@]}" "tests/$1.c" "${libraries[@]}" -o "$work/$1" || return 1
    local program=$1
    shift
    "${run[@]}" "$work/$program" "$@"
}

# natively COMMAND..: one of the functions above, for the processor of this machine where it is not x86-64.
natively() {
    local cc=gcc run=()
    local libraries=("$work/across/libsamopute_run.a" "$work/across/libsamopute_c.a")
    "$@"
}

# The crate wants what its Cargo.toml names.
fit_cargo() {
    local minor
    command -v cargo >/dev/null && command -v rustc >/dev/null || return 1
    minor=$(rustc --version | sed -n 's/^rustc 1\.\([0-9]*\)\..*/\1/p')
    [ -n "$minor" ] && [ "$minor" -ge 87 ]
}

# The tests of the Rust crate, each counted.
rust() {
    local status good bad
    local linked=$folder
    if [ -n "$across" ]; then linked=$work/across; fi
    SAMOPUTE_LIB_DIR=$linked SAMOPUTE_ACROSS=$across CARGO_TARGET_DIR=${CARGO_TARGET_DIR:-$work/cargo} \
        cargo test --offline --manifest-path bindings/rust/Cargo.toml >"$work/log" 2>&1
    status=$?
    good=$(grep -c '^test .* \.\.\. ok$' "$work/log")
    bad=$(grep -c '^test .* \.\.\. FAILED$' "$work/log")
    if [ "$bad" -eq 0 ] && { [ "$status" -ne 0 ] || [ "$good" -eq 0 ]; }; then bad=1; fi
    passed=$((passed + good))
    failed=$((failed + bad))
    if [ "$bad" -eq 0 ]; then
        echo "ok boundary: the Rust crate, $good tests"
    else
        echo "FAILED boundary: the Rust crate"
        tail -n 40 "$work/log"
    fi
}

for library in "${libraries[@]}"; do
    if [ ! -f "$library" ]; then
        failed=1
        echo "FAILED boundary: $library is missing: run ./libraries first"
        finish
    fi
done

if command -v "${across}ld" >/dev/null && command -v "${across}nm" >/dev/null && command -v "${across}readelf" >/dev/null; then
    test_of "the archives go together" "${across}ld" -r --whole-archive "${libraries[@]}" -o "$work/all.o"
    test_of "the library wants nothing but itself" wants_nothing && told
    test_of "the library has no writable data" no_state
    test_of "the library has the calls of the header, no more" same_calls
else
    left_out "the library by itself" "no ${across}ld, ${across}nm or ${across}readelf is at hand"
fi

if command -v "$cc" >/dev/null; then
    if [ -n "$across" ]; then
        test_of "the way to the library from this processor" sh tests/across/make.sh "$folder" "$work/across"
    fi
    test_of "the header in C99" header "$cc" -std=c99 -Wall -Wextra -Wpedantic
    test_of "the header in C11" header "$cc" -std=c11 -Wall -Wextra -Wpedantic
    test_of "readings in place only where the low byte comes first" in_place_by_order
    test_of "the C example that decodes" example decode
    test_of "the C example that reads in place" example in_place
    test_of "the C example that encodes" example encode
    test_of "hostile input, $rounds rounds" built -O2 -- hostile "$rounds" 1 && told
    test_of "hostile input under the address checker, $checked_rounds rounds${across:+, the library in another process}" \
        ${across:+natively} built -O1 -g -fsanitize=address,undefined -fno-sanitize-recover=all -- hostile "$checked_rounds" 2 && told
    test_of "the stack of each call" built -O2 -- stack "$stack_rounds" 1 "$stack_limit" && told
else
    left_out "the boundary from C" "no $cc is at hand"
fi

if command -v "$cxx" >/dev/null; then
    test_of "the header in C++17" header "$cxx" -std=c++17 -Wall -Wextra
else
    left_out "the boundary from C++" "no $cxx is at hand"
fi

if ! fit_cargo; then
    left_out "the Rust crate" "no cargo with rustc 1.87 or newer is at hand"
elif [ -n "$across" ] && [ ! -f "$work/across/libsamopute_run.a" ]; then
    left_out "the Rust crate" "tests/across/make.sh made no library for this processor"
else
    rust
fi
finish
