/*
 * Reads readings where they stand, without a copy, in two ways: samopute_decode into a buffer that is a struct, the
 * fast way, for machines that put the low byte first; and samopute_decode_run into an array of structs, for any. After
 * `./libraries`, at the root of the repository:
 *
 *     lib=target/staticlib
 *     cc -std=c99 -I include examples/c/in_place.c $lib/libsamopute_run.a $lib/libsamopute_c.a -o in_place && ./in_place
 *
 * in_place.stdout has what it prints.
 */
#include <inttypes.h>
#include <stdio.h>

#include "samopute.h"

/* Two satellites; the second says no strength. */
static const uint8_t payload[7] = {2, 7, 0x94, 0x11, 12, 0xFF, 0xFF};

/* 0x3C23D70A is the bits of 0.01f. */
static const uint64_t table[5] = {
    SAMOPUTE_HEAD(3, 1, 0, 0),
    SAMOPUTE_FIELD(SAMOPUTE_NUMBER, 8, 0, SAMOPUTE_MARK_NONE, 0),             /* 0 the count of satellites */
    SAMOPUTE_FIELD(SAMOPUTE_NUMBER, 8, 0, SAMOPUTE_MARK_NONE, 0),             /* 1 the satellite */
    SAMOPUTE_FIELD(SAMOPUTE_NUMBER, 16, 0, SAMOPUTE_MARK_SINGLE, 0x3C23D70A), /* 2 its strength, dB */
    SAMOPUTE_SET(1, 2, 0, 32),
};

#define WORDS (sizeof table / sizeof table[0])

static void print_reading(const struct samopute_reading *reading)
{
    double number;
    printf("  field %" PRIu64, reading->field);
    if (reading->element != SAMOPUTE_NO_ELEMENT) {
        printf(" of element %" PRIu64, reading->element);
    }
    if (reading->availability == SAMOPUTE_AVAILABLE && samopute_value_double(reading, &number)) {
        printf(": %g\n", number);
    } else {
        printf(": not available\n");
    }
}

/* The readings where the library put them, then the end or the refusal. */
static void print_answer(uint32_t status, const struct samopute_reading *readings, const uint64_t answer[6])
{
    size_t i;
    for (i = 0; i < answer[0]; i++) {
        print_reading(&readings[i]);
    }
    if (status == SAMOPUTE_DONE) {
        printf("  the end: %" PRIu64 " bits\n", answer[2]);
    } else {
        printf("  refusal %" PRIu32 ": %" PRIu64 "\n", status, answer[2]);
    }
}

int main(void)
{
    SAMOPUTE_READINGS(8) buffer; /* a count, and room for 8 readings */
    struct samopute_reading run[8];
    uint8_t padding[SAMOPUTE_PADDING_LENGTH];
    uint64_t answer[6];
    uint32_t status;

    printf("by samopute_decode\n");
    status = samopute_decode(table, WORDS, payload, sizeof payload, padding, sizeof padding, (uint8_t *)&buffer,
                             sizeof buffer, answer);
    print_answer(status, buffer.readings, answer);

    printf("by samopute_decode_run\n");
    status = samopute_decode_run(table, WORDS, payload, sizeof payload, padding, sizeof padding, run, 8, answer);
    print_answer(status, run, answer);

    printf("with room for two: refusal 9 has the field that finds none\n");
    status = samopute_decode_run(table, WORDS, payload, sizeof payload, padding, sizeof padding, run, 2, answer);
    print_answer(status, run, answer);
    return 0;
}
