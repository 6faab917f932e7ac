/*
 * Encodes a frame of PGN 129026, course and speed over ground. Then one with a speed that its field cannot hold, which is
 * refused: 7,600 m/s, that of a satellite, in 16 bits of 0.01 m/s. Then reads a frame, changes its speed and writes it.
 * After `./libraries`, at the root of the repository:
 *
 *     cc -std=c99 -I include examples/c/encode.c target/staticlib/libsamopute_c.a -o encode && ./encode
 *
 * encode.stdout has what it prints. No heap is used: every buffer is on the stack, the largest 264 bytes.
 */
#include <inttypes.h>
#include <stdio.h>

#include "samopute.h"

#define VALUES 4

/* The fields of 129026 that take a value: 0 SID, 1 COG reference, 3 COG in rad, 4 SOG in m/s. 2 and 5 are reserved. */
static void put_values(uint8_t *values, uint64_t sid, double course, double speed)
{
    samopute_put_value(values, 0, samopute_value_of_u64(sid));
    samopute_put_value(values, 1, samopute_value_of_u64(0));
    samopute_put_value(values, 2, samopute_value_of_f64(course));
    samopute_put_value(values, 3, samopute_value_of_f64(speed));
}

static void print_payload(const uint8_t *payload, size_t length)
{
    size_t i;
    printf(" ");
    for (i = 0; i < length; i++) {
        printf(" %02X", payload[i]);
    }
    printf("\n");
}

/* The bytes used, or the refusal; then the payload as the call leaves it. */
static void encode(const uint8_t *values, size_t count, const uint8_t *text, size_t text_length)
{
    uint8_t payload[8] = {0};
    uint64_t answer[4];
    uint32_t status = samopute_encode_pgn(129026, values, SAMOPUTE_VALUES_LENGTH(count), text, text_length, payload,
                                          sizeof payload, answer);
    if (status == SAMOPUTE_DONE) {
        printf("  %" PRIu64 " bytes used\n", answer[0]);
    } else if (status == SAMOPUTE_OUT_OF_RANGE) {
        printf("  refusal 10: field %" PRIu64 " cannot hold its value\n", answer[1]);
    } else {
        printf("  refusal %" PRIu32 ": %" PRIu64 " %" PRIu64 " %" PRIu64 "\n", status, answer[1], answer[2], answer[3]);
    }
    print_payload(payload, sizeof payload);
}

/* Reads a frame, and writes it with another speed. Its texts, had it any, would stand in the payload that was read. */
static void change_speed(const uint8_t *frame, size_t length, double speed)
{
    uint8_t padding[SAMOPUTE_PADDING_LENGTH];
    uint8_t readings[SAMOPUTE_READINGS_LENGTH(VALUES)];
    uint8_t values[SAMOPUTE_VALUES_LENGTH(VALUES)];
    uint64_t answer[6];
    struct samopute_reading reading;
    size_t i;
    if (samopute_decode_pgn(129026, frame, length, padding, sizeof padding, readings, sizeof readings, answer) != 0) {
        printf("  not read\n");
        return;
    }
    for (i = 0; i < answer[0]; i++) {
        samopute_reading_at(readings, i, &reading);
        samopute_put_value(values, i,
                           reading.field == 4 ? samopute_value_of_f64(speed) : samopute_value_of_reading(&reading));
    }
    encode(values, i, samopute_working_payload(answer, frame, padding), samopute_working_length(answer, length));
}

int main(void)
{
    static const uint8_t frame[8] = {0x2A, 0xFC, 0x5C, 0x3D, 0xC0, 0x98, 0xFF, 0xFF};
    uint8_t values[SAMOPUTE_VALUES_LENGTH(VALUES)];

    printf("1.5708 rad, 391.04 m/s\n");
    put_values(values, 42, 1.5708, 391.04);
    encode(values, VALUES, NULL, 0);

    printf("1.5708 rad, 7600 m/s\n");
    put_values(values, 42, 1.5708, 7600);
    encode(values, VALUES, NULL, 0);

    printf("the speed left out\n");
    encode(values, VALUES - 1, NULL, 0);

    printf("a frame that was read, with 5 m/s\n");
    change_speed(frame, sizeof frame, 5);
    return 0;
}
