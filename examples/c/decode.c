/*
 * Decodes one frame of PGN 129026, course and speed over ground, by its PGN and by a table of our own. Then shows three
 * refusals: of the frame cut short, of one of 129029 that ends before its date, and of a PGN that is not built in. After
 * `./libraries`, at the root of the repository:
 *
 *     cc -std=c99 -I include examples/c/decode.c target/staticlib/libsamopute_c.a -o decode && ./decode
 *
 * decode.stdout has what it prints. No heap is used: every buffer is on the stack, the largest 520 bytes.
 */
#include <inttypes.h>
#include <stdio.h>

#include "samopute.h"

#define ROOM 8

/* The frame 01F8022AFC5C3DC098FFFF without its PGN. */
static const uint8_t frame[8] = {0x2A, 0xFC, 0x5C, 0x3D, 0xC0, 0x98, 0xFF, 0xFF};

/* 129026 in words. 0x38D1B717 and 0x3C23D70A are the bits of 0.0001f and 0.01f. */
static const uint64_t table[7] = {
    SAMOPUTE_HEAD(6, 0, 0, 0),
    SAMOPUTE_FIELD(SAMOPUTE_NUMBER, 8, 0, SAMOPUTE_MARK_NONE, 0),             /* 0 SID */
    SAMOPUTE_FIELD(SAMOPUTE_LOOKUP, 2, 0, SAMOPUTE_MARK_NONE, 0),             /* 1 COG reference */
    SAMOPUTE_FIELD(SAMOPUTE_RESERVED, 6, 0, SAMOPUTE_MARK_NONE, 0),           /* 2 */
    SAMOPUTE_FIELD(SAMOPUTE_NUMBER, 16, 0, SAMOPUTE_MARK_SINGLE, 0x38D1B717), /* 3 COG, rad */
    SAMOPUTE_FIELD(SAMOPUTE_NUMBER, 16, 0, SAMOPUTE_MARK_SINGLE, 0x3C23D70A), /* 4 SOG, m/s */
    SAMOPUTE_FIELD(SAMOPUTE_RESERVED, 16, 0, SAMOPUTE_MARK_NONE, 0),          /* 5 */
};

/* What a call is lent. The working payload and the readings stand here after it. */
struct lent {
    uint8_t padding[SAMOPUTE_PADDING_LENGTH];
    uint8_t readings[SAMOPUTE_READINGS_LENGTH(ROOM)];
    uint64_t answer[6];
};

/* An integer as it is, a float with six digits after the point; a text or bytes by their length. */
static void print_value(const struct samopute_reading *reading)
{
    int64_t whole;
    double number;
    if (samopute_value_i64(reading, &whole)) {
        printf("%" PRId64, whole);
    } else if (samopute_value_double(reading, &number)) {
        printf("%.6f", number);
    } else {
        printf("%" PRIu64 " bytes", reading->length);
    }
}

static void print_reading(const struct samopute_reading *reading)
{
    printf("  field %" PRIu64 ", %" PRIu64 " bits from %" PRIu64 " on: ", reading->field, reading->bits, reading->start);
    print_value(reading);
    if (reading->has_raw) {
        printf(", raw %" PRIX64, reading->raw);
    }
    printf(", %s\n", reading->availability == SAMOPUTE_AVAILABLE ? "available" : "not available");
}

/* The readings that were made, then the end or the refusal. */
static void print_answer(uint32_t status, const struct lent *lent)
{
    struct samopute_reading reading;
    size_t i;
    for (i = 0; i < lent->answer[0]; i++) {
        samopute_reading_at(lent->readings, i, &reading);
        print_reading(&reading);
    }
    if (status == SAMOPUTE_DONE) {
        printf("  the end: %" PRIu64 " bits\n", lent->answer[2]);
    } else if (status == SAMOPUTE_CUT_SHORT) {
        printf("  refusal 4: the payload ends inside field %" PRIu64 "\n", lent->answer[2]);
    } else if (status == SAMOPUTE_BEYOND) {
        printf("  refusal 2: field %" PRIu64 " asks for %" PRIu64 " %s, %" PRIu64 " are left\n", lent->answer[2],
               lent->answer[3], lent->answer[5] == SAMOPUTE_UNIT_BITS ? "bits" : "bytes", lent->answer[4]);
    } else {
        printf("  refusal %" PRIu32 ": %" PRIu64 " %" PRIu64 " %" PRIu64 "\n", status, lent->answer[2],
               lent->answer[3], lent->answer[4]);
    }
}

static uint32_t decode_pgn(uint32_t pgn, const uint8_t *payload, size_t length, struct lent *lent)
{
    return samopute_decode_pgn(pgn, payload, length, lent->padding, sizeof lent->padding, lent->readings,
                               sizeof lent->readings, lent->answer);
}

static uint32_t decode_by_table(const uint8_t *payload, size_t length, struct lent *lent)
{
    return samopute_decode(table, sizeof table / sizeof table[0], payload, length, lent->padding,
                           sizeof lent->padding, lent->readings, sizeof lent->readings, lent->answer);
}

int main(void)
{
    struct lent lent;
    uint32_t version = samopute_version();

    if (version / 65536 != SAMOPUTE_VERSION_MAJOR) {
        fprintf(stderr, "the header is of version %d, the library of %" PRIu32 "\n", SAMOPUTE_VERSION_MAJOR,
                version / 65536);
        return 1;
    }

    printf("by PGN 129026\n");
    print_answer(decode_pgn(129026, frame, sizeof frame, &lent), &lent);

    printf("by a table of our own\n");
    print_answer(decode_by_table(frame, sizeof frame, &lent), &lent);

    printf("the first 5 bytes only\n");
    print_answer(decode_by_table(frame, 5, &lent), &lent);

    printf("its first byte by PGN 129029\n");
    print_answer(decode_pgn(129029, frame, 1, &lent), &lent);

    printf("by PGN 129027, which is not built in\n");
    print_answer(decode_pgn(129027, frame, sizeof frame, &lent), &lent);
    return 0;
}
