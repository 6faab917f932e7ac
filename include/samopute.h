/*
 * The boundary of Samopute for C99 and C++: GNSS payloads in NMEA 2000 form, in; readings or a numbered refusal, out.
 * And back: values in, a payload or a numbered refusal out.
 *
 * `./libraries` makes target/staticlib/libsamopute_c.a for x86-64 Linux, and libsamopute_run.a beside it, which has
 * samopute_decode_run alone. They have no heap and no global state: every buffer is lent by the caller for the time of
 * the call, and threads may call at once on buffers of their own.
 *
 * A slice is a pointer and a length. Nothing outside it is read or written, so with a length of 0 the pointer is never
 * followed. Bytes need no alignment; `words` and `answer` are arrays of uint64_t, and samopute_decode_run is lent an
 * array of structs. A buffer that is written must not overlap any other buffer of the same call. Every call takes any
 * numbers and any bytes.
 *
 * README.md says what is read, docs/MESSAGES.md what the fields of the built-in messages mean.
 */
#ifndef SAMOPUTE_H
#define SAMOPUTE_H

#include <stddef.h>
#include <stdint.h>
#include <string.h>

#ifdef __cplusplus
extern "C" {
#endif

/* ---- Numbers and names ------------------------------------------------------------------------------------------- */

/* The version that this header describes. samopute_version() answers that of the library. */
#define SAMOPUTE_VERSION_MAJOR 3
#define SAMOPUTE_VERSION_MINOR 0
#define SAMOPUTE_VERSION (SAMOPUTE_VERSION_MAJOR * 65536 + SAMOPUTE_VERSION_MINOR)

/* Sizes, in bytes unless they say otherwise. */
#define SAMOPUTE_PAYLOAD_MAX 223      /* the longest payload that is decoded or encoded */
#define SAMOPUTE_PADDING_LENGTH 223   /* the padding run: of just this length, else refusal 7 */
#define SAMOPUTE_PREFIX_LENGTH 8      /* the count in front of the records */
#define SAMOPUTE_RECORD_LENGTH 64     /* a record: one reading */
#define SAMOPUTE_ROOM_ENOUGH 1785     /* readings: with room for so many there is no refusal 9 */
#define SAMOPUTE_VALUE_LENGTH 24      /* a record of a value to be encoded */
#define SAMOPUTE_TEXT_MAX 221         /* the longest text of a StringLz or a StringLau */
#define SAMOPUTE_BUFFER_MAX 65536     /* the longest buffer of a bit call */

/* The length of a readings buffer with room for so many readings. */
#define SAMOPUTE_READINGS_LENGTH(room) (SAMOPUTE_PREFIX_LENGTH + SAMOPUTE_RECORD_LENGTH * (size_t)(room))

/* The length of so many values. */
#define SAMOPUTE_VALUES_LENGTH(count) (SAMOPUTE_VALUE_LENGTH * (size_t)(count))

/* The element of a reading that is in no set: 2^64 - 1. */
#define SAMOPUTE_NO_ELEMENT UINT64_MAX

/*
 * The refusals, with what each carries. 1 to 3 and 6 are those of the bit calls, 2 to 5, 7 to 9 and 15 those of
 * decode, 2, 3, 5, 7, 8, 10 to 13 and 15 those of encode. In decode and encode 2 and 3 carry the field first. 1 is that
 * of the calls on numbers too, as in a bit call, and 11 that of samopute_scale, where it carries nothing. 10 and 11
 * are those of samopute_raw_of too, where they carry nothing. 14 is of the programs: no call of this header answers it.
 *
 * Refusal 2 counts bits in an encode and in the bit calls on numbers, bytes in the slice calls, and in a decode what
 * answer[5] says: enum samopute_unit.
 */
enum samopute_status {
    SAMOPUTE_DONE = 0,              /* no refusal */
    SAMOPUTE_WIDTH = 1,             /* width 0, or over the call's maximum: maximum, width */
    SAMOPUTE_BEYOND = 2,            /* beyond the buffer: asked, available */
    SAMOPUTE_UNALIGNED = 3,         /* byte slice at a cursor not a multiple of 8: cursor */
    SAMOPUTE_CUT_SHORT = 4,         /* number field cut short; string length byte over 223: field */
    SAMOPUTE_TOO_MANY_ELEMENTS = 5, /* group count over its maximum: set, count, maximum */
    SAMOPUTE_BUFFER_TOO_LONG = 6,   /* bit call on a buffer over 65,536 bytes: length */
    SAMOPUTE_WRONG_LENGTH = 7,      /* payload over 223 bytes, or padding run not of 223: length (payload's first) */
    SAMOPUTE_TABLE_REFUSED = 8,     /* table refused: rule (1 for a to 8 for h), index of field or set (0 for a) */
    SAMOPUTE_NO_ROOM = 9,           /* a reading finds no room: field */
    SAMOPUTE_OUT_OF_RANGE = 10,     /* value out of its field's range: field */
    SAMOPUTE_OTHER_KIND = 11,       /* value of another kind, or of none: field */
    SAMOPUTE_VALUE_COUNT = 12,      /* a value is missing: field; or values are left over: the table's field count */
    SAMOPUTE_TEXT_TOO_LONG = 13,    /* text too long, Binary not of its width, or bytes past the lent text: field */
    SAMOPUTE_MALFORMED_LINE = 14,   /* program line malformed */
    SAMOPUTE_UNKNOWN_PGN = 15       /* a PGN that is not built in: the PGN */
};

/*
 * What refusal 2 of a decode counts: how many bits one of it is. Asked and available are in the same unit. Available is
 * what is left from where the bits or bytes would stand, and less than asked.
 */
enum samopute_unit {
    SAMOPUTE_UNIT_NONE = 0, /* no refusal 2 */
    SAMOPUTE_UNIT_BITS = 1, /* asked: those of the field, or of a text's length or encoding byte */
    SAMOPUTE_UNIT_BYTES = 8 /* asked: those of a Binary or of a text, without its length and encoding byte */
};

/* The rules that a table is held to, a to h, as refusal 8 carries them. */
enum samopute_rule {
    SAMOPUTE_RULE_A = 1, /* counts: 1 to 64 fields, at most 4 sets; length and minimum 1 to 223, minimum <= length */
    SAMOPUTE_RULE_B = 2, /* a kind that cannot be read: Decimal, Unimplemented or no kind */
    SAMOPUTE_RULE_C = 3, /* a width that its kind does not take */
    SAMOPUTE_RULE_D = 4, /* a resolution where none may be, outside 2^-64 to 2^20, or without a mark of its own; a mark
                            that is neither single nor double */
    SAMOPUTE_RULE_E = 5, /* signed where it may not be; Date or Mmsi without resolution, not of 16 or 32 bits */
    SAMOPUTE_RULE_F = 6, /* a StringLz that is not the last field, or in a set */
    SAMOPUTE_RULE_G = 7, /* sets out of order, overlapping, out of the table, of no width; size 0; maximum not 1 to 255 */
    SAMOPUTE_RULE_H = 8  /* a set without a counter before it and in no set: a plain Number or Lookup, 1 to 32 bits */
};

/* The kinds of a field. */
enum samopute_kind {
    SAMOPUTE_NUMBER = 0,
    SAMOPUTE_FLOAT = 1,
    SAMOPUTE_LOOKUP = 2,
    SAMOPUTE_INDIRECT_LOOKUP = 3,
    SAMOPUTE_BIT_LOOKUP = 4,
    SAMOPUTE_PGN = 5,
    SAMOPUTE_DATE = 6,
    SAMOPUTE_TIME = 7,
    SAMOPUTE_DURATION = 8,
    SAMOPUTE_MMSI = 9,
    SAMOPUTE_DECIMAL = 10,
    SAMOPUTE_STRING_FIX = 11,
    SAMOPUTE_STRING_LZ = 12,
    SAMOPUTE_STRING_LAU = 13,
    SAMOPUTE_BINARY = 14,
    SAMOPUTE_RESERVED = 15,
    SAMOPUTE_SPARE = 16,
    SAMOPUTE_ISO_NAME = 17,
    SAMOPUTE_UNIMPLEMENTED = 18
};

/* The mark of a resolution: single makes the product in f32, double in f64. */
enum samopute_mark { SAMOPUTE_MARK_NONE = 0, SAMOPUTE_MARK_SINGLE = 1, SAMOPUTE_MARK_DOUBLE = 2 };

/* The kinds of a value. */
enum samopute_value_kind {
    SAMOPUTE_VALUE_U64 = 1,
    SAMOPUTE_VALUE_U32 = 2,
    SAMOPUTE_VALUE_U16 = 3,
    SAMOPUTE_VALUE_U8 = 4,
    SAMOPUTE_VALUE_I64 = 5,
    SAMOPUTE_VALUE_I32 = 6,
    SAMOPUTE_VALUE_I16 = 7,
    SAMOPUTE_VALUE_I8 = 8,
    SAMOPUTE_VALUE_F64 = 9,
    SAMOPUTE_VALUE_F32 = 10,
    SAMOPUTE_VALUE_BYTES = 11
};

enum samopute_availability { SAMOPUTE_AVAILABLE = 0, SAMOPUTE_NOT_AVAILABLE = 1 };

/* ---- Tables ------------------------------------------------------------------------------------------------------ */

/*
 * A table in words is a head, a word for each field, a word for each set. These build the words, also in constants.
 *
 * A number that does not fit its place becomes the largest that does, which the table check refuses: it is never taken
 * for another number. A mark that does not fit becomes 3, which rule d refuses, as it does a resolution without a mark.
 */
#define SAMOPUTE_AT_MOST(most, number) ((uint64_t)(number) < (uint64_t)(most) ? (uint64_t)(number) : (uint64_t)(most))
#define SAMOPUTE_16(number) SAMOPUTE_AT_MOST(0xFFFF, number)

/* `length` and `minimum` are in bytes; 0 is none. */
#define SAMOPUTE_HEAD(fields, sets, length, minimum)                                                                   \
    (SAMOPUTE_16(fields) | SAMOPUTE_16(sets) << 16 | SAMOPUTE_16(length) << 32 | SAMOPUTE_16(minimum) << 48)

/* `width` is in bits, 0 is none; `resolution` is the bits of an f32, as samopute_resolution answers them. */
#define SAMOPUTE_FIELD(kind, width, is_signed, mark, resolution)                                                       \
    (SAMOPUTE_AT_MOST(0xFF, kind) | SAMOPUTE_16(width) << 8 | (uint64_t)((is_signed) ? 1 : 0) << 24 |                  \
     SAMOPUTE_AT_MOST(3, mark) << 25 | SAMOPUTE_AT_MOST(0xFFFFFFFF, resolution) << 32)

/* `start` and `counter` are fields, counted from 0; `size` is in fields, `maximum` in elements. */
#define SAMOPUTE_SET(start, size, counter, maximum)                                                                    \
    (SAMOPUTE_16(start) | SAMOPUTE_16(size) << 16 | SAMOPUTE_16(counter) << 32 | SAMOPUTE_16(maximum) << 48)

/* The bits of an f32: 0x3C23D70A for 0.01f, 0x38D1B717 for 0.0001f. */
static inline uint32_t samopute_resolution(float resolution)
{
    uint32_t bits;
    memcpy(&bits, &resolution, sizeof bits);
    return bits;
}

/* ---- Calls ------------------------------------------------------------------------------------------------------- */

/* The version of the library: major * 65536 + minor. */
uint32_t samopute_version(void);

/*
 * Reads a payload by a table. Answers 0, or the number of the refusal.
 *
 * padding    223 bytes. Where the table asks for filling, the filled payload is put at its front and the rest is kept;
 *            else all of it is kept.
 * readings   of any length. Its first 8 bytes get the count, the low byte first; then come records of 64 bytes, each a
 *            struct samopute_reading below, its numbers with the low byte first on every machine. There is room for
 *            (readings_length - 8) / 64 readings, and for none under 8 bytes, where the count is not written either.
 *            Every byte after the last record is kept.
 * answer[0]  the count of readings
 * answer[1]  0 if the working payload is the received one; else it is the front of the padding run, and this is its
 *            length in bytes. samopute_working_payload and samopute_working_length, below, go by it.
 * answer[2], answer[3], answer[4]
 *            the end in bits, 0, 0; or what the refusal carries, then 0
 * answer[5]  what refusal 2 counts: 1 if bits, 8 if bytes (enum samopute_unit); 0 where the status is not 2
 *
 * Refusals 7 and 8 (and 15) touch neither padding nor readings, and answer[0] and answer[1] are 0. Any other refusal
 * leaves the readings made before it, with their count.
 */
uint32_t samopute_decode(const uint64_t *words, size_t word_count, const uint8_t *payload, size_t payload_length,
                         uint8_t *padding, size_t padding_length, uint8_t *readings, size_t readings_length,
                         uint64_t answer[6]);

/* The same by a built-in table, that of PGN 129025, 129026, 129029 or 130900. Any other PGN is refusal 15. */
uint32_t samopute_decode_pgn(uint32_t pgn, const uint8_t *payload, size_t payload_length, uint8_t *padding,
                             size_t padding_length, uint8_t *readings, size_t readings_length, uint64_t answer[6]);

struct samopute_reading; /* below */

/*
 * samopute_decode into an array of structs: no count stands in front of them, and on every machine they are read as
 * they are. Answers, fills the padding run and refuses as samopute_decode does; here is what differs.
 *
 * readings   `room` structs, at an address that a uint64_t may have. There is room for as many readings as there are
 *            structs, so for none with a room of 0. Every struct after the last reading is kept.
 * answer[0]  the count of readings: it stands nowhere else
 *
 * Refusals 7 and 8 touch neither padding nor readings.
 *
 * It is in a library of its own, libsamopute_run.a. samopute_decode takes two thirds of the time: where that counts,
 * lend it SAMOPUTE_READINGS, below, which is read as it is too.
 */
uint32_t samopute_decode_run(const uint64_t *words, size_t word_count, const uint8_t *payload, size_t payload_length,
                             uint8_t *padding, size_t padding_length, struct samopute_reading *readings, size_t room,
                             uint64_t answer[6]);

/*
 * Writes values by a table, into all of `payload`. Answers 0, or the number of the refusal.
 *
 * values     records of 24 bytes, each a struct samopute_value below, its numbers with the low byte first on every
 *            machine; one for each field in the order in which a decode makes readings: Reserved and Spare take none,
 *            and the fields of a set take one for each element, of which there are as many as the counter before them
 *            says (none where its bits are all ones). A last record that is cut short counts, and is of no kind.
 * text       the bytes that the values of kind SAMOPUTE_VALUE_BYTES have their places in
 * payload    at most 223 bytes. Every bit that no field puts is 1, up to its end.
 * answer[0]  the bytes used, 0 if refused
 * answer[1], answer[2], answer[3]
 *            what the refusal carries, then 0
 *
 * A value that its field cannot hold is refusal 10, one of another kind, or whose 64 bits are no value of its kind, 11:
 * nothing is cut or guessed, and clamped in one case only, in a scaled field over 53 bits, where a result at most
 * 2^(bits - 53) beyond a limit becomes that limit. Refusal 2 counts bits, asked those of the whole field; 3 carries the
 * bit at which the bytes would stand. Refusals 7 and 8 (and 15) leave the payload as it was. Any other leaves it all
 * ones but for the fields wholly written before: the faulty field leaves no bit. A payload of a refused call is not to
 * be sent: ones in an unsigned number of 2 bits or more say "not available", but in a signed one -1.
 */
uint32_t samopute_encode(const uint64_t *words, size_t word_count, const uint8_t *values, size_t values_length,
                         const uint8_t *text, size_t text_length, uint8_t *payload, size_t payload_length,
                         uint64_t answer[4]);

/* The same by a built-in table, as samopute_decode_pgn has them. Any other PGN is refusal 15, before 7. */
uint32_t samopute_encode_pgn(uint32_t pgn, const uint8_t *values, size_t values_length, const uint8_t *text,
                             size_t text_length, uint8_t *payload, size_t payload_length, uint64_t answer[4]);

/* Checks a table. 0: accepted. 8: answer[0] is the rule, 1 for a to 8 for h, answer[1] the field or the set. */
uint32_t samopute_check(const uint64_t *words, size_t word_count, uint64_t answer[3]);

/*
 * The bit calls. Bit i of a buffer is bit i mod 8 of byte i div 8, lowest first. `cursor` is a bit, `width` a count of
 * bits, `count` one of bytes. They answer 0 or the refusal's number, and lay into `answer`:
 *
 * answer[0]  the cursor after the call, where it was if refused
 * answer[1], answer[2]
 *            the number read and 0 (reads); the first byte and the count (read_slice); 0 and 0 (all else); or what the
 *            refusal carries, then 0. Refusal 2 counts bits, in slice calls bytes: those asked, and those left from
 *            the cursor on, 0 past the end, where an empty slice is refused too.
 *
 * A refused call changes no buffer. A write puts the low bits of the value and keeps every other bit.
 */
uint32_t samopute_read_u64(const uint8_t *buffer, size_t length, size_t cursor, uint32_t width, uint64_t answer[3]);
uint32_t samopute_read_u32(const uint8_t *buffer, size_t length, size_t cursor, uint32_t width, uint64_t answer[3]);
uint32_t samopute_read_u16(const uint8_t *buffer, size_t length, size_t cursor, uint32_t width, uint64_t answer[3]);
uint32_t samopute_read_u8(const uint8_t *buffer, size_t length, size_t cursor, uint32_t width, uint64_t answer[3]);
uint32_t samopute_advance(const uint8_t *buffer, size_t length, size_t cursor, uint32_t width, uint64_t answer[3]);
uint32_t samopute_read_slice(const uint8_t *buffer, size_t length, size_t cursor, size_t count, uint64_t answer[3]);

uint32_t samopute_write_u64(uint8_t *buffer, size_t length, size_t cursor, uint64_t value, uint32_t width,
                            uint64_t answer[3]);
uint32_t samopute_write_u32(uint8_t *buffer, size_t length, size_t cursor, uint32_t value, uint32_t width,
                            uint64_t answer[3]);
uint32_t samopute_write_u16(uint8_t *buffer, size_t length, size_t cursor, uint16_t value, uint32_t width,
                            uint64_t answer[3]);
uint32_t samopute_write_u8(uint8_t *buffer, size_t length, size_t cursor, uint8_t value, uint32_t width,
                           uint64_t answer[3]);
uint32_t samopute_write_advance(uint8_t *buffer, size_t length, size_t cursor, uint32_t width, uint64_t answer[3]);
uint32_t samopute_write_slice(uint8_t *buffer, size_t length, size_t cursor, const uint8_t *source, size_t count,
                              uint64_t answer[3]);

/* The bits from the cursor to the end of the buffer, 0 past it. */
size_t samopute_bits_remaining(const uint8_t *buffer, size_t length, size_t cursor);

/*
 * The calls on numbers, by a field of any numbers: its kind (enum samopute_kind), its width in bits, whether it is
 * signed (0 or not), its mark (enum samopute_mark) and the bits of its resolution, an f32. They answer 0 or the number
 * of the refusal. Of the field they refuse
 *
 * 11  a kind that holds no number: StringFix, StringLz, StringLau, Reserved, Spare, Decimal, Unimplemented, a Binary
 *     whose width is a multiple of 8, and a number that is no kind
 * 1   then, a width of 0 or over 64: answer[0] is 64, answer[1] the width
 *
 * and lay 0 into the rest of `answer`. They ask no more of it: a width, a sign or a resolution that no table may have
 * is taken. A mark that is neither single nor double, or a resolution without a mark, is a factor that is no number:
 * the scaled value is a NaN, an F64 for a Time and else an F32. A kind that takes no resolution does not look at it.
 */

/*
 * The value of a raw. Only the low `width` bits of the raw count.
 *
 * answer[0]  the value's kind, 1 to 10
 * answer[1]  the value's bits, as in a record
 * answer[2]  0 if it is available, else 1
 * answer[3]  the elements that the raw means as a counter
 */
uint32_t samopute_scale(uint32_t kind, uint32_t width, uint32_t is_signed, uint32_t mark, uint32_t resolution,
                        uint64_t raw, uint64_t answer[4]);

/*
 * The raw of a value: answer[0], then 0. First of all, 11 if `value` is no number of its kind (300 as an U8, 0xFFFF as
 * an I16) or its kind is that of no number (bytes, or none): nothing is cut to low bits. After the field's refusals, 11
 * if the field takes no such value, and 10 if it is out of range, as every float and signed integer is where the factor
 * is no number. 10 and 11 lay down 0. The raw of a Float has 32 bits, whatever its width.
 */
uint32_t samopute_raw_of(uint32_t kind, uint32_t width, uint32_t is_signed, uint32_t mark, uint32_t resolution,
                         uint32_t value_kind, uint64_t value, uint64_t answer[3]);

/* ---- Readings ---------------------------------------------------------------------------------------------------- */

/*
 * A reading, as samopute_decode_run stores it. The layout is that of a record on a machine that puts the low byte
 * first; samopute_reading_at makes one from the bytes on any machine.
 */
struct samopute_reading {
    uint64_t field;       /* counted from 0 */
    uint64_t element;     /* of its set, counted from 0; SAMOPUTE_NO_ELEMENT outside sets */
    uint64_t start;       /* its first bit in the working payload */
    uint64_t bits;        /* the bits that it takes */
    uint8_t availability; /* enum samopute_availability */
    uint8_t value_kind;   /* enum samopute_value_kind */
    uint8_t has_raw;      /* 1 if `raw` is one: texts and whole-byte Binaries have none */
    uint8_t has_encoding; /* 1 if `encoding` is one: a StringLau with an encoding byte */
    uint8_t encoding;
    uint8_t reserved[3];  /* 0 */
    uint64_t raw;         /* 0 if there is none */
    uint64_t value;       /* a number's bits (below), or the first byte in the working payload, 0 if empty */
    uint64_t length;      /* of bytes; 0 of a number */
};

typedef char samopute_reading_is_a_record[sizeof(struct samopute_reading) == SAMOPUTE_RECORD_LENGTH ? 1 : -1];

/* The place of each member, in bytes. A compiler that lays the struct out otherwise refuses this header. */
#define SAMOPUTE_PLACE(member, place)                                                                                  \
    typedef char samopute_place_of_##member[offsetof(struct samopute_reading, member) == (place) ? 1 : -1]
SAMOPUTE_PLACE(field, 0);
SAMOPUTE_PLACE(element, 8);
SAMOPUTE_PLACE(start, 16);
SAMOPUTE_PLACE(bits, 24);
SAMOPUTE_PLACE(availability, 32);
SAMOPUTE_PLACE(value_kind, 33);
SAMOPUTE_PLACE(has_raw, 34);
SAMOPUTE_PLACE(has_encoding, 35);
SAMOPUTE_PLACE(encoding, 36);
SAMOPUTE_PLACE(reserved, 37);
SAMOPUTE_PLACE(raw, 40);
SAMOPUTE_PLACE(value, 48);
SAMOPUTE_PLACE(length, 56);
#undef SAMOPUTE_PLACE

/*
 * A readings buffer of samopute_decode and samopute_decode_pgn as a struct, with room for so many readings, 1 or more:
 *
 *     SAMOPUTE_READINGS(64) it;
 *     status = samopute_decode(.., (uint8_t *)&it, sizeof it, answer);
 *
 * Then it.readings[0] to it.readings[answer[0] - 1] are the readings, without a copy. it.count is the count too, but
 * after refusals 7, 8 and 15, which leave an earlier one. This is so where the low byte of a number comes first, as on
 * x86-64. Elsewhere the bytes are other numbers, so there is no such macro: use samopute_decode_run or
 * samopute_reading_at. (A compiler that does not tell the order of bytes is taken for one that puts the low first.)
 */
#if !defined(__BYTE_ORDER__) || __BYTE_ORDER__ == __ORDER_LITTLE_ENDIAN__
#define SAMOPUTE_READINGS(room)                                                                                        \
    struct {                                                                                                           \
        uint64_t count;                                                                                                \
        struct samopute_reading readings[room];                                                                        \
    }

typedef SAMOPUTE_READINGS(2) samopute_two_readings;
typedef char samopute_two_readings_are_a_buffer[
    sizeof(samopute_two_readings) == SAMOPUTE_READINGS_LENGTH(2) &&
    offsetof(samopute_two_readings, readings) == SAMOPUTE_PREFIX_LENGTH ? 1 : -1];
#endif

/* Eight bytes, the low one first. */
static inline uint64_t samopute_word_at(const uint8_t *bytes)
{
    uint64_t word = 0;
    int i;
    for (i = 7; i >= 0; i--) {
        word = word << 8 | bytes[i];
    }
    return word;
}

/*
 * The count in front of a readings buffer, 0 under 8 bytes. answer[0] says the same, and also says 0 after refusals 7,
 * 8 and 15, which leave an earlier count in the buffer.
 */
static inline uint64_t samopute_reading_count(const uint8_t *readings, size_t readings_length)
{
    return readings_length < SAMOPUTE_PREFIX_LENGTH ? 0 : samopute_word_at(readings);
}

/* Reading i of a readings buffer, for i below its count. */
static inline void samopute_reading_at(const uint8_t *readings, size_t i, struct samopute_reading *out)
{
    const uint8_t *record = readings + SAMOPUTE_READINGS_LENGTH(i);
    out->field = samopute_word_at(record);
    out->element = samopute_word_at(record + 8);
    out->start = samopute_word_at(record + 16);
    out->bits = samopute_word_at(record + 24);
    out->availability = record[32];
    out->value_kind = record[33];
    out->has_raw = record[34];
    out->has_encoding = record[35];
    out->encoding = record[36];
    memcpy(out->reserved, record + 37, sizeof out->reserved);
    out->raw = samopute_word_at(record + 40);
    out->value = samopute_word_at(record + 48);
    out->length = samopute_word_at(record + 56);
}

/* The payload that the readings stand in: the received one, or the filled one at the front of the padding run. */
static inline const uint8_t *samopute_working_payload(const uint64_t answer[6], const uint8_t *payload,
                                                      const uint8_t *padding)
{
    return answer[1] ? padding : payload;
}

/* Its length in bytes. */
static inline size_t samopute_working_length(const uint64_t answer[6], size_t payload_length)
{
    return answer[1] ? (size_t)answer[1] : payload_length;
}

/* A value's bits as the number that they are: two's complement, or the pattern of an f64 or an f32. */
static inline int64_t samopute_bits_i64(uint64_t value)
{
    int64_t number;
    memcpy(&number, &value, sizeof number);
    return number;
}

static inline double samopute_bits_f64(uint64_t value)
{
    double number;
    memcpy(&number, &value, sizeof number);
    return number;
}

static inline float samopute_bits_f32(uint64_t value)
{
    uint32_t low = (uint32_t)value;
    float number;
    memcpy(&number, &low, sizeof number);
    return number;
}

/* 1 and the value, if it is an integer that an int64_t holds. Else 0, and `out` is kept. */
static inline int samopute_value_i64(const struct samopute_reading *reading, int64_t *out)
{
    if (reading->value_kind < SAMOPUTE_VALUE_U64 || reading->value_kind > SAMOPUTE_VALUE_I8) {
        return 0;
    }
    if (reading->value_kind == SAMOPUTE_VALUE_U64 && reading->value > INT64_MAX) {
        return 0;
    }
    *out = samopute_bits_i64(reading->value);
    return 1;
}

/* 1 and the value, if it is a number: one over 2^53 is rounded. Else 0, and `out` is kept. */
static inline int samopute_value_double(const struct samopute_reading *reading, double *out)
{
    switch (reading->value_kind) {
    case SAMOPUTE_VALUE_U64:
    case SAMOPUTE_VALUE_U32:
    case SAMOPUTE_VALUE_U16:
    case SAMOPUTE_VALUE_U8:
        *out = (double)reading->value;
        return 1;
    case SAMOPUTE_VALUE_I64:
    case SAMOPUTE_VALUE_I32:
    case SAMOPUTE_VALUE_I16:
    case SAMOPUTE_VALUE_I8:
        *out = (double)samopute_bits_i64(reading->value);
        return 1;
    case SAMOPUTE_VALUE_F64:
        *out = samopute_bits_f64(reading->value);
        return 1;
    case SAMOPUTE_VALUE_F32:
        *out = (double)samopute_bits_f32(reading->value);
        return 1;
    default:
        return 0;
    }
}

/* ---- Values to be encoded ---------------------------------------------------------------------------------------- */

/*
 * A value. The layout is that of a record on a machine that puts the low byte first; samopute_put_value makes the bytes
 * on any machine. An unscaled field takes integers of its sign, U8 to U64 or I8 to I64; a scaled one floats and signed
 * integers; a Float an F32; a text or a Binary of whole bytes takes bytes.
 */
struct samopute_value {
    uint8_t kind;         /* enum samopute_value_kind */
    uint8_t has_encoding; /* of bytes: not 0 if `encoding` is one, which only a StringLau takes */
    uint8_t encoding;
    uint8_t reserved[5];  /* not looked at */
    uint64_t value;       /* a number's bits, as in a reading; or the first byte in the lent text */
    uint64_t length;      /* of bytes; not looked at for a number */
};

typedef char samopute_value_is_a_record[sizeof(struct samopute_value) == SAMOPUTE_VALUE_LENGTH ? 1 : -1];

/* A value by its kind and its bits, or its first byte. */
static inline struct samopute_value samopute_value_of(uint8_t kind, uint64_t value, uint64_t length)
{
    struct samopute_value made;
    memset(&made, 0, sizeof made);
    made.kind = kind;
    made.value = value;
    made.length = length;
    return made;
}

static inline struct samopute_value samopute_value_of_u64(uint64_t number)
{
    return samopute_value_of(SAMOPUTE_VALUE_U64, number, 0);
}

static inline struct samopute_value samopute_value_of_i64(int64_t number)
{
    return samopute_value_of(SAMOPUTE_VALUE_I64, (uint64_t)number, 0);
}

static inline struct samopute_value samopute_value_of_f64(double number)
{
    uint64_t bits;
    memcpy(&bits, &number, sizeof bits);
    return samopute_value_of(SAMOPUTE_VALUE_F64, bits, 0);
}

static inline struct samopute_value samopute_value_of_f32(float number)
{
    return samopute_value_of(SAMOPUTE_VALUE_F32, samopute_resolution(number), 0);
}

/*
 * `length` bytes of the lent text, from byte `first` on: a text or a Binary. Of length 0 it is an absent StringLau; one
 * with text needs samopute_value_of_lau.
 */
static inline struct samopute_value samopute_value_of_bytes(uint64_t first, uint64_t length)
{
    return samopute_value_of(SAMOPUTE_VALUE_BYTES, first, length);
}

/* The same with the encoding byte of a StringLau. */
static inline struct samopute_value samopute_value_of_lau(uint64_t first, uint64_t length, uint8_t encoding)
{
    struct samopute_value made = samopute_value_of_bytes(first, length);
    made.has_encoding = 1;
    made.encoding = encoding;
    return made;
}

/*
 * The value that was read, to be written again. Lend the payload that the readings stand in (samopute_working_payload,
 * of samopute_working_length bytes) as the text, and another buffer as the payload.
 *
 * The raw that is written may be another one than was read, since a scaled number is written by its value, which a
 * float may have rounded. Single numbers: 16777217 in 25 bits at a resolution of 1 is written as 16777216, and 13107201
 * in 24 bits at 0.01 as 13107200. Double ones: 4503599627370497 in a latitude of 64 bits at 1e-16 as 4503599627370498.
 * A rounded value may also be out of its field's range, refusal 10: 4294967295 in 32 bits, single at 1. A Float that is
 * a NaN is written as 0x7FC00000. Where a raw must stay as it was, put `raw` over the field's bits with
 * samopute_write_u64 after the encode.
 */
static inline struct samopute_value samopute_value_of_reading(const struct samopute_reading *reading)
{
    struct samopute_value made = samopute_value_of(reading->value_kind, reading->value, reading->length);
    made.has_encoding = reading->has_encoding;
    made.encoding = reading->encoding;
    return made;
}

/* Puts eight bytes, the low one first. */
static inline void samopute_put_word(uint8_t *bytes, uint64_t word)
{
    int i;
    for (i = 0; i < 8; i++) {
        bytes[i] = (uint8_t)(word >> 8 * i);
    }
}

/* Puts value i of a run of values, which has SAMOPUTE_VALUES_LENGTH(i + 1) bytes or more. */
static inline void samopute_put_value(uint8_t *values, size_t i, struct samopute_value value)
{
    uint8_t *record = values + SAMOPUTE_VALUES_LENGTH(i);
    memset(record, 0, 8);
    record[0] = value.kind;
    record[1] = value.has_encoding;
    record[2] = value.encoding;
    samopute_put_word(record + 8, value.value);
    samopute_put_word(record + 16, value.length);
}

#ifdef __cplusplus
}
#endif

#endif
