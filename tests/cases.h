/*
 * Random tables, payloads and values for tests/hostile.c and tests/stack.c. A round's numbers come from the seed and the
 * round alone, so that one round can be run again by itself.
 */
#ifndef CASES_H
#define CASES_H

#include "../include/samopute.h"

#define WORDS_MAX 80
#define PAYLOAD_MOST 260
#define VALUES_MOST 400
#define TEXT_MOST 300

struct draws {
    uint64_t state;
};

/* splitmix64 */
static inline uint64_t draw(struct draws *d)
{
    uint64_t z = d->state += 0x9E3779B97F4A7C15u;
    z = (z ^ z >> 30) * 0xBF58476D1CE4E5B9u;
    z = (z ^ z >> 27) * 0x94D049BB133111EBu;
    return z ^ z >> 31;
}

static inline struct draws draws_of(uint64_t seed, uint64_t round)
{
    struct draws d = {seed * 0xD1342543DE82EF95u ^ round};
    d.state = draw(&d);
    return d;
}

/* 0 to n - 1. */
static inline uint64_t below(struct draws *d, uint64_t n)
{
    return draw(d) % n;
}

static inline uint64_t between(struct draws *d, uint64_t least, uint64_t most)
{
    return least + below(d, most - least + 1);
}

/* Once in n. */
static inline int once_in(struct draws *d, uint64_t n)
{
    return below(d, n) == 0;
}

/* ---- The built-in tables ----------------------------------------------------------------------------------------- */

#define PLAIN(kind, width) SAMOPUTE_FIELD(kind, width, 0, SAMOPUTE_MARK_NONE, 0)
#define SINGLE(kind, width, sign, bits) SAMOPUTE_FIELD(kind, width, sign, SAMOPUTE_MARK_SINGLE, bits)
#define DOUBLE(kind, width, sign, bits) SAMOPUTE_FIELD(kind, width, sign, SAMOPUTE_MARK_DOUBLE, bits)

/* f32 resolutions, by their bits. */
#define R_1E_2 0x3C23D70A
#define R_1E_3 0x3A83126F
#define R_1E_4 0x38D1B717
#define R_1E_6 0x358637BD
#define R_1E_7 0x33D6BF95
#define R_1E_16 0x24E69595

static const uint64_t table_129025[] = {
    SAMOPUTE_HEAD(2, 0, 0, 0),
    DOUBLE(SAMOPUTE_NUMBER, 32, 1, R_1E_7),
    DOUBLE(SAMOPUTE_NUMBER, 32, 1, R_1E_7),
};

static const uint64_t table_129026[] = {
    SAMOPUTE_HEAD(6, 0, 0, 0),
    PLAIN(SAMOPUTE_NUMBER, 8),
    PLAIN(SAMOPUTE_LOOKUP, 2),
    PLAIN(SAMOPUTE_RESERVED, 6),
    SINGLE(SAMOPUTE_NUMBER, 16, 0, R_1E_4),
    SINGLE(SAMOPUTE_NUMBER, 16, 0, R_1E_2),
    PLAIN(SAMOPUTE_RESERVED, 16),
};

static const uint64_t table_129029[] = {
    SAMOPUTE_HEAD(18, 1, 0, 0),
    PLAIN(SAMOPUTE_NUMBER, 8),
    PLAIN(SAMOPUTE_DATE, 16),
    DOUBLE(SAMOPUTE_TIME, 32, 0, R_1E_4),
    DOUBLE(SAMOPUTE_NUMBER, 64, 1, R_1E_16),
    DOUBLE(SAMOPUTE_NUMBER, 64, 1, R_1E_16),
    DOUBLE(SAMOPUTE_NUMBER, 64, 1, R_1E_6),
    PLAIN(SAMOPUTE_LOOKUP, 4),
    PLAIN(SAMOPUTE_LOOKUP, 4),
    PLAIN(SAMOPUTE_LOOKUP, 2),
    PLAIN(SAMOPUTE_RESERVED, 6),
    PLAIN(SAMOPUTE_NUMBER, 8),
    SINGLE(SAMOPUTE_NUMBER, 16, 1, R_1E_2),
    SINGLE(SAMOPUTE_NUMBER, 16, 1, R_1E_2),
    DOUBLE(SAMOPUTE_NUMBER, 32, 1, R_1E_2),
    PLAIN(SAMOPUTE_NUMBER, 8),
    PLAIN(SAMOPUTE_LOOKUP, 4),
    PLAIN(SAMOPUTE_NUMBER, 12),
    SINGLE(SAMOPUTE_DURATION, 16, 0, R_1E_2),
    SAMOPUTE_SET(15, 3, 14, 45),
};

static const uint64_t table_130900[] = {
    SAMOPUTE_HEAD(8, 0, 0, 0),
    PLAIN(SAMOPUTE_LOOKUP, 11),
    PLAIN(SAMOPUTE_RESERVED, 2),
    PLAIN(SAMOPUTE_LOOKUP, 3),
    PLAIN(SAMOPUTE_NUMBER, 8),
    DOUBLE(SAMOPUTE_NUMBER, 32, 1, R_1E_3),
    DOUBLE(SAMOPUTE_NUMBER, 32, 1, R_1E_3),
    DOUBLE(SAMOPUTE_NUMBER, 32, 1, R_1E_3),
    PLAIN(SAMOPUTE_RESERVED, 8),
};

struct built_in {
    uint32_t pgn;
    const uint64_t *words;
    size_t count;
};

#define BUILT_IN(pgn) {pgn, table_##pgn, sizeof table_##pgn / sizeof(uint64_t)}

static const struct built_in built_ins[] = {BUILT_IN(129025), BUILT_IN(129026), BUILT_IN(129029), BUILT_IN(130900)};

#define BUILT_IN_COUNT (sizeof built_ins / sizeof built_ins[0])

/* ---- Tables ------------------------------------------------------------------------------------------------------ */

/* Widths of whole bytes are the more usual: a text after a field of 3 bits is refused, and ends the walk. */
static inline uint64_t some_width(struct draws *d)
{
    return once_in(d, 4) ? between(d, 1, 64) : 8 * between(d, 1, 8);
}

/* From 2^-64 to 2^20, as the table check wants it, but for a few. */
static inline uint64_t some_resolution(struct draws *d)
{
    if (once_in(d, 40)) {
        return draw(d) & 0xFFFFFFFFu;
    }
    return between(d, 63, 146) << 23 | below(d, 1u << 23);
}

/* A number: with a resolution, a sign or neither. */
static inline uint64_t some_number(struct draws *d)
{
    static const uint64_t kinds[] = {SAMOPUTE_NUMBER, SAMOPUTE_LOOKUP,   SAMOPUTE_INDIRECT_LOOKUP, SAMOPUTE_PGN,
                                     SAMOPUTE_DATE,   SAMOPUTE_DURATION, SAMOPUTE_TIME,            SAMOPUTE_MMSI,
                                     SAMOPUTE_ISO_NAME};
    uint64_t kind = kinds[below(d, 9)];
    uint64_t mark = below(d, 3);
    uint64_t width = some_width(d);
    int may_be_signed = kind <= SAMOPUTE_PGN || kind == SAMOPUTE_ISO_NAME || (kind == SAMOPUTE_DURATION && mark != 0);
    if ((kind == SAMOPUTE_DATE || kind == SAMOPUTE_MMSI) && mark == 0) {
        width = once_in(d, 2) ? 16 : 32;
    }
    return SAMOPUTE_FIELD(kind, width, may_be_signed && once_in(d, 2), mark, mark == 0 ? 0 : some_resolution(d));
}

/* Any field that may stand anywhere. */
static inline uint64_t some_field(struct draws *d)
{
    switch (below(d, 12)) {
    case 0:
        return PLAIN(SAMOPUTE_STRING_FIX, 8 * (once_in(d, 8) ? between(d, 1, 223) : between(d, 1, 12)));
    case 1:
        return PLAIN(SAMOPUTE_STRING_LAU, 0);
    case 2:
        return PLAIN(SAMOPUTE_BINARY, once_in(d, 4) ? between(d, 1, 63) : 8 * between(d, 1, 10));
    case 3:
        return PLAIN(once_in(d, 2) ? SAMOPUTE_RESERVED : SAMOPUTE_SPARE, some_width(d));
    case 4:
        return PLAIN(SAMOPUTE_BIT_LOOKUP, some_width(d));
    case 5:
        return PLAIN(SAMOPUTE_FLOAT, 32);
    default:
        return some_number(d);
    }
}

/* A field that may be the last one only. */
static inline uint64_t some_last_field(struct draws *d)
{
    return once_in(d, 2) ? PLAIN(SAMOPUTE_STRING_LZ, 0) : PLAIN(SAMOPUTE_STRING_FIX, 8 * between(d, 30, 223));
}

/* Fields, then a counter and a set of fields after it. Answers the fields that there are then. */
static inline size_t add_set(struct draws *d, uint64_t *fields, size_t have, uint64_t *set)
{
    size_t size = (size_t)between(d, 1, 5);
    size_t i;
    fields[have] = PLAIN(once_in(d, 4) ? SAMOPUTE_LOOKUP : SAMOPUTE_NUMBER, once_in(d, 4) ? between(d, 1, 32) : 8);
    *set = SAMOPUTE_SET(have + 1, size, have, once_in(d, 4) ? between(d, 1, 3) : between(d, 1, 255));
    for (i = 1; i <= size; i++) {
        fields[have + i] = some_field(d);
    }
    return have + 1 + size;
}

static inline uint64_t some_head(struct draws *d, size_t fields, size_t sets)
{
    uint64_t length = once_in(d, 3) ? between(d, 1, 223) : 0;
    uint64_t minimum = length != 0 && !once_in(d, 8) ? between(d, 1, length) : 0;
    return SAMOPUTE_HEAD(fields, sets, length, minimum);
}

/* A table that the check accepts more often than not. Room for WORDS_MAX words. */
static inline size_t some_fitting_table(struct draws *d, uint64_t *words)
{
    uint64_t sets[4];
    uint64_t *fields = words + 1;
    size_t set_count = once_in(d, 2) ? (size_t)below(d, 5) : 0;
    size_t count = 0;
    size_t k;
    for (k = 0; k < set_count; k++) {
        size_t plain = (size_t)below(d, 4);
        while (plain-- > 0) {
            fields[count++] = some_field(d);
        }
        count = add_set(d, fields, count, &sets[k]);
    }
    for (k = (size_t)(once_in(d, 6) ? below(d, 64 - count) : below(d, 8)); k > 0 && count < 63; k--) {
        fields[count++] = some_field(d);
    }
    if (count == 0 || once_in(d, 3)) {
        fields[count++] = some_last_field(d);
    }
    words[0] = some_head(d, count, set_count);
    memcpy(fields + count, sets, set_count * sizeof sets[0]);
    return 1 + count + set_count;
}

static inline size_t some_built_in_table(struct draws *d, uint64_t *words)
{
    const struct built_in *b = &built_ins[below(d, BUILT_IN_COUNT)];
    memcpy(words, b->words, b->count * sizeof *words);
    return b->count;
}

/* Turns bits, changes a word, or takes words away. */
static inline size_t damaged(struct draws *d, uint64_t *words, size_t count)
{
    uint64_t times = between(d, 1, 3);
    while (times-- > 0 && count > 0) {
        size_t at = (size_t)below(d, count);
        switch (below(d, 4)) {
        case 0:
            words[at] ^= (uint64_t)1 << below(d, 64);
            break;
        case 1:
            words[at] = draw(d);
            break;
        case 2:
            words[at] = words[below(d, count)];
            break;
        default:
            count = once_in(d, 3) ? at : count;
            words[at] ^= draw(d) & 0xFFFF00u;
        }
    }
    return count;
}

static inline size_t some_words(struct draws *d, uint64_t *words)
{
    size_t count = (size_t)below(d, WORDS_MAX + 1);
    uint64_t mask = once_in(d, 2) ? UINT64_MAX : 0x00FF00FF00FF00FFu;
    size_t i;
    for (i = 0; i < count; i++) {
        words[i] = draw(d) & mask;
    }
    if (count > 0 && once_in(d, 2)) {
        words[0] = SAMOPUTE_HEAD(between(d, 0, 66), below(d, 6), 0, 0);
    }
    return count;
}

/* Any table: one that fits, a damaged one or none at all. Room for WORDS_MAX words. */
static inline size_t some_table(struct draws *d, uint64_t *words)
{
    switch (below(d, 8)) {
    case 0:
        return some_built_in_table(d, words);
    case 1:
        return damaged(d, words, some_built_in_table(d, words));
    case 2:
        return damaged(d, words, some_fitting_table(d, words));
    case 3:
        return some_words(d, words);
    default:
        return some_fitting_table(d, words);
    }
}

/* ---- Payloads ---------------------------------------------------------------------------------------------------- */

static inline size_t some_payload_length(struct draws *d)
{
    switch (below(d, 8)) {
    case 0:
        return (size_t)below(d, PAYLOAD_MOST + 1);
    case 1:
        return (size_t)between(d, 221, 225);
    case 2:
    case 3:
        return (size_t)below(d, 17);
    default:
        return (size_t)below(d, 224);
    }
}

/* Bytes of any kind; many are small, as counters and lengths of texts are. */
static inline size_t some_payload(struct draws *d, uint8_t *payload)
{
    size_t length = some_payload_length(d);
    uint64_t kind = below(d, 5);
    size_t i;
    for (i = 0; i < length; i++) {
        uint64_t bits = draw(d);
        switch (kind) {
        case 0:
            payload[i] = (uint8_t)bits;
            break;
        case 1:
            payload[i] = (uint8_t)(bits % 6);
            break;
        case 2:
            payload[i] = bits % 16 == 0 ? (uint8_t)(bits >> 8) : 0xFF;
            break;
        default:
            payload[i] = (uint8_t)(bits % 3 == 0 ? bits >> 8 : (bits >> 8) % 12);
        }
    }
    return length;
}

/* ---- Values ------------------------------------------------------------------------------------------------------ */

/* A run of values, with the length of the text that they have their places in. */
struct values {
    uint8_t bytes[SAMOPUTE_VALUES_LENGTH(VALUES_MOST)];
    size_t count;
    size_t text_length;
};

static inline void add_value(struct values *v, struct samopute_value value)
{
    if (v->count < VALUES_MOST) {
        samopute_put_value(v->bytes, v->count++, value);
    }
}

/* Any record at all: of any kind or none, with 64 bits that are often no value of it. */
static inline struct samopute_value some_odd_value(struct draws *d)
{
    struct samopute_value v = samopute_value_of((uint8_t)below(d, 13), draw(d) >> below(d, 64), draw(d));
    v.length >>= below(d, 64);
    v.has_encoding = once_in(d, 2) ? (uint8_t)draw(d) : 0;
    v.encoding = (uint8_t)draw(d);
    return once_in(d, 4) ? samopute_value_of_i64(-(int64_t)below(d, 300)) : v;
}

/* What some raw of a number field says, now and then doubled, which may be beyond its range; of a field that is refused,
 * any value. */
static inline struct samopute_value some_number_value(struct draws *d, uint64_t field)
{
    uint64_t raw = draw(d) >> below(d, 64);
    uint64_t answer[4];
    uint32_t status =
        samopute_scale((uint32_t)(field & 0xFF), (uint32_t)(field >> 8 & 0xFFFF), (uint32_t)(field >> 24 & 1),
                       (uint32_t)(field >> 25 & 3), (uint32_t)(field >> 32), raw, answer);
    if (status != 0) {
        return some_odd_value(d);
    }
    if (answer[0] == SAMOPUTE_VALUE_F64 && once_in(d, 8)) {
        return samopute_value_of_f64(samopute_bits_f64(answer[1]) * 2);
    }
    if (answer[0] == SAMOPUTE_VALUE_F32 && once_in(d, 8)) {
        return samopute_value_of_f64(samopute_bits_f32(answer[1]));
    }
    return samopute_value_of((uint8_t)answer[0], answer[1], draw(d));
}

/* Bytes of the text that the field takes, but for a few. */
static inline struct samopute_value some_bytes_value(struct draws *d, uint64_t field, size_t text_length)
{
    uint64_t kind = field & 0xFF;
    uint64_t size = (field >> 8 & 0xFFFF) / 8;
    uint64_t length = kind == SAMOPUTE_BINARY ? size : below(d, once_in(d, 8) ? 224 : 8);
    uint64_t first;
    if (kind == SAMOPUTE_STRING_FIX && !once_in(d, 16)) {
        length = below(d, size + 1);
    }
    first = length <= text_length ? below(d, text_length - length + 1) : below(d, 3);
    if (once_in(d, 24)) {
        first = draw(d) >> below(d, 64);
    }
    if (kind == SAMOPUTE_STRING_LAU && length + below(d, 2) > 0) {
        return samopute_value_of_lau(first, length, (uint8_t)draw(d));
    }
    return samopute_value_of_bytes(first, length);
}

static inline struct samopute_value some_value(struct draws *d, uint64_t field, size_t text_length)
{
    uint64_t kind = field & 0xFF;
    int is_text = kind >= SAMOPUTE_STRING_FIX && kind <= SAMOPUTE_STRING_LAU;
    if (once_in(d, 60)) {
        return some_odd_value(d);
    }
    return is_text || (kind == SAMOPUTE_BINARY && (field >> 8 & 7) == 0) ? some_bytes_value(d, field, text_length)
                                                                          : some_number_value(d, field);
}

static inline void add_value_for(struct draws *d, uint64_t field, struct values *v)
{
    uint64_t kind = field & 0xFF;
    if (kind != SAMOPUTE_RESERVED && kind != SAMOPUTE_SPARE) {
        add_value(v, some_value(d, field, v->text_length));
    }
}

/* The first set whose start (part 0 of its word) or counter (part 2) is field i; as many as there are if none is. */
static inline uint64_t set_with(const uint64_t *words, unsigned part, uint64_t i)
{
    const uint64_t *sets = words + 1 + (words[0] & 0xFFFF);
    uint64_t k = 0;
    while (k < (words[0] >> 16 & 0xFFFF) && (sets[k] >> 16 * part & 0xFFFF) != i) {
        k++;
    }
    return k;
}

/* A counter's value, and the elements that it says: few, none where it is all ones, or one over the set's maximum. */
static inline uint64_t add_counter(struct draws *d, uint64_t field, uint64_t set, struct values *v)
{
    uint64_t ones = UINT64_MAX >> (64 - (field >> 8 & 0xFFFF));
    uint64_t number = below(d, 4) & ones;
    if (once_in(d, 12)) {
        number = once_in(d, 2) ? ones : (set >> 48) + 1;
    }
    add_value(v, samopute_value_of_u64(number));
    return number == ones ? 0 : number;
}

static inline void add_elements(struct draws *d, const uint64_t *words, uint64_t set, uint64_t count, struct values *v)
{
    uint64_t e, j;
    for (e = 0; e < count && e < 8; e++) {
        for (j = 0; j < (set >> 16 & 0xFFFF); j++) {
            add_value_for(d, words[1 + (set & 0xFFFF) + j], v);
        }
    }
}

/* Values for every field of an accepted table, in the order of the walk. */
static inline void add_fitting_values(struct draws *d, const uint64_t *words, struct values *v)
{
    uint64_t fields = words[0] & 0xFFFF;
    uint64_t set_count = words[0] >> 16 & 0xFFFF;
    const uint64_t *sets = words + 1 + fields;
    uint64_t elements[64] = {0}; /* by their counters */
    uint64_t i;
    for (i = 0; i < fields; i++) {
        uint64_t started = set_with(words, 0, i);
        uint64_t counted = set_with(words, 2, i);
        if (started < set_count) {
            add_elements(d, words, sets[started], elements[sets[started] >> 32 & 0xFFFF], v);
            i += (sets[started] >> 16 & 0xFFFF) - 1;
        } else if (counted < set_count) {
            elements[i] = add_counter(d, words[1 + i], sets[counted], v);
        } else {
            add_value_for(d, words[1 + i], v);
        }
    }
}

/* Values by a table: fitting, some too many or too few, or any at all. Answers their bytes: the last may be cut short. */
static inline size_t some_values(struct draws *d, const uint64_t *words, size_t word_count, size_t text_length,
                                 struct values *v)
{
    uint64_t checked[3];
    v->count = 0;
    v->text_length = text_length;
    if (samopute_check(words, word_count, checked) == 0 && !once_in(d, 20)) {
        add_fitting_values(d, words, v);
    } else {
        uint64_t more = below(d, 20);
        while (more-- > 0) {
            add_value(v, some_odd_value(d));
        }
    }
    if (once_in(d, 16)) {
        add_value(v, some_odd_value(d));
    }
    if (v->count > 0 && once_in(d, 16)) {
        v->count -= (size_t)below(d, v->count + 1);
    }
    if (v->count > 0 && once_in(d, 16)) {
        return SAMOPUTE_VALUES_LENGTH(v->count) - (size_t)below(d, SAMOPUTE_VALUE_LENGTH);
    }
    return SAMOPUTE_VALUES_LENGTH(v->count);
}

#endif
