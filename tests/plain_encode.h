/*
 * What samopute_encode must answer and leave: document 01's "Writing a payload" in plain C, a bit at a time. The table
 * check and the raw of a value are asked of the library; everything else is worked out here.
 */
#ifndef PLAIN_ENCODE_H
#define PLAIN_ENCODE_H

#include "../include/samopute.h"

struct plain_encode {
    const uint64_t *words;
    size_t word_count;
    const uint8_t *values;
    size_t values_length;
    const uint8_t *text;
    size_t text_length;
    uint8_t *payload; /* what it must hold after the call */
    size_t length;
    uint64_t at;   /* the bits written */
    uint64_t used; /* the values used */
    uint64_t counters[4];
    uint32_t status;
    uint64_t answer[4];
};

static inline int plain_refuse(struct plain_encode *p, uint32_t status, uint64_t a, uint64_t b, uint64_t c)
{
    p->status = status;
    p->answer[0] = 0;
    p->answer[1] = a;
    p->answer[2] = b;
    p->answer[3] = c;
    return 0;
}

/* The low bits of a number, from the cursor on. */
static inline void plain_put(struct plain_encode *p, uint64_t number, uint64_t width)
{
    uint64_t i;
    for (i = 0; i < width; i++, p->at++) {
        uint8_t mask = (uint8_t)(1u << p->at % 8);
        uint8_t *byte = &p->payload[p->at / 8];
        *byte = (uint8_t)(number >> i & 1 ? *byte | mask : *byte & ~mask);
    }
}

static inline uint64_t plain_field(const struct plain_encode *p, uint64_t i)
{
    return p->words[1 + i];
}

static inline uint64_t plain_kind(uint64_t field)
{
    return field & 0xFF;
}

static inline uint64_t plain_width(uint64_t field)
{
    return field >> 8 & 0xFFFF;
}

/* Refusal 2 counts bits, for the whole field. */
static inline int plain_room(struct plain_encode *p, uint64_t i, uint64_t bits)
{
    uint64_t left = 8 * (uint64_t)p->length - p->at;
    return bits <= left || plain_refuse(p, 2, i, bits, left);
}

/* Refusal 3: bytes that stand `ahead` bits after the cursor. */
static inline int plain_aligned(struct plain_encode *p, uint64_t i, uint64_t ahead)
{
    return p->at % 8 == 0 || plain_refuse(p, 3, i, p->at + ahead, 0);
}

static inline void plain_put_text(struct plain_encode *p, const struct samopute_value *v)
{
    uint64_t k;
    for (k = 0; k < v->length; k++) {
        plain_put(p, p->text[v->value + k], 8);
    }
}

static inline int plain_is_past(const struct plain_encode *p, const struct samopute_value *v)
{
    return v->length > p->text_length || v->value > p->text_length - v->length;
}

/* A StringFix or a Binary of whole bytes. */
static inline int plain_fixed(struct plain_encode *p, uint64_t i, const struct samopute_value *v)
{
    uint64_t field = plain_field(p, i);
    uint64_t size = plain_width(field) / 8;
    uint64_t k;
    int wrong = plain_kind(field) == SAMOPUTE_BINARY ? v->length != size : v->length > size;
    if (v->has_encoding) {
        return plain_refuse(p, 11, i, 0, 0);
    }
    if (wrong || plain_is_past(p, v)) {
        return plain_refuse(p, 13, i, 0, 0);
    }
    if (!plain_aligned(p, i, 0) || !plain_room(p, i, 8 * size)) {
        return 0;
    }
    plain_put_text(p, v);
    for (k = v->length; k < size; k++) {
        plain_put(p, 0xFF, 8);
    }
    return 1;
}

/* Length and text with a zero after them, or with an encoding byte before the text. */
static inline int plain_counted(struct plain_encode *p, uint64_t i, const struct samopute_value *v)
{
    int is_lau = plain_kind(plain_field(p, i)) == SAMOPUTE_STRING_LAU;
    if (v->length > SAMOPUTE_TEXT_MAX || plain_is_past(p, v)) {
        return plain_refuse(p, 13, i, 0, 0);
    }
    if (v->length != 0 && !plain_aligned(p, i, is_lau ? 16 : 8)) {
        return 0;
    }
    if (!plain_room(p, i, 16 + 8 * v->length)) {
        return 0;
    }
    plain_put(p, v->length + (is_lau ? 2 : 0), 8);
    if (is_lau) {
        plain_put(p, v->encoding, 8);
    }
    plain_put_text(p, v);
    if (!is_lau) {
        plain_put(p, 0, 8);
    }
    return 1;
}

static inline int plain_lz(struct plain_encode *p, uint64_t i, const struct samopute_value *v)
{
    return v->has_encoding ? plain_refuse(p, 11, i, 0, 0) : plain_counted(p, i, v);
}

/* Without an encoding it takes empty text only, which is absent. */
static inline int plain_lau(struct plain_encode *p, uint64_t i, const struct samopute_value *v)
{
    if (v->has_encoding) {
        return plain_counted(p, i, v);
    }
    if (v->length != 0) {
        return plain_refuse(p, 11, i, 0, 0);
    }
    if (plain_is_past(p, v)) {
        return plain_refuse(p, 13, i, 0, 0);
    }
    if (!plain_room(p, i, 8)) {
        return 0;
    }
    plain_put(p, 1, 8);
    return 1;
}

static inline uint32_t plain_raw(uint64_t field, const struct samopute_value *v, uint64_t answer[3])
{
    return samopute_raw_of((uint32_t)plain_kind(field), (uint32_t)plain_width(field), (uint32_t)(field >> 24 & 1),
                           (uint32_t)(field >> 25 & 3), (uint32_t)(field >> 32), v->kind, v->value, answer);
}

/* A number. One outside of sets is the counter of each set that names it. */
static inline int plain_number(struct plain_encode *p, uint64_t i, int in_set, const struct samopute_value *v)
{
    uint64_t raw[3];
    uint64_t sets = p->words[0] >> 16 & 0xFFFF;
    uint64_t fields = p->words[0] & 0xFFFF;
    uint64_t k;
    uint32_t status = plain_raw(plain_field(p, i), v, raw);
    if (status != 0) {
        return plain_refuse(p, status, i, 0, 0);
    }
    if (!plain_room(p, i, plain_width(plain_field(p, i)))) {
        return 0;
    }
    for (k = 0; k < sets && !in_set; k++) {
        if ((p->words[1 + fields + k] >> 32 & 0xFFFF) == i) {
            p->counters[k] = raw[0];
        }
    }
    plain_put(p, raw[0], plain_width(plain_field(p, i)));
    return 1;
}

/* Value j, of kind 0 if it is cut short. */
static inline struct samopute_value plain_value(const struct plain_encode *p, uint64_t j)
{
    struct samopute_value v = samopute_value_of(0, 0, 0);
    const uint8_t *record = p->values + SAMOPUTE_VALUES_LENGTH(j);
    if (p->values_length / SAMOPUTE_VALUE_LENGTH <= j) {
        return v;
    }
    v = samopute_value_of(record[0], samopute_word_at(record + 8), samopute_word_at(record + 16));
    v.has_encoding = record[1];
    v.encoding = record[2];
    return v;
}

static inline uint64_t plain_value_count(const struct plain_encode *p)
{
    return p->values_length / SAMOPUTE_VALUE_LENGTH + (p->values_length % SAMOPUTE_VALUE_LENGTH != 0);
}

static inline int plain_takes_bytes(uint64_t field)
{
    uint64_t kind = plain_kind(field);
    return (kind >= SAMOPUTE_STRING_FIX && kind <= SAMOPUTE_STRING_LAU) ||
           (kind == SAMOPUTE_BINARY && plain_width(field) % 8 == 0);
}

/* A field: 12, 11, then what its kind says. */
static inline int plain_one(struct plain_encode *p, uint64_t i, int in_set)
{
    uint64_t field = plain_field(p, i);
    uint64_t kind = plain_kind(field);
    struct samopute_value v;
    if (kind == SAMOPUTE_RESERVED || kind == SAMOPUTE_SPARE) {
        if (!plain_room(p, i, plain_width(field))) {
            return 0;
        }
        p->at += plain_width(field);
        return 1;
    }
    if (p->used >= plain_value_count(p)) {
        return plain_refuse(p, 12, i, 0, 0);
    }
    v = plain_value(p, p->used++);
    if (plain_takes_bytes(field) != (v.kind == SAMOPUTE_VALUE_BYTES)) {
        return plain_refuse(p, 11, i, 0, 0);
    }
    switch (plain_takes_bytes(field) ? kind : SAMOPUTE_NUMBER) {
    case SAMOPUTE_STRING_FIX:
    case SAMOPUTE_BINARY:
        return plain_fixed(p, i, &v);
    case SAMOPUTE_STRING_LZ:
        return plain_lz(p, i, &v);
    case SAMOPUTE_STRING_LAU:
        return plain_lau(p, i, &v);
    default:
        return plain_number(p, i, in_set, &v);
    }
}

/* Set k: as many elements as its counter says. All ones say none; over the maximum is 5. */
static inline int plain_set(struct plain_encode *p, uint64_t k)
{
    uint64_t set = p->words[1 + (p->words[0] & 0xFFFF) + k];
    uint64_t width = plain_width(plain_field(p, set >> 32 & 0xFFFF));
    uint64_t count = p->counters[k] == UINT64_MAX >> (64 - width) ? 0 : p->counters[k];
    uint64_t e, j;
    if (count > set >> 48) {
        return plain_refuse(p, 5, k, count, set >> 48);
    }
    for (e = 0; e < count; e++) {
        for (j = 0; j < (set >> 16 & 0xFFFF); j++) {
            if (!plain_one(p, (set & 0xFFFF) + j, 1)) {
                return 0;
            }
        }
    }
    return 1;
}

/* Field i, or the set that starts there. A field inside a set was met with it. */
static inline int plain_step(struct plain_encode *p, uint64_t i)
{
    uint64_t fields = p->words[0] & 0xFFFF;
    uint64_t sets = p->words[0] >> 16 & 0xFFFF;
    uint64_t k;
    for (k = 0; k < sets; k++) {
        uint64_t set = p->words[1 + fields + k];
        uint64_t start = set & 0xFFFF;
        if (i == start) {
            return plain_set(p, k);
        }
        if (start < i && i - start < (set >> 16 & 0xFFFF)) {
            return 1;
        }
    }
    return plain_one(p, i, 0);
}

/* 7 and 8, which leave the payload as it was; then a payload of ones, the walk, and 12 for values left over. */
static inline void plain_encode(struct plain_encode *p)
{
    uint64_t checked[3];
    uint64_t i;
    p->at = p->used = 0;
    memset(p->counters, 0, sizeof p->counters);
    if (p->length > SAMOPUTE_PAYLOAD_MAX) {
        plain_refuse(p, 7, p->length, 0, 0);
        return;
    }
    if (samopute_check(p->words, p->word_count, checked) != 0) {
        plain_refuse(p, 8, checked[0], checked[1], 0);
        return;
    }
    if (p->length > 0) {
        memset(p->payload, 0xFF, p->length);
    }
    for (i = 0; i < (p->words[0] & 0xFFFF); i++) {
        if (!plain_step(p, i)) {
            return;
        }
    }
    plain_refuse(p, 12, p->words[0] & 0xFFFF, 0, 0);
    if (p->used == plain_value_count(p)) {
        plain_refuse(p, 0, 0, 0, 0);
        p->answer[0] = (p->at + 7) / 8;
    }
}

#endif
