/*
 * The deepest stack of the boundary, measured: each call runs on a stack of its own that was painted before, and the
 * lowest byte that changed says how deep it went. The figure has the C function that makes the call in it, with its
 * return address and the arguments that go by the stack.
 *
 *     stack ROUNDS SEED LIMIT      fails if a call takes more than LIMIT bytes
 */
#define _GNU_SOURCE
#include <inttypes.h>
#include <stdio.h>
#include <stdlib.h>
#include <ucontext.h>

#include "cases.h"

#define STACK_LENGTH 16384
#define PAINT 0xA5

static uint8_t stack[STACK_LENGTH] __attribute__((aligned(64)));
static ucontext_t caller;
static ucontext_t callee;

/* What the calls are lent. It stands outside of the stack that is measured. */
static uint64_t words[WORDS_MAX];
static size_t word_count;
static uint8_t payload[PAYLOAD_MOST];
static size_t payload_length;
static uint8_t padding[SAMOPUTE_PADDING_LENGTH];
static uint8_t readings[SAMOPUTE_READINGS_LENGTH(SAMOPUTE_ROOM_ENOUGH)];
static struct samopute_reading structs[SAMOPUTE_ROOM_ENOUGH];
static uint64_t answer[6];
static uint64_t numbers[8];
static struct values values, pgn_values;
static size_t values_length, pgn_values_length;
static uint8_t text[TEXT_MOST];
static uint8_t written[SAMOPUTE_PAYLOAD_MAX];

static void nothing(void)
{
}

static void decode(void)
{
    samopute_decode(words, word_count, payload, payload_length, padding, sizeof padding, readings, sizeof readings,
                    answer);
}

static void decode_pgn(void)
{
    samopute_decode_pgn((uint32_t)numbers[0], payload, payload_length, padding, sizeof padding, readings,
                        sizeof readings, answer);
}

static void decode_run(void)
{
    samopute_decode_run(words, word_count, payload, payload_length, padding, sizeof padding, structs,
                        sizeof structs / sizeof structs[0], answer);
}

static void encode(void)
{
    samopute_encode(words, word_count, values.bytes, values_length, text, sizeof text, written, sizeof written, answer);
}

static void encode_pgn(void)
{
    samopute_encode_pgn((uint32_t)numbers[0], pgn_values.bytes, pgn_values_length, text, sizeof text, written,
                        sizeof written, answer);
}

static void check(void)
{
    samopute_check(words, word_count, answer);
}

static void scale(void)
{
    samopute_scale((uint32_t)numbers[1], (uint32_t)numbers[2], (uint32_t)numbers[3], (uint32_t)numbers[4],
                   (uint32_t)numbers[5], numbers[6], answer);
}

static void raw_of(void)
{
    samopute_raw_of((uint32_t)numbers[1], (uint32_t)numbers[2], (uint32_t)numbers[3], (uint32_t)numbers[4],
                    (uint32_t)numbers[5], (uint32_t)numbers[7], numbers[6], answer);
}

static void read_number(void)
{
    samopute_read_u64(payload, payload_length, (size_t)numbers[1], (uint32_t)numbers[2], answer);
}

static void write_number(void)
{
    samopute_write_u64(payload, payload_length, (size_t)numbers[1], numbers[6], (uint32_t)numbers[2], answer);
}

static void read_bytes(void)
{
    samopute_read_slice(payload, payload_length, 8 * (size_t)numbers[1], (size_t)numbers[2], answer);
}

static void write_bytes(void)
{
    samopute_write_slice(payload, payload_length, 8 * (size_t)numbers[1], padding, (size_t)numbers[2], answer);
}

struct measured {
    const char *name;
    void (*call)(void);
    size_t deepest;
};

static struct measured calls[] = {
    {"nothing, for the frame of the measurement itself", nothing, 0},
    {"samopute_decode", decode, 0},
    {"samopute_decode_pgn", decode_pgn, 0},
    {"samopute_decode_run", decode_run, 0},
    {"samopute_encode", encode, 0},
    {"samopute_encode_pgn", encode_pgn, 0},
    {"samopute_check", check, 0},
    {"samopute_scale", scale, 0},
    {"samopute_raw_of", raw_of, 0},
    {"samopute_read_u64", read_number, 0},
    {"samopute_write_u64", write_number, 0},
    {"samopute_read_slice", read_bytes, 0},
    {"samopute_write_slice", write_bytes, 0},
};

#define CALL_COUNT (sizeof calls / sizeof calls[0])

/* The bytes from the top of the stack to the lowest that is not as it was painted. */
static size_t depth(void)
{
    size_t i = 0;
    while (i < STACK_LENGTH && stack[i] == PAINT) {
        i++;
    }
    return STACK_LENGTH - i;
}

/* Runs a call on the painted stack. Only what the last call touched is painted again. */
static void measure(struct measured *m)
{
    size_t deep;
    getcontext(&callee);
    callee.uc_stack.ss_sp = stack;
    callee.uc_stack.ss_size = sizeof stack;
    callee.uc_link = &caller;
    makecontext(&callee, m->call, 0);
    swapcontext(&caller, &callee);
    deep = depth();
    memset(stack + STACK_LENGTH - deep, PAINT, deep);
    m->deepest = deep > m->deepest ? deep : m->deepest;
}

static void choose(struct draws *d)
{
    const struct built_in *b = &built_ins[below(d, BUILT_IN_COUNT)];
    word_count = some_table(d, words);
    payload_length = some_payload(d, payload);
    values_length = some_values(d, words, word_count, sizeof text, &values);
    pgn_values_length = some_values(d, b->words, b->count, sizeof text, &pgn_values);
    numbers[0] = b->pgn;
    numbers[1] = below(d, 19);
    numbers[2] = between(d, 1, 64);
    numbers[3] = below(d, 2);
    numbers[4] = below(d, 4);
    numbers[5] = numbers[4] == 0 ? 0 : some_resolution(d);
    numbers[6] = draw(d) >> below(d, 64);
    numbers[7] = between(d, 1, 10);
}

static size_t tell(void)
{
    size_t most = 0;
    size_t i;
    for (i = 0; i < CALL_COUNT; i++) {
        printf("%6zu bytes of stack: %s\n", calls[i].deepest, calls[i].name);
        most = calls[i].deepest > most ? calls[i].deepest : most;
    }
    return most;
}

int main(int argc, char **argv)
{
    uint64_t rounds, seed, round;
    size_t limit, most, i;
    if (argc != 4) {
        fprintf(stderr, "stack ROUNDS SEED LIMIT\n");
        return 2;
    }
    rounds = strtoull(argv[1], NULL, 10);
    seed = strtoull(argv[2], NULL, 10);
    limit = (size_t)strtoull(argv[3], NULL, 10);
    memset(stack, PAINT, sizeof stack);
    for (round = 0; round < rounds; round++) {
        struct draws d = draws_of(seed, round);
        choose(&d);
        for (i = 0; i < CALL_COUNT; i++) {
            measure(&calls[i]);
        }
    }
    most = tell();
    printf("the deepest of %" PRIu64 " rounds of seed %" PRIu64 ": %zu bytes, of %zu allowed\n", rounds, seed, most,
           limit);
    return most <= limit ? 0 : 1;
}
