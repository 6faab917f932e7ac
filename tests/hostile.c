/*
 * The boundary on hostile input: every call with random arguments, and every lent buffer where an access outside it is
 * seen. In turn, round by round, a buffer
 *
 *     ends where a page begins that nobody may touch: an access past its end is a fault;
 *     begins where such a page ends: an access before its start is a fault;
 *     is a heap block of its length, which an address checker watches (-fsanitize=address).
 *
 * The first two are what holds the library to its word: it is not compiled with the checker, which therefore does not see
 * its loads and stores. What a call answers and what it leaves in each buffer is held too: against the other calls, and
 * against plain models of the bit calls and of encode. A decode into structs is held against one into bytes. A fault or
 * a wrong answer is told with the seed and the round, and ends the run.
 *
 *     hostile ROUNDS SEED [FIRST]      from round FIRST on (0)
 */
#define _GNU_SOURCE
#include <inttypes.h>
#include <setjmp.h>
#include <signal.h>
#include <stdio.h>
#include <stdlib.h>
#include <sys/mman.h>
#include <unistd.h>

#include "cases.h"
#include "plain_encode.h"

#define READINGS_MOST SAMOPUTE_READINGS_LENGTH(SAMOPUTE_ROOM_ENOUGH + 1)
#define BITS_MOST (SAMOPUTE_BUFFER_MAX + 16)
#define NOISE_LENGTH (2 * READINGS_MOST)

/* From so many rounds on, each status must have come up. */
#define ROUNDS_FOR_ALL 20000

/* Where the run stands, for what is told of a fault. */
static uint64_t seed;
static uint64_t this_round;
static const char *volatile this_call = "none";

/* The largest status that the header names. */
#define STATUS_MAX SAMOPUTE_UNKNOWN_PGN

/* How often each status was answered by a decode, by one into structs, by an encode, and by any other call. */
static uint64_t decoded[STATUS_MAX + 1];
static uint64_t run_decoded[STATUS_MAX + 1];
static uint64_t encoded[STATUS_MAX + 1];
static uint64_t answered[STATUS_MAX + 1];

/* How often refusal 2 of a decode counted bits, and bytes. */
static uint64_t beyond_bits;
static uint64_t beyond_bytes;

/* How often a slice call refused an empty slice past the end. */
static uint64_t empty_slices;

/* ---- What is told ------------------------------------------------------------------------------------------------ */

static void put(const char *text)
{
    if (write(STDOUT_FILENO, text, strlen(text)) < 0) {
        _exit(4);
    }
}

/* In a signal handler printf may not be called. */
static void put_number(uint64_t number, unsigned base)
{
    char text[65];
    char *at = text + sizeof text - 1;
    *at = 0;
    do {
        *--at = "0123456789ABCDEF"[number % base];
        number /= base;
    } while (number != 0);
    put(at);
}

static void put_place(void)
{
    put("; last call ");
    put(this_call);
    put(", round ");
    put_number(this_round, 10);
    put(" of seed ");
    put_number(seed, 10);
    put("; again: hostile 1 ");
    put_number(seed, 10);
    put(" ");
    put_number(this_round, 10);
    put("\n");
}

static void on_signal(int signal, siginfo_t *info, void *context)
{
    (void)context;
    put(signal == SIGALRM ? "NO RETURN" : "FAULT: signal ");
    if (signal != SIGALRM) {
        put_number((uint64_t)signal, 10);
        put(" at address ");
        put_number((uint64_t)(uintptr_t)info->si_addr, 16);
    }
    put_place();
    _exit(3);
}

static void wrong(const char *what)
{
    put("WRONG: ");
    put(what);
    put_place();
    exit(1);
}

static void hold(int is_so, const char *what)
{
    if (!is_so) {
        wrong(what);
    }
}

/* On a stack of its own, so that a call that runs out of stack is told as well. */
static void catch_signals(void)
{
    static const int signals[] = {SIGSEGV, SIGBUS, SIGILL, SIGFPE, SIGALRM};
    static uint8_t stack[65536];
    stack_t other = {.ss_sp = stack, .ss_size = sizeof stack, .ss_flags = 0};
    struct sigaction action;
    size_t i;
    memset(&action, 0, sizeof action);
    action.sa_sigaction = on_signal;
    action.sa_flags = SA_SIGINFO | SA_ONSTACK;
    sigaltstack(&other, NULL);
    for (i = 0; i < sizeof signals / sizeof signals[0]; i++) {
        sigaction(signals[i], &action, NULL);
    }
}

/* ---- Lent buffers ------------------------------------------------------------------------------------------------ */

enum place { ENDS_AT_A_GUARD, BEGINS_AT_A_GUARD, ON_THE_HEAP, PLACES };

/* Open bytes between two pages that nobody may touch. */
struct arena {
    uint8_t *first;
    size_t size;
};

struct lent {
    uint8_t *bytes;
    size_t length;
    uint8_t *heap;
};

enum { WORDS, PAYLOAD, PADDING, READINGS, ANSWER, BITS, SOURCE, VALUES, TEXT, ARENAS };

static struct arena arenas[ARENAS];
static enum place place;

/* What lent buffers hold before a call: a part of this, which no call would write by chance. */
static uint8_t noise[NOISE_LENGTH];

static struct arena open_arena(size_t least)
{
    size_t page = (size_t)sysconf(_SC_PAGESIZE);
    size_t size = (least + page - 1) / page * page;
    struct arena a = {NULL, size};
    uint8_t *all = mmap(NULL, size + 2 * page, PROT_NONE, MAP_PRIVATE | MAP_ANONYMOUS, -1, 0);
    if (all == MAP_FAILED || mprotect(all + page, size, PROT_READ | PROT_WRITE) != 0) {
        perror("hostile: no memory for the lent buffers");
        exit(2);
    }
    a.first = all + page;
    return a;
}

static void open_arenas(void)
{
    static const size_t sizes[ARENAS] = {WORDS_MAX * 8, PAYLOAD_MOST, PAYLOAD_MOST,
                                         READINGS_MOST, 6 * 8,        BITS_MOST,
                                         BITS_MOST,     SAMOPUTE_VALUES_LENGTH(VALUES_MOST), TEXT_MOST};
    struct draws d = draws_of(seed, UINT64_MAX);
    size_t i;
    for (i = 0; i < ARENAS; i++) {
        arenas[i] = open_arena(sizes[i]);
    }
    for (i = 0; i < NOISE_LENGTH; i++) {
        noise[i] = (uint8_t)draw(&d);
    }
}

static sigjmp_buf back;

static void on_touch(int signal)
{
    (void)signal;
    siglongjmp(back, 1);
}

/* Whether a touch of a byte is a fault, which ends the run if it comes of a call. */
static int faults(const volatile uint8_t *byte)
{
    if (sigsetjmp(back, 1) != 0) {
        return 1;
    }
    (void)*byte;
    return 0;
}

/*
 * The guards are tried first: where one may be touched, a run would say little. (An emulator of a processor with smaller
 * pages than the machine's own cannot keep each of them from being touched.)
 */
static void try_guards(void)
{
    struct sigaction on, off;
    size_t i;
    memset(&on, 0, sizeof on);
    on.sa_handler = on_touch;
    sigaction(SIGSEGV, &on, &off);
    for (i = 0; i < ARENAS; i++) {
        hold(faults(arenas[i].first - 1) && faults(arenas[i].first + arenas[i].size), "a guard may be touched");
        hold(!faults(arenas[i].first) && !faults(arenas[i].first + arenas[i].size - 1), "an arena may not be touched");
    }
    sigaction(SIGSEGV, &off, NULL);
}

/* Lends `length` bytes that hold those of `from`. With no length, sometimes no address either. */
static struct lent lend(int which, const void *from, size_t length)
{
    struct arena a = arenas[which];
    struct lent l = {NULL, length, NULL};
    if (place == ON_THE_HEAP) {
        l.bytes = l.heap = malloc(length);
    } else {
        l.bytes = place == ENDS_AT_A_GUARD ? a.first + a.size - length : a.first;
    }
    if (length == 0 && this_round % 2 == 0) {
        l.bytes = NULL;
    } else if (length > 0) {
        memcpy(l.bytes, from, length);
    }
    return l;
}

static void take_back(struct lent l)
{
    free(l.heap);
}

static const uint8_t *some_noise(struct draws *d, size_t length)
{
    return noise + below(d, NOISE_LENGTH - length);
}

static int same(const void *a, const void *b, size_t length)
{
    return length == 0 || memcmp(a, b, length) == 0;
}

static void tally(uint64_t *counts, uint32_t status)
{
    hold(status <= STATUS_MAX, "a status that the header does not name");
    counts[status]++;
}

/* ---- Decode ------------------------------------------------------------------------------------------------------ */

/* A call: what is lent, what stood there before, and what came of it. */
struct decode {
    uint64_t words[WORDS_MAX];
    size_t word_count;
    uint8_t payload[PAYLOAD_MOST];
    size_t payload_length;
    uint32_t pgn;
    int by_pgn;
    const uint8_t *padding_before;
    const uint8_t *readings_before;
    const uint8_t *answer_before;
    struct lent lent[5];
    uint32_t status;
    uint64_t answer[6];
};

static uint32_t call_decode(const struct decode *c, struct lent readings, uint64_t *answer)
{
    const struct lent *l = c->lent;
    if (c->by_pgn) {
        this_call = "samopute_decode_pgn";
        return samopute_decode_pgn(c->pgn, l[PAYLOAD].bytes, l[PAYLOAD].length, l[PADDING].bytes, l[PADDING].length,
                                   readings.bytes, readings.length, answer);
    }
    this_call = "samopute_decode";
    return samopute_decode((const uint64_t *)(const void *)l[WORDS].bytes, c->word_count, l[PAYLOAD].bytes,
                           l[PAYLOAD].length, l[PADDING].bytes, l[PADDING].length, readings.bytes, readings.length,
                           answer);
}

/* The words of a PGN's table, none if it is not built in. */
static size_t built_in_words(uint32_t pgn, uint64_t *words)
{
    size_t i;
    for (i = 0; i < BUILT_IN_COUNT; i++) {
        if (built_ins[i].pgn == pgn) {
            memcpy(words, built_ins[i].words, built_ins[i].count * sizeof words[0]);
            return built_ins[i].count;
        }
    }
    return 0;
}

/* A table of words; or a PGN, now and then with a bit turned, and its words. Answers how many words. */
static size_t choose_table(struct draws *d, uint64_t *words, int *by_pgn, uint32_t *pgn)
{
    *by_pgn = once_in(d, 6);
    if (!*by_pgn) {
        return some_table(d, words);
    }
    *pgn = built_ins[below(d, BUILT_IN_COUNT)].pgn;
    if (once_in(d, 6)) {
        *pgn ^= (uint32_t)1 << below(d, 32);
    }
    return built_in_words(*pgn, words);
}

static size_t some_readings_length(struct draws *d)
{
    if (once_in(d, 16)) {
        return (size_t)below(d, READINGS_MOST + 1);
    }
    if (once_in(d, 3)) {
        return SAMOPUTE_READINGS_LENGTH(below(d, 40)) + (size_t)below(d, 3) - 1;
    }
    return (size_t)below(d, 1000);
}

static void choose_decode(struct draws *d, struct decode *c)
{
    size_t padding = once_in(d, 12) ? (size_t)below(d, PAYLOAD_MOST + 1) : SAMOPUTE_PADDING_LENGTH;
    size_t readings = some_readings_length(d);
    c->word_count = choose_table(d, c->words, &c->by_pgn, &c->pgn);
    c->payload_length = some_payload(d, c->payload);
    c->padding_before = some_noise(d, padding);
    c->readings_before = some_noise(d, readings);
    c->answer_before = some_noise(d, sizeof c->answer);
    c->lent[WORDS] = lend(WORDS, c->words, c->word_count * sizeof c->words[0]);
    c->lent[PAYLOAD] = lend(PAYLOAD, c->payload, c->payload_length);
    c->lent[PADDING] = lend(PADDING, c->padding_before, padding);
    c->lent[READINGS] = lend(READINGS, c->readings_before, readings);
    c->lent[ANSWER] = lend(ANSWER, c->answer_before, sizeof c->answer);
}

static size_t room_of(size_t readings_length)
{
    if (readings_length < SAMOPUTE_PREFIX_LENGTH) {
        return 0;
    }
    return (readings_length - SAMOPUTE_PREFIX_LENGTH) / SAMOPUTE_RECORD_LENGTH;
}

/* The head's numbers, by their place in it. */
static size_t head_of(const struct decode *c, unsigned place_in_head)
{
    return c->word_count == 0 ? 0 : (size_t)(c->words[0] >> 16 * place_in_head & 0xFFFF);
}

static int is_filled(const struct decode *c)
{
    size_t length = head_of(c, 2);
    size_t minimum = head_of(c, 3);
    return minimum > 0 && minimum <= c->payload_length && c->payload_length < length;
}

/* The refusals that come before the walk, worked out from the arguments: 15, 7, 8, or 0 and the walk begins. */
static uint32_t early_refusal(const struct decode *c, uint64_t carried[3])
{
    uint64_t answer[3];
    memset(carried, 0, 3 * sizeof carried[0]);
    if (c->by_pgn && c->word_count == 0) {
        carried[0] = c->pgn;
        return 15;
    }
    if (c->payload_length > SAMOPUTE_PAYLOAD_MAX || c->lent[PADDING].length != SAMOPUTE_PADDING_LENGTH) {
        carried[0] = c->payload_length > SAMOPUTE_PAYLOAD_MAX ? c->payload_length : c->lent[PADDING].length;
        return 7;
    }
    this_call = "samopute_check";
    if (samopute_check(c->words, c->word_count, answer) != 0) {
        memcpy(carried, answer, sizeof answer);
        return 8;
    }
    return 0;
}

/* 15, 7 and 8 are given just where they should be, and then no buffer is touched. Answers whether it is one of them. */
static int check_early(const struct decode *c)
{
    uint64_t carried[3];
    uint32_t early = early_refusal(c, carried);
    int is_early = c->status == 7 || c->status == 8 || c->status == 15;
    hold(early == 0 ? !is_early : c->status == early, "another refusal than 15, 7 or 8 by the arguments");
    if (!is_early) {
        return 0;
    }
    hold(c->answer[0] == 0 && c->answer[1] == 0, "a count or a filling with 15, 7 or 8");
    hold(same(carried, c->answer + 2, sizeof carried) && c->answer[5] == 0, "what 15, 7 or 8 carries");
    hold(same(c->lent[PADDING].bytes, c->padding_before, c->lent[PADDING].length), "padding touched by 15, 7 or 8");
    hold(same(c->lent[READINGS].bytes, c->readings_before, c->lent[READINGS].length), "readings touched by 15, 7 or 8");
    return 1;
}

/*
 * The padding run: the payload and 0xFF up to the table's length where it is filled, and as it was past that. Answers the
 * length of the working payload.
 */
static size_t check_padding(const struct decode *c)
{
    const uint8_t *padding = c->lent[PADDING].bytes;
    size_t filled = is_filled(c) ? head_of(c, 2) : 0;
    size_t i;
    hold(c->answer[1] == filled, "the length that the payload is filled to");
    if (filled > 0) {
        hold(same(padding, c->payload, c->payload_length), "the payload at the front of the padding run");
        for (i = c->payload_length; i < filled; i++) {
            hold(padding[i] == 0xFF, "the filling");
        }
    }
    hold(same(padding + filled, c->padding_before + filled, SAMOPUTE_PADDING_LENGTH - filled), "padding past the filling");
    hold(samopute_working_length(c->answer, c->payload_length) == (filled > 0 ? filled : c->payload_length),
         "another length of the working payload");
    return filled > 0 ? filled : c->payload_length;
}

/* The count, and every byte past the records. */
static void check_room(const struct decode *c)
{
    struct lent l = c->lent[READINGS];
    uint64_t count = c->answer[0];
    size_t used = l.length < SAMOPUTE_PREFIX_LENGTH ? 0 : SAMOPUTE_READINGS_LENGTH(count);
    hold(count <= room_of(l.length), "more readings than there is room");
    hold(samopute_reading_count(l.bytes, l.length) == count, "the count in front of the readings");
    hold(same(l.bytes + used, c->readings_before + used, l.length - used), "bytes past the readings");
    hold(c->status != 9 || count == room_of(l.length), "9 with room left");
}

/* A number: its raw is what the bit call reads there, its value and availability what samopute_scale says. */
static void check_number(uint64_t field, const struct samopute_reading *r, const uint8_t *working, size_t length)
{
    uint64_t read[3];
    uint64_t scaled[4];
    uint32_t status;
    hold(r->has_raw == 1 && r->length == 0, "a number without a raw, or with a length");
    hold(r->has_encoding == 0 && r->encoding == 0, "a number with an encoding");
    this_call = "samopute_read_u64";
    hold(samopute_read_u64(working, length, (size_t)r->start, (uint32_t)r->bits, read) == 0, "a raw beyond the payload");
    hold(read[1] == r->raw, "a raw that is not there");
    this_call = "samopute_scale";
    status = samopute_scale((uint32_t)(field & 0xFF), (uint32_t)(field >> 8 & 0xFFFF), (uint32_t)(field >> 24 & 1),
                            (uint32_t)(field >> 25 & 3), (uint32_t)(field >> 32), r->raw, scaled);
    hold(status == 0 && scaled[0] == r->value_kind && scaled[1] == r->value, "a value that is not its raw's");
    hold(scaled[2] == r->availability, "an availability that is not its raw's");
}

/* A text or bytes: they lie in the payload and in the bits that the field takes. */
static void check_bytes(uint64_t field, const struct samopute_reading *r, const uint8_t *working, size_t length)
{
    uint64_t kind = field & 0xFF;
    uint64_t read[3];
    hold(r->has_raw == 0 && r->raw == 0, "bytes with a raw");
    hold(r->value <= length && r->length <= length - r->value, "bytes beyond the payload");
    hold(r->length != 0 || r->value == 0, "a place of no bytes");
    hold(r->length == 0 || (8 * r->value >= r->start && 8 * (r->value + r->length) <= r->start + r->bits),
         "bytes outside of the field's bits");
    if (r->has_encoding) {
        hold(kind == SAMOPUTE_STRING_LAU, "an encoding outside of StringLau");
        this_call = "samopute_read_u8";
        hold(samopute_read_u8(working, length, (size_t)r->start + 8, 8, read) == 0 && read[1] == r->encoding,
             "an encoding that is not there");
    }
    hold(r->has_encoding == 1 || r->encoding == 0, "an encoding byte without an encoding");
    hold(kind >= SAMOPUTE_STRING_FIX && kind <= SAMOPUTE_BINARY, "bytes of a number field");
}

/* The readings: in the payload, in order, and each what its bits say. Answers the end of the last. */
static uint64_t check_readings(const struct decode *c, const uint8_t *working, size_t length)
{
    static const uint8_t zeros[3];
    struct samopute_reading r;
    uint64_t end = 0;
    size_t i;
    for (i = 0; i < c->answer[0]; i++) {
        uint64_t field;
        samopute_reading_at(c->lent[READINGS].bytes, i, &r);
        hold(r.field < head_of(c, 0), "a field that the table has not");
        hold(r.element == SAMOPUTE_NO_ELEMENT || r.element < 255, "an element over the maximum");
        hold(r.start >= end && r.start <= 8 * length && r.bits <= 8 * length - r.start, "a span outside of the payload");
        hold(r.availability <= 1 && r.has_raw <= 1 && r.has_encoding <= 1, "a mark that is neither 0 nor 1");
        hold(same(r.reserved, zeros, sizeof zeros), "reserved bytes");
        hold(r.value_kind >= 1 && r.value_kind <= 11, "a kind that no value has");
        field = c->words[1 + r.field];
        if (r.value_kind == SAMOPUTE_VALUE_BYTES) {
            check_bytes(field, &r, working, length);
        } else {
            check_number(field, &r, working, length);
        }
        end = r.start + r.bits;
    }
    return end;
}

/* With room enough the same readings come first, and then only is there an end in place of 9. */
static void check_again(const struct decode *c)
{
    static uint8_t enough[SAMOPUTE_READINGS_LENGTH(SAMOPUTE_ROOM_ENOUGH)];
    struct lent l = {enough, sizeof enough, NULL};
    uint64_t answer[6];
    uint64_t count = c->answer[0];
    uint32_t status = call_decode(c, l, answer);
    hold(status != 9, "9 with room enough");
    hold(c->status == 9 ? answer[0] > count : status == c->status && same(answer, c->answer, sizeof answer),
         "another answer with more room");
    hold(count == 0 || same(enough + 8, c->lent[READINGS].bytes + 8, SAMOPUTE_RECORD_LENGTH * (size_t)count),
         "other readings with more room");
}

/* The kinds that answer 4 where they are cut short. */
static int is_number_kind(uint64_t kind)
{
    return kind == SAMOPUTE_NUMBER || (kind >= SAMOPUTE_LOOKUP && kind <= SAMOPUTE_PGN) || kind == SAMOPUTE_ISO_NAME;
}

/*
 * Refusal 2 of bytes: those of the field, or of a text as its length byte says, behind that byte and the encoding byte;
 * and those left from there on, behind all that was read.
 */
static void check_bytes_left(const struct decode *c, const uint8_t *working, size_t length, uint64_t end)
{
    const uint64_t *carried = c->answer + 2;
    uint64_t field = c->words[1 + carried[0]];
    uint64_t kind = field & 0xFF;
    size_t before = kind == SAMOPUTE_STRING_LZ ? 1 : kind == SAMOPUTE_STRING_LAU ? 2 : 0;
    size_t counted = kind == SAMOPUTE_STRING_LAU ? 2 : 0;
    size_t first = length - before - (size_t)carried[2];
    beyond_bytes++;
    hold(before + carried[2] <= length && 8 * first >= end, "more bytes left than there are");
    hold(carried[1] == (before > 0 ? (uint64_t)working[first] - counted : (field >> 8 & 0xFFFF) / 8),
         "bytes counted, but not those of the field");
}

/* Refusal 2: of bytes where bytes are read; else of bits, those of the field or of a text's length or encoding byte. */
static void check_beyond(const struct decode *c, const uint8_t *working, size_t length, uint64_t end)
{
    const uint64_t *carried = c->answer + 2;
    uint64_t field = c->words[1 + carried[0]];
    uint64_t kind = field & 0xFF;
    uint64_t width = field >> 8 & 0xFFFF;
    int is_text = kind == SAMOPUTE_STRING_LZ || kind == SAMOPUTE_STRING_LAU;
    int is_bytes = kind == SAMOPUTE_STRING_FIX || (kind == SAMOPUTE_BINARY && width % 8 == 0);
    hold(!is_number_kind(kind) && carried[1] > carried[2], "2 of a number, or of less than there is");
    if (c->answer[5] == SAMOPUTE_UNIT_BYTES) {
        hold(is_text || is_bytes, "bytes counted where none are read");
        check_bytes_left(c, working, length, end);
    } else {
        beyond_bits++;
        hold(c->answer[5] == SAMOPUTE_UNIT_BITS, "a unit that is neither bits nor bytes");
        hold(!is_bytes && carried[1] == (is_text ? 8 : width), "bits counted, but not those of the field");
    }
}

/* Refusals 2, 3, 4 and 9: of a field that can be refused so, and with what they carry. */
static void check_refused_field(const struct decode *c, const uint8_t *working, size_t length, uint64_t end)
{
    const uint64_t *carried = c->answer + 2;
    uint64_t kind;
    hold(carried[0] < head_of(c, 0), "a field that the table has not");
    kind = c->words[1 + carried[0]] & 0xFF;
    hold(c->status == 2 || c->answer[5] == 0, "a unit without 2");
    if (c->status == 2) {
        check_beyond(c, working, length, end);
    } else if (c->status == 3) {
        hold(kind >= SAMOPUTE_STRING_FIX && kind <= SAMOPUTE_BINARY, "3 of a number");
        hold(carried[1] % 8 != 0 && carried[2] == 0, "3 at a whole byte");
    } else {
        hold(c->status == 9 || is_number_kind(kind) || kind == SAMOPUTE_STRING_LZ || kind == SAMOPUTE_STRING_LAU,
             "4 of a field that is not strict");
        hold(carried[1] == 0 && carried[2] == 0, "more than a field");
    }
}

/* Refusal 5: the set, a count over its maximum, the maximum. */
static void check_refused_set(const struct decode *c)
{
    const uint64_t *carried = c->answer + 2;
    hold(carried[0] < head_of(c, 1), "a set that the table has not");
    hold(carried[2] == c->words[1 + head_of(c, 0) + carried[0]] >> 48 && carried[1] > carried[2],
         "5 without a count over the maximum");
    hold(c->answer[5] == 0, "a unit without 2");
}

/*
 * What was read by a table without sets is written again, with the working payload as the text: it is of kinds that its
 * fields take, and no text lies past what is lent. (A StringLz of 222 bytes can be read, but not written. Where fewer
 * elements of a set fit than its counter says, the values after it come to other fields.)
 */
static void check_written_again(const struct decode *c, const uint8_t *working)
{
    static uint8_t values[SAMOPUTE_VALUES_LENGTH(SAMOPUTE_ROOM_ENOUGH + 1)];
    uint8_t payload[SAMOPUTE_PAYLOAD_MAX];
    struct samopute_reading r;
    uint64_t answer[4];
    uint64_t longest = 0;
    uint32_t status;
    size_t i;
    for (i = 0; i < c->answer[0]; i++) {
        samopute_reading_at(c->lent[READINGS].bytes, i, &r);
        samopute_put_value(values, i, samopute_value_of_reading(&r));
        longest = r.length > longest ? r.length : longest;
    }
    this_call = "samopute_encode";
    status = samopute_encode(c->words, c->word_count, values, SAMOPUTE_VALUES_LENGTH(i), working,
                             samopute_working_length(c->answer, c->payload_length), payload, sizeof payload, answer);
    hold(status != 11, "a value that was read is of another kind");
    hold(status != 13 || longest > SAMOPUTE_TEXT_MAX, "a text that was read is too long, or past the working payload");
}

static void check_walked(const struct decode *c)
{
    size_t length = check_padding(c);
    const uint8_t *working = samopute_working_payload(c->answer, c->lent[PAYLOAD].bytes, c->lent[PADDING].bytes);
    uint64_t end;
    hold((c->status <= 5 && c->status != 1) || c->status == 9, "a refusal that no decode gives");
    check_room(c);
    end = check_readings(c, working, length);
    if (c->status == 0) {
        hold(c->answer[2] >= end && c->answer[2] <= 8 * length, "an end outside of the payload");
        hold(c->answer[3] == 0 && c->answer[4] == 0 && c->answer[5] == 0, "more than the end");
        if (head_of(c, 1) == 0) {
            check_written_again(c, working);
        }
    } else if (c->status == 5) {
        check_refused_set(c);
    } else {
        check_refused_field(c, working, length, end);
    }
}

static void decode_round(struct draws *d)
{
    struct decode c;
    int i;
    choose_decode(d, &c);
    c.status = call_decode(&c, c.lent[READINGS], (uint64_t *)(void *)c.lent[ANSWER].bytes);
    memcpy(c.answer, c.lent[ANSWER].bytes, sizeof c.answer);
    tally(decoded, c.status);
    hold(same(c.lent[WORDS].bytes, c.words, c.lent[WORDS].length), "words written");
    hold(same(c.lent[PAYLOAD].bytes, c.payload, c.payload_length), "payload written");
    if (!check_early(&c)) {
        check_walked(&c);
        if (once_in(d, 4)) {
            check_again(&c);
        }
    }
    for (i = WORDS; i <= ANSWER; i++) {
        take_back(c.lent[i]);
    }
}

/* ---- Decode into structs ----------------------------------------------------------------------------------------- */

/* A readings buffer that is read in place: what samopute_decode makes of the same arguments. */
static SAMOPUTE_READINGS(SAMOPUTE_ROOM_ENOUGH + 1) in_place;

/* A decode into lent structs, and what samopute_decode answers and leaves beside its readings. */
struct both {
    struct decode c;
    size_t room;
    uint8_t padding[PAYLOAD_MOST];
    uint32_t status;
    uint64_t answer[6];
};

/* None, few, or as many as there can be. */
static size_t some_room(struct draws *d)
{
    if (once_in(d, 16)) {
        return (size_t)below(d, SAMOPUTE_ROOM_ENOUGH + 2);
    }
    return (size_t)below(d, once_in(d, 3) ? 4 : 40);
}

static void choose_both(struct draws *d, struct both *b)
{
    struct decode *c = &b->c;
    size_t padding = once_in(d, 12) ? (size_t)below(d, PAYLOAD_MOST + 1) : SAMOPUTE_PADDING_LENGTH;
    size_t structs;
    b->room = some_room(d);
    structs = b->room * sizeof(struct samopute_reading);
    c->by_pgn = 0;
    c->word_count = some_table(d, c->words);
    c->payload_length = some_payload(d, c->payload);
    c->padding_before = some_noise(d, padding);
    c->readings_before = some_noise(d, structs);
    c->answer_before = some_noise(d, sizeof c->answer);
    c->lent[WORDS] = lend(WORDS, c->words, c->word_count * sizeof c->words[0]);
    c->lent[PAYLOAD] = lend(PAYLOAD, c->payload, c->payload_length);
    c->lent[PADDING] = lend(PADDING, c->padding_before, padding);
    c->lent[READINGS] = lend(READINGS, c->readings_before, structs);
    c->lent[ANSWER] = lend(ANSWER, c->answer_before, sizeof c->answer);
}

static uint32_t call_decode_run(const struct both *b)
{
    const struct lent *l = b->c.lent;
    this_call = "samopute_decode_run";
    return samopute_decode_run((const uint64_t *)(const void *)l[WORDS].bytes, b->c.word_count, l[PAYLOAD].bytes,
                               l[PAYLOAD].length, l[PADDING].bytes, l[PADDING].length,
                               (struct samopute_reading *)(void *)l[READINGS].bytes, b->room,
                               (uint64_t *)(void *)l[ANSWER].bytes);
}

/* The same by samopute_decode. Its records hold before what the structs held. */
static void call_in_place(struct both *b)
{
    const struct decode *c = &b->c;
    memcpy(b->padding, c->padding_before, c->lent[PADDING].length);
    memcpy(in_place.readings, c->readings_before, b->room * sizeof in_place.readings[0]);
    in_place.count = UINT64_MAX;
    this_call = "samopute_decode";
    b->status = samopute_decode(c->words, c->word_count, c->payload, c->payload_length, b->padding,
                                c->lent[PADDING].length, (uint8_t *)&in_place, SAMOPUTE_READINGS_LENGTH(b->room),
                                b->answer);
}

static int same_reading(const struct samopute_reading *a, const struct samopute_reading *b)
{
    return a->field == b->field && a->element == b->element && a->start == b->start && a->bits == b->bits &&
           a->availability == b->availability && a->value_kind == b->value_kind && a->has_raw == b->has_raw &&
           a->has_encoding == b->has_encoding && a->encoding == b->encoding &&
           same(a->reserved, b->reserved, sizeof a->reserved) && a->raw == b->raw && a->value == b->value &&
           a->length == b->length;
}

/* Each struct is its record: byte for byte, and member by member what samopute_reading_at makes of the bytes. */
static void check_structs(const struct both *b)
{
    const struct samopute_reading *structs = (const struct samopute_reading *)(const void *)b->c.lent[READINGS].bytes;
    const uint8_t *bytes = (const uint8_t *)&in_place;
    struct samopute_reading r;
    size_t i;
    for (i = 0; i < b->c.answer[0]; i++) {
        samopute_reading_at(bytes, i, &r);
        hold(same(&structs[i], bytes + SAMOPUTE_READINGS_LENGTH(i), SAMOPUTE_RECORD_LENGTH), "a struct not its record");
        hold(same_reading(&structs[i], &r), "another struct than samopute_reading_at makes");
        hold(same_reading(&in_place.readings[i], &r), "another reading in place than samopute_reading_at makes");
    }
}

/* The structs past the count, which is 0 with 7 and 8. */
static void check_kept_structs(const struct both *b)
{
    struct lent l = b->c.lent[READINGS];
    size_t used = (size_t)b->c.answer[0] * sizeof(struct samopute_reading);
    hold(b->c.answer[0] <= b->room, "more readings than there are structs");
    hold(b->c.status != 9 || b->c.answer[0] == b->room, "9 with room left");
    hold(used == l.length || same(l.bytes + used, b->c.readings_before + used, l.length - used),
         "structs past the readings");
}

static void check_both(const struct both *b)
{
    const struct decode *c = &b->c;
    int is_early = c->status == 7 || c->status == 8;
    hold(c->status == b->status, "another status than samopute_decode's");
    hold(same(c->answer, b->answer, sizeof c->answer), "another answer than samopute_decode's");
    hold(same(c->lent[PADDING].bytes, b->padding, c->lent[PADDING].length), "another padding than samopute_decode's");
    hold(!is_early || (c->answer[0] == 0 && same(b->padding, c->padding_before, c->lent[PADDING].length)),
         "readings or padding touched by 7 or 8");
    hold(in_place.count == (is_early ? UINT64_MAX : c->answer[0]), "the count in place");
    check_kept_structs(b);
    check_structs(b);
}

static void both_round(struct draws *d)
{
    struct both b;
    int i;
    choose_both(d, &b);
    b.c.status = call_decode_run(&b);
    memcpy(b.c.answer, b.c.lent[ANSWER].bytes, sizeof b.c.answer);
    tally(run_decoded, b.c.status);
    hold(same(b.c.lent[WORDS].bytes, b.c.words, b.c.lent[WORDS].length), "words written");
    hold(same(b.c.lent[PAYLOAD].bytes, b.c.payload, b.c.payload_length), "payload written");
    call_in_place(&b);
    check_both(&b);
    for (i = WORDS; i <= ANSWER; i++) {
        take_back(b.c.lent[i]);
    }
}

/* ---- Encode ------------------------------------------------------------------------------------------------------ */

/* A call: what is lent, what stood there before, and what came of it. */
struct encode {
    uint64_t words[WORDS_MAX];
    size_t word_count;
    struct values values;
    uint32_t pgn;
    int by_pgn;
    const uint8_t *text_before;
    const uint8_t *payload_before;
    struct lent lent[ARENAS];
    uint32_t status;
    uint64_t answer[4];
};

static uint32_t call_encode(const struct encode *c)
{
    const struct lent *l = c->lent;
    uint64_t *answer = (uint64_t *)(void *)l[ANSWER].bytes;
    if (c->by_pgn) {
        this_call = "samopute_encode_pgn";
        return samopute_encode_pgn(c->pgn, l[VALUES].bytes, l[VALUES].length, l[TEXT].bytes, l[TEXT].length,
                                   l[PAYLOAD].bytes, l[PAYLOAD].length, answer);
    }
    this_call = "samopute_encode";
    return samopute_encode((const uint64_t *)(const void *)l[WORDS].bytes, c->word_count, l[VALUES].bytes,
                           l[VALUES].length, l[TEXT].bytes, l[TEXT].length, l[PAYLOAD].bytes, l[PAYLOAD].length,
                           answer);
}

/* Values have most often the room that they want, and a text that holds them. */
static void choose_encode(struct draws *d, struct encode *c)
{
    size_t text = (size_t)(once_in(d, 8) ? below(d, 3) : below(d, TEXT_MOST + 1));
    size_t payload = once_in(d, 2) ? SAMOPUTE_PAYLOAD_MAX : some_payload_length(d);
    size_t values;
    c->word_count = choose_table(d, c->words, &c->by_pgn, &c->pgn);
    values = some_values(d, c->words, c->word_count, text, &c->values);
    c->text_before = some_noise(d, text);
    c->payload_before = some_noise(d, payload);
    c->lent[WORDS] = lend(WORDS, c->words, c->word_count * sizeof c->words[0]);
    c->lent[VALUES] = lend(VALUES, c->values.bytes, values);
    c->lent[TEXT] = lend(TEXT, c->text_before, text);
    c->lent[PAYLOAD] = lend(PAYLOAD, c->payload_before, payload);
    c->lent[ANSWER] = lend(ANSWER, some_noise(d, sizeof c->answer), sizeof c->answer);
}

/* What plain code answers and leaves in `payload`. 15 comes first, and touches nothing. */
static struct plain_encode plain_of(const struct encode *c, uint8_t *payload)
{
    struct plain_encode p = {c->words,       c->word_count,         c->values.bytes, c->lent[VALUES].length,
                             c->text_before, c->lent[TEXT].length,  payload,         c->lent[PAYLOAD].length,
                             0,              0,                     {0, 0, 0, 0},    0,
                             {0, 0, 0, 0}};
    memcpy(payload, c->payload_before, p.length);
    if (c->by_pgn && c->word_count == 0) {
        plain_refuse(&p, 15, c->pgn, 0, 0);
    } else {
        plain_encode(&p);
    }
    return p;
}

/* A number that was written reads as the raw of its value, and bytes as themselves; a StringFix with its filling. */
static void check_came_back(const struct encode *c, const struct plain_encode *p, size_t i,
                            const struct samopute_reading *r)
{
    struct samopute_value v = plain_value(p, i);
    uint64_t raw[3];
    if (r->has_raw) {
        hold(plain_raw(c->words[1 + r->field], &v, raw) == 0 && raw[0] == r->raw, "another raw than was written");
        return;
    }
    hold(r->length >= v.length, "fewer bytes than were written");
    hold(same(c->lent[PAYLOAD].bytes + r->value, c->text_before + v.value, (size_t)v.length),
         "other bytes than were written");
    hold(r->has_encoding == (v.has_encoding != 0) && (!r->has_encoding || r->encoding == v.encoding),
         "another encoding than was written");
}

/* What was written is read, by the same table: as many readings as values, each with its raw or its bytes. */
static void check_read_back(const struct encode *c, const struct plain_encode *p)
{
    static uint8_t readings[SAMOPUTE_READINGS_LENGTH(SAMOPUTE_ROOM_ENOUGH)];
    uint8_t padding[SAMOPUTE_PADDING_LENGTH];
    struct samopute_reading r;
    uint64_t answer[6];
    size_t i;
    this_call = "samopute_decode";
    hold(samopute_decode(c->words, c->word_count, c->lent[PAYLOAD].bytes, (size_t)c->answer[0], padding, sizeof padding,
                         readings, sizeof readings, answer) == 0,
         "a payload that was written is refused");
    hold(answer[0] == plain_value_count(p) && answer[2] == p->at, "other readings than values");
    for (i = 0; i < answer[0]; i++) {
        samopute_reading_at(readings, i, &r);
        check_came_back(c, p, i, &r);
    }
}

static void encode_round(struct draws *d)
{
    static const int lent[] = {WORDS, VALUES, TEXT, PAYLOAD, ANSWER};
    uint8_t payload[PAYLOAD_MOST];
    struct plain_encode p;
    struct encode c;
    size_t i;
    choose_encode(d, &c);
    c.status = call_encode(&c);
    memcpy(c.answer, c.lent[ANSWER].bytes, sizeof c.answer);
    tally(encoded, c.status);
    p = plain_of(&c, payload);
    hold(c.status == p.status, "another status than the model's");
    hold(same(c.answer, p.answer, sizeof c.answer), "another answer than the model's");
    hold(same(c.lent[PAYLOAD].bytes, payload, p.length), "another payload than the model's");
    hold(same(c.lent[WORDS].bytes, c.words, c.lent[WORDS].length), "words written");
    hold(same(c.lent[VALUES].bytes, c.values.bytes, c.lent[VALUES].length), "values written");
    hold(same(c.lent[TEXT].bytes, c.text_before, c.lent[TEXT].length), "text written");
    if (c.status == 0) {
        check_read_back(&c, &p);
    }
    for (i = 0; i < sizeof lent / sizeof lent[0]; i++) {
        take_back(c.lent[lent[i]]);
    }
}

/* ---- Bit calls --------------------------------------------------------------------------------------------------- */

/* A call, and what plain code says of it. */
struct bit_call {
    struct lent buffer;
    const uint8_t *before;
    size_t cursor;
    uint64_t count;  /* the width, or the bytes of a slice */
    uint64_t status;
    uint64_t wanted[3];
};

static int bit_at(const uint8_t *bytes, size_t i)
{
    return bytes[i / 8] >> i % 8 & 1;
}

static void refuse(struct bit_call *c, uint64_t status, uint64_t first, uint64_t second)
{
    c->status = status;
    c->wanted[0] = c->cursor;
    c->wanted[1] = first;
    c->wanted[2] = second;
}

/* 6, 1, 2 or none, of a call that takes at most so many bits. */
static void expect_bits(struct bit_call *c, uint64_t most)
{
    uint64_t all = 8 * (uint64_t)c->buffer.length;
    uint64_t left = c->cursor < all ? all - c->cursor : 0;
    if (c->buffer.length > SAMOPUTE_BUFFER_MAX) {
        refuse(c, 6, c->buffer.length, 0);
    } else if (c->count == 0 || c->count > most) {
        refuse(c, 1, c->count == 0 ? 64 : most, c->count);
    } else if (c->count > left) {
        refuse(c, 2, c->count, left);
    } else {
        refuse(c, 0, 0, 0);
        c->wanted[0] = c->cursor + c->count;
    }
}

/* 6, 3, 2 or none, of a slice call. */
static void expect_slice(struct bit_call *c)
{
    uint64_t first = c->cursor / 8;
    uint64_t end = first + c->count < first ? UINT64_MAX : first + c->count;
    if (c->buffer.length > SAMOPUTE_BUFFER_MAX) {
        refuse(c, 6, c->buffer.length, 0);
    } else if (c->cursor % 8 != 0) {
        refuse(c, 3, c->cursor, 0);
    } else if (end > c->buffer.length) {
        refuse(c, 2, c->count, first < c->buffer.length ? c->buffer.length - first : 0);
        empty_slices += c->count == 0;
    } else {
        refuse(c, 0, 0, 0);
        c->wanted[0] = c->cursor + 8 * c->count;
    }
}

/* The number in the bits, where the call is not refused. */
static void expect_number(struct bit_call *c)
{
    uint64_t i;
    for (i = 0; c->status == 0 && i < c->count; i++) {
        c->wanted[1] |= (uint64_t)bit_at(c->before, c->cursor + i) << i;
    }
}

/* The buffer: the low bits of the value in their place if the call is not refused, all else as it was. */
static void check_written(const struct bit_call *c, uint64_t value)
{
    static uint8_t model[BITS_MOST];
    uint64_t i;
    memcpy(model, c->before, c->buffer.length);
    for (i = 0; c->status == 0 && i < c->count; i++) {
        size_t at = (size_t)(c->cursor + i);
        model[at / 8] = (uint8_t)((model[at / 8] & ~(1u << at % 8)) | (unsigned)(value >> i & 1) << at % 8);
    }
    hold(same(c->buffer.bytes, model, c->buffer.length), "a buffer after a write");
}

static void check_bits(const struct bit_call *c, uint32_t status, const uint64_t *answer)
{
    tally(answered, status);
    hold(status == c->status, "another status than the model's");
    hold(same(answer, c->wanted, sizeof c->wanted), "another answer than the model's");
}

static size_t some_buffer_length(struct draws *d)
{
    if (once_in(d, 200)) {
        return (size_t)between(d, SAMOPUTE_BUFFER_MAX - 4, BITS_MOST);
    }
    return (size_t)below(d, once_in(d, 2) ? 12 : 300);
}

static size_t some_cursor(struct draws *d, size_t length)
{
    if (once_in(d, 16)) {
        return (size_t)(draw(d) >> below(d, 64));
    }
    if (once_in(d, 3)) {
        return 8 * length - (size_t)below(d, 80);
    }
    return (size_t)below(d, 8 * length + 20);
}

static uint32_t some_bit_width(struct draws *d)
{
    return once_in(d, 16) ? (uint32_t)(draw(d) >> below(d, 64)) : (uint32_t)below(d, 68);
}

static void read_round(struct draws *d, struct bit_call *c, uint64_t *answer)
{
    typedef uint32_t call(const uint8_t *, size_t, size_t, uint32_t, uint64_t *);
    static call *const calls[] = {samopute_read_u64, samopute_read_u32, samopute_read_u16, samopute_read_u8,
                                  samopute_advance};
    static const char *const names[] = {"samopute_read_u64", "samopute_read_u32", "samopute_read_u16",
                                        "samopute_read_u8", "samopute_advance"};
    static const uint64_t most[] = {64, 32, 16, 8, 64};
    size_t which = (size_t)below(d, 5);
    uint32_t status;
    c->count = some_bit_width(d);
    this_call = names[which];
    status = calls[which](c->buffer.bytes, c->buffer.length, c->cursor, (uint32_t)c->count, answer);
    expect_bits(c, most[which]);
    if (calls[which] != samopute_advance) {
        expect_number(c);
    }
    check_bits(c, status, answer);
    hold(same(c->buffer.bytes, c->before, c->buffer.length), "a buffer after a read");
}

static void write_round(struct draws *d, struct bit_call *c, uint64_t *answer)
{
    static const uint64_t most[] = {64, 32, 16, 8};
    struct lent b = c->buffer;
    uint64_t value = draw(d);
    uint64_t which = below(d, 4);
    uint32_t width = some_bit_width(d);
    uint32_t status;
    c->count = width;
    this_call = "a samopute_write call";
    switch (which) {
    case 0:
        status = samopute_write_u64(b.bytes, b.length, c->cursor, value, width, answer);
        break;
    case 1:
        status = samopute_write_u32(b.bytes, b.length, c->cursor, (uint32_t)value, width, answer);
        break;
    case 2:
        status = samopute_write_u16(b.bytes, b.length, c->cursor, (uint16_t)value, width, answer);
        break;
    default:
        status = samopute_write_u8(b.bytes, b.length, c->cursor, (uint8_t)value, width, answer);
    }
    expect_bits(c, most[which]);
    check_bits(c, status, answer);
    check_written(c, value);
}

static void write_advance_round(struct draws *d, struct bit_call *c, uint64_t *answer)
{
    uint32_t status;
    c->count = some_bit_width(d);
    this_call = "samopute_write_advance";
    status = samopute_write_advance(c->buffer.bytes, c->buffer.length, c->cursor, (uint32_t)c->count, answer);
    expect_bits(c, 64);
    check_bits(c, status, answer);
    hold(same(c->buffer.bytes, c->before, c->buffer.length), "a buffer after write_advance");
}

static void read_slice_round(struct draws *d, struct bit_call *c, uint64_t *answer)
{
    uint32_t status;
    c->cursor = once_in(d, 4) ? c->cursor : c->cursor / 8 * 8;
    c->count = once_in(d, 16) ? draw(d) >> below(d, 64) : below(d, c->buffer.length + 3);
    this_call = "samopute_read_slice";
    status = samopute_read_slice(c->buffer.bytes, c->buffer.length, c->cursor, (size_t)c->count, answer);
    expect_slice(c);
    if (c->status == 0) {
        c->wanted[1] = c->cursor / 8;
        c->wanted[2] = c->count;
    }
    check_bits(c, status, answer);
    hold(same(c->buffer.bytes, c->before, c->buffer.length), "a buffer after read_slice");
}

static void write_slice_round(struct draws *d, struct bit_call *c, uint64_t *answer)
{
    static uint8_t model[BITS_MOST];
    size_t length = some_buffer_length(d) / (once_in(d, 2) ? 8 : 1);
    const uint8_t *from = some_noise(d, length);
    struct lent source = lend(SOURCE, from, length);
    uint32_t status;
    c->cursor = once_in(d, 4) ? c->cursor : c->cursor / 8 * 8;
    c->count = length;
    this_call = "samopute_write_slice";
    status = samopute_write_slice(c->buffer.bytes, c->buffer.length, c->cursor, source.bytes, length, answer);
    expect_slice(c);
    check_bits(c, status, answer);
    memcpy(model, c->before, c->buffer.length);
    if (status == 0 && length > 0) {
        memcpy(model + c->cursor / 8, from, length);
    }
    hold(same(c->buffer.bytes, model, c->buffer.length), "a buffer after write_slice");
    hold(same(source.bytes, from, length), "a source after write_slice");
    take_back(source);
}

static void remaining_round(const struct bit_call *c)
{
    uint64_t all = 8 * (uint64_t)c->buffer.length;
    this_call = "samopute_bits_remaining";
    hold(samopute_bits_remaining(c->buffer.bytes, c->buffer.length, c->cursor) ==
             (c->cursor < all ? all - c->cursor : 0),
         "the bits that remain");
}

static void bits_round(struct draws *d)
{
    size_t length = some_buffer_length(d);
    const uint8_t *before = some_noise(d, length);
    struct bit_call c = {lend(BITS, before, length), before, some_cursor(d, length), 0, 0, {0, 0, 0}};
    struct lent answer = lend(ANSWER, some_noise(d, 24), 24);
    uint64_t *cells = (uint64_t *)(void *)answer.bytes;
    switch (below(d, 8)) {
    case 0:
    case 1:
    case 2:
        read_round(d, &c, cells);
        break;
    case 3:
    case 4:
        write_round(d, &c, cells);
        break;
    case 5:
        write_advance_round(d, &c, cells);
        break;
    case 6:
        read_slice_round(d, &c, cells);
        break;
    default:
        write_slice_round(d, &c, cells);
    }
    remaining_round(&c);
    take_back(c.buffer);
    take_back(answer);
}

/* ---- Numbers and tables ------------------------------------------------------------------------------------------ */

static uint32_t some_number_up_to(struct draws *d, uint64_t usual)
{
    return once_in(d, 8) ? (uint32_t)draw(d) : (uint32_t)below(d, usual + 1);
}

/* A field as the calls on numbers take it. */
struct number_field {
    uint32_t kind;
    uint32_t width;
    uint32_t is_signed;
    uint32_t mark;
    uint32_t resolution;
};

static struct number_field some_number_field(struct draws *d)
{
    struct number_field f;
    f.kind = some_number_up_to(d, 19);
    f.width = some_number_up_to(d, 66);
    f.is_signed = some_number_up_to(d, 1);
    f.mark = some_number_up_to(d, 3);
    f.resolution = once_in(d, 2) ? (uint32_t)some_resolution(d) : once_in(d, 2) ? (uint32_t)draw(d) : 0;
    return f;
}

/* What both calls refuse of a field: 11 if its kind holds no number, then 1 if no number has its width. Else 0. */
static uint32_t refusal_of(struct number_field f)
{
    int is_bytes = f.kind == SAMOPUTE_BINARY && f.width % 8 == 0;
    int is_a_kind = f.kind <= SAMOPUTE_MMSI || f.kind == SAMOPUTE_BINARY || f.kind == SAMOPUTE_ISO_NAME;
    if (!is_a_kind || is_bytes) {
        return 11;
    }
    return f.width < 1 || f.width > 64 ? 1 : 0;
}

/* What a refusal carries: 1 the widest and the width, the others nothing. */
static void check_carried(uint32_t status, struct number_field f, const uint64_t *cells, size_t count)
{
    size_t i;
    hold(cells[0] == (status == 1 ? 64 : 0), "the widest, of no refusal 1");
    hold(cells[1] == (status == 1 ? f.width : 0), "a width, of no refusal 1");
    for (i = 2; i < count; i++) {
        hold(cells[i] == 0, "more than a refusal carries");
    }
}

/* The value of a raw, as a kind and its bits: one at hand where the field is refused. */
static struct samopute_value scale_round(struct draws *d, struct number_field f, uint64_t raw)
{
    struct lent answer = lend(ANSWER, some_noise(d, 32), 32);
    uint64_t *cells = (uint64_t *)(void *)answer.bytes;
    struct samopute_value value = samopute_value_of_u64(raw);
    uint32_t status;
    this_call = "samopute_scale";
    status = samopute_scale(f.kind, f.width, f.is_signed, f.mark, f.resolution, raw, cells);
    tally(answered, status);
    hold(status == refusal_of(f), "a field that is taken or refused wrongly");
    if (status == 0) {
        hold(cells[0] >= 1 && cells[0] <= 10, "a value of no kind");
        hold(cells[2] <= 1, "an availability that is neither 0 nor 1");
        value = samopute_value_of((uint8_t)cells[0], cells[1], 0);
    } else {
        check_carried(status, f, cells, 4);
    }
    take_back(answer);
    return value;
}

/* The raw of a value, or of what is none. */
static uint32_t raw_round(struct draws *d, struct number_field f, uint32_t kind, uint64_t value, uint64_t *raw)
{
    struct lent answer = lend(ANSWER, some_noise(d, 24), 24);
    uint64_t *cells = (uint64_t *)(void *)answer.bytes;
    uint32_t refused = refusal_of(f);
    uint32_t status;
    this_call = "samopute_raw_of";
    status = samopute_raw_of(f.kind, f.width, f.is_signed, f.mark, f.resolution, kind, value, cells);
    tally(answered, status);
    hold(refused != 0 ? status == refused || status == 11 : status == 0 || status == 10 || status == 11,
         "a status that samopute_raw_of has not");
    if (status == 0) {
        hold(cells[1] == 0 && cells[2] == 0, "more than a raw");
        hold(f.width == 64 || f.kind == SAMOPUTE_FLOAT || cells[0] >> f.width == 0, "a raw over its width");
        *raw = cells[0];
    } else {
        check_carried(status, f, cells, 3);
    }
    take_back(answer);
    return status;
}

/* A raw to its value, and the value back: an unscaled Number comes back as it was, one with a broken mark does not. */
static void numbers_round(struct draws *d)
{
    struct number_field f = some_number_field(d);
    uint64_t raw = draw(d) >> below(d, 64);
    struct samopute_value value = scale_round(d, f, raw);
    uint64_t back = 0;
    uint32_t status = raw_round(d, f, value.kind, value.value, &back);
    int is_number = f.kind == SAMOPUTE_NUMBER && refusal_of(f) == 0;
    hold(refusal_of(f) == 0 || status == refusal_of(f), "a value that is taken before its field");
    if (is_number && f.mark == 0 && f.resolution == 0) {
        hold(status == 0 && back == raw << (64 - f.width) >> (64 - f.width), "another raw back");
    }
    if (is_number && (f.mark > 2 || (f.mark == 0 && f.resolution != 0))) {
        hold(value.kind == SAMOPUTE_VALUE_F32 && value.value == 0x7FC00000, "a value by a broken mark");
        hold(status == 10, "a raw by a broken mark");
    }
    raw_round(d, f, some_number_up_to(d, 12), draw(d), &back);
}

static void check_round(struct draws *d)
{
    uint64_t words[WORDS_MAX];
    size_t count = some_table(d, words);
    struct lent table = lend(WORDS, words, count * sizeof words[0]);
    struct lent answer = lend(ANSWER, some_noise(d, 24), 24);
    uint64_t *cells = (uint64_t *)(void *)answer.bytes;
    uint32_t status;
    this_call = "samopute_check";
    status = samopute_check((const uint64_t *)(const void *)table.bytes, count, cells);
    tally(answered, status);
    hold(status == 0 || status == 8, "a status that samopute_check has not");
    hold(status == 0 ? cells[0] == 0 && cells[1] == 0 : cells[0] >= 1 && cells[0] <= 8, "a rule from a to h");
    hold(cells[1] < 64 && cells[2] == 0, "a field or set that no table has");
    hold(same(table.bytes, words, count * sizeof words[0]), "words written by samopute_check");
    take_back(table);
    take_back(answer);
    this_call = "samopute_version";
    hold(samopute_version() == SAMOPUTE_VERSION, "another version than the header's");
}

/* ---- The run ----------------------------------------------------------------------------------------------------- */

static void run_round(struct draws *d)
{
    place = (enum place)below(d, PLACES);
    switch (below(d, 13)) {
    case 0:
    case 1:
        bits_round(d);
        break;
    case 2:
        once_in(d, 2) ? numbers_round(d) : check_round(d);
        break;
    case 3:
    case 4:
    case 5:
    case 6:
        encode_round(d);
        break;
    case 7:
    case 8:
        both_round(d);
        break;
    default:
        decode_round(d);
    }
}

static void tell_counts(const char *name, const uint64_t *counts)
{
    int i;
    printf("%s by status:", name);
    for (i = 0; i <= STATUS_MAX; i++) {
        if (counts[i] > 0) {
            printf(" %d (%" PRIu64 ")", i, counts[i]);
        }
    }
    printf("\n");
}

/* Told if some status never came: a run without it would say little. */
static int met_each(const char *name, const uint64_t *counts, const int *statuses, size_t count)
{
    size_t i;
    for (i = 0; i < count; i++) {
        if (counts[statuses[i]] == 0) {
            printf("NOT MET: no status %d of %s\n", statuses[i], name);
            return 0;
        }
    }
    return 1;
}

/* 1 comes of no table that is accepted, and 6 of no payload of up to 223 bytes. */
static int met_all(void)
{
    static const int of_decodes[] = {0, 2, 3, 4, 5, 7, 8, 9, 15};
    static const int of_runs[] = {0, 2, 3, 4, 5, 7, 8, 9};
    static const int of_encodes[] = {0, 2, 3, 5, 7, 8, 10, 11, 12, 13, 15};
    static const int of_others[] = {0, 1, 2, 3, 6, 8, 10, 11};
    return met_each("decodes", decoded, of_decodes, sizeof of_decodes / sizeof of_decodes[0]) &
           met_each("decodes into structs", run_decoded, of_runs, sizeof of_runs / sizeof of_runs[0]) &
           met_each("encodes", encoded, of_encodes, sizeof of_encodes / sizeof of_encodes[0]) &
           met_each("other calls", answered, of_others, sizeof of_others / sizeof of_others[0]);
}

/* Both units of refusal 2 must have come too, and the slice that asks for no more than is left. */
static int met_units(void)
{
    printf("refusal 2 of decodes: %" PRIu64 " of bits, %" PRIu64 " of bytes\n", beyond_bits, beyond_bytes);
    printf("refusal 2 of empty slices past the end: %" PRIu64 "\n", empty_slices);
    return beyond_bits > 0 && beyond_bytes > 0 && empty_slices > 0;
}

static void run(uint64_t rounds, uint64_t first)
{
    for (this_round = first; this_round - first < rounds; this_round++) {
        struct draws d = draws_of(seed, this_round);
        if (this_round % 4096 == 0) {
            alarm(60); /* a call that does not return is told too */
        }
        run_round(&d);
    }
    alarm(0);
}

int main(int argc, char **argv)
{
    uint64_t rounds;
    if (argc < 3 || argc > 4) {
        fprintf(stderr, "hostile ROUNDS SEED [FIRST]\n");
        return 2;
    }
    rounds = strtoull(argv[1], NULL, 10);
    seed = strtoull(argv[2], NULL, 10);
    open_arenas();
    try_guards();
    catch_signals();
    run(rounds, argc == 4 ? strtoull(argv[3], NULL, 10) : 0);
    tell_counts("decodes", decoded);
    tell_counts("decodes into structs", run_decoded);
    tell_counts("encodes", encoded);
    tell_counts("other calls", answered);
    if (rounds >= ROUNDS_FOR_ALL && !(met_all() & met_units())) {
        return 1;
    }
    printf("%" PRIu64 " rounds of seed %" PRIu64 ": no fault, no wrong answer\n", rounds, seed);
    return 0;
}
