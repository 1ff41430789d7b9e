/*
 * A subscriber ledger as a C program calls it: opening, sizes of blocks, first
 * readings, counters that wrap, all three refusals and their order, totals and the
 * sum. Blocks and words are laid out here, so that nothing but the header file is
 * shared with the library. A refused block has to leave all words as they were. The
 * exit status is 1 if a check failed.
 */
#include <logwhisker.h>

#include "check.h"

#include <stdbool.h>
#include <stdlib.h>
#include <string.h>

enum {
    SUM = LW_LEDGER_WORDS - 1, /* the word of the sum */
    MOST_READINGS = 2000       /* of a block */
};

/* What the second word of a subscriber that was read has above its counter. */
static const uint64_t read_mark = (uint64_t)1 << 32;

/* ---- Blocks and ledgers ------------------------------------------------ */

struct reading {
    uint32_t subscriber;
    uint32_t counter;
};

static void put32(uint8_t *at, uint32_t value)
{
    for (unsigned i = 0; i < 4; i++)
        at[i] = (uint8_t)(value >> 8 * i & 0xff);
}

/* Lays out the readings and gives the size of the block. */
static size_t lay_out(uint8_t *block, const struct reading *readings, size_t count)
{
    for (size_t i = 0; i < count; i++) {
        put32(block + LW_READING * i, readings[i].subscriber);
        put32(block + LW_READING * i + 4, readings[i].counter);
    }
    return LW_READING * count;
}

/* An open ledger in which words were before. */
static lw_ledger fresh_ledger(void)
{
    lw_ledger ledger;

    memset(&ledger, 0xff, sizeof ledger);
    lw_ledger_open(&ledger);
    return ledger;
}

/* Puts a subscriber that was read into the words. */
static void put_account(lw_ledger *ledger, uint32_t subscriber, uint32_t counter, uint64_t total)
{
    ledger->words[2 * subscriber] = total;
    ledger->words[2 * subscriber + 1] = read_mark + counter;
}

/* Takes a block from a buffer of just its size, so that a sanitizer sees what is read
 * behind it. A refused block leaves the words. */
static void check_block(unsigned long at, lw_ledger *ledger, const uint8_t *block, size_t length,
                        uint32_t want)
{
    const lw_ledger before = *ledger;
    uint8_t *copy = malloc(length != 0 ? length : 1);

    if (copy == NULL)
        abort();
    if (length != 0)
        memcpy(copy, block, length);
    check("taking", at, lw_ledger_take(ledger, length != 0 ? copy : NULL, length), want);
    if (length != 0)
        check_bytes("block as it was", at, copy, block, length);
    if (want != LW_NOT_REFUSED)
        check_bytes("ledger as it was", at, &before, ledger, sizeof before);
    free(copy);
}

static void check_take(unsigned long at, lw_ledger *ledger, const struct reading *readings,
                       size_t count, uint32_t want)
{
    static uint8_t block[LW_READING * MOST_READINGS];

    check_block(at, ledger, block, lay_out(block, readings, count), want);
}

static void check_one(unsigned long at, lw_ledger *ledger, uint32_t subscriber, uint32_t counter,
                      uint32_t want)
{
    const struct reading reading = {subscriber, counter};

    check_take(at, ledger, &reading, 1, want);
}

/* What is told of a subscriber, which changes no word. */
static void check_total(const lw_ledger *ledger, uint32_t subscriber, bool read, uint64_t want)
{
    const lw_ledger before = *ledger;
    uint64_t total = 0xa5a5;

    check("whether read", subscriber, lw_ledger_total(ledger, subscriber, &total), read);
    check("total", subscriber, total, want);
    check_bytes("ledger as it was", subscriber, &before, ledger, sizeof before);
}

static void check_sum(unsigned long at, const lw_ledger *ledger, uint64_t want)
{
    check("sum", at, lw_ledger_sum(ledger), want);
}

/* ---- The checks -------------------------------------------------------- */

static void check_opening(void)
{
    const lw_ledger ledger = fresh_ledger();
    static const lw_ledger empty;

    check("words", 0, LW_LEDGER_WORDS, 2 * LW_SUBSCRIBERS + 1);
    check_bytes("all words are 0", 0, &ledger, &empty, sizeof ledger);
    for (uint32_t subscriber = 0; subscriber < LW_SUBSCRIBERS; subscriber++)
        check_total(&ledger, subscriber, false, 0);
    check_sum(0, &ledger, 0);
    end_group("opening a ledger");
}

static void check_sizes(void)
{
    static const uint8_t zeros[5 * LW_READING];
    uint8_t ones[5 * LW_READING];
    lw_ledger ledger = fresh_ledger();

    memset(ones, 0xff, sizeof ones);
    for (size_t length = 0; length <= sizeof zeros; length++) {
        const bool whole = length % LW_READING == 0;
        /* 40 comes before the 41 of subscribers that are not known. */
        const uint32_t unknown = length == 0 ? LW_NOT_REFUSED : LW_REFUSED_UNKNOWN_SUBSCRIBER;
        check_block(length, &ledger, ones, length,
                    whole ? unknown : (uint32_t)LW_REFUSED_NOT_WHOLE_READINGS);
        check_block(length, &ledger, zeros, length,
                    whole ? LW_NOT_REFUSED : (uint32_t)LW_REFUSED_NOT_WHOLE_READINGS);
        /* The first block that is taken with a reading has 8 bytes. */
        check_total(&ledger, 0, length >= LW_READING, 0);
    }
    check_sum(0, &ledger, 0);
    end_group("sizes of blocks");
}

static void check_no_bytes(void)
{
    lw_ledger ledger = fresh_ledger();
    const lw_ledger before = ledger;
    const uint8_t byte = 0;

    check("no block", 0, lw_ledger_take(&ledger, NULL, 0), LW_NOT_REFUSED);
    check("no bytes of a block", 0, lw_ledger_take(&ledger, &byte, 0), LW_NOT_REFUSED);
    check_bytes("ledger as it was", 0, &before, &ledger, sizeof before);
    end_group("a block of no bytes");
}

static void check_counters(void)
{
    static const struct {
        uint32_t counter;
        uint64_t total;
    } steps[] = {
        {UINT32_MAX - 9, 0}, /* the first reading, whatever it is */
        {UINT32_MAX, 9},     /* up to the last count */
        {0, 10},             /* and around */
        {0, 10},             /* nothing passed */
        {5, 15},
        {4, 15 + UINT64_C(0xffffffff)}, /* as many as can be seen */
        {0x80000004, 15 + UINT64_C(0x17fffffff)},
    };
    static const uint32_t subscribers[] = {0, 1, 512, LW_SUBSCRIBERS - 1};
    const size_t count = sizeof steps / sizeof steps[0];
    lw_ledger ledger = fresh_ledger();
    lw_ledger at_once = fresh_ledger();
    struct reading all[4 * 7];
    size_t readings = 0;
    uint64_t sum = 0;

    for (size_t i = 0; i < 4; i++) {
        uint64_t before = 0;
        check_total(&ledger, subscribers[i], false, 0);
        for (size_t step = 0; step < count; step++) {
            check_one(step, &ledger, subscribers[i], steps[step].counter, LW_NOT_REFUSED);
            check_total(&ledger, subscribers[i], true, steps[step].total);
            sum += steps[step].total - before;
            before = steps[step].total;
            check_sum(step, &ledger, sum);
            all[readings].subscriber = subscribers[i];
            all[readings++].counter = steps[step].counter;
        }
    }
    check_sum(0, &ledger, 4 * steps[count - 1].total);
    check("words of a subscriber", 0, ledger.words[2 * 512], steps[count - 1].total);
    check("words of a subscriber", 1, ledger.words[2 * 512 + 1], read_mark + 0x80000004);
    check("word of the sum", 0, ledger.words[SUM], sum);

    check_take(0, &at_once, all, readings, LW_NOT_REFUSED);
    check_bytes("the same in one block", 0, &at_once, &ledger, sizeof ledger);
    end_group("first readings, differences and counters that wrap");
}

static void check_subscribers(void)
{
    static const uint32_t unknown[] = {1024, 1025, 2047, 65536, 1u << 24, 1u << 31, UINT32_MAX};
    static struct reading all[LW_SUBSCRIBERS];
    lw_ledger ledger = fresh_ledger();

    for (uint32_t i = 0; i < LW_SUBSCRIBERS; i++) {
        const struct reading reading = {i, 3 * i};
        all[i] = reading;
    }
    check_take(0, &ledger, all, LW_SUBSCRIBERS / 2, LW_NOT_REFUSED);
    for (uint32_t i = 0; i < LW_SUBSCRIBERS; i++)
        check_total(&ledger, i, i < LW_SUBSCRIBERS / 2, 0);
    check_take(1, &ledger, all, LW_SUBSCRIBERS, LW_NOT_REFUSED);
    for (uint32_t i = 0; i < LW_SUBSCRIBERS; i++)
        all[i].counter += i;
    check_take(2, &ledger, all, LW_SUBSCRIBERS, LW_NOT_REFUSED);
    for (uint32_t i = 0; i < LW_SUBSCRIBERS; i++)
        check_total(&ledger, i, true, i);
    check_sum(2, &ledger, 1023 * 1024 / 2);

    for (size_t i = 0; i < sizeof unknown / sizeof unknown[0]; i++) {
        const struct reading last[] = {{3, 1000}, {4, 1000}, {unknown[i], 1}};
        const struct reading first[] = {{unknown[i], 1}, {3, 1000}, {4, 1000}};
        check_total(&ledger, unknown[i], false, 0);
        check_one(i, &ledger, unknown[i], 1, LW_REFUSED_UNKNOWN_SUBSCRIBER);
        check_take(i, &ledger, last, 3, LW_REFUSED_UNKNOWN_SUBSCRIBER);
        check_take(i, &ledger, first, 3, LW_REFUSED_UNKNOWN_SUBSCRIBER);
        check_total(&ledger, unknown[i], false, 0);
    }
    end_group("subscribers that are known, and others");
}

/* A total and the sum hold all of 64 bits, and not one byte more. */
static void check_most(void)
{
    static const struct {
        uint64_t total;
        uint64_t sum;
    } starts[] = {
        {UINT64_MAX - 10, 0},
        {0, UINT64_MAX - 10},
        {UINT64_MAX - 10, UINT64_MAX - 10},
    };

    for (unsigned long i = 0; i < sizeof starts / sizeof starts[0]; i++) {
        const struct reading together[] = {{7, 104}, {7, 108}, {7, 112}};
        lw_ledger ledger = fresh_ledger();
        put_account(&ledger, 7, 100, starts[i].total);
        ledger.words[SUM] = starts[i].sum;

        check_one(i, &ledger, 7, 111, LW_REFUSED_PAST_64_BITS);
        check_one(i, &ledger, 7, 99, LW_REFUSED_PAST_64_BITS);
        check_take(i, &ledger, together, 3, LW_REFUSED_PAST_64_BITS);
        check_take(i, &ledger, together, 2, LW_NOT_REFUSED);
        check_one(i, &ledger, 7, 111, LW_REFUSED_PAST_64_BITS);
        check_one(i, &ledger, 7, 110, LW_NOT_REFUSED);
        check_total(&ledger, 7, true, starts[i].total + 10);
        check_sum(i, &ledger, starts[i].sum + 10);
        check_one(i, &ledger, 7, 110, LW_NOT_REFUSED);
        check_one(i, &ledger, 7, 111, LW_REFUSED_PAST_64_BITS);
        /* A first reading charges nothing. */
        check_one(i, &ledger, 8, 5000, LW_NOT_REFUSED);
        check_total(&ledger, 8, true, 0);
    }
    end_group("the most that totals and the sum hold");
}

static void check_first_fault(void)
{
    const struct reading good = {7, 0};
    const struct reading fresh = {9, 1};
    const struct reading unknown = {1024, 0};
    const struct reading over = {7, 1};
    const struct reading both = {1024 + 7, 1}; /* subscriber 7's but for one bit */
    const struct {
        struct reading readings[4];
        size_t count;
        uint32_t want;
    } blocks[] = {
        {{good, unknown, over}, 3, LW_REFUSED_UNKNOWN_SUBSCRIBER},
        {{good, over, unknown}, 3, LW_REFUSED_PAST_64_BITS},
        {{over, unknown}, 2, LW_REFUSED_PAST_64_BITS},
        {{unknown, over}, 2, LW_REFUSED_UNKNOWN_SUBSCRIBER},
        {{both}, 1, LW_REFUSED_UNKNOWN_SUBSCRIBER},
        {{fresh, both, over}, 3, LW_REFUSED_UNKNOWN_SUBSCRIBER},
        {{fresh, fresh, over, unknown}, 4, LW_REFUSED_PAST_64_BITS},
        {{good, fresh, good}, 3, LW_NOT_REFUSED},
    };

    for (unsigned long i = 0; i < sizeof blocks / sizeof blocks[0]; i++) {
        uint8_t cut[4 * LW_READING + 1] = {0};
        const size_t length = lay_out(cut, blocks[i].readings, blocks[i].count);
        lw_ledger ledger = fresh_ledger();
        put_account(&ledger, 7, 0, 0);
        ledger.words[SUM] = UINT64_MAX;

        check_block(i, &ledger, cut, length + 1, LW_REFUSED_NOT_WHOLE_READINGS);
        check_block(i, &ledger, cut, length - 1, LW_REFUSED_NOT_WHOLE_READINGS);
        check_take(i, &ledger, blocks[i].readings, blocks[i].count, blocks[i].want);
        check_total(&ledger, 9, blocks[i].want == LW_NOT_REFUSED, 0);
    }
    end_group("the first fault is told");
}

/* Many good readings before a bad one: none of them stays. */
static void check_refused_whole(void)
{
    static struct reading readings[MOST_READINGS];
    lw_ledger ledger = fresh_ledger();

    for (uint32_t i = 0; i < MOST_READINGS; i++) {
        const struct reading reading = {i % LW_SUBSCRIBERS, 17 * i};
        readings[i] = reading;
    }
    readings[MOST_READINGS - 1].subscriber = LW_SUBSCRIBERS;
    check_take(0, &ledger, readings, MOST_READINGS, LW_REFUSED_UNKNOWN_SUBSCRIBER);
    check_take(1, &ledger, readings, MOST_READINGS - 1, LW_NOT_REFUSED);
    /* The second reading of a subscriber comes 1,024 later. */
    for (uint32_t i = 0; i < LW_SUBSCRIBERS; i++)
        check_total(&ledger, i, true, i < MOST_READINGS - 1 - LW_SUBSCRIBERS ? 17 * 1024 : 0);
    check_sum(1, &ledger, (uint64_t)17 * 1024 * (MOST_READINGS - 1 - LW_SUBSCRIBERS));
    check_take(2, &ledger, readings, MOST_READINGS, LW_REFUSED_UNKNOWN_SUBSCRIBER);

    /* The sum is over only after some hundred readings. */
    ledger.words[SUM] = UINT64_MAX - 17 * 1024 * 100;
    check_take(3, &ledger, readings, MOST_READINGS - 1, LW_REFUSED_PAST_64_BITS);
    end_group("a refused block leaves nothing");
}

/* What the rules make of words; false where they refuse, with the number. */
static bool model_take(lw_ledger *ledger, const struct reading *readings, size_t count,
                       uint32_t *number)
{
    for (size_t i = 0; i < count; i++) {
        uint64_t *total, *kept;
        uint64_t charge = 0;
        if (readings[i].subscriber >= LW_SUBSCRIBERS) {
            *number = LW_REFUSED_UNKNOWN_SUBSCRIBER;
            return false;
        }
        total = &ledger->words[2 * readings[i].subscriber];
        kept = total + 1;
        if (*kept >= read_mark)
            charge = (uint32_t)(readings[i].counter - (uint32_t)(*kept & UINT32_MAX));
        if (*total > UINT64_MAX - charge || ledger->words[SUM] > UINT64_MAX - charge) {
            *number = LW_REFUSED_PAST_64_BITS;
            return false;
        }
        *total += charge;
        ledger->words[SUM] += charge;
        *kept = read_mark + readings[i].counter;
    }
    *number = LW_NOT_REFUSED;
    return true;
}

static uint64_t next_random(uint64_t *state)
{
    *state = *state * 6364136223846793005u + 1442695040888963407u;
    return *state >> 32 ^ *state << 32;
}

/* Any words hold a ledger. */
static void check_wild_words(void)
{
    uint64_t state = 1;
    lw_ledger ledger;
    unsigned long met[LW_REFUSED_PAST_64_BITS + 1] = {0};

    for (unsigned long round = 0; round < 1500; round++) {
        for (size_t word = 0; word < LW_LEDGER_WORDS; word++) {
            const uint64_t random = next_random(&state);
            /* Any bits, few, and nearly all. */
            ledger.words[word] = random % 3 == 0   ? random
                                 : random % 3 == 1 ? random >> 33
                                                   : UINT64_MAX - (random >> 30);
        }
        for (unsigned turn = 0; turn < 4; turn++) {
            struct reading readings[6];
            lw_ledger expected = ledger;
            uint32_t number;
            const size_t count = next_random(&state) % 7;
            for (size_t i = 0; i < count; i++) {
                readings[i].subscriber = (uint32_t)(next_random(&state) % (LW_SUBSCRIBERS + 20));
                readings[i].counter = (uint32_t)(next_random(&state) & UINT32_MAX);
            }
            const bool taken = model_take(&expected, readings, count, &number);
            check_take(round, &ledger, readings, count, number);
            if (taken)
                check_bytes("words", round, &expected, &ledger, sizeof ledger);
            for (size_t i = 0; i < count; i++) {
                const uint32_t subscriber = readings[i].subscriber;
                const uint64_t *words = &ledger.words[2 * (subscriber % LW_SUBSCRIBERS)];
                const bool read = subscriber < LW_SUBSCRIBERS && words[1] >= read_mark;
                check_total(&ledger, subscriber, read, read ? words[0] : 0);
            }
            check_sum(round, &ledger, ledger.words[SUM]);
            met[number]++;
        }
    }
    check("some blocks are taken", 0, met[LW_NOT_REFUSED] > 100, 1);
    check("some are refused", 41, met[LW_REFUSED_UNKNOWN_SUBSCRIBER] > 100, 1);
    check("some are refused", 42, met[LW_REFUSED_PAST_64_BITS] > 100, 1);
    end_group("ledgers of any words");
}

int main(void)
{
    /* A fault inside the library must not swallow the lines before it. */
    setvbuf(stdout, NULL, _IOLBF, 0);

    check_opening();
    check_sizes();
    check_no_bytes();
    check_counters();
    check_subscribers();
    check_most();
    check_first_fault();
    check_refused_whole();
    check_wild_words();
    return end_checks();
}
