/*
 * A table of cards as a C program calls it: opening, registering, removing, frames
 * of sixteen cards, taking out, adopting and a restart. Frames are laid out here
 * byte by byte, so that nothing but the header file is shared with the library.
 * Unless a call succeeds, all words of the table have to stay as they were. The
 * exit status is 1 if a check failed.
 */
#include <logwhisker.h>

#include "check.h"

#include <stdbool.h>
#include <string.h>

enum {
    OWN = 1,
    CARDS = LW_TABLE_CARDS,
    FIRST_CARD = 2, /* card k has ID 2 + k */
    REGION = 8,     /* bytes of a card's region; the regions touch */
    FREE = CARDS * REGION,
    SPARE = 24, /* bytes behind all regions */
    MEMORY = FREE + SPARE
};

/* ---- Frames ------------------------------------------------------------ */

struct message {
    uint32_t transaction;
    uint32_t completion;
    uint16_t count;
    uint32_t address;
    uint16_t length; /* of data bytes, which are all 0xdd */
};

/* A completion writes these four bytes. */
static const uint8_t value_bytes[4] = {0x44, 0x33, 0x22, 0x11};

static void put16(uint8_t *at, uint32_t value)
{
    at[0] = (uint8_t)(value & 0xff);
    at[1] = (uint8_t)(value >> 8 & 0xff);
}

static void put32(uint8_t *at, uint32_t value)
{
    put16(at, value & 0xffff);
    put16(at + 2, value >> 16);
}

enum { LONGEST = LW_FRAME_HEADER + LW_MESSAGE_HEADER + 64 };

/* Lays out a frame of one message, or of none where it is NULL. Gives its length. */
static size_t lay_out(uint8_t frame[LONGEST], uint32_t to, uint32_t from, uint32_t number,
                      const struct message *message)
{
    uint8_t *header = frame + LW_FRAME_HEADER;

    memset(frame, 0, LONGEST);
    put16(frame, to);
    put16(frame + 2, from);
    put16(frame + 4, number);
    if (message == NULL)
        return LW_FRAME_HEADER;
    frame[9] = 1;
    put32(header, message->transaction);
    put32(header + 4, message->completion);
    memcpy(header + 8, value_bytes, sizeof value_bytes);
    put16(header + 12, message->count);
    put32(header + 16, message->address);
    put16(header + 20, message->length);
    memset(header + LW_MESSAGE_HEADER, 0xdd, message->length);
    return LW_FRAME_HEADER + LW_MESSAGE_HEADER + (size_t)message->length;
}

/* ---- A table with its memory ------------------------------------------- */

/* No padding: two of them are compared byte by byte. */
struct site {
    lw_table table;
    uint8_t memory[MEMORY];
};

_Static_assert(sizeof(struct site) == sizeof(lw_table) + MEMORY, "a site has no padding");

static struct site fresh_site(void)
{
    struct site site;

    memset(&site, 0, sizeof site);
    check("opening", 0, lw_table_open(&site.table, OWN), LW_NOT_REFUSED);
    return site;
}

/* Registers and checks what is told; a refused call leaves the words. */
static void check_register(unsigned long at, struct site *site, uint16_t source, size_t first,
                           size_t size, size_t memory, uint32_t want)
{
    const struct site before = *site;
    const uint32_t refusal = lw_table_register(&site->table, source, first, size, memory);

    check("registering", at, refusal, want);
    if (want != LW_NOT_REFUSED)
        check_bytes("table as it was", at, &before, site, sizeof before);
    check_bytes("memory as it was", at, before.memory, site->memory, sizeof before.memory);
}

static void check_adopt(unsigned long at, struct site *site, const lw_host *host, size_t first,
                        size_t size, size_t memory, uint32_t want)
{
    const struct site before = *site;

    check("adopting", at, lw_table_adopt(&site->table, host, first, size, memory), want);
    if (want != LW_NOT_REFUSED)
        check_bytes("table as it was", at, &before, site, sizeof before);
}

static void check_remove(unsigned long at, struct site *site, uint16_t source, uint32_t want)
{
    const struct site before = *site;

    check("removing", at, lw_table_remove(&site->table, source), want);
    if (want != LW_NOT_REFUSED)
        check_bytes("table as it was", at, &before, site, sizeof before);
    check_bytes("memory as it was", at, before.memory, site->memory, sizeof before.memory);
}

/* The ID and the region of card k. */
static uint16_t id_of(size_t k)
{
    return (uint16_t)(FIRST_CARD + k);
}

static struct site full_site(void)
{
    struct site site = fresh_site();

    for (size_t k = 0; k < CARDS; k++)
        check_register(k, &site, id_of(k), k * REGION, REGION, MEMORY, LW_NOT_REFUSED);
    return site;
}

/* ---- Answers ----------------------------------------------------------- */

static lw_answer accepted(uint64_t number, uint64_t bytes, uint64_t completed)
{
    const lw_answer answer = {LW_ACCEPTED, number, 1, bytes, completed, 0, 0, 1};
    return answer;
}

static lw_answer again(uint64_t number)
{
    const lw_answer answer = {LW_AGAIN, number, 0, 0, 0, 0, 0, 1};
    return answer;
}

static lw_answer with_run(lw_answer answer, uint64_t run)
{
    answer.run = run;
    return answer;
}

static lw_answer no_messages(void)
{
    const lw_answer answer = {LW_NO_MESSAGES, 0, 0, 0, 0, 0, 0, 0};
    return answer;
}

static lw_answer refused(uint64_t refusal)
{
    const lw_answer answer = {LW_REFUSED, 0, 0, 0, 0, refusal, 0, 0};
    return answer;
}

/* Receives a frame with the first bytes of the memory and checks the answer, the source
 * and the acknowledgement. Unless it is accepted, all stays as it was. */
static void check_receive(unsigned long at, struct site *site, const uint8_t *frame, size_t length,
                          size_t size, lw_answer want)
{
    const struct site before = *site;
    uint16_t source = 0xa5a5;
    lw_answer answer;
    uint8_t acknowledgement[LW_ACKNOWLEDGEMENT];
    uint8_t due[LW_ACKNOWLEDGEMENT] = {0};

    memset(&answer, 0xff, sizeof answer);
    memset(acknowledgement, 0xa5, sizeof acknowledgement);
    const uint32_t kind = lw_table_receive(&site->table, frame, length,
                                           size != 0 ? site->memory : NULL, size, &source, &answer);
    check("returned kind", at, kind, want.kind);
    check_bytes("answer", at, &answer, &want, sizeof want);
    check("source", at, source,
          (length > 2 ? frame[2] : 0u) | (length > 3 ? (unsigned)frame[3] << 8 : 0u));
    if (want.kind != LW_ACCEPTED)
        check_bytes("all as it was", at, &before, site, sizeof before);

    const uint32_t is_due =
        lw_table_acknowledge(&site->table, source, &answer, 7, acknowledgement);
    if (want.kind == LW_ACCEPTED || want.kind == LW_AGAIN) {
        /* From us to the source. */
        put16(due, source);
        put16(due + 2, OWN);
        put16(due + 4, 7);
        put16(due + 6, (uint32_t)want.number);
        due[8] = (uint8_t)want.run;
    } else {
        memset(due, 0xa5, sizeof due);
    }
    check("acknowledgement due", at, is_due, want.kind == LW_ACCEPTED || want.kind == LW_AGAIN);
    check_bytes("acknowledgement", at, acknowledgement, due, sizeof due);
}

/* The same for a frame of one message to us. */
static void check_message(unsigned long at, struct site *site, uint16_t source, uint32_t number,
                          struct message message, size_t size, lw_answer want)
{
    uint8_t frame[LONGEST];
    const size_t length = lay_out(frame, OWN, source, number, &message);

    check_receive(at, site, frame, length, size, want);
}

/* ---- Opening, registering and removing --------------------------------- */

static void check_opening(void)
{
    struct site site;
    lw_table_description description;
    const lw_table_card none = {0, 0, 0};
    const struct message message = {.count = 1};
    lw_host host;

    /* Whatever the words held before. */
    memset(&site, 0xff, sizeof site);
    check("opening with 0", 0, lw_table_open(&site.table, 0), LW_REFUSED_ID_ZERO);
    memset(&description, 0xff, sizeof description);
    lw_table_describe(&site.table, &description);
    check("own ID", 0, description.own, 0);
    for (size_t k = 0; k < CARDS; k++)
        check_bytes("no card", k, &description.cards[k], &none, sizeof none);

    /* It refuses whatever is registered, and every frame. */
    check_register(0, &site, 2, 0, 8, MEMORY, LW_REFUSED_ID_ZERO);
    check_register(1, &site, 2, 0, 0, MEMORY, LW_REFUSED_ID_ZERO);
    check("opening a host with 0", 0, lw_host_open(&host, 0, 2), LW_REFUSED_ID_ZERO);
    check_adopt(2, &site, &host, 0, 8, MEMORY, LW_REFUSED_ID_ZERO);
    check_remove(3, &site, 2, LW_REFUSED_WRONG_ID);
    check_message(4, &site, 2, 0, message, MEMORY, refused(LW_REFUSED_WRONG_ID));
    uint8_t frame[LONGEST];
    const size_t length = lay_out(frame, 0, 0, 0, &message);
    check_receive(5, &site, frame, length, MEMORY, refused(LW_REFUSED_WRONG_ID));

    site = full_site();
    check("opening anew", 0, lw_table_open(&site.table, 300), LW_NOT_REFUSED);
    memset(&description, 0xff, sizeof description);
    lw_table_describe(&site.table, &description);
    check("own ID", 1, description.own, 300);
    for (size_t k = 0; k < CARDS; k++)
        check_bytes("no card", k, &description.cards[k], &none, sizeof none);
    end_group("opening a table");
}

/* Regions of one byte to all bytes, and none that are empty or pass the end. */
static void check_regions(void)
{
    static const size_t numbers[] = {0, 1, 2, 7, 8, 9, SIZE_MAX / 2, SIZE_MAX - 1, SIZE_MAX};
    const size_t count = sizeof numbers / sizeof numbers[0];
    unsigned long at = 0;

    for (size_t first = 0; first < count; first++) {
        for (size_t size = 0; size < count; size++) {
            for (size_t memory = 0; memory < count; memory++, at++) {
                struct site site = fresh_site();
                const bool fits = numbers[size] > 0 && numbers[first] <= numbers[memory] &&
                                  numbers[size] <= numbers[memory] - numbers[first];
                check_register(at, &site, 2, numbers[first], numbers[size], numbers[memory],
                               fits ? LW_NOT_REFUSED : LW_REFUSED_REGION_OUTSIDE_MEMORY);
            }
        }
    }
    end_group("regions inside and outside memory");

    /* Card 3's region is bytes 8 to 15. */
    for (size_t first = 0; first <= 24; first++) {
        for (size_t size = 1; size <= 24; size++) {
            struct site site = fresh_site();
            const bool overlaps = first < 16 && first + size > 8;
            check_register(0, &site, 3, 8, 8, 48, LW_NOT_REFUSED);
            check_register(first * 100 + size, &site, 4, first, size, 48,
                           overlaps ? LW_REFUSED_REGION_OVERLAPS : LW_NOT_REFUSED);
        }
    }
    end_group("regions that touch and overlap");
}

/* Every two causes that can occur together, and the order among them. A card with ID 0
 * is never registered, so that 13 and 30 do not. */
static void check_order(void)
{
    static const struct {
        uint16_t source;
        size_t first, size;
        bool full; /* sixteen cards, else fifteen: that with ID 2 is not there */
        uint32_t want;
        const char *causes;
    } cases[] = {
        {0, FREE, 0, false, LW_REFUSED_ID_ZERO, "13 and 31"},
        {0, 8, 8, false, LW_REFUSED_ID_ZERO, "13 and 29"},
        {0, FREE, 8, true, LW_REFUSED_ID_ZERO, "13 and 28"},
        {0, 8, MEMORY, true, LW_REFUSED_ID_ZERO, "13, 31, 29 and 28"},
        {5, FREE, 0, false, LW_REFUSED_SOURCE_REGISTERED, "30 and 31"},
        {5, 8, 8, false, LW_REFUSED_SOURCE_REGISTERED, "30 and 29"},
        {5, FREE, 8, true, LW_REFUSED_SOURCE_REGISTERED, "30 and 28"},
        {5, 8, MEMORY, true, LW_REFUSED_SOURCE_REGISTERED, "30, 31, 29 and 28"},
        {40, 8, MEMORY, false, LW_REFUSED_REGION_OUTSIDE_MEMORY, "31 and 29"},
        {40, 8, SIZE_MAX, false, LW_REFUSED_REGION_OUTSIDE_MEMORY, "31 and 29, past all"},
        {40, FREE, 0, true, LW_REFUSED_REGION_OUTSIDE_MEMORY, "31 and 28"},
        {40, FREE, SPARE + 1, true, LW_REFUSED_REGION_OUTSIDE_MEMORY, "31 and 28, past the end"},
        {40, 8, 8, true, LW_REFUSED_REGION_OVERLAPS, "29 and 28"},
        {0, FREE, 8, false, LW_REFUSED_ID_ZERO, "13"},
        {5, FREE, 8, false, LW_REFUSED_SOURCE_REGISTERED, "30"},
        {40, FREE, SPARE + 1, false, LW_REFUSED_REGION_OUTSIDE_MEMORY, "31"},
        {40, FREE - 1, 1, false, LW_REFUSED_REGION_OVERLAPS, "29"},
        {40, FREE, SPARE, true, LW_REFUSED_TABLE_FULL, "28"},
        {40, FREE, SPARE, false, LW_NOT_REFUSED, "none"},
    };

    for (size_t i = 0; i < sizeof cases / sizeof cases[0]; i++) {
        struct site site = full_site();
        if (!cases[i].full)
            check_remove(i, &site, 2, LW_NOT_REFUSED);
        const struct site before = site;
        const unsigned long failed_so_far = failed;
        lw_host host;

        check_register(i, &site, cases[i].source, cases[i].first, cases[i].size, MEMORY,
                       cases[i].want);
        /* Adopting is refused in the same order, after 13 for a host that is not ours. */
        site = before;
        const uint32_t opened = lw_host_open(&host, OWN, cases[i].source);
        check("opening a host", i, opened != 0, cases[i].source == 0);
        check_adopt(i, &site, &host, cases[i].first, cases[i].size, MEMORY, cases[i].want);
        site = before;
        check("opening another's", i, lw_host_open(&host, 9, 40), LW_NOT_REFUSED);
        check_adopt(i, &site, &host, cases[i].first, cases[i].size, MEMORY, LW_REFUSED_ID_ZERO);
        if (failed != failed_so_far)
            fprintf(stderr, "with causes %s\n", cases[i].causes);
    }
    end_group("the order of refusals");
}

static void check_removing(void)
{
    struct site site = full_site();
    static const uint16_t absent[] = {0, OWN, 18, 256 + 2, 65535};

    for (size_t i = 0; i < sizeof absent / sizeof absent[0]; i++)
        check_remove(i, &site, absent[i], LW_REFUSED_WRONG_ID);
    for (size_t k = 0; k < CARDS; k++) {
        check_remove(k, &site, id_of(k), LW_NOT_REFUSED);
        check_remove(k, &site, id_of(k), LW_REFUSED_WRONG_ID);
    }
    const struct site fresh = fresh_site();
    lw_table_description got, want;
    lw_table_describe(&site.table, &got);
    lw_table_describe(&fresh.table, &want);
    check_bytes("no card is left", 0, &got, &want, sizeof got);
    end_group("removing");
}

static void check_places(void)
{
    const struct message message = {.count = 1, .length = 1};
    struct site site = full_site();

    for (uint16_t round = 0; round < 3 * CARDS; round++) {
        const uint16_t gone = (uint16_t)(FIRST_CARD + round), next = (uint16_t)(gone + CARDS);
        const size_t first = (size_t)(round % CARDS) * REGION;
        check_register(round, &site, next, FREE, 8, MEMORY, LW_REFUSED_TABLE_FULL);
        check_remove(round, &site, gone, LW_NOT_REFUSED);
        check_register(round, &site, next, first, REGION, MEMORY, LW_NOT_REFUSED);
        /* The pair is fresh, whatever the one before had received. */
        check_message(round, &site, next, 0, message, MEMORY, accepted(0, 1, 1));
        check_message(round, &site, gone, 0, message, MEMORY, refused(LW_REFUSED_WRONG_ID));
    }
    /* So it is where the same ID registers again. */
    check_message(0, &site, 50, 0, message, MEMORY, again(0));
    check_remove(0, &site, 50, LW_NOT_REFUSED);
    check_register(0, &site, 50, FREE, 8, MEMORY, LW_NOT_REFUSED);
    check_message(0, &site, 50, 0, message, MEMORY, accepted(0, 1, 1));
    end_group("places used again");
}

/* ---- Receiving --------------------------------------------------------- */

/* At each place: up to the region's last byte, and one byte past it, which is in another
 * card's region or in none. */
static void check_edges(void)
{
    for (size_t k = 0; k < CARDS; k++) {
        struct site site = full_site();
        uint8_t want[MEMORY] = {0};
        uint8_t *region = want + k * REGION;
        const struct message whole = {.count = 1, .address = 0, .length = REGION, .completion = 4};
        const struct message last = {.transaction = 1, .count = 1, .address = 7, .length = 1};
        struct message past = whole;

        past.address = 1;
        check_message(k, &site, id_of(k), 0, past, MEMORY, refused(LW_REFUSED_DATA_OUTSIDE_MEMORY));
        past.address = UINT32_MAX;
        check_message(k, &site, id_of(k), 0, past, MEMORY, refused(LW_REFUSED_DATA_OUTSIDE_MEMORY));
        past = whole;
        past.completion = 5;
        check_message(k, &site, id_of(k), 0, past, MEMORY,
                      refused(LW_REFUSED_COMPLETION_OUTSIDE_MEMORY));
        past.completion = UINT32_MAX;
        check_message(k, &site, id_of(k), 0, past, MEMORY,
                      refused(LW_REFUSED_COMPLETION_OUTSIDE_MEMORY));
        past = last;
        past.transaction = 0;
        past.address = 8;
        check_message(k, &site, id_of(k), 0, past, MEMORY, refused(LW_REFUSED_DATA_OUTSIDE_MEMORY));

        check_message(k, &site, id_of(k), 0, whole, MEMORY, accepted(0, REGION, 1));
        memset(region, 0xdd, 4);
        memcpy(region + 4, value_bytes, 4);
        check_bytes("memory", k, site.memory, want, sizeof want);
        check_message(k, &site, id_of(k), 1, last, MEMORY, accepted(1, 1, 1));
        memcpy(region, value_bytes, 4);
        region[7] = 0xdd;
        check_bytes("memory", k, site.memory, want, sizeof want);
        /* No byte at the region's end is no byte past it. */
        const struct message none = {.transaction = 2, .count = 1, .address = REGION};
        check_message(k, &site, id_of(k), 2, none, MEMORY, accepted(2, 0, 1));
    }
    end_group("addresses at the region's edges");
}

static void check_ids(void)
{
    struct site site = full_site();
    const struct message message = {.count = 1};
    static const uint32_t ids[][2] = {{2, 2}, {0, 2}, {257, 2}, {1, 0}, {1, 1}, {1, 18}, {1, 258}};
    uint8_t frame[LONGEST];

    for (size_t i = 0; i < sizeof ids / sizeof ids[0]; i++) {
        const size_t length = lay_out(frame, ids[i][0], ids[i][1], 0, &message);
        check_receive(i, &site, frame, length, MEMORY, refused(LW_REFUSED_WRONG_ID));
    }
    check_message(0, &site, 2, 0, message, MEMORY, accepted(0, 0, 1));
    /* A card may have our ID. */
    check_remove(0, &site, 9, LW_NOT_REFUSED);
    check_register(0, &site, OWN, FREE, 8, MEMORY, LW_NOT_REFUSED);
    check_message(1, &site, OWN, 0, message, MEMORY, accepted(0, 0, 1));
    end_group("frames not to us, and of no card here");
}

/* 31 comes after 1, 2 and 3, and before all else. */
static void check_short_memory(void)
{
    static uint8_t long_frame[LW_LONGEST_FRAME + 1];
    const struct message good = {.count = 1, .length = 1};
    struct message outside = good;
    const size_t end = (CARDS - 3) * REGION; /* of card 12's region */
    const uint16_t source = id_of(CARDS - 4);
    uint8_t frame[LONGEST], flags[LONGEST], other[LONGEST];

    outside.address = REGION;
    for (size_t size = 0; size <= MEMORY; size++) {
        struct site site = full_site();
        const bool ends_before = size < end;
        const lw_answer short_memory = refused(LW_REFUSED_REGION_OUTSIDE_MEMORY);
        const size_t length = lay_out(frame, OWN, source, 0, &good);

        check_receive(size, &site, frame, 9, size, refused(LW_REFUSED_FRAME_TOO_SHORT));
        check_receive(size, &site, long_frame, sizeof long_frame, size,
                      refused(LW_REFUSED_FRAME_TOO_LONG));
        lay_out(other, 9, source, 0, &good);
        check_receive(size, &site, other, length, size, refused(LW_REFUSED_WRONG_ID));
        lay_out(other, OWN, 40, 0, &good);
        check_receive(size, &site, other, length, size, refused(LW_REFUSED_WRONG_ID));
        memcpy(flags, frame, sizeof flags);
        flags[9] = 3;
        check_receive(size, &site, flags, length, size,
                      ends_before ? short_memory : refused(LW_REFUSED_RESERVED_FLAG));
        check_receive(size, &site, frame, length - 1, size,
                      ends_before ? short_memory : refused(LW_REFUSED_PAST_FRAME_END));
        lay_out(other, OWN, source, 0, NULL);
        check_receive(size, &site, other, LW_FRAME_HEADER, size,
                      ends_before ? short_memory : no_messages());
        check_message(size, &site, source, 64, good, size,
                      ends_before ? short_memory : refused(LW_REFUSED_FRAME_AHEAD));
        check_message(size, &site, source, 0, outside, size,
                      ends_before ? short_memory : refused(LW_REFUSED_DATA_OUTSIDE_MEMORY));
        /* The regions behind it do not matter. */
        check_receive(size, &site, frame, length, size,
                      ends_before ? short_memory : accepted(0, 1, 1));
        check_receive(size, &site, frame, length, size, ends_before ? short_memory : again(0));
    }
    end_group("memory that ends before the region");
}

static void check_null(void)
{
    struct site site = full_site();
    uint8_t frame[LONGEST];
    const struct message message = {.count = 1};
    const size_t length = lay_out(frame, OWN, 2, 0, &message);

    check_receive(0, &site, NULL, 0, 0, refused(LW_REFUSED_FRAME_TOO_SHORT));
    check_receive(1, &site, NULL, 0, MEMORY, refused(LW_REFUSED_FRAME_TOO_SHORT));
    check_receive(2, &site, frame, length, 0, refused(LW_REFUSED_REGION_OUTSIDE_MEMORY));
    for (size_t shorter = 1; shorter < LW_FRAME_HEADER; shorter++)
        check_receive(shorter, &site, frame, shorter, MEMORY, refused(LW_REFUSED_FRAME_TOO_SHORT));
    end_group("no bytes at NULL, and frames without a source");
}

/* Frames of all cards in turn: each has its own numbers and its own region. */
static void check_turns(void)
{
    struct site site = full_site();
    uint8_t want[MEMORY] = {0};

    memset(site.memory + FREE, 0x77, MEMORY - FREE);
    memset(want + FREE, 0x77, MEMORY - FREE);
    for (uint32_t round = 0; round < 40; round++) {
        for (size_t k = 0; k < CARDS; k++) {
            /* Card k leaves out every (k + 2)nd round. */
            if (round % (k + 2) == 0)
                continue;
            const uint32_t number = round - round / (uint32_t)(k + 2) - 1;
            const struct message message = {.transaction = number,
                                            .count = 1,
                                            .address = 4 + number % 4,
                                            .length = 1};
            check_message(round * CARDS + k, &site, id_of(k), number, message, MEMORY,
                          accepted(number, 1, 1));
            memcpy(want + k * REGION, value_bytes, 4);
            want[k * REGION + 4 + number % 4] = 0xdd;
            check_bytes("memory", round * CARDS + k, site.memory, want, sizeof want);
        }
    }
    end_group("sixteen cards in turn");
}

/* ---- Taking out, adopting and restarting ------------------------------- */

/* A message of two, and another transaction in a frame ahead: both stay in the pair. */
static void busy(struct site *site, uint16_t source)
{
    const struct message first = {.count = 2, .length = 3, .completion = 4};
    const struct message ahead = {.transaction = 1, .count = 1, .length = 1, .completion = 4};

    check_message(source, site, source, 0, first, MEMORY, accepted(0, 3, 0));
    check_message(source, site, source, 2, ahead, MEMORY, accepted(2, 1, 1));
}

/* What was left out comes, and completes the transaction. */
static void settle(struct site *site, uint16_t source)
{
    const struct message second = {.count = 2, .address = 1, .length = 2, .completion = 4};

    check_message(source, site, source, 1, second, MEMORY, with_run(accepted(1, 2, 1), 2));
}

static void check_taking(void)
{
    struct site site = full_site();
    lw_host host, junk;
    lw_description description;
    lw_table_description cards;
    const lw_transaction open = {0, 4, 0x11223344, 2, 1};

    busy(&site, 6);
    const struct site before = site;
    memset(&host, 0xa5, sizeof host);
    junk = host;
    static const uint16_t absent[] = {0, OWN, 18, 65535};
    for (size_t i = 0; i < sizeof absent / sizeof absent[0]; i++) {
        check("taking", i, lw_table_take(&site.table, absent[i], &host), LW_REFUSED_WRONG_ID);
        check_bytes("host as it was", i, &host, &junk, sizeof host);
    }
    check("taking", 6, lw_table_take(&site.table, 6, &host), LW_NOT_REFUSED);
    check_bytes("the table does not change", 6, &before, &site, sizeof site);
    lw_host_describe(&host, &description);
    check("own", 6, description.own, OWN);
    check("peer", 6, description.peer, 6);
    check("next", 6, description.next, 1);
    check("marks", 6, description.marks, 2);
    check("lowest", 6, description.lowest, 0);
    check("closed", 6, description.closed, 2);
    check("open", 6, description.open, 1);
    check_bytes("transaction", 6, &description.transactions[0], &open, sizeof open);

    /* The host's addresses count from the region's first byte. */
    uint8_t frame[LONGEST];
    lw_answer answer;
    const struct message second = {.count = 2, .address = 1, .length = 2, .completion = 4};
    const size_t length = lay_out(frame, OWN, 6, 1, &second);
    const uint32_t kind = lw_host_receive(&host, frame, length, site.memory + 4 * REGION, REGION,
                                          &answer);
    check("a host taken out receives", 6, kind, LW_ACCEPTED);
    site = before;

    memset(&cards, 0xff, sizeof cards);
    lw_table_describe(&site.table, &cards);
    check("own", 0, cards.own, OWN);
    unsigned long seen = 0;
    for (size_t place = 0; place < CARDS; place++) {
        const lw_table_card card = cards.cards[place];
        check("size", place, card.size, REGION);
        check("first", place, card.first, (card.source - FIRST_CARD) * REGION);
        seen |= 1ul << card.source;
    }
    check("each card is there", 0, seen, 0xfffful << FIRST_CARD);
    end_group("taking out and describing");
}

static void check_adopting(void)
{
    struct site site = full_site();
    lw_host host, back;

    busy(&site, 6);
    check("taking", 6, lw_table_take(&site.table, 6, &host), LW_NOT_REFUSED);
    check_adopt(0, &site, &host, FREE, 8, MEMORY, LW_REFUSED_SOURCE_REGISTERED);
    check_remove(0, &site, 6, LW_NOT_REFUSED);
    check_adopt(1, &site, &host, FREE, 0, MEMORY, LW_REFUSED_REGION_OUTSIDE_MEMORY);
    check_adopt(2, &site, &host, 0, 8, MEMORY, LW_REFUSED_REGION_OVERLAPS);
    /* To a longer region, with its bytes, and back. */
    memcpy(site.memory + FREE, site.memory + 4 * REGION, REGION);
    check_adopt(3, &site, &host, FREE, 20, MEMORY, LW_NOT_REFUSED);
    check("taking", 7, lw_table_take(&site.table, 6, &back), LW_NOT_REFUSED);
    check_bytes("the same pair", 7, &host, &back, sizeof host);
    settle(&site, 6);
    check_bytes("completion", 7, site.memory + FREE + 4, value_bytes, sizeof value_bytes);
    const struct message far = {.transaction = 2, .count = 1, .address = 19, .length = 1};
    check_message(8, &site, 6, 3, far, MEMORY, accepted(3, 1, 1));
    check("taking", 8, lw_table_take(&site.table, 6, &host), LW_NOT_REFUSED);
    check_remove(8, &site, 6, LW_NOT_REFUSED);
    check_adopt(8, &site, &host, 4 * REGION, REGION, MEMORY, LW_NOT_REFUSED);
    check_message(9, &site, 6, 3, far, MEMORY, with_run(again(3), 1));
    end_group("adopting");
}

/* Each pair is stored as text, all is forgotten but texts, regions and memory, and the
 * table is opened anew; once more with the cards adopted in another order. */
static void check_restart(void)
{
    struct site site = full_site();
    struct {
        lw_table_card card;
        uint8_t text[LW_LONGEST_TEXT];
        size_t length;
    } kept[CARDS];

    for (size_t k = 0; k < CARDS; k++)
        if (k % 3 != 0)
            busy(&site, id_of(k));
    for (unsigned night = 0; night < 2; night++) {
        lw_table_description cards;
        lw_host host;

        lw_table_describe(&site.table, &cards);
        for (size_t place = 0; place < CARDS; place++) {
            kept[place].card = cards.cards[place];
            const uint16_t source = (uint16_t)kept[place].card.source;
            check("taking", place, lw_table_take(&site.table, source, &host), LW_NOT_REFUSED);
            check("storing", place,
                  lw_host_store(&host, kept[place].text, sizeof kept[place].text,
                                &kept[place].length),
                  LW_NOT_REFUSED);
        }
        memset(&site.table, 0xff, sizeof site.table);
        check("opening anew", night, lw_table_open(&site.table, OWN), LW_NOT_REFUSED);
        for (size_t i = 0; i < CARDS; i++) {
            const size_t place = night == 0 ? CARDS - 1 - i : (7 * i + 3) % CARDS;
            const lw_table_card card = kept[place].card;
            memset(&host, 0xff, sizeof host);
            check("restoring", place,
                  lw_host_restore(&host, kept[place].text, kept[place].length), LW_NOT_REFUSED);
            check_adopt(place, &site, &host, (size_t)card.first, (size_t)card.size, MEMORY,
                        LW_NOT_REFUSED);
        }
        /* What came before the night is not taken again. */
        for (size_t k = 0; k < CARDS; k++) {
            const struct message first = {.count = 2, .length = 3, .completion = 4};
            if (k % 3 != 0)
                check_message(k, &site, id_of(k), 0, first, MEMORY, again(0));
        }
    }
    uint8_t want[MEMORY] = {0};
    for (size_t k = 0; k < CARDS; k++) {
        if (k % 3 == 0)
            busy(&site, id_of(k));
        settle(&site, id_of(k));
        memset(want + k * REGION, 0xdd, 3);
        memcpy(want + k * REGION + 4, value_bytes, sizeof value_bytes);
    }
    check_bytes("memory", 0, site.memory, want, sizeof want);
    end_group("two nights of sixteen cards");
}

/* Any words are a table: each call answers, and a refused one leaves all as it was. */
static void check_wild_tables(void)
{
    const struct site good = full_site();
    uint64_t state = 1;
    struct site site;
    uint8_t frame[LONGEST];
    const struct message message = {.count = 1, .length = 1};
    unsigned long answered = 0;

    for (unsigned long round = 0; round < 400; round++) {
        /* From a full table with one word changed to one with none as it was. */
        memcpy(&site, &good, sizeof site);
        for (size_t word = 0; word < LW_TABLE_WORDS; word++) {
            state = state * 6364136223846793005u + 1442695040888963407u;
            if ((state >> 33) % 400 <= round)
                site.table.words[word] = state >> 8 ^ state << 40;
        }
        for (uint16_t source = 0; source < 20; source++) {
            const struct site before = site;
            uint16_t named;
            lw_answer answer;
            lw_host host;
            const size_t length = lay_out(frame, OWN, source, 0, &message);
            const uint32_t kind = lw_table_receive(&site.table, frame, length, site.memory,
                                                   sizeof site.memory, &named, &answer);
            check("kind", round, kind >= LW_ACCEPTED && kind <= LW_REFUSED, 1);
            if (kind != LW_ACCEPTED)
                check_bytes("all as it was", round, &before, &site, sizeof site);
            answered += kind != LW_REFUSED;
            const uint32_t taken = lw_table_take(&site.table, source, &host);
            check("taken", round, taken == 0 || taken == LW_REFUSED_WRONG_ID, 1);
            const uint32_t removed = lw_table_remove(&site.table, source);
            check("removed as taken", round, removed, taken);
            const struct site left = site;
            if (lw_table_register(&site.table, source, FREE, 8, MEMORY) != 0)
                check_bytes("table as it was", round, &left, &site, sizeof site);
        }
    }
    check("some frames found their card", 0, answered > 100, 1);
    end_group("tables of any words");
}

int main(void)
{
    /* A fault inside the library must not swallow the lines before it. */
    setvbuf(stdout, NULL, _IOLBF, 0);

    check_opening();
    check_regions();
    check_order();
    check_removing();
    check_places();
    check_edges();
    check_ids();
    check_short_memory();
    check_null();
    check_turns();
    check_taking();
    check_adopting();
    check_restart();
    check_wild_tables();
    return end_checks();
}
