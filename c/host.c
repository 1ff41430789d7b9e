/*
 * Stands for the charging host, which is a C program: asks the proved library for
 * the layout of good, cut and damaged frames and for the classes of refusals, and
 * checks every answer. The frames are laid out here byte by byte and by offset, so
 * that nothing but the header file is shared with the library.
 *
 * Both ends are tested by ends.c. The exit status is 1 if a check failed.
 */
#define _DEFAULT_SOURCE /* for MAP_ANONYMOUS and MAP_NORESERVE */

#include <logwhisker.h>

#include "check.h"

#include <stdio.h>
#include <string.h>
#include <sys/mman.h>
#include <unistd.h>

enum {
    FRAME_HEADER = 10,
    MESSAGE_HEADER = 24,
    LONGEST = 9000,
    /* Offsets in a frame header. */
    DESTINATION = 0,
    SOURCE = 2,
    NUMBER = 4,
    ACK_START = 6,
    ACK_COUNT = 8,
    FLAGS = 9,
    /* Offsets in a message header. */
    DATA_LENGTH = 20,
    TRAILING = 23
};

/* What the nine layout calls answer for one frame. */
struct layout {
    uint32_t refusal;
    uint32_t destination;
    uint32_t source;
    uint32_t number;
    uint32_t ack_start;
    uint32_t ack_count;
    uint32_t flags;
    uint32_t messages;
    uint32_t data_bytes;
};

/* One message of four bytes, from 2 to 1. */
static const uint8_t whole_case[38] = {
    0x01, 0x00, 0x02, 0x00, 0x00, 0x00, 0x00, 0x00, 0x00, 0x01, /* frame header */
    0x00, 0x00, 0x00, 0x00, 0x40, 0x00, 0x00, 0x00, 0x44, 0x33, 0x22, 0x11,
    0x01, 0x00, 0x00, 0x00, 0x00, 0x00, 0x00, 0x00, 0x04, 0x00, 0x00, 0x00,
    0x0a, 0x0b, 0x0c, 0x0d /* data */
};

static const struct layout whole_layout = {
    .destination = 1, .source = 2, .flags = 1, .messages = 1, .data_bytes = 4
};

/* `at` tells the checks of one loop apart. */
static void check_layout(unsigned long at, const uint8_t *frame, size_t length,
                         struct layout want)
{
    check("refusal", at, lw_layout_refusal(frame, length), want.refusal);
    check("destination", at, lw_destination(frame, length), want.destination);
    check("source", at, lw_source(frame, length), want.source);
    check("frame number", at, lw_frame_number(frame, length), want.number);
    check("ACKStart", at, lw_ack_start(frame, length), want.ack_start);
    check("ACKCount", at, lw_ack_count(frame, length), want.ack_count);
    check("flags", at, lw_flags(frame, length), want.flags);
    check("messages", at, lw_message_count(frame, length), want.messages);
    check("data bytes", at, lw_data_bytes(frame, length), want.data_bytes);
}

/* A refused layout has 0 for everything else. */
static struct layout refused(uint32_t refusal)
{
    struct layout layout = {.refusal = refusal};
    return layout;
}

static void put16(uint8_t *at, unsigned value)
{
    at[0] = (uint8_t)(value & 0xff);
    at[1] = (uint8_t)(value >> 8 & 0xff);
}

static void check_whole_case(void)
{
    check_layout(0, whole_case, sizeof whole_case, whole_layout);
    end_group("whole case");

    check("first 37 bytes", 37, lw_layout_refusal(whole_case, 37), LW_REFUSED_PAST_FRAME_END);
    for (size_t length = 0; length <= sizeof whole_case; length++) {
        struct layout want = whole_layout;
        if (length < FRAME_HEADER)
            want = refused(LW_REFUSED_FRAME_TOO_SHORT);
        else if (length < sizeof whole_case)
            want = refused(LW_REFUSED_PAST_FRAME_END);
        check_layout(length, whole_case, length, want);
    }
    end_group("every truncation of the whole case");
}

static void check_header_fields(void)
{
    /* A different value in every byte, so that no two places can be mixed up. */
    const uint8_t frame[FRAME_HEADER] = {1, 2, 3, 4, 5, 6, 7, 8, 9, 0};
    const struct layout want = {.destination = 0x0201,
                                .source = 0x0403,
                                .number = 0x0605,
                                .ack_start = 0x0807,
                                .ack_count = 9};
    check_layout(0, frame, sizeof frame, want);

    const uint8_t highest[FRAME_HEADER] = {255, 255, 255, 255, 255, 255, 255, 255, 255, 0};
    const struct layout want_highest = {.destination = 65535,
                                        .source = 65535,
                                        .number = 65535,
                                        .ack_start = 65535,
                                        .ack_count = 255};
    check_layout(1, highest, sizeof highest, want_highest);
    end_group("frame header fields");
}

static void check_ids(void)
{
    static const unsigned ids[] = {0, 1, 2, 3, 255, 256, 257, 32768, 65535};
    const size_t count = sizeof ids / sizeof ids[0];
    uint8_t frame[sizeof whole_case];

    memcpy(frame, whole_case, sizeof frame);
    for (size_t to = 0; to < count; to++) {
        for (size_t from = 0; from < count; from++) {
            struct layout want = whole_layout;
            put16(frame + DESTINATION, ids[to]);
            put16(frame + SOURCE, ids[from]);
            want.destination = ids[to];
            want.source = ids[from];
            check_layout(to * count + from, frame, sizeof frame, want);
        }
    }
    end_group("any IDs are read");
}

static void check_acknowledgements(void)
{
    static const unsigned starts[] = {0, 1, 5, 255, 256, 65534, 65535};
    uint8_t frame[sizeof whole_case];

    memcpy(frame, whole_case, sizeof frame);
    for (size_t i = 0; i < sizeof starts / sizeof starts[0]; i++) {
        for (unsigned count = 0; count <= 255; count++) {
            struct layout want = whole_layout;
            put16(frame + ACK_START, starts[i]);
            frame[ACK_COUNT] = (uint8_t)count;
            want.ack_start = starts[i];
            want.ack_count = count;
            check_layout(i * 256 + count, frame, sizeof frame, want);
        }
    }
    end_group("ACKStart as it stands, also with ACKCount 0");
}

static void check_flags(void)
{
    uint8_t frame[sizeof whole_case];

    memcpy(frame, whole_case, sizeof frame);
    for (unsigned bit = 1; bit < 8; bit++) {
        for (unsigned has_messages = 0; has_messages < 2; has_messages++) {
            frame[FLAGS] = (uint8_t)(1u << bit | has_messages);
            check_layout(bit, frame, sizeof frame, refused(LW_REFUSED_RESERVED_FLAG));
        }
    }
    end_group("each reserved flag bit");

    for (unsigned flags = 0; flags <= 255; flags++) {
        struct layout want = refused(LW_REFUSED_RESERVED_FLAG);
        if (flags <= 1) {
            want = whole_layout;
            want.flags = flags;
            if (flags == 0)
                want.messages = want.data_bytes = 0;
        }
        frame[FLAGS] = (uint8_t)flags;
        check_layout(flags, frame, sizeof frame, want);
    }
    end_group("every flag byte");
}

static void check_clear_flag(void)
{
    static uint8_t frame[LONGEST + 1];
    const struct layout want = {.destination = 65535,
                                .source = 65535,
                                .number = 65535,
                                .ack_start = 65535,
                                .ack_count = 255};

    memset(frame, 0xff, sizeof frame);
    frame[FLAGS] = 0;
    for (size_t length = FRAME_HEADER; length <= LONGEST; length++)
        check_layout(length, frame, length, want);
    check_layout(sizeof frame, frame, sizeof frame, refused(LW_REFUSED_FRAME_TOO_LONG));
    end_group("a clear flag with any bytes after it");
}

/* One byte of data, seven of gap, and a second message at 42 with three bytes. */
enum { FIRST = FRAME_HEADER, SECOND = 42, TWO_LENGTH = SECOND + MESSAGE_HEADER + 3 };

static void lay_out_two(uint8_t frame[TWO_LENGTH])
{
    memset(frame, 0, TWO_LENGTH);
    put16(frame + DESTINATION, 1);
    put16(frame + SOURCE, 2);
    put16(frame + NUMBER, 300);
    frame[FLAGS] = 1;
    put16(frame + FIRST + DATA_LENGTH, 1);
    frame[FIRST + TRAILING] = 1;
    put16(frame + SECOND + DATA_LENGTH, 3);
}

static void check_two_messages(void)
{
    uint8_t frame[TWO_LENGTH];
    const struct layout both = {
        .destination = 1, .source = 2, .number = 300, .flags = 1, .messages = 2, .data_bytes = 4};

    lay_out_two(frame);
    check_layout(0, frame, sizeof frame, both);
    for (size_t length = FRAME_HEADER; length < sizeof frame; length++)
        check_layout(length, frame, length, refused(LW_REFUSED_PAST_FRAME_END));
    end_group("two messages, second header at 42");

    /* Without data in the second message the frame is 66 bytes long, not 65. */
    struct layout empty_second = both;
    empty_second.data_bytes = 1;
    put16(frame + SECOND + DATA_LENGTH, 0);
    check_layout(66, frame, 66, empty_second);
    check_layout(65, frame, 65, refused(LW_REFUSED_PAST_FRAME_END));
    end_group("second message without data at 42");

    lay_out_two(frame);
    memset(frame + 35, 0xff, 7);
    memset(frame + FIRST + 14, 0xff, 2);
    frame[FIRST + 22] = 0xff;
    memset(frame + SECOND + 14, 0xff, 2);
    frame[SECOND + 22] = 0xff;
    check_layout(0, frame, sizeof frame, both);
    end_group("gap and unused fields are ignored");

    lay_out_two(frame);
    for (unsigned trailing = 0; trailing <= 255; trailing++) {
        struct layout want = both;
        if (trailing == 0) {
            want.messages = 1;
            want.data_bytes = 1;
        }
        frame[FIRST + TRAILING] = (uint8_t)trailing;
        check_layout(trailing, frame, sizeof frame, want);
    }
    frame[FIRST + TRAILING] = 1;
    for (unsigned trailing = 0; trailing <= 255; trailing++) {
        struct layout want = trailing == 0 ? both : refused(LW_REFUSED_PAST_FRAME_END);
        frame[SECOND + TRAILING] = (uint8_t)trailing;
        check_layout(trailing, frame, sizeof frame, want);
    }
    end_group("every trailing byte of both messages");
}

static void check_junk_behind(void)
{
    static uint8_t frame[LONGEST + 1];

    memset(frame, 0xff, sizeof frame);
    memcpy(frame, whole_case, sizeof whole_case);
    for (size_t length = sizeof whole_case; length <= LONGEST; length++)
        check_layout(length, frame, length, whole_layout);
    check_layout(sizeof frame, frame, sizeof frame, refused(LW_REFUSED_FRAME_TOO_LONG));
    end_group("junk after the last message");
}

static void check_longest(void)
{
    static uint8_t frame[LONGEST + 1];
    const unsigned most = LONGEST - FRAME_HEADER - MESSAGE_HEADER;
    struct layout want = {.flags = 1, .messages = 1, .data_bytes = most};

    frame[FLAGS] = 1;
    put16(frame + FIRST + DATA_LENGTH, most);
    check_layout(0, frame, LONGEST, want);
    check_layout(1, frame, LONGEST - 1, refused(LW_REFUSED_PAST_FRAME_END));
    check_layout(2, frame, LONGEST + 1, refused(LW_REFUSED_FRAME_TOO_LONG));
    put16(frame + FIRST + DATA_LENGTH, most + 1);
    check_layout(3, frame, LONGEST, refused(LW_REFUSED_PAST_FRAME_END));
    put16(frame + FIRST + DATA_LENGTH, 65535);
    check_layout(4, frame, LONGEST, refused(LW_REFUSED_PAST_FRAME_END));
    end_group("9,000 and 9,001 bytes");

    memset(frame, 0, sizeof frame);
    frame[FLAGS] = 1;
    for (unsigned messages = 1; messages <= 374; messages++) {
        const size_t end = FRAME_HEADER + (size_t)messages * MESSAGE_HEADER;
        want.messages = messages;
        want.data_bytes = 0;
        check_layout(messages, frame, end, want);
        check_layout(messages, frame, end - 1, refused(LW_REFUSED_PAST_FRAME_END));
        frame[end - MESSAGE_HEADER + TRAILING] = 1;
        check_layout(messages, frame, end, refused(LW_REFUSED_PAST_FRAME_END));
    }
    /* The 375th is announced, and 9,000 bytes have no room for it. */
    check_layout(375, frame, LONGEST, refused(LW_REFUSED_PAST_FRAME_END));
    end_group("1 to 374 messages");
}

static void check_null(void)
{
    check_layout(0, NULL, 0, refused(LW_REFUSED_FRAME_TOO_SHORT));
    end_group("no bytes at NULL");
}

static void check_order(void)
{
    static uint8_t frame[LONGEST + 1];

    memset(frame, 0xff, sizeof frame);
    for (size_t length = 0; length < FRAME_HEADER; length++)
        check_layout(length, frame, length, refused(LW_REFUSED_FRAME_TOO_SHORT));
    check_layout(LONGEST + 1, frame, LONGEST + 1, refused(LW_REFUSED_FRAME_TOO_LONG));
    check_layout(LONGEST, frame, LONGEST, refused(LW_REFUSED_RESERVED_FLAG));
    frame[FLAGS] = 1;
    check_layout(LONGEST, frame, LONGEST, refused(LW_REFUSED_PAST_FRAME_END));
    end_group("order of the refusals");
}

/* Frames that end where the memory does: a read past the end would be a fault of
 * the processor. Each starts at another remainder of 8 as well. */
static void check_only_lent_bytes(void)
{
    const size_t page = (size_t)sysconf(_SC_PAGESIZE);
    const size_t room = (LONGEST / page + 1) * page;
    uint8_t *memory = mmap(NULL, room + page, PROT_READ | PROT_WRITE,
                           MAP_PRIVATE | MAP_ANONYMOUS, -1, 0);

    if (memory == MAP_FAILED || mprotect(memory + room, page, PROT_NONE) != 0) {
        check("memory with a closed page after it", 0, 0, 1);
        end_group("only the lent bytes are read");
        return;
    }
    uint8_t *const end = memory + room;

    for (size_t length = 0; length <= sizeof whole_case; length++) {
        struct layout want = whole_layout;
        if (length < FRAME_HEADER)
            want = refused(LW_REFUSED_FRAME_TOO_SHORT);
        else if (length < sizeof whole_case)
            want = refused(LW_REFUSED_PAST_FRAME_END);
        memcpy(end - length, whole_case, length);
        check_layout(length, end - length, length, want);
        check("frame left as it was", length,
              memcmp(end - length, whole_case, length) == 0, 1);
    }

    uint8_t two[TWO_LENGTH];
    lay_out_two(two);
    for (size_t length = FRAME_HEADER; length < sizeof two; length++) {
        memcpy(end - length, two, length);
        check_layout(length, end - length, length, refused(LW_REFUSED_PAST_FRAME_END));
    }

    /* A message is announced just past the end. */
    for (unsigned data = 0; data < 64; data++) {
        const size_t length = FRAME_HEADER + MESSAGE_HEADER + data;
        uint8_t *const frame = end - length;
        memset(frame, 0, length);
        frame[FLAGS] = 1;
        put16(frame + FIRST + DATA_LENGTH, data);
        frame[FIRST + TRAILING] = 1;
        check_layout(data, frame, length, refused(LW_REFUSED_PAST_FRAME_END));
        /* And one whose data passes it by one byte. */
        frame[FIRST + TRAILING] = 0;
        put16(frame + FIRST + DATA_LENGTH, data + 1);
        check_layout(data, frame, length, refused(LW_REFUSED_PAST_FRAME_END));
    }

    munmap(memory, room + page);
    end_group("only the lent bytes are read");
}

/* A length whose low 32 bits are those of a good frame is still too long. The
 * memory is asked for and never touched, so it costs nothing. */
static void check_huge_length(void)
{
#if SIZE_MAX > UINT32_MAX
    const size_t length = (size_t)UINT32_MAX + 1 + sizeof whole_case;
    uint8_t *memory =
        mmap(NULL, length, PROT_READ, MAP_PRIVATE | MAP_ANONYMOUS | MAP_NORESERVE, -1, 0);

    if (memory == MAP_FAILED) {
        check("memory of more than 4 GiB", 0, 0, 1);
    } else {
        check_layout(0, memory, length, refused(LW_REFUSED_FRAME_TOO_LONG));
        check_layout(1, memory, length - sizeof whole_case, refused(LW_REFUSED_FRAME_TOO_LONG));
        munmap(memory, length);
    }
    end_group("a length of more than 32 bits");
#endif
}

static uint32_t class_of(uint32_t number)
{
    switch (number) {
    case LW_REFUSED_FRAME_TOO_SHORT:
    case LW_REFUSED_FRAME_TOO_LONG:
    case LW_REFUSED_WRONG_ID:
    case LW_REFUSED_RESERVED_FLAG:
    case LW_REFUSED_PAST_FRAME_END:
    case LW_REFUSED_FRAME_AHEAD:
        return LW_CLASS_WIRE;
    case LW_REFUSED_TRANSACTION_OUTSIDE_WINDOW:
    case LW_REFUSED_TRANSACTION_CLOSED:
    case LW_REFUSED_TRANSACTION_DIFFERS:
    case LW_REFUSED_BARE_WITH_DATA:
    case LW_REFUSED_DATA_OUTSIDE_MEMORY:
    case LW_REFUSED_COMPLETION_OUTSIDE_MEMORY:
        return LW_CLASS_MESSAGE;
    case LW_REFUSED_ID_ZERO:
    case LW_REFUSED_BAD_LINE:
        return LW_CLASS_CALLER;
    case LW_REFUSED_TRANSACTION_WINDOW_FULL:
    case LW_REFUSED_FRAME_WINDOW_FULL:
    case LW_REFUSED_FRAME_FULL:
    case LW_REFUSED_NO_MESSAGE_LEFT:
    case LW_REFUSED_NOTHING_TO_SEAL:
    case LW_REFUSED_NOT_HELD:
    case LW_REFUSED_BAD_LIMIT_OR_SLOTS:
    case LW_REFUSED_DATA_FOR_BARE:
        return LW_CLASS_CARD;
    default:
        return LW_CLASS_NONE;
    }
}

static void check_classes(void)
{
    for (uint32_t number = 0; number <= 300; number++)
        check("class", number, lw_refusal_class(number), class_of(number));
    end_group("classes of 0 to 300");

    /* Numbers that would have a class if only some of their bits were looked at. */
    for (uint32_t number = 0; number < 32; number++) {
        for (unsigned shift = 8; shift < 32; shift++) {
            const uint32_t high = number | (uint32_t)1 << shift;
            check("class", high, lw_refusal_class(high), LW_CLASS_NONE);
        }
        for (unsigned shift = 8; shift <= 24; shift += 8) {
            const uint32_t moved = (number + 1) << shift;
            check("class", moved, lw_refusal_class(moved), LW_CLASS_NONE);
        }
        check("class", UINT32_MAX - number, lw_refusal_class(UINT32_MAX - number),
              LW_CLASS_NONE);
    }
    end_group("classes of huge numbers");
}

/* Bit by bit, as the rule says it. */
static uint32_t counted_one_by_one(uint64_t marks)
{
    uint32_t count = 0;

    while (count < 64 && (marks >> count & 1) == 1)
        count++;
    return count;
}

static void check_marks(void)
{
    check("no mark is clear", 64, lw_trailing_ones(UINT64_MAX), 64);
    check("none is set", 0, lw_trailing_ones(0), 0);
    for (uint32_t first = 0; first < 64; first++) {
        const uint64_t clear = (uint64_t)1 << first;
        check("one is clear", first, lw_trailing_ones(~clear), first);
        check("all below are set", first, lw_trailing_ones(clear - 1), first);
        check("one is set", first, lw_trailing_ones(clear), first == 0);
        for (uint32_t second = 0; second < 64; second++) {
            const uint64_t marks = ~clear & ~((uint64_t)1 << second);
            check("two are clear", first * 64 + second, lw_trailing_ones(marks),
                  counted_one_by_one(marks));
        }
    }
    end_group("counts of marks");
}

int main(void)
{
    /* A fault inside the library must not swallow the lines before it. */
    setvbuf(stdout, NULL, _IOLBF, 0);

    check_whole_case();
    check_header_fields();
    check_ids();
    check_acknowledgements();
    check_flags();
    check_clear_flag();
    check_two_messages();
    check_junk_behind();
    check_longest();
    check_null();
    check_order();
    check_only_lent_bytes();
    check_huge_length();
    check_classes();
    check_marks();

    return end_checks();
}
