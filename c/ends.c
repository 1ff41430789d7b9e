/*
 * Calls every function of both ends as a C program does, and checks answers,
 * refusals, memory, slots and what a refused call leaves. Frames are laid out here
 * byte by byte, so that nothing but the header file is shared with the library.
 * The exit status is 1 if a check failed.
 */
#define _DEFAULT_SOURCE /* for MAP_ANONYMOUS */

#include <logwhisker.h>

#include "check.h"

#include <ctype.h>
#include <stdbool.h>
#include <stdlib.h>
#include <string.h>
#include <sys/mman.h>
#include <unistd.h>

enum { OWN = 1, PEER = 2, MEMORY = 68, LIMIT = 100, SLOTS = LW_FRAME_WINDOW * LIMIT };

/* One message of four bytes from 2 to 1, and its acknowledgement. */
static const uint8_t whole_case[38] = {
    0x01, 0x00, 0x02, 0x00, 0x00, 0x00, 0x00, 0x00, 0x00, 0x01, /* frame header */
    0x00, 0x00, 0x00, 0x00, 0x40, 0x00, 0x00, 0x00, 0x44, 0x33, 0x22, 0x11,
    0x01, 0x00, 0x00, 0x00, 0x00, 0x00, 0x00, 0x00, 0x04, 0x00, 0x00, 0x00,
    0x0a, 0x0b, 0x0c, 0x0d /* data */
};
static const uint8_t whole_acknowledgement[10] = {0x02, 0x00, 0x01, 0x00, 0x00,
                                                  0x00, 0x00, 0x00, 0x01, 0x00};

/* ---- Frames ------------------------------------------------------------ */

struct message {
    uint32_t transaction;
    uint32_t completion;
    uint32_t value;
    uint16_t count;
    uint32_t address;
    uint16_t length;
};

static void put16(uint8_t *at, uint32_t value)
{
    at[0] = (uint8_t)(value & 0xff);
    at[1] = (uint8_t)(value >> 8 & 0xff);
}

static void put32(uint8_t *at, uint32_t value)
{
    put16(at, value & 0xffff);
    put16(at + 2, value >> 16);
}

/* Lays out a frame from the peer, whose data bytes are all 0xdd. Gives its length. */
static size_t lay_out(uint8_t *frame, uint32_t number, const struct message *messages, size_t count)
{
    size_t end = LW_FRAME_HEADER;

    memset(frame, 0, LW_FRAME_HEADER);
    put16(frame, OWN);
    put16(frame + 2, PEER);
    put16(frame + 4, number);
    frame[9] = count > 0;
    for (size_t i = 0; i < count; i++) {
        const size_t start = LW_FRAME_HEADER + (end - LW_FRAME_HEADER + 7) / 8 * 8;
        uint8_t *header = frame + start;
        memset(frame + end, 0, start - end + LW_MESSAGE_HEADER);
        put32(header, messages[i].transaction);
        put32(header + 4, messages[i].completion);
        put32(header + 8, messages[i].value);
        put16(header + 12, messages[i].count);
        put32(header + 16, messages[i].address);
        put16(header + 20, messages[i].length);
        header[23] = i + 1 < count;
        memset(header + LW_MESSAGE_HEADER, 0xdd, messages[i].length);
        end = start + LW_MESSAGE_HEADER + messages[i].length;
    }
    return end;
}

/* A bare message: it completes its transaction at once. */
static struct message bare(uint32_t transaction)
{
    const struct message message = {.transaction = transaction};
    return message;
}

/* ---- The host ---------------------------------------------------------- */

/* A host with its memory, and a plain host with its own. */
struct receiver {
    lw_host host;
    uint8_t memory[MEMORY];
    lw_plain plain;
    uint8_t plain_memory[MEMORY];
};

static struct receiver fresh_receiver(void)
{
    struct receiver receiver;

    memset(&receiver, 0, sizeof receiver);
    check("opening a host", 0, lw_host_open(&receiver.host, OWN, PEER), LW_NOT_REFUSED);
    check("opening a plain host", 0, lw_plain_open(&receiver.plain, OWN, PEER), LW_NOT_REFUSED);
    return receiver;
}

static void check_answer(unsigned long at, const lw_answer *got, lw_answer want)
{
    check("kind", at, got->kind, want.kind);
    check("number", at, got->number, want.number);
    check("messages", at, got->messages, want.messages);
    check("bytes", at, got->bytes, want.bytes);
    check("completed", at, got->completed, want.completed);
    check("refusal", at, got->refusal, want.refusal);
    check("place", at, got->place, want.place);
    check("run", at, got->run, want.run);
}

/* The plain host is to answer the same and to leave the same memory. */
static void check_plain(unsigned long at, struct receiver *receiver, const uint8_t *frame,
                        size_t length, lw_answer want)
{
    const lw_plain before = receiver->plain;
    lw_answer answer;

    memset(&answer, 0xff, sizeof answer);
    check("returned kind, plain", at,
          lw_plain_receive(&receiver->plain, frame, length, receiver->plain_memory,
                           sizeof receiver->plain_memory, &answer),
          want.kind);
    check_answer(at, &answer, want);
    check_bytes("memory, plain", at, receiver->memory, receiver->plain_memory,
                sizeof receiver->memory);
    if (want.kind != LW_ACCEPTED)
        check_bytes("plain host as it was", at, &before, &receiver->plain, sizeof before);
}

/* Receives a frame and checks the answer, of which what is not given is 0. Unless it
 * is accepted, host and memory have to stay as they are. */
static void check_receive(unsigned long at, struct receiver *receiver, const uint8_t *frame,
                          size_t length, lw_answer want)
{
    const struct receiver before = *receiver;
    lw_answer answer;

    memset(&answer, 0xff, sizeof answer);
    const uint32_t kind = lw_host_receive(&receiver->host, frame, length, receiver->memory,
                                          sizeof receiver->memory, &answer);
    check("returned kind", at, kind, want.kind);
    check_answer(at, &answer, want);
    if (want.kind != LW_ACCEPTED) {
        check_bytes("host as it was", at, &before.host, &receiver->host, sizeof before.host);
        check_bytes("memory as it was", at, before.memory, receiver->memory, sizeof before.memory);
    }
    check_plain(at, receiver, frame, length, want);
}

/* With a run of one. */
static lw_answer accepted(uint64_t number, uint64_t messages, uint64_t bytes, uint64_t completed)
{
    const lw_answer answer = {LW_ACCEPTED, number, messages, bytes, completed, 0, 0, 1};
    return answer;
}

/* With a run of one. */
static lw_answer again(uint64_t number)
{
    const lw_answer answer = {LW_AGAIN, number, 0, 0, 0, 0, 0, 1};
    return answer;
}

static lw_answer with_run(lw_answer answer, uint64_t run)
{
    answer.run = run;
    return answer;
}

static lw_answer refused(uint64_t refusal, uint64_t place)
{
    const lw_answer answer = {LW_REFUSED, 0, 0, 0, 0, refusal, place, 0};
    return answer;
}

/* Receives a frame of these messages. */
static void check_frame(unsigned long at, struct receiver *receiver, uint32_t number,
                        const struct message *messages, size_t count, lw_answer want)
{
    uint8_t frame[1000];
    const size_t length = lay_out(frame, number, messages, count);

    check_receive(at, receiver, frame, length, want);
}

static void check_whole_case_at_host(void)
{
    struct receiver receiver = fresh_receiver();
    uint8_t want[MEMORY] = {0x0a, 0x0b, 0x0c, 0x0d};
    uint8_t acknowledgement[LW_ACKNOWLEDGEMENT];
    lw_answer answer;

    put32(want + 64, 0x11223344);
    check_receive(0, &receiver, whole_case, sizeof whole_case, accepted(0, 1, 4, 1));
    check_bytes("memory", 0, receiver.memory, want, sizeof want);
    check_receive(1, &receiver, whole_case, sizeof whole_case, again(0));

    for (unsigned kind = LW_ACCEPTED; kind <= LW_AGAIN; kind++) {
        answer = kind == LW_ACCEPTED ? accepted(0, 1, 4, 1) : again(0);
        check("acknowledgement due", kind,
              lw_host_acknowledge(&receiver.host, &answer, 0, acknowledgement), 1);
        check_bytes("acknowledgement", kind, acknowledgement, whole_acknowledgement,
                    sizeof acknowledgement);
        memset(acknowledgement, 0xee, sizeof acknowledgement);
        check("acknowledgement due, plain", kind,
              lw_plain_acknowledge(&receiver.plain, &answer, 0, acknowledgement), 1);
        check_bytes("acknowledgement, plain", kind, acknowledgement, whole_acknowledgement,
                    sizeof acknowledgement);
    }
    end_group("whole case at the host");
}

static void check_acknowledgements(void)
{
    const struct receiver receiver = fresh_receiver();
    uint8_t acknowledgement[LW_ACKNOWLEDGEMENT];
    uint8_t want[LW_ACKNOWLEDGEMENT] = {PEER, 0, OWN, 0, 0x34, 0x12, 0xfe, 0xff, 0, 0};

    /* Of the run's word the low 8 bits count. */
    for (unsigned run = 1; run < 600; run++) {
        const lw_answer high = with_run(again(65534), run);
        want[8] = (uint8_t)run;
        if (want[8] == 0)
            continue;
        check("due", run, lw_host_acknowledge(&receiver.host, &high, 0x1234, acknowledgement), 1);
        check_bytes("bytes", run, acknowledgement, want, sizeof want);
        memset(acknowledgement, 0xee, sizeof acknowledgement);
        check("due, plain", run,
              lw_plain_acknowledge(&receiver.plain, &high, 0x1234, acknowledgement), 1);
        check_bytes("bytes, plain", run, acknowledgement, want, sizeof want);
    }

    /* No other answer calls for one, nor does a run of none, and then nothing is written. */
    for (unsigned kind = 0; kind < 300; kind++) {
        const int due = kind == LW_ACCEPTED || kind == LW_AGAIN;
        const lw_answer answer = {.kind = kind, .number = 5, .run = due ? 0 : 1};
        memset(acknowledgement, 0xee, sizeof acknowledgement);
        check("due", kind, lw_host_acknowledge(&receiver.host, &answer, 0, acknowledgement), 0);
        check("due, plain", kind,
              lw_plain_acknowledge(&receiver.plain, &answer, 0, acknowledgement), 0);
        for (size_t i = 0; i < sizeof acknowledgement; i++)
            check("unwritten", i, acknowledgement[i], 0xee);
    }
    end_group("acknowledgements");
}

static void check_host_opening(void)
{
    static const uint16_t ids[] = {0, 1, 2, 65535};
    lw_description description;
    lw_plain plain;
    lw_host host;

    for (size_t own = 0; own < 4; own++) {
        for (size_t peer = 0; peer < 4; peer++) {
            const int zero = ids[own] == 0 || ids[peer] == 0;
            memset(&host, 0xff, sizeof host);
            check("opening", own * 4 + peer, lw_host_open(&host, ids[own], ids[peer]),
                  zero ? LW_REFUSED_ID_ZERO : LW_NOT_REFUSED);
            memset(&plain, 0xff, sizeof plain);
            check("opening a plain host", own * 4 + peer, lw_plain_open(&plain, ids[own], ids[peer]),
                  zero ? LW_REFUSED_ID_ZERO : LW_NOT_REFUSED);
            check("own, plain", own, plain.own, zero ? 0 : ids[own]);
            check("peer, plain", peer, plain.peer, zero ? 0 : ids[peer]);
            check("next and lowest, plain", 0, plain.next + plain.lowest, 0);
            lw_host_describe(&host, &description);
            check("own", own, description.own, zero ? 0 : ids[own]);
            check("peer", peer, description.peer, zero ? 0 : ids[peer]);
            check("next", 0, description.next, 0);
            check("marks", 0, description.marks, 0);
            check("lowest", 0, description.lowest, 0);
            check("closed", 0, description.closed, 0);
            check("open", 0, description.open, 0);
        }
    }
    end_group("opening a host");
}

static void check_wire_refusals(void)
{
    static uint8_t frame[LW_LONGEST_FRAME + 1];
    struct receiver receiver = fresh_receiver();

    memcpy(frame, whole_case, sizeof whole_case);
    check_receive(1, &receiver, frame, 9, refused(LW_REFUSED_FRAME_TOO_SHORT, 0));
    check_receive(2, &receiver, frame, sizeof frame, refused(LW_REFUSED_FRAME_TOO_LONG, 0));
    check_receive(5, &receiver, frame, 37, refused(LW_REFUSED_PAST_FRAME_END, 0));
    frame[0] = 3;
    check_receive(3, &receiver, frame, 38, refused(LW_REFUSED_WRONG_ID, 0));
    frame[0] = 1;
    frame[3] = 1;
    check_receive(3, &receiver, frame, 38, refused(LW_REFUSED_WRONG_ID, 0));
    frame[3] = 0;
    frame[9] = 3;
    check_receive(4, &receiver, frame, 38, refused(LW_REFUSED_RESERVED_FLAG, 0));
    frame[9] = 0;
    check_receive(0, &receiver, frame, 38, (lw_answer){.kind = LW_NO_MESSAGES});
    check_receive(0, &receiver, frame, 10, (lw_answer){.kind = LW_NO_MESSAGES});
    end_group("refusals 1 to 5 and no messages");
}

/* Both sides of each edge of the window of frames. */
static void check_frame_window(void)
{
    const struct message message = bare(0);
    struct receiver receiver = fresh_receiver();

    check_frame(64, &receiver, 64, &message, 1, refused(LW_REFUSED_FRAME_AHEAD, 0));
    check_frame(32767, &receiver, 32767, &message, 1, refused(LW_REFUSED_FRAME_AHEAD, 0));
    check_frame(32768, &receiver, 32768, &message, 1, with_run(again(32768), 255));
    check_frame(65535, &receiver, 65535, &message, 1, again(65535));
    check_frame(63, &receiver, 63, &message, 1, accepted(63, 1, 0, 1));
    check_frame(63, &receiver, 63, &message, 1, again(63));

    lw_description description;
    lw_host_describe(&receiver.host, &description);
    check("next", 0, description.next, 0);
    check("marks", 0, description.marks, (uint64_t)1 << 63);
    for (uint32_t number = 0; number < 63; number++) {
        const struct message next = bare(1 + number);
        /* The last one joins frame 63. */
        check_frame(number, &receiver, number, &next, 1,
                    with_run(accepted(number, 1, 0, 1), number == 62 ? 2 : 1));
    }
    lw_host_describe(&receiver.host, &description);
    check("next moved past all", 0, description.next, 64);
    check("marks", 0, description.marks, 0);
    check("lowest", 0, description.lowest, 64);
    end_group("window of frames");
}

/* What one acknowledgement covers: numbers behind, also those that never came, frames
 * that a hole keeps apart, and all of them once it is filled. */
static void check_runs(void)
{
    static const struct {
        uint32_t number;
        uint32_t kind;
        uint64_t run;
    } cases[] = {
        {65535, LW_AGAIN, 1},  {65500, LW_AGAIN, 36},   {65282, LW_AGAIN, 254},
        {65281, LW_AGAIN, 255}, {65280, LW_AGAIN, 255}, {2, LW_ACCEPTED, 1},
        {3, LW_ACCEPTED, 1},   {2, LW_AGAIN, 2},        {5, LW_ACCEPTED, 1},
        {1, LW_ACCEPTED, 3},   {65535, LW_AGAIN, 1},    {0, LW_ACCEPTED, 4},
        {65500, LW_AGAIN, 40}, {4, LW_ACCEPTED, 2},     {0, LW_AGAIN, 6},
    };
    const struct message message = {.count = 65535};
    struct receiver receiver = fresh_receiver();

    for (size_t i = 0; i < sizeof cases / sizeof cases[0]; i++) {
        const uint32_t number = cases[i].number;
        const lw_answer one =
            cases[i].kind == LW_AGAIN ? again(number) : accepted(number, 1, 0, 0);
        const lw_answer want = with_run(one, cases[i].run);
        uint8_t acknowledgement[LW_ACKNOWLEDGEMENT];
        check_frame(i, &receiver, number, &message, 1, want);
        check("due", i, lw_host_acknowledge(&receiver.host, &want, 0, acknowledgement), 1);
        check("start", i, lw_ack_start(acknowledgement, sizeof acknowledgement), number);
        check("count", i, lw_ack_count(acknowledgement, sizeof acknowledgement), want.run);
    }
    for (uint32_t number = 6; number < 300; number++)
        check_frame(number, &receiver, number, &message, 1, accepted(number, 1, 0, 0));
    check_frame(0, &receiver, 0, &message, 1, with_run(again(0), 255));
    check_frame(45, &receiver, 45, &message, 1, with_run(again(45), 255));
    check_frame(46, &receiver, 46, &message, 1, with_run(again(46), 254));
    end_group("runs");
}

/* All 64 marks set, which no run of a host reaches: a run ends with the window. */
static void check_all_marks(void)
{
    const struct message message = {.count = 65535};
    struct receiver receiver = fresh_receiver();

    receiver.host.words[1] = UINT64_MAX;
    memset(receiver.plain.accepted, 0xff, sizeof receiver.plain.accepted);
    for (uint32_t number = 0; number < 64; number++)
        check_frame(number, &receiver, number, &message, 1, with_run(again(number), 64 - number));
    check_frame(64, &receiver, 64, &message, 1, refused(LW_REFUSED_FRAME_AHEAD, 0));
    for (uint32_t behind = 1; behind < 300; behind++) {
        const uint32_t number = 65536 - behind;
        const uint64_t run = behind + 64 < 255 ? behind + 64 : 255;
        check_frame(number, &receiver, number, &message, 1, with_run(again(number), run));
    }
    end_group("all marks set");
}

/* Receives a good message and then this one, for which both are refused. */
static void check_second(struct receiver *receiver, struct message second, uint32_t refusal)
{
    const struct message two[2] = {{.count = 2, .completion = 64, .value = 7, .length = 8}, second};

    check_frame(refusal, receiver, 0, two, 2, refused(refusal, 1));
}

static void check_transaction_refusals(void)
{
    struct receiver receiver = fresh_receiver();
    const struct message first = {.count = 2, .completion = 64, .value = 7, .length = 8};
    struct message second = first;

    check_second(&receiver, bare(32), LW_REFUSED_TRANSACTION_OUTSIDE_WINDOW);
    check_second(&receiver, bare(UINT32_MAX), LW_REFUSED_TRANSACTION_OUTSIDE_WINDOW);
    second.value++;
    check_second(&receiver, second, LW_REFUSED_TRANSACTION_DIFFERS);
    second = first;
    second.count++;
    check_second(&receiver, second, LW_REFUSED_TRANSACTION_DIFFERS);
    second = first;
    second.completion--;
    check_second(&receiver, second, LW_REFUSED_TRANSACTION_DIFFERS);
    second = bare(1);
    second.length = 1;
    check_second(&receiver, second, LW_REFUSED_BARE_WITH_DATA);

    second = bare(31);
    check_frame(0, &receiver, 0, &second, 1, accepted(0, 1, 0, 1));
    check_frame(8, &receiver, 1, &second, 1, refused(LW_REFUSED_TRANSACTION_CLOSED, 0));
    end_group("refusals 7 to 10");
}

/* Both sides of the end of memory, which has 68 bytes. */
static void check_memory_refusals(void)
{
    struct receiver receiver = fresh_receiver();
    struct message message = {.transaction = 1, .count = 1, .completion = 64, .length = 2};

    message.address = 67;
    check_second(&receiver, message, LW_REFUSED_DATA_OUTSIDE_MEMORY);
    message.address = UINT32_MAX;
    check_second(&receiver, message, LW_REFUSED_DATA_OUTSIDE_MEMORY);
    message.length = 0;
    message.address = 69;
    check_second(&receiver, message, LW_REFUSED_DATA_OUTSIDE_MEMORY);
    message.address = 68;
    message.completion = 65;
    check_second(&receiver, message, LW_REFUSED_COMPLETION_OUTSIDE_MEMORY);
    message.completion = UINT32_MAX - 1;
    check_second(&receiver, message, LW_REFUSED_COMPLETION_OUTSIDE_MEMORY);

    message.completion = 64;
    message.value = 7;
    check_frame(0, &receiver, 0, &message, 1, accepted(0, 1, 0, 1));
    check("completion", 0, receiver.memory[64], 7);
    message = (struct message){.count = 1, .address = 60, .length = 8};
    check_frame(1, &receiver, 1, &message, 1, accepted(1, 1, 8, 1));
    check("before the data", 0, receiver.memory[59], 0);
    check("data", 0, receiver.memory[60], 0xdd);
    check("last byte", 0, receiver.memory[67], 0xdd);
    end_group("refusals 11 and 12");
}

static void check_description(void)
{
    struct receiver receiver = fresh_receiver();
    const struct message five = {5, 64, 0xcafe, 3, 0, 1};
    const struct message two = {2, 60, 0xbeef, 2, 8, 1};
    const struct message messages[4] = {five, two, five, bare(1)};
    static const uint64_t want[2][5] = {{2, 60, 0xbeef, 2, 1}, {5, 64, 0xcafe, 3, 2}};
    lw_description description;

    check_frame(0, &receiver, 3, messages, 4, accepted(3, 4, 3, 1));
    memset(&description, 0xff, sizeof description);
    lw_host_describe(&receiver.host, &description);
    check("own", 0, description.own, OWN);
    check("peer", 0, description.peer, PEER);
    check("next", 0, description.next, 0);
    check("marks", 0, description.marks, 8);
    check("lowest", 0, description.lowest, 0);
    check("closed", 0, description.closed, 2);
    check("open", 0, description.open, 2);
    for (size_t i = 0; i < LW_TRANSACTION_WINDOW; i++) {
        const lw_transaction *open = &description.transactions[i];
        check("transaction", i, open->number, i < 2 ? want[i][0] : 0);
        check("its address", i, open->address, i < 2 ? want[i][1] : 0);
        check("its value", i, open->value, i < 2 ? want[i][2] : 0);
        check("its count", i, open->count, i < 2 ? want[i][3] : 0);
        check("received", i, open->received, i < 2 ? want[i][4] : 0);
    }

    /* A copy is a snapshot: what is done to it leaves the first as it is. */
    struct receiver copy = receiver;
    check_frame(0, &copy, 0, &two, 1, accepted(0, 1, 1, 1));
    check_frame(0, &receiver, 0, &two, 1, accepted(0, 1, 1, 1));
    check_bytes("same state", 0, &copy, &receiver, sizeof copy);
    end_group("description of a host, and copies");
}

/* ---- The card ---------------------------------------------------------- */

/* A card with its slots. */
struct sender {
    lw_card card;
    uint8_t slots[SLOTS];
};

static void open_sender(struct sender *sender)
{
    memset(sender->slots, 0xa5, sizeof sender->slots);
    check("opening a card", 0,
          lw_card_open(&sender->card, PEER, OWN, LIMIT, sender->slots, sizeof sender->slots),
          LW_NOT_REFUSED);
}

static uint32_t open_transaction(struct sender *sender, uint16_t count)
{
    uint32_t transaction = UINT32_MAX;

    check("opening a transaction", count,
          lw_card_open_transaction(&sender->card, count, 0, 0, &transaction), LW_NOT_REFUSED);
    return transaction;
}

static uint32_t add(struct sender *sender, uint32_t transaction, const uint8_t *data, size_t length)
{
    return lw_card_add(&sender->card, sender->slots, sizeof sender->slots, transaction, 0, data,
                       length);
}

static uint32_t seal(struct sender *sender, uint16_t *number)
{
    return lw_card_seal(&sender->card, sender->slots, sizeof sender->slots, number);
}

static uint32_t show(const struct sender *sender, uint16_t number, lw_part *part)
{
    return lw_card_show(&sender->card, sender->slots, sizeof sender->slots, number, part);
}

static uint32_t choose(const struct sender *sender, const uint8_t *lent, size_t length,
                       lw_part *part)
{
    return lw_card_choose(&sender->card, sender->slots, sizeof sender->slots, lent, length, part);
}

/* Acknowledges one frame. */
static uint32_t acknowledge(struct sender *sender, uint32_t number)
{
    uint8_t frame[LW_ACKNOWLEDGEMENT];

    memcpy(frame, whole_acknowledgement, sizeof frame);
    put16(frame + 6, number);
    return lw_card_read(&sender->card, frame, sizeof frame);
}

static void check_part(unsigned long at, lw_part part, const uint8_t *start, size_t length)
{
    check("part's start", at, part.start == start, 1);
    check("part's length", at, part.length, length);
}

static void check_whole_case_at_card(void)
{
    static struct sender sender;
    const uint8_t data[4] = {0x0a, 0x0b, 0x0c, 0x0d};
    uint32_t transaction = 9;
    uint16_t number = 9;
    lw_part part;

    open_sender(&sender);
    check("open", 0, lw_card_open_transaction(&sender.card, 1, 64, 0x11223344, &transaction), 0);
    check("transaction", 0, transaction, 0);
    check("add", 0, add(&sender, 0, data, sizeof data), 0);
    check("show before sealing", 0, show(&sender, 0, &part), LW_REFUSED_NOT_HELD);
    check_part(0, part, NULL, 0);
    check("seal", 0, seal(&sender, &number), 0);
    check("number", 0, number, 0);
    check_bytes("frame", 0, sender.slots, whole_case, sizeof whole_case);
    for (size_t i = sizeof whole_case; i < sizeof sender.slots; i++)
        check("no other slot byte", i, sender.slots[i], 0xa5);

    check("show", 0, show(&sender, 0, &part), 0);
    check_part(1, part, sender.slots, sizeof whole_case);
    check("choose", 0, choose(&sender, NULL, 0, &part), 0);
    check_part(2, part, sender.slots, sizeof whole_case);
    check("choose with a lent one", 0,
          choose(&sender, whole_acknowledgement, sizeof whole_acknowledgement, &part), 0);
    check_part(3, part, whole_acknowledgement, sizeof whole_acknowledgement);
    check("choose with a short one", 0, choose(&sender, whole_acknowledgement, 9, &part), 0);
    check_part(4, part, sender.slots, sizeof whole_case);

    check("read", 0, lw_card_read(&sender.card, whole_acknowledgement, 10), 0);
    check("show", 0, show(&sender, 0, &part), LW_REFUSED_NOT_HELD);
    check_part(5, part, NULL, 0);
    check("choose", 0, choose(&sender, NULL, 0, &part), LW_REFUSED_NOT_HELD);
    check_part(6, part, NULL, 0);
    end_group("whole case at the card");
}

static void check_card_opening(void)
{
    static const struct {
        uint16_t own, peer;
        size_t limit, size;
        uint32_t refusal;
    } openings[] = {{0, 1, 33, 0, LW_REFUSED_ID_ZERO},
                    {1, 0, 33, 0, LW_REFUSED_ID_ZERO},
                    {2, 1, 33, 2112, LW_REFUSED_BAD_LIMIT_OR_SLOTS},
                    {2, 1, 34, 2175, LW_REFUSED_BAD_LIMIT_OR_SLOTS},
                    {2, 1, 34, 2177, LW_REFUSED_BAD_LIMIT_OR_SLOTS},
                    {2, 1, 9001, 576064, LW_REFUSED_BAD_LIMIT_OR_SLOTS},
                    {2, 1, SIZE_MAX, 576000, LW_REFUSED_BAD_LIMIT_OR_SLOTS},
                    {2, 1, (size_t)1 << 58, 0, LW_REFUSED_BAD_LIMIT_OR_SLOTS},
                    {2, 1, 34, 2176, LW_NOT_REFUSED},
                    {65535, 65535, 9000, 576000, LW_NOT_REFUSED}};
    static uint8_t slots[LW_SLOTS_SIZE(LW_LONGEST_FRAME) + 64];
    lw_card card;
    uint16_t number = 77;

    for (size_t i = 0; i < sizeof openings / sizeof openings[0]; i++) {
        memset(&card, 0xff, sizeof card);
        check("opening", i,
              lw_card_open(&card, openings[i].own, openings[i].peer, openings[i].limit, slots,
                           openings[i].size),
              openings[i].refusal);
        /* A card that was refused has limit 0, so no slots fit it. */
        check("sealing", i, lw_card_seal(&card, slots, openings[i].size, &number),
              openings[i].refusal == LW_NOT_REFUSED ? LW_REFUSED_NOTHING_TO_SEAL
                                                    : LW_REFUSED_BAD_LIMIT_OR_SLOTS);
        check("number as it was", i, number, 77);
    }
    end_group("opening a card");
}

/* Adds a message, which has to be refused and to change nothing. */
static void check_refused_add(struct sender *sender, uint32_t transaction, size_t length,
                              uint32_t want)
{
    static struct sender before;
    const uint8_t data[LIMIT] = {0};

    before = *sender;
    check("add", want, add(sender, transaction, data, length), want);
    check_bytes("card and slots as they were", want, &before, sender, sizeof before);
}

/* Seals with slots of this size, which has to be refused and to change nothing. */
static void check_refused_seal(struct sender *sender, size_t size, uint32_t want)
{
    const lw_card before = sender->card;
    uint16_t number = 77;

    check("seal", want, lw_card_seal(&sender->card, sender->slots, size, &number), want);
    check("number as it was", want, number, 77);
    check_bytes("card as it was", want, &before, &sender->card, sizeof before);
}

/* Opens a transaction, which has to be refused and to change nothing. */
static void check_refused_transaction(struct sender *sender)
{
    const lw_card before = sender->card;
    uint32_t transaction = 77;

    check("transaction", 0, lw_card_open_transaction(&sender->card, 1, 0, 0, &transaction),
          LW_REFUSED_TRANSACTION_WINDOW_FULL);
    check("transaction as it was", 0, transaction, 77);
    check_bytes("card as it was", 0, &before, &sender->card, sizeof before);
}

static void check_card_refusals(void)
{
    static struct sender sender;

    open_sender(&sender);
    check_refused_add(&sender, 0, 0, LW_REFUSED_NO_MESSAGE_LEFT);
    check_refused_seal(&sender, sizeof sender.slots, LW_REFUSED_NOTHING_TO_SEAL);
    open_transaction(&sender, 0);
    open_transaction(&sender, 2);
    check_refused_add(&sender, 0, 1, LW_REFUSED_DATA_FOR_BARE);
    check_refused_add(&sender, 1, LIMIT - 33, LW_REFUSED_FRAME_FULL);
    check("add", 0, add(&sender, 0, NULL, 0), 0);
    check_refused_add(&sender, 0, 0, LW_REFUSED_NO_MESSAGE_LEFT);
    check_refused_add(&sender, 2, 0, LW_REFUSED_NO_MESSAGE_LEFT);
    check_refused_add(&sender, UINT32_MAX, 0, LW_REFUSED_NO_MESSAGE_LEFT);
    for (unsigned i = 2; i < LW_TRANSACTION_WINDOW; i++)
        check("transaction", i, open_transaction(&sender, 1), i);
    check_refused_transaction(&sender);
    check("wrong slots", 0,
          lw_card_add(&sender.card, sender.slots, sizeof sender.slots - 1, 1, 0, NULL, 0),
          LW_REFUSED_BAD_LIMIT_OR_SLOTS);
    check_refused_seal(&sender, sizeof sender.slots - 1, LW_REFUSED_BAD_LIMIT_OR_SLOTS);

    lw_part part;
    check("wrong slots", 0,
          lw_card_show(&sender.card, sender.slots, sizeof sender.slots + 1, 0, &part),
          LW_REFUSED_BAD_LIMIT_OR_SLOTS);
    check_part(0, part, NULL, 0);
    check("wrong slots", 0,
          lw_card_choose(&sender.card, sender.slots, sizeof sender.slots + 1,
                         whole_acknowledgement, 10, &part),
          LW_REFUSED_BAD_LIMIT_OR_SLOTS);
    check_part(1, part, NULL, 0);
    end_group("refusals 20 to 27");
}

static void check_full_window(void)
{
    static struct sender sender;
    uint16_t number;
    lw_part part;

    open_sender(&sender);
    open_transaction(&sender, 1000);
    for (unsigned i = 0; i < LW_FRAME_WINDOW; i++) {
        check("add", i, add(&sender, 0, NULL, 0), 0);
        check("seal", i, seal(&sender, &number), 0);
        check("number", i, number, i);
    }
    check_refused_add(&sender, 0, 0, LW_REFUSED_FRAME_WINDOW_FULL);

    /* Frame 1 is acknowledged and not released: 0 is still to come. */
    check("read", 1, acknowledge(&sender, 1), 0);
    check("show", 1, show(&sender, 1, &part), LW_REFUSED_NOT_HELD);
    check_refused_add(&sender, 0, 0, LW_REFUSED_FRAME_WINDOW_FULL);
    check("choose", 1, choose(&sender, NULL, 0, &part), 0);
    check_part(1, part, sender.slots, 34);
    check("read", 0, acknowledge(&sender, 0), 0);
    check("choose", 2, choose(&sender, NULL, 0, &part), 0);
    check_part(2, part, sender.slots + 2 * LIMIT, 34);
    check("add", 64, add(&sender, 0, NULL, 0), 0);
    check("seal", 64, seal(&sender, &number), 0);
    check("number", 64, number, 64);
    check("show", 64, show(&sender, 64, &part), 0);
    check_part(64, part, sender.slots, 34);
    end_group("window of 64 sealed frames");
}

/* Both sides of the frame limit, and what adding a second message writes. */
static void check_limit(void)
{
    static uint8_t slots[LW_SLOTS_SIZE(66)];
    static const uint8_t data[1] = {0xff};

    for (size_t limit = 34; limit <= 66; limit++) {
        const size_t size = LW_SLOTS_SIZE(limit);
        uint32_t transaction;
        lw_card card;

        check("open", limit, lw_card_open(&card, PEER, OWN, limit, slots, size), 0);
        check("transaction", limit, lw_card_open_transaction(&card, 2, 0, 0, &transaction), 0);
        check("length 1", limit, lw_card_add(&card, slots, size, 0, 0, data, 1),
              limit == 34 ? LW_REFUSED_FRAME_FULL : LW_NOT_REFUSED);
        check("second message", limit, lw_card_add(&card, slots, size, 0, 0, NULL, 0),
              limit == 34 || limit == 66 ? LW_NOT_REFUSED : LW_REFUSED_FRAME_FULL);
    }
    check("trailing byte", 0, slots[33], 1);
    for (size_t i = 35; i < 42; i++)
        check("gap", i, slots[i], 0);
    check("trailing byte", 1, slots[65], 0);
    end_group("frame limit");
}

/* Reads a frame, which has to be refused and to change nothing. */
static void check_refused_read(struct sender *sender, const uint8_t *frame, size_t length,
                               uint32_t want)
{
    const lw_card before = sender->card;

    check("read", want, lw_card_read(&sender->card, frame, length), want);
    check_bytes("card as it was", want, &before, &sender->card, sizeof before);
}

static void check_reading(void)
{
    static struct sender sender;
    static uint8_t frame[LW_LONGEST_FRAME + 1];
    lw_part part;
    uint16_t number;

    open_sender(&sender);
    open_transaction(&sender, 1);
    check("add", 0, add(&sender, 0, NULL, 0), 0);
    check("seal", 0, seal(&sender, &number), 0);
    memcpy(frame, whole_acknowledgement, sizeof whole_acknowledgement);
    check_refused_read(&sender, frame, 9, LW_REFUSED_FRAME_TOO_SHORT);
    check_refused_read(&sender, frame, sizeof frame, LW_REFUSED_FRAME_TOO_LONG);
    frame[9] = 1;
    check_refused_read(&sender, frame, 10, LW_REFUSED_PAST_FRAME_END);
    frame[9] = 2;
    check_refused_read(&sender, frame, 10, LW_REFUSED_RESERVED_FLAG);
    frame[0] = 9;
    check_refused_read(&sender, frame, 10, LW_REFUSED_WRONG_ID);
    check("still held", 0, show(&sender, 0, &part), 0);

    /* A range that wraps: 65,535 and 0. */
    memcpy(frame, whole_acknowledgement, sizeof whole_acknowledgement);
    put16(frame + 6, 65535);
    frame[8] = 2;
    check("range", 0, lw_card_read(&sender.card, frame, 10), 0);
    check("not held", 0, show(&sender, 0, &part), LW_REFUSED_NOT_HELD);
    end_group("reading acknowledgements");
}

/* ---- Both -------------------------------------------------------------- */

static uint64_t next_random(uint64_t *seed)
{
    *seed += 0x9e3779b97f4a7c15;
    uint64_t mixed = *seed;
    mixed = (mixed ^ mixed >> 30) * 0xbf58476d1ce4e5b9;
    mixed = (mixed ^ mixed >> 27) * 0x94d049bb133111eb;
    return mixed ^ mixed >> 31;
}

/* What a card sends arrives, while all frame numbers wrap. */
static void check_coming_round(void)
{
    enum { FRAMES = 66000 };
    static struct sender sender;
    struct receiver receiver = fresh_receiver();
    uint8_t acknowledgement[LW_ACKNOWLEDGEMENT];
    lw_answer answer;
    lw_part part;
    uint16_t number;

    open_sender(&sender);
    for (uint32_t i = 0; i < FRAMES; i++) {
        uint8_t data[4];
        uint32_t transaction = UINT32_MAX;
        put32(data, i);
        check("open", i, lw_card_open_transaction(&sender.card, 1, 64, ~i, &transaction), 0);
        check("transaction", i, transaction, i);
        check("add", i, add(&sender, transaction, data, sizeof data), 0);
        check("seal", i, seal(&sender, &number), 0);
        check("choose", i, choose(&sender, NULL, 0, &part), 0);
        check("kind", i,
              lw_host_receive(&receiver.host, part.start, part.length, receiver.memory,
                              sizeof receiver.memory, &answer),
              LW_ACCEPTED);
        check("number", i, answer.number, i % 65536);
        check("run", i, answer.run, 1);
        check_bytes("data", i, receiver.memory, data, sizeof data);
        put32(data, ~i);
        check_bytes("completion", i, receiver.memory + 64, data, sizeof data);
        check("due", i, lw_host_acknowledge(&receiver.host, &answer, 0, acknowledgement), 1);
        check("read", i, lw_card_read(&sender.card, acknowledgement, sizeof acknowledgement), 0);
    }
    end_group("frame numbers that wrap");
}

/* Transactions of a card, each of one message of four bytes, and a completion of four. */
enum { BILLED = 3000 };

/* A plain host, its memory and what it has billed. */
struct plain_end {
    lw_plain host;
    uint8_t memory[8 * BILLED];
    uint64_t messages, completed, repeats;
};

/* Opens, adds and seals until the card's window is full or all is sealed; gives how many are. */
static uint32_t seal_more(struct sender *sender, uint32_t sealed)
{
    uint32_t transaction = UINT32_MAX;
    uint16_t number;

    while (sealed < BILLED &&
           lw_card_open_transaction(&sender->card, 1, 4 * (BILLED + sealed), ~sealed,
                                    &transaction) == LW_NOT_REFUSED) {
        uint8_t data[4];
        put32(data, sealed + 1);
        check("transaction", sealed, transaction, sealed);
        check("add", sealed,
              lw_card_add(&sender->card, sender->slots, sizeof sender->slots, transaction,
                          4 * sealed, data, sizeof data),
              LW_NOT_REFUSED);
        check("seal", sealed, seal(sender, &number), LW_NOT_REFUSED);
        sealed++;
    }
    return sealed;
}

/* Sends a frame; the card reads its acknowledgement unless that is lost. */
static void send_once(struct sender *sender, struct plain_end *end, lw_part frame, bool lost)
{
    uint8_t acknowledgement[LW_ACKNOWLEDGEMENT];
    lw_answer answer;
    const uint32_t kind = lw_plain_receive(&end->host, frame.start, frame.length, end->memory,
                                           sizeof end->memory, &answer);

    check("kind", 0, kind == LW_ACCEPTED || kind == LW_AGAIN, 1);
    end->messages += answer.messages;
    end->completed += answer.completed;
    end->repeats += kind == LW_AGAIN;
    check("due", 0, lw_plain_acknowledge(&end->host, &answer, 0, acknowledgement), 1);
    if (!lost)
        check("read", 0, lw_card_read(&sender->card, acknowledgement, sizeof acknowledgement), 0);
}

/* A card against the plain host by itself, over a path that loses, repeats and overtakes, until
 * the card holds nothing more: each transaction is in memory then, and was billed once. */
static void check_card_and_plain_host(void)
{
    static struct sender sender;
    static struct plain_end end;
    static uint8_t want[sizeof end.memory];
    uint64_t seed = 5;
    lw_part part;

    open_sender(&sender);
    check("plain host", 0, lw_plain_open(&end.host, OWN, PEER), LW_NOT_REFUSED);
    uint32_t sealed = seal_more(&sender, 0);
    while (choose(&sender, NULL, 0, &part) == LW_NOT_REFUSED) {
        lw_part other;
        const uint16_t latest = (uint16_t)(sealed - 1 - next_random(&seed) % 8);
        if (next_random(&seed) % 3 == 0 && show(&sender, latest, &other) == LW_NOT_REFUSED)
            part = other; /* it overtakes the oldest one */
        if (next_random(&seed) % 4 != 0)
            send_once(&sender, &end, part, next_random(&seed) % 4 == 0);
        sealed = seal_more(&sender, sealed);
    }
    for (uint32_t i = 0; i < BILLED; i++) {
        put32(want + 4 * i, i + 1);
        put32(want + 4 * (BILLED + i), ~i);
    }
    check("all were sealed", 0, sealed, BILLED);
    check("messages", 0, end.messages, BILLED);
    check("completed", 0, end.completed, BILLED);
    check("some were repeated", 0, end.repeats > 100, 1);
    check("next", 0, end.host.next, BILLED);
    check("lowest", 0, end.host.lowest, BILLED);
    check_bytes("memory", 0, end.memory, want, sizeof want);
    end_group("a card and the plain host, to the end");
}

static void check_null(void)
{
    lw_host host;
    lw_plain plain;
    lw_card card;
    lw_answer answer;
    lw_part part;
    uint16_t number;

    check("host", 0, lw_host_open(&host, OWN, PEER), 0);
    check("receive", 0, lw_host_receive(&host, NULL, 0, NULL, 0, &answer), LW_REFUSED);
    check("refusal", 0, answer.refusal, LW_REFUSED_FRAME_TOO_SHORT);
    check("receive", 1, lw_host_receive(&host, whole_case, 38, NULL, 0, &answer), LW_REFUSED);
    check("refusal", 1, answer.refusal, LW_REFUSED_DATA_OUTSIDE_MEMORY);
    check("plain host", 0, lw_plain_open(&plain, OWN, PEER), 0);
    check("receive, plain", 0, lw_plain_receive(&plain, NULL, 0, NULL, 0, &answer), LW_REFUSED);
    check("refusal, plain", 0, answer.refusal, LW_REFUSED_FRAME_TOO_SHORT);
    check("receive, plain", 1, lw_plain_receive(&plain, whole_case, 38, NULL, 0, &answer),
          LW_REFUSED);
    check("refusal, plain", 1, answer.refusal, LW_REFUSED_DATA_OUTSIDE_MEMORY);
    check("card", 0, lw_card_open(&card, OWN, PEER, 34, NULL, 0), LW_REFUSED_BAD_LIMIT_OR_SLOTS);
    check("add", 0, lw_card_add(&card, NULL, 0, 0, 0, NULL, 0), LW_REFUSED_BAD_LIMIT_OR_SLOTS);
    check("seal", 0, lw_card_seal(&card, NULL, 0, &number), LW_REFUSED_BAD_LIMIT_OR_SLOTS);
    check("read", 0, lw_card_read(&card, NULL, 0), LW_REFUSED_FRAME_TOO_SHORT);
    check("show", 0, lw_card_show(&card, NULL, 0, 0, &part), LW_REFUSED_BAD_LIMIT_OR_SLOTS);
    check_part(0, part, NULL, 0);
    check("choose", 0, lw_card_choose(&card, NULL, 0, NULL, 0, &part),
          LW_REFUSED_BAD_LIMIT_OR_SLOTS);
    check_part(1, part, NULL, 0);
    end_group("no bytes at NULL, both ends");
}

/* A buffer that ends at a closed page: a step past its end would be a fault. */
static uint8_t *with_closed_end(size_t size)
{
    const size_t page = (size_t)sysconf(_SC_PAGESIZE);
    const size_t room = (size / page + 1) * page;
    uint8_t *start = mmap(NULL, room + page, PROT_READ | PROT_WRITE, MAP_PRIVATE | MAP_ANONYMOUS,
                          -1, 0);

    if (start == MAP_FAILED || mprotect(start + room, page, PROT_NONE) != 0) {
        perror("closed page");
        exit(EXIT_FAILURE);
    }
    return start + room - size;
}

/* Words of any bits; now and then few of them set, so that windows are met. */
static void make_wild(uint64_t *words, size_t count, uint64_t *seed)
{
    const uint64_t mask = next_random(seed) % 3 == 0 ? 0x0003000300030003 : UINT64_MAX;

    for (size_t i = 0; i < count; i++)
        words[i] = next_random(seed) & mask;
}

/* The data that such a message has at most. */
enum { WILD_DATA = 16 };

/* A message near the window: of an open transaction, or of any in reach. */
static struct message wild_message(const lw_description *host, uint64_t *seed)
{
    struct message message = {.transaction = (uint32_t)(host->lowest + next_random(seed) % 33),
                              .count = (uint16_t)(next_random(seed) % 4),
                              .address = (uint32_t)(next_random(seed) % MEMORY)};

    if (host->open > 0 && next_random(seed) % 8 != 0) {
        const lw_transaction *open = &host->transactions[next_random(seed) % host->open];
        message.transaction = (uint32_t)open->number;
        message.count = (uint16_t)open->count;
        message.completion = (uint32_t)open->address;
        message.value = (uint32_t)open->value;
    }
    if (message.count > 0)
        message.length = (uint16_t)(next_random(seed) % (WILD_DATA + 1));
    return message;
}

/* Hosts of any words at all, with frames made for their IDs and near their windows. */
static void check_wild_hosts(void)
{
    enum { MESSAGES = 3, SIZE = 0x40000 };
    enum { LONGEST = LW_FRAME_HEADER + MESSAGES * (LW_MESSAGE_HEADER + WILD_DATA) };
    uint8_t *const memory = with_closed_end(SIZE);
    uint8_t *const closed_end = with_closed_end(LONGEST) + LONGEST;
    uint64_t seed = 1;
    unsigned long taken = 0;
    unsigned long longer = 0;
    unsigned long bytes = 0;

    for (unsigned long i = 0; i < 30000; i++) {
        uint8_t acknowledgement[LW_ACKNOWLEDGEMENT];
        struct message messages[MESSAGES];
        uint8_t laid[LONGEST];
        lw_description state;
        lw_answer answer;
        lw_host host;
        make_wild(host.words, LW_HOST_WORDS, &seed);
        lw_host_describe(&host, &state);
        check("open ones", i, state.open <= LW_TRANSACTION_WINDOW, 1);
        for (size_t k = 0; k < MESSAGES; k++)
            messages[k] = wild_message(&state, &seed);
        const size_t length = lay_out(laid, (uint32_t)(state.next + next_random(&seed) % 65),
                                      messages, MESSAGES);
        uint8_t *const frame = closed_end - length;
        memcpy(frame, laid, length);
        put16(frame, (uint32_t)state.own);
        put16(frame + 2, (uint32_t)state.peer);
        const uint32_t kind = lw_host_receive(&host, frame, length, memory, SIZE, &answer);
        check("kind", i, kind == answer.kind && kind >= LW_ACCEPTED && kind <= LW_REFUSED, 1);
        const unsigned due = kind == LW_ACCEPTED || kind == LW_AGAIN;
        check("due", i, lw_host_acknowledge(&host, &answer, 0, acknowledgement), due);
        check("run", i, due ? answer.run >= 1 && answer.run <= 255 : answer.run == 0, 1);
        if (due)
            check("count", i, lw_ack_count(acknowledgement, sizeof acknowledgement), answer.run);
        taken += kind == LW_ACCEPTED;
        longer += answer.run > 1;
        bytes += answer.bytes;
    }
    check("data was written", bytes, bytes > 1000, 1);
    check("many had longer runs", longer, longer > 1000, 1);
    check("many were accepted", taken, taken > 1000, 1);
    end_group("hosts of any words");
}

/* Lets the host receive messages of up to three transactions, each of which stays open. */
static void open_some(lw_host *host, uint64_t *seed)
{
    enum { MESSAGES = 3, LENGTH = LW_FRAME_HEADER + MESSAGES * LW_MESSAGE_HEADER };
    struct message messages[MESSAGES];
    uint8_t memory[4] = {0};
    uint8_t frame[LENGTH];
    lw_description state;
    lw_answer answer;

    for (size_t k = 0; k < MESSAGES; k++) {
        messages[k] = bare((uint32_t)(next_random(seed) % LW_TRANSACTION_WINDOW));
        messages[k].count = MESSAGES + 1;
    }
    lay_out(frame, (uint32_t)(next_random(seed) % LW_FRAME_WINDOW), messages, MESSAGES);
    lw_host_describe(host, &state);
    put16(frame, (uint32_t)state.own);
    put16(frame + 2, (uint32_t)state.peer);
    check("messages of open ones", 0,
          lw_host_receive(host, frame, LENGTH, memory, sizeof memory, &answer), LW_ACCEPTED);
}

static bool is_filled(const uint8_t *bytes, size_t length, uint8_t value)
{
    for (size_t i = 0; i < length; i++) {
        if (bytes[i] != value)
            return false;
    }
    return true;
}

/* Any host is stored or refused, and what can be read back is stored as the same text. */
static void check_stored_hosts(void)
{
    enum { UNSTORED = 0xee };
    uint8_t *const text = with_closed_end(LW_LONGEST_TEXT);
    uint64_t seed = 4;
    unsigned long stored = 0;
    unsigned long read_back = 0;
    unsigned long with_open = 0;

    for (unsigned long i = 0; i < 30000; i++) {
        uint8_t again[LW_LONGEST_TEXT];
        size_t length = 1;
        size_t second = 1;
        lw_description state, other;
        lw_host host;
        memset(again, UNSTORED, sizeof again);
        if (i % 2 == 0) {
            make_wild(host.words, LW_HOST_WORDS, &seed);
        } else {
            lw_host_open(&host, (uint16_t)(i % 7), (uint16_t)(i % 5));
            open_some(&host, &seed);
        }
        lw_host_describe(&host, &state);
        const uint32_t refusal = lw_host_store(&host, text, LW_LONGEST_TEXT, &length);
        check("13 exactly for an ID 0", i, refusal,
              state.own == 0 || state.peer == 0 ? LW_REFUSED_ID_ZERO : LW_NOT_REFUSED);
        check("length", i, length, refusal == 0 ? 47 + 33 * state.open : 0);
        if (refusal == 0) {
            stored++;
            check("too short", i, lw_host_store(&host, again, length - 1, &second),
                  LW_REFUSED_BUFFER_SHORT);
            check("no length", i, second, 0);
            check("nothing written", i, is_filled(again, sizeof again, UNSTORED), 1);
            const uint32_t read = lw_host_restore(&host, text, length);
            lw_host_describe(&host, &other);
            if (read == 0) {
                read_back++;
                with_open += state.open > 0;
                check("same host", i, (unsigned)memcmp(&state, &other, sizeof state), 0);
                check("stored again", i, lw_host_store(&host, again, sizeof again, &second), 0);
                check("same length", i, second, length);
                check("same text", i, (unsigned)memcmp(again, text, length), 0);
                check("nothing past it", i,
                      is_filled(again + length, sizeof again - length, UNSTORED), 1);
            } else {
                check("15", i, read, LW_REFUSED_BAD_TEXT);
                check("both IDs 0", i, other.own == 0 && other.peer == 0, 1);
            }
        }
    }
    check("many were stored", stored, stored > 1000, 1);
    check("many were read back", read_back, read_back > 1000, 1);
    check("many of them had open transactions", with_open, with_open > 1000, 1);
    lw_host host;
    check("no bytes", 0, lw_host_restore(&host, NULL, 0), LW_REFUSED_BAD_TEXT);
    size_t length = 1;
    check("no buffer", 0, lw_host_store(&host, NULL, 0, &length), LW_REFUSED_ID_ZERO);
    check("no length", 0, length, 0);
    end_group("stored hosts");
}

/* As numbers: pointers that do not lie in one buffer may not be compared. */
static bool lies_in(lw_part part, const uint8_t *buffer, size_t size)
{
    const uintptr_t start = (uintptr_t)part.start;
    const uintptr_t first = (uintptr_t)buffer;

    return start >= first && start - first <= size && part.length <= size - (start - first);
}

/* Cards of any words at all, lent slots of the size that their limit asks for. */
static void check_wild_cards(void)
{
    static const size_t limits[] = {34, 66, 100, 9000};
    uint64_t seed = 2;
    unsigned long added = 0;
    unsigned long sealed = 0;
    unsigned long handed_out = 0;

    for (size_t l = 0; l < sizeof limits / sizeof limits[0]; l++) {
        const size_t size = LW_SLOTS_SIZE(limits[l]);
        uint8_t *const slots = with_closed_end(size);
        uint8_t frame[LW_ACKNOWLEDGEMENT];
        lw_card fresh, card;
        lw_part part;
        check("open", l, lw_card_open(&fresh, PEER, OWN, limits[l], slots, size), 0);
        for (unsigned long i = 0; i < 5000; i++) {
            uint32_t transaction = (uint32_t)next_random(&seed);
            uint16_t number = (uint16_t)next_random(&seed);
            make_wild(card.words, LW_CARD_WORDS, &seed);
            /* The first word of a fresh card has IDs and limit. */
            card.words[0] = fresh.words[0] | (card.words[0] & (uint64_t)0xffff << 48);
            (void)lw_card_open_transaction(&card, 1, 0, 0, &transaction);
            added += lw_card_add(&card, slots, size, transaction, 0, NULL, 0) == 0;
            added += lw_card_add(&card, slots, size, transaction, 0, whole_case, 38) == 0;
            sealed += lw_card_seal(&card, slots, size, &number) == 0;
            memcpy(frame, whole_acknowledgement, sizeof frame);
            put16(frame + 6, number);
            frame[8] = (uint8_t)i;
            (void)lw_card_read(&card, frame, sizeof frame);
            for (unsigned k = 0; k < 4; k++) {
                const uint32_t refusal =
                    k == 0 ? lw_card_choose(&card, slots, size, NULL, 0, &part)
                           : lw_card_show(&card, slots, size, (uint16_t)(number + k), &part);
                handed_out += refusal == LW_NOT_REFUSED;
                if (refusal != LW_NOT_REFUSED)
                    check_part(i, part, NULL, 0);
                else
                    check("part lies in the slots", i, lies_in(part, slots, size), 1);
            }
        }
    }
    check("many were added", added, added > 1000, 1);
    check("many were sealed", sealed, sealed > 1000, 1);
    check("many were handed out", handed_out, handed_out > 1000, 1);
    end_group("cards of any words");
}

/* A name is its constant's in small letters. */
static void check_name(uint32_t number, const char *constant)
{
    const char *name = lw_refusal_name(number);
    const size_t length = strlen(constant);

    check("length of a name", number, strlen(name), length);
    for (size_t i = 0; i < length && i < strlen(name); i++) {
        const char want = constant[i] == '_' ? ' ' : (char)tolower((unsigned char)constant[i]);
        check("letter of a name", number, name[i] == want, 1);
    }
}

#define CHECK_NAME(number, constant, class)                                                       \
    do {                                                                                          \
        check("constant", number, LW_REFUSED_##constant, number);                                 \
        check("its class", number, lw_refusal_class(number), LW_CLASS_##class);                   \
        check_name(number, #constant);                                                            \
    } while (0)

static void check_names(void)
{
    CHECK_NAME(1, FRAME_TOO_SHORT, WIRE);
    CHECK_NAME(2, FRAME_TOO_LONG, WIRE);
    CHECK_NAME(3, WRONG_ID, WIRE);
    CHECK_NAME(4, RESERVED_FLAG, WIRE);
    CHECK_NAME(5, PAST_FRAME_END, WIRE);
    CHECK_NAME(6, FRAME_AHEAD, WIRE);
    CHECK_NAME(7, TRANSACTION_OUTSIDE_WINDOW, MESSAGE);
    CHECK_NAME(8, TRANSACTION_CLOSED, MESSAGE);
    CHECK_NAME(9, TRANSACTION_DIFFERS, MESSAGE);
    CHECK_NAME(10, BARE_WITH_DATA, MESSAGE);
    CHECK_NAME(11, DATA_OUTSIDE_MEMORY, MESSAGE);
    CHECK_NAME(12, COMPLETION_OUTSIDE_MEMORY, MESSAGE);
    CHECK_NAME(13, ID_ZERO, CALLER);
    CHECK_NAME(14, BAD_LINE, CALLER);
    CHECK_NAME(20, TRANSACTION_WINDOW_FULL, CARD);
    CHECK_NAME(21, FRAME_WINDOW_FULL, CARD);
    CHECK_NAME(22, FRAME_FULL, CARD);
    CHECK_NAME(23, NO_MESSAGE_LEFT, CARD);
    CHECK_NAME(24, NOTHING_TO_SEAL, CARD);
    CHECK_NAME(25, NOT_HELD, CARD);
    CHECK_NAME(26, BAD_LIMIT_OR_SLOTS, CARD);
    CHECK_NAME(27, DATA_FOR_BARE, CARD);
    CHECK_NAME(15, BAD_TEXT, NONE);
    CHECK_NAME(17, REPLAY_CLOSED, NONE);
    CHECK_NAME(19, BUFFER_SHORT, NONE);
    CHECK_NAME(28, TABLE_FULL, NONE);
    CHECK_NAME(29, REGION_OVERLAPS, NONE);
    CHECK_NAME(30, SOURCE_REGISTERED, NONE);
    CHECK_NAME(31, REGION_OUTSIDE_MEMORY, NONE);
    CHECK_NAME(40, NOT_WHOLE_READINGS, NONE);
    CHECK_NAME(41, UNKNOWN_SUBSCRIBER, NONE);
    CHECK_NAME(42, PAST_64_BITS, NONE);
    check("none", 0, strcmp(lw_refusal_name(0), "none") == 0, 1);
    for (uint32_t number = 1; number < 300; number++)
        check("unknown exactly without a class, and none of those above", number,
              strcmp(lw_refusal_name(number), "unknown") == 0,
              number != 15 && number != 17 && number != 19 && (number < 28 || number > 31) &&
                  (number < 40 || number > 42) && lw_refusal_class(number) == LW_CLASS_NONE);
    check("unknown", 0, strcmp(lw_refusal_name(UINT32_MAX), "unknown") == 0, 1);
    end_group("names of refusals");
}

int main(void)
{
    /* A fault inside the library must not swallow the lines before it. */
    setvbuf(stdout, NULL, _IOLBF, 0);

    check_whole_case_at_host();
    check_acknowledgements();
    check_host_opening();
    check_wire_refusals();
    check_frame_window();
    check_runs();
    check_all_marks();
    check_transaction_refusals();
    check_memory_refusals();
    check_description();
    check_whole_case_at_card();
    check_card_opening();
    check_card_refusals();
    check_full_window();
    check_limit();
    check_reading();
    check_coming_round();
    check_card_and_plain_host();
    check_null();
    check_wild_hosts();
    check_stored_hosts();
    check_wild_cards();
    check_names();
    return end_checks();
}
