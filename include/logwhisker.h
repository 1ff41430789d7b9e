/*
 * Logwhisker: both ends of DG/RDMA, a remote-write protocol over datagrams that
 * get lost, repeated and reordered. The card is the sender, the charging host the
 * receiver. Link with -llogwhisker, which needs nothing else.
 *
 * Ownership. The caller owns every object and every buffer; the library allocates
 * nothing, keeps no pointer from one call to the next and has no state of its own.
 * An lw_host, lw_table, lw_card or lw_ledger is a plain value without pointers: it needs no closing,
 * and a copy of it is a snapshot. A card that goes back to one gives frame numbers
 * a second time, and loses data. Its words are the library's business.
 *
 * Lent buffers. A pointer comes with the number of bytes there and needs no
 * alignment; with length 0 it may be NULL. What a call writes may not overlap
 * anything else lent to that call. Any bytes and any length may be lent: what is
 * not right is refused, and a refusal leaves state and buffers as they were; only a
 * refused opening, or a text that is refused, leaves a fresh end with both IDs 0.
 *
 * Threads. Calls that share no object and no buffer that one of them writes may
 * run at the same time. Nothing else is locked or needs to be.
 *
 * Errors. Functions that return a refusal return 0 for success (LW_NOT_REFUSED)
 * and otherwise its number, one of enum lw_refusal. There is no errno.
 *
 * Frames start at the DG/RDMA frame header: Ethernet, IP and UDP headers, and the
 * two bytes before the frame in a UDP datagram, are taken off and put on by the
 * caller. So are sockets and the clock that says when to send again.
 */
#ifndef LOGWHISKER_H
#define LOGWHISKER_H

#include <stddef.h>
#include <stdint.h>

#define LW_VERSION "0.3.0"

#ifdef __cplusplus
extern "C" {
#endif

/* ---- Refusals ---------------------------------------------------------- */

/* Why something was refused. */
enum lw_refusal {
    LW_NOT_REFUSED = 0,

    /* The frame as a whole. */
    LW_REFUSED_FRAME_TOO_SHORT = 1, /* fewer than the 10 bytes of a frame header */
    LW_REFUSED_FRAME_TOO_LONG = 2,  /* more than 9,000 bytes */
    LW_REFUSED_WRONG_ID = 3,        /* not to this end, or not from its peer */
    LW_REFUSED_RESERVED_FLAG = 4,   /* a flag bit without a meaning is set */
    LW_REFUSED_PAST_FRAME_END = 5,  /* a message's header or data would end past the frame */
    LW_REFUSED_FRAME_AHEAD = 6,     /* 64 to 32,767 past the next frame number */

    /* One message of a frame. */
    LW_REFUSED_TRANSACTION_OUTSIDE_WINDOW = 7, /* not one of the 32 from the lowest incomplete one */
    LW_REFUSED_TRANSACTION_CLOSED = 8,         /* in the window, and complete already */
    LW_REFUSED_TRANSACTION_DIFFERS = 9,        /* count or completion is not the open transaction's */
    LW_REFUSED_BARE_WITH_DATA = 10,            /* count 0, and yet there is data */
    LW_REFUSED_DATA_OUTSIDE_MEMORY = 11,       /* data would pass the end of memory */
    LW_REFUSED_COMPLETION_OUTSIDE_MEMORY = 12, /* the completion would pass the end of memory */

    /* What the caller asked for. */
    LW_REFUSED_ID_ZERO = 13,  /* an ID is 0: of an end to be opened, or of a host to be stored */
    LW_REFUSED_BAD_LINE = 14, /* a line of the replay is not whole bytes in hexadecimal */

    /* A host's stored text. */
    LW_REFUSED_BAD_TEXT = 15, /* no host is stored as this text */

    /* The replay from fragments. */
    LW_REFUSED_REPLAY_CLOSED = 17, /* the replay was closed before */

    /* A host's stored text. */
    LW_REFUSED_BUFFER_SHORT = 19, /* the buffer is shorter than the text */

    /* A step of the card. */
    LW_REFUSED_TRANSACTION_WINDOW_FULL = 20, /* the lowest unfinished one and 31 after it were opened */
    LW_REFUSED_FRAME_WINDOW_FULL = 21,       /* 64 sealed frames are not released */
    LW_REFUSED_FRAME_FULL = 22,              /* the message would end past the frame limit: seal first */
    LW_REFUSED_NO_MESSAGE_LEFT = 23,         /* no such transaction, or it has all its messages */
    LW_REFUSED_NOTHING_TO_SEAL = 24,         /* the frame being built has no message */
    LW_REFUSED_NOT_HELD = 25,                /* the frame is not held, or there is nothing to choose */
    LW_REFUSED_BAD_LIMIT_OR_SLOTS = 26,      /* limit not 34 to 9,000, or slots not 64 times as large */
    LW_REFUSED_DATA_FOR_BARE = 27,           /* data for a transaction of count 0 */

    /* A table of cards. */
    LW_REFUSED_TABLE_FULL = 28,            /* 16 cards are registered */
    LW_REFUSED_REGION_OVERLAPS = 29,       /* the region has a byte of another card's */
    LW_REFUSED_SOURCE_REGISTERED = 30,     /* a card with this ID is registered */
    LW_REFUSED_REGION_OUTSIDE_MEMORY = 31, /* the region is empty, or ends past the memory */

    /* A subscriber ledger. */
    LW_REFUSED_NOT_WHOLE_READINGS = 40, /* the block's size is no multiple of 8 */
    LW_REFUSED_UNKNOWN_SUBSCRIBER = 41, /* a reading's subscriber is not below 1,024 */
    LW_REFUSED_PAST_64_BITS = 42        /* a total, or the sum of all, would pass 64 bits */
};

/* What a refusal is about. */
enum lw_class {
    LW_CLASS_NONE = 0,    /* no refusal, or 15, 17, 19, 28 to 31 or 40 to 42: no class */
    LW_CLASS_WIRE = 1,    /* the frame as a whole: 1 to 6 */
    LW_CLASS_MESSAGE = 2, /* one message: 7 to 12 */
    LW_CLASS_CALLER = 3,  /* what the caller asked for: 13 and 14 */
    LW_CLASS_CARD = 4     /* a step of the card: 20 to 27 */
};

/* The class of a refusal number, as one of enum lw_class. Any number may be asked
 * for; 15, 17, 19, 28 to 31, 40 to 42 and those that are no refusal above are
 * LW_CLASS_NONE. */
uint32_t lw_refusal_class(uint32_t number);

/* A few words for a refusal number, as a static string: its constant's name in
 * small letters. "none" for 0, and "unknown" for a number that is no refusal. */
static inline const char *lw_refusal_name(uint32_t number)
{
    switch (number) {
    case LW_NOT_REFUSED: return "none";
    case LW_REFUSED_FRAME_TOO_SHORT: return "frame too short";
    case LW_REFUSED_FRAME_TOO_LONG: return "frame too long";
    case LW_REFUSED_WRONG_ID: return "wrong id";
    case LW_REFUSED_RESERVED_FLAG: return "reserved flag";
    case LW_REFUSED_PAST_FRAME_END: return "past frame end";
    case LW_REFUSED_FRAME_AHEAD: return "frame ahead";
    case LW_REFUSED_TRANSACTION_OUTSIDE_WINDOW: return "transaction outside window";
    case LW_REFUSED_TRANSACTION_CLOSED: return "transaction closed";
    case LW_REFUSED_TRANSACTION_DIFFERS: return "transaction differs";
    case LW_REFUSED_BARE_WITH_DATA: return "bare with data";
    case LW_REFUSED_DATA_OUTSIDE_MEMORY: return "data outside memory";
    case LW_REFUSED_COMPLETION_OUTSIDE_MEMORY: return "completion outside memory";
    case LW_REFUSED_ID_ZERO: return "id zero";
    case LW_REFUSED_BAD_LINE: return "bad line";
    case LW_REFUSED_BAD_TEXT: return "bad text";
    case LW_REFUSED_REPLAY_CLOSED: return "replay closed";
    case LW_REFUSED_BUFFER_SHORT: return "buffer short";
    case LW_REFUSED_TRANSACTION_WINDOW_FULL: return "transaction window full";
    case LW_REFUSED_FRAME_WINDOW_FULL: return "frame window full";
    case LW_REFUSED_FRAME_FULL: return "frame full";
    case LW_REFUSED_NO_MESSAGE_LEFT: return "no message left";
    case LW_REFUSED_NOTHING_TO_SEAL: return "nothing to seal";
    case LW_REFUSED_NOT_HELD: return "not held";
    case LW_REFUSED_BAD_LIMIT_OR_SLOTS: return "bad limit or slots";
    case LW_REFUSED_DATA_FOR_BARE: return "data for bare";
    case LW_REFUSED_TABLE_FULL: return "table full";
    case LW_REFUSED_REGION_OVERLAPS: return "region overlaps";
    case LW_REFUSED_SOURCE_REGISTERED: return "source registered";
    case LW_REFUSED_REGION_OUTSIDE_MEMORY: return "region outside memory";
    case LW_REFUSED_NOT_WHOLE_READINGS: return "not whole readings";
    case LW_REFUSED_UNKNOWN_SUBSCRIBER: return "unknown subscriber";
    case LW_REFUSED_PAST_64_BITS: return "past 64 bits";
    default: return "unknown";
    }
}

/* ---- Marks ------------------------------------------------------------- */

/* How many of 64 marks are set below the lowest clear one, bit 0 being the lowest;
 * 64 without a clear one. By that count a host's window of frames moves, once. */
uint32_t lw_trailing_ones(uint64_t marks);

/* ---- Sizes and objects ------------------------------------------------- */

#define LW_FRAME_HEADER 10    /* bytes of a frame header */
#define LW_MESSAGE_HEADER 24  /* bytes of a message header */
#define LW_ACKNOWLEDGEMENT 10 /* bytes of an acknowledgement frame */
#define LW_LONGEST_FRAME 9000 /* bytes of a frame at most */
#define LW_FRAME_WINDOW 64    /* frames under way at most, and slots of a card */
#define LW_TRANSACTION_WINDOW 32
#define LW_LONGEST_TEXT 1103  /* bytes of a host's stored text at most; at least 47 */
#define LW_TABLE_CARDS 16     /* cards at a table at most */
#define LW_SUBSCRIBERS 1024   /* subscribers of a ledger */
#define LW_READING 8          /* bytes of a reading */

/* Bytes of the slot buffer of a card whose frame limit this is. */
#define LW_SLOTS_SIZE(limit) ((size_t)LW_FRAME_WINDOW * (limit))

#define LW_HOST_WORDS 67
#define LW_CARD_WORDS 85
#define LW_PLAIN_WORDS 228
#define LW_TABLE_WORDS 1121
#define LW_TABLE_DESCRIPTION_WORDS 49
#define LW_LEDGER_WORDS 2049
#define LW_ANSWER_WORDS 8
#define LW_REPLAY_WORDS 9     /* of a replay's place */
#define LW_REPLAY_MEMORY 4096 /* bytes of a replay's memory */
#define LW_DESCRIPTION_WORDS 167

/* The charging host's end of a connection. Open it before anything else. */
typedef struct lw_host {
    uint64_t words[LW_HOST_WORDS];
} lw_host;

/* The card's end of a connection. Open it before anything else. */
typedef struct lw_card {
    uint64_t words[LW_CARD_WORDS];
} lw_card;

/* The plain host's end of a connection, for tests and audits: it answers as lw_host does,
 * and its state may be looked into. Open it before anything else. */
typedef struct lw_plain {
    uint64_t own, peer;
    uint64_t next, lowest;                    /* the next frame, the lowest transaction not complete */
    uint64_t accepted[LW_FRAME_WINDOW];       /* whether the frame next + i was accepted: not 0 */
    uint64_t closed[LW_TRANSACTION_WINDOW];   /* whether the transaction lowest + i is closed */
    struct {
        uint64_t address, value, count, received;
    } table[LW_TRANSACTION_WINDOW];           /* the open ones, by number modulo 32; else all 0 */
} lw_plain;

/* A charging host with up to 16 cards over one memory. Open it before anything else. */
typedef struct lw_table {
    uint64_t words[LW_TABLE_WORDS];
} lw_table;

/* What subscribers are charged. Open it before anything else. Its words may be kept over a
 * restart as they are, for the same version of the library. */
typedef struct lw_ledger {
    uint64_t words[LW_LEDGER_WORDS];
} lw_ledger;

/* What a received frame is answered. */
enum lw_kind {
    LW_ACCEPTED = 1,    /* all its messages took effect */
    LW_AGAIN = 2,       /* it took effect before or lies behind: only acknowledge it */
    LW_NO_MESSAGES = 3, /* it has none, so nothing changed */
    LW_REFUSED = 4      /* nothing changed */
};

/* An answer. Fields that a kind does not have are 0. */
typedef struct lw_answer {
    uint64_t kind;      /* one of enum lw_kind */
    uint64_t number;    /* accepted, again: the frame number */
    uint64_t messages;  /* accepted: messages of this frame */
    uint64_t bytes;     /* accepted: their data bytes */
    uint64_t completed; /* accepted: transactions that this frame completed */
    uint64_t refusal;   /* refused: one of enum lw_refusal */
    uint64_t place;     /* refused: index of the message, from 0; 0 for refusals 1 to 6 */
    uint64_t run;       /* accepted, again: frame numbers acknowledged from number on, 1 to 255 */
} lw_answer;

/* A transaction of which some messages came and others are to come. */
typedef struct lw_transaction {
    uint64_t number;
    uint64_t address;  /* where its completion will be written */
    uint64_t value;    /* what will be written there */
    uint64_t count;    /* messages in all */
    uint64_t received; /* messages so far */
} lw_transaction;

/* What a host's words say. */
typedef struct lw_description {
    uint64_t own;
    uint64_t peer;
    uint64_t next;   /* lowest frame number that is not accepted */
    uint64_t marks;  /* bit i: frame number next + i is accepted */
    uint64_t lowest; /* lowest transaction that is not complete */
    uint64_t closed; /* bit i: transaction lowest + i is complete */
    uint64_t open;   /* how many transactions are open */
    lw_transaction transactions[LW_TRANSACTION_WINDOW]; /* those, nearest the lowest first */
} lw_description;

/* A card at a table. */
typedef struct lw_table_card {
    uint64_t source; /* its ID; 0 where the place is free */
    uint64_t first;  /* where its region of memory starts */
    uint64_t size;   /* how many bytes its region has */
} lw_table_card;

/* What a table's words say of its cards. */
typedef struct lw_table_description {
    uint64_t own;
    lw_table_card cards[LW_TABLE_CARDS]; /* place by place; a free place is all 0 */
} lw_table_description;

/* A replay of a text that comes in fragments. Any content is a state; what is in it
 * is for the calls below alone. */
typedef struct lw_replay {
    uint64_t place[LW_REPLAY_WORDS];
    uint64_t host[LW_HOST_WORDS];
    uint8_t frame[LW_LONGEST_FRAME]; /* the line being read, as far as it is held */
    uint8_t memory[LW_REPLAY_MEMORY];
} lw_replay;

/* Sums over the accepted frames of a replay. */
typedef struct lw_totals {
    uint64_t messages;
    uint64_t bytes;
    uint64_t completed;
} lw_totals;

/* What a call on a replay says of a line; any other number is its refusal. */
enum lw_reply {
    LW_NO_LINE = 0,      /* no line ended */
    LW_LINE_ANSWERED = 1 /* a line ended, and its answer is written */
};

/* A part of a buffer that the caller lent: bytes that need no copy. */
typedef struct lw_part {
    const uint8_t *start;
    size_t length;
} lw_part;

/* ---- The proved functions ---------------------------------------------- */

/* The functions further below only pass on to these. Do not call them yourself:
 * their pointers may not be NULL, whatever the length. */
uint32_t lw_raw_host_open(lw_host *host, uint16_t own, uint16_t peer);
uint32_t lw_raw_host_receive(lw_host *host, const uint8_t *frame, size_t length, uint8_t *memory,
                             size_t size, lw_answer *answer);
uint32_t lw_raw_host_acknowledge(const lw_host *host, const lw_answer *answer, uint16_t number,
                                 uint8_t acknowledgement[LW_ACKNOWLEDGEMENT]);
void lw_raw_host_describe(const lw_host *host, lw_description *description);
uint32_t lw_raw_host_store(const lw_host *host, uint8_t *text, size_t size, size_t *length);
uint32_t lw_raw_host_restore(lw_host *host, const uint8_t *text, size_t length);
uint32_t lw_raw_table_open(lw_table *table, uint16_t own);
uint32_t lw_raw_table_register(lw_table *table, uint16_t source, size_t first, size_t size,
                               size_t memory);
uint32_t lw_raw_table_remove(lw_table *table, uint16_t source);
uint32_t lw_raw_table_receive(lw_table *table, const uint8_t *frame, size_t length,
                              uint8_t *memory, size_t size, uint16_t *source, lw_answer *answer);
uint32_t lw_raw_table_acknowledge(const lw_table *table, uint16_t source, const lw_answer *answer,
                                  uint16_t number, uint8_t acknowledgement[LW_ACKNOWLEDGEMENT]);
uint32_t lw_raw_table_take(const lw_table *table, uint16_t source, lw_host *host);
uint32_t lw_raw_table_adopt(lw_table *table, const lw_host *host, size_t first, size_t size,
                            size_t memory);
void lw_raw_table_describe(const lw_table *table, lw_table_description *description);
void lw_raw_ledger_open(lw_ledger *ledger);
uint32_t lw_raw_ledger_take(lw_ledger *ledger, const uint8_t *block, size_t length);
uint32_t lw_raw_ledger_total(const lw_ledger *ledger, uint32_t subscriber, uint64_t *total);
uint64_t lw_raw_ledger_sum(const lw_ledger *ledger);
uint32_t lw_raw_plain_open(lw_plain *host, uint16_t own, uint16_t peer);
uint32_t lw_raw_plain_receive(lw_plain *host, const uint8_t *frame, size_t length, uint8_t *memory,
                              size_t size, lw_answer *answer);
uint32_t lw_raw_plain_acknowledge(const lw_plain *host, const lw_answer *answer, uint16_t number,
                                  uint8_t acknowledgement[LW_ACKNOWLEDGEMENT]);
uint32_t lw_raw_card_open(lw_card *card, uint16_t own, uint16_t peer, size_t limit,
                          const uint8_t *slots, size_t size);
uint32_t lw_raw_card_open_transaction(lw_card *card, uint16_t count, uint32_t address,
                                      uint32_t value, uint32_t *transaction);
uint32_t lw_raw_card_add(lw_card *card, uint8_t *slots, size_t size, uint32_t transaction,
                         uint32_t address, const uint8_t *data, size_t length);
uint32_t lw_raw_card_seal(lw_card *card, const uint8_t *slots, size_t size, uint16_t *number);
uint32_t lw_raw_card_read(lw_card *card, const uint8_t *frame, size_t length);
uint32_t lw_raw_card_show(const lw_card *card, const uint8_t *slots, size_t size, uint16_t number,
                          uint64_t part[2]);
uint32_t lw_raw_card_choose(const lw_card *card, const uint8_t *slots, size_t size,
                            const uint8_t *acknowledgement, size_t length, uint64_t part[3]);

/* As lw_raw_host_open, lw_raw_host_receive and lw_raw_host_acknowledge, with the pair as
 * a value between unpacking and packing the words. Nothing further below passes on to
 * these: they are for tests. */
uint32_t lw_raw_host_open_by_value(lw_host *host, uint16_t own, uint16_t peer);
uint32_t lw_raw_host_receive_by_value(lw_host *host, const uint8_t *frame, size_t length,
                                      uint8_t *memory, size_t size, lw_answer *answer);
uint32_t lw_raw_host_acknowledge_by_value(const lw_host *host, const lw_answer *answer,
                                          uint16_t number,
                                          uint8_t acknowledgement[LW_ACKNOWLEDGEMENT]);

void lw_raw_replay_open(uint64_t place[LW_REPLAY_WORDS], uint64_t host[LW_HOST_WORDS],
                        uint8_t memory[LW_REPLAY_MEMORY]);
uint32_t lw_raw_replay_feed(uint64_t place[LW_REPLAY_WORDS], uint64_t host[LW_HOST_WORDS],
                            uint8_t frame[LW_LONGEST_FRAME], uint8_t memory[LW_REPLAY_MEMORY],
                            const uint8_t *fragment, size_t length, size_t *taken,
                            lw_answer *answer);
uint32_t lw_raw_replay_close(uint64_t place[LW_REPLAY_WORDS], uint64_t host[LW_HOST_WORDS],
                             const uint8_t frame[LW_LONGEST_FRAME],
                             uint8_t memory[LW_REPLAY_MEMORY], lw_answer *answer,
                             lw_totals *totals);

/* They are handed the structs above as words in a row. */
#ifdef __cplusplus
#define LW_SAME_SIZE(type, count) static_assert(sizeof(type) == (count) * sizeof(uint64_t), "words")
#else
#define LW_SAME_SIZE(type, count) _Static_assert(sizeof(type) == (count) * sizeof(uint64_t), "words")
#endif
LW_SAME_SIZE(lw_host, LW_HOST_WORDS);
LW_SAME_SIZE(lw_card, LW_CARD_WORDS);
LW_SAME_SIZE(lw_plain, LW_PLAIN_WORDS);
LW_SAME_SIZE(lw_table, LW_TABLE_WORDS);
LW_SAME_SIZE(lw_table_description, LW_TABLE_DESCRIPTION_WORDS);
LW_SAME_SIZE(lw_ledger, LW_LEDGER_WORDS);
LW_SAME_SIZE(lw_answer, LW_ANSWER_WORDS);
LW_SAME_SIZE(lw_totals, 3);
LW_SAME_SIZE(lw_description, LW_DESCRIPTION_WORDS);
#undef LW_SAME_SIZE

/* ---- The charging host ------------------------------------------------- */

/* Opens a host of this ID for frames from this peer, whatever *host held before:
 * nothing received, frame and transaction numbers start at 0. Returns 0, or
 * LW_REFUSED_ID_ZERO; then the host is a fresh one with both IDs 0. */
static inline uint32_t lw_host_open(lw_host *host, uint16_t own, uint16_t peer)
{
    return lw_raw_host_open(host, own, peer);
}

/* Receives a frame: judges all its messages and, if none is refused, writes their
 * data and completions into memory, whose first byte is address 0. Lend the same
 * memory each time. Writes all of *answer, and returns its kind; unless that is
 * LW_ACCEPTED, host and memory are as they were. */
static inline uint32_t lw_host_receive(lw_host *host, const uint8_t *frame, size_t length,
                                       uint8_t *memory, size_t size, lw_answer *answer)
{
    uint8_t none = 0;
    return lw_raw_host_receive(host, length != 0 ? frame : &none, length,
                               size != 0 ? memory : &none, size, answer);
}

/* Writes the acknowledgement frame that an answer calls for, to be sent to the
 * peer: it covers the answer's run, the numbers from the frame's on, 255 at most, that
 * the host had accepted or had behind it after this frame took effect. Returns 1 if it is
 * due (accepted, again) and 0 if not; then nothing is written. The number is that
 * of the host's own next message frame, which is not used up: 0 for a host that
 * sends no messages. The host does not change, so that the same answer may be
 * acknowledged more than once. Any words may be lent as an answer: of its number
 * the low 16 bits count, of its run the low 8, and where these are 0 nothing is due. */
static inline uint32_t lw_host_acknowledge(const lw_host *host, const lw_answer *answer,
                                           uint16_t number,
                                           uint8_t acknowledgement[LW_ACKNOWLEDGEMENT])
{
    return lw_raw_host_acknowledge(host, answer, number, acknowledgement);
}

/* Tells what the host's state is: IDs, both windows and the open transactions.
 * Writes all of *description, 0 where there is nothing to tell. Nothing is refused,
 * and the host does not change. */
static inline void lw_host_describe(const lw_host *host, lw_description *description)
{
    lw_raw_host_describe(host, description);
}

/* Stores the host as text from the start of a buffer of size bytes on, to be kept
 * over a restart: lines of hexadecimal, at most LW_LONGEST_TEXT bytes, without a 0
 * behind them. Returns 0 and the text's length in *length; or the first that applies
 * of LW_REFUSED_ID_ZERO (an ID is 0: it is not open) and LW_REFUSED_BUFFER_SHORT, and
 * 0 in *length. Past the text, and where it is refused, the buffer stays as it was;
 * the host does not change. */
static inline uint32_t lw_host_store(const lw_host *host, uint8_t *text, size_t size,
                                     size_t *length)
{
    uint8_t none = 0;
    return lw_raw_host_store(host, size != 0 ? text : &none, size, length);
}

/* Makes a host of a stored text, whatever *host held before: the very one that was
 * stored. Returns 0, or LW_REFUSED_BAD_TEXT where no host is stored as this text;
 * then the host is a fresh one with both IDs 0. What it is to go on with is the
 * memory of the moment at which it was stored. */
static inline uint32_t lw_host_restore(lw_host *host, const uint8_t *text, size_t length)
{
    const uint8_t none = 0;
    return lw_raw_host_restore(host, length != 0 ? text : &none, length);
}

/* ---- A table of cards at one host -------------------------------------- */

/* Opens a table of this ID without cards, whatever *table held before. Returns 0, or
 * LW_REFUSED_ID_ZERO; then the table has ID 0, and refuses whatever is registered. */
static inline uint32_t lw_table_open(lw_table *table, uint16_t own)
{
    return lw_raw_table_open(table, own);
}

/* Registers a card by its ID, the source of its frames, with a region of a memory that
 * has `memory` bytes: size bytes from first on. The card starts as a fresh lw_host does:
 * nothing received. Returns 0, or the first that applies of LW_REFUSED_ID_ZERO (the
 * table's or the card's), LW_REFUSED_SOURCE_REGISTERED, LW_REFUSED_REGION_OUTSIDE_MEMORY
 * (the region is empty, or ends past the memory), LW_REFUSED_REGION_OVERLAPS and
 * LW_REFUSED_TABLE_FULL; then the table is as it was. No byte of memory changes. */
static inline uint32_t lw_table_register(lw_table *table, uint16_t source, size_t first,
                                         size_t size, size_t memory)
{
    return lw_raw_table_register(table, source, first, size, memory);
}

/* Removes a card. Returns 0, or LW_REFUSED_WRONG_ID where none with this ID is
 * registered; then the table is as it was. No byte of memory changes. */
static inline uint32_t lw_table_remove(lw_table *table, uint16_t source)
{
    return lw_raw_table_remove(table, source);
}

/* Receives a frame as lw_host_receive does, for the card that is its source: addresses
 * count from the first byte of that card's region, and what would pass the region's end
 * is refused as what passes a host's memory. Lend the whole memory each time.
 * LW_REFUSED_WRONG_ID where the frame is not to this table's ID or its source is not
 * registered, and right after it LW_REFUSED_REGION_OUTSIDE_MEMORY where the memory ends
 * before the card's region does. Writes all of *answer, and to *source the source that
 * the frame names (a byte that a short frame does not have counts as 0), and returns the
 * answer's kind; unless that is LW_ACCEPTED, table and memory are as they were. */
static inline uint32_t lw_table_receive(lw_table *table, const uint8_t *frame, size_t length,
                                        uint8_t *memory, size_t size, uint16_t *source,
                                        lw_answer *answer)
{
    uint8_t none = 0;
    return lw_raw_table_receive(table, length != 0 ? frame : &none, length,
                                size != 0 ? memory : &none, size, source, answer);
}

/* As lw_host_acknowledge, from the table's ID to a source: that which lw_table_receive
 * told with the answer. */
static inline uint32_t lw_table_acknowledge(const lw_table *table, uint16_t source,
                                            const lw_answer *answer, uint16_t number,
                                            uint8_t acknowledgement[LW_ACKNOWLEDGEMENT])
{
    return lw_raw_table_acknowledge(table, source, answer, number, acknowledgement);
}

/* Copies what the table knows of a card out as a host, to be described, or stored over a
 * restart. Returns 0, or LW_REFUSED_WRONG_ID where none with this ID is registered; then
 * *host is as it was. The table does not change. Addresses at that host count from the
 * first byte of the card's region. */
static inline uint32_t lw_table_take(const lw_table *table, uint16_t source, lw_host *host)
{
    return lw_raw_table_take(table, source, host);
}

/* Registers the card that is this host's peer, with what the host knows of it in place of
 * a fresh start, and a region as lw_table_register has it. Returns 0, or the first that
 * applies of LW_REFUSED_ID_ZERO (an ID is 0, or the host's own is not the table's),
 * LW_REFUSED_SOURCE_REGISTERED, LW_REFUSED_REGION_OUTSIDE_MEMORY,
 * LW_REFUSED_REGION_OVERLAPS and LW_REFUSED_TABLE_FULL; then the table is as it was. */
static inline uint32_t lw_table_adopt(lw_table *table, const lw_host *host, size_t first,
                                      size_t size, size_t memory)
{
    return lw_raw_table_adopt(table, host, first, size, memory);
}

/* Tells the table's ID, and each card's ID and region. Writes all of *description.
 * Nothing is refused, and the table does not change. lw_table_take and lw_host_describe
 * tell more of one card. */
static inline void lw_table_describe(const lw_table *table, lw_table_description *description)
{
    lw_raw_table_describe(table, description);
}

/* ---- The subscriber ledger --------------------------------------------- */

/* Opens a ledger, whatever *ledger held before: no subscriber was read, and nothing is
 * charged. */
static inline void lw_ledger_open(lw_ledger *ledger)
{
    lw_raw_ledger_open(ledger);
}

/* Takes a block of readings, LW_READING bytes each: a subscriber, 0 to 1,023, and the
 * lower 32 bits of its byte counter, 4 bytes each, little endian. A subscriber's first
 * reading charges nothing, each later one the bytes since the one before it, modulo 2^32.
 * Returns 0, or LW_REFUSED_NOT_WHOLE_READINGS; or of the first reading that has a fault
 * LW_REFUSED_UNKNOWN_SUBSCRIBER or LW_REFUSED_PAST_64_BITS; then the ledger is as it was. A
 * block of no bytes is taken. */
static inline uint32_t lw_ledger_take(lw_ledger *ledger, const uint8_t *block, size_t length)
{
    const uint8_t none = 0;
    return lw_raw_ledger_take(ledger, length != 0 ? block : &none, length);
}

/* Writes the bytes that are charged to a subscriber to *total, and returns 1 if the
 * subscriber was ever read; else 0, and then *total is 0. Any number may be asked for. */
static inline uint32_t lw_ledger_total(const lw_ledger *ledger, uint32_t subscriber,
                                       uint64_t *total)
{
    return lw_raw_ledger_total(ledger, subscriber, total);
}

/* The bytes that are charged to all subscribers together. */
static inline uint64_t lw_ledger_sum(const lw_ledger *ledger)
{
    return lw_raw_ledger_sum(ledger);
}

/* ---- The plain host ---------------------------------------------------- */

/* As lw_host_open. */
static inline uint32_t lw_plain_open(lw_plain *host, uint16_t own, uint16_t peer)
{
    return lw_raw_plain_open(host, own, peer);
}

/* As lw_host_receive: from a state that is described as the first host's it gives the
 * same answer and leaves the same memory and the same described state. */
static inline uint32_t lw_plain_receive(lw_plain *host, const uint8_t *frame, size_t length,
                                        uint8_t *memory, size_t size, lw_answer *answer)
{
    uint8_t none = 0;
    return lw_raw_plain_receive(host, length != 0 ? frame : &none, length,
                                size != 0 ? memory : &none, size, answer);
}

/* As lw_host_acknowledge: from a state that is described as the first host's it returns
 * the same and writes the same bytes. */
static inline uint32_t lw_plain_acknowledge(const lw_plain *host, const lw_answer *answer,
                                            uint16_t number,
                                            uint8_t acknowledgement[LW_ACKNOWLEDGEMENT])
{
    return lw_raw_plain_acknowledge(host, answer, number, acknowledgement);
}

/* ---- The card ---------------------------------------------------------- */

/* Opens a card of this ID towards this peer, whatever *card held before, with
 * frames of at most limit bytes, 34 to 9,000, built and kept in a slot buffer of
 * LW_SLOTS_SIZE(limit) bytes. Lend the same slots, unchanged, to every later call.
 * Returns 0 or the first that applies of LW_REFUSED_ID_ZERO and
 * LW_REFUSED_BAD_LIMIT_OR_SLOTS; then the card is a fresh one with both IDs and the
 * limit 0. Nothing is written to the slots, and no byte of them is looked at. */
static inline uint32_t lw_card_open(lw_card *card, uint16_t own, uint16_t peer, size_t limit,
                                    const uint8_t *slots, size_t size)
{
    const uint8_t none = 0;
    return lw_raw_card_open(card, own, peer, limit, size != 0 ? slots : &none, size);
}

/* Opens a transaction of count data messages, or of one bare message if count is
 * 0, whose completion writes value (4 bytes, little endian) at address. Returns 0
 * and its number in *transaction; or LW_REFUSED_TRANSACTION_WINDOW_FULL, which
 * leaves card and *transaction as they were: read acknowledgements first. */
static inline uint32_t lw_card_open_transaction(lw_card *card, uint16_t count, uint32_t address,
                                                uint32_t value, uint32_t *transaction)
{
    return lw_raw_card_open_transaction(card, count, address, value, transaction);
}

/* Adds one message of a transaction, to write data at address, to the frame being
 * built. Returns 0 or the first that applies of LW_REFUSED_BAD_LIMIT_OR_SLOTS,
 * _NO_MESSAGE_LEFT, _DATA_FOR_BARE, _FRAME_WINDOW_FULL and _FRAME_FULL; then
 * neither card nor slots change. The data is copied into the slots. */
static inline uint32_t lw_card_add(lw_card *card, uint8_t *slots, size_t size,
                                   uint32_t transaction, uint32_t address, const uint8_t *data,
                                   size_t length)
{
    uint8_t none = 0;
    return lw_raw_card_add(card, size != 0 ? slots : &none, size, transaction, address,
                           length != 0 ? data : &none, length);
}

/* Seals the frame being built: it is held until it is acknowledged. Returns 0 and
 * its number in *number; or the first that applies of LW_REFUSED_BAD_LIMIT_OR_SLOTS
 * and LW_REFUSED_NOTHING_TO_SEAL, which leave card and *number as they were.
 * Nothing is written to the slots. */
static inline uint32_t lw_card_seal(lw_card *card, const uint8_t *slots, size_t size,
                                    uint16_t *number)
{
    const uint8_t none = 0;
    return lw_raw_card_seal(card, size != 0 ? slots : &none, size, number);
}

/* Reads the acknowledgements of an arriving frame: what they cover is no longer
 * held, and numbers of frames that are not sealed, or are released, are ignored. Its
 * messages are not looked at further than that they fit. Returns 0 or the first
 * that applies of the refusals 1 to 5; then the card is as it was. */
static inline uint32_t lw_card_read(lw_card *card, const uint8_t *frame, size_t length)
{
    const uint8_t none = 0;
    return lw_raw_card_read(card, length != 0 ? frame : &none, length);
}

/* Shows a held frame, to be sent (again). Returns 0 and the frame in *part, as a
 * part of the slots, which is good until the next call that changes card or slots;
 * or the first that applies of LW_REFUSED_BAD_LIMIT_OR_SLOTS and
 * LW_REFUSED_NOT_HELD, and an empty part with start NULL. Nothing but *part is
 * written. */
static inline uint32_t lw_card_show(const lw_card *card, const uint8_t *slots, size_t size,
                                    uint16_t number, lw_part *part)
{
    const uint8_t none = 0;
    uint64_t found[2] = {0, 0}; /* offset and length */
    const uint32_t refusal =
        lw_raw_card_show(card, size != 0 ? slots : &none, size, number, found);

    part->start = refusal == LW_NOT_REFUSED ? slots + found[0] : NULL;
    part->length = (size_t)found[1];
    return refusal;
}

/* Chooses what goes out next: the lent acknowledgement if it has exactly the
 * LW_ACKNOWLEDGEMENT bytes of one, whatever they are, otherwise the oldest held
 * frame. Returns 0 and it in *part, as a part of its own buffer; or the first that
 * applies of LW_REFUSED_BAD_LIMIT_OR_SLOTS and LW_REFUSED_NOT_HELD, and an empty
 * part with start NULL. Nothing but *part is written: what was chosen is chosen
 * again until it is acknowledged. */
static inline uint32_t lw_card_choose(const lw_card *card, const uint8_t *slots, size_t size,
                                      const uint8_t *acknowledgement, size_t length, lw_part *part)
{
    const uint8_t none = 0;
    uint64_t found[3] = {0, 0, 0}; /* 1 for the acknowledgement, offset and length */
    const uint32_t refusal =
        lw_raw_card_choose(card, size != 0 ? slots : &none, size,
                           length != 0 ? acknowledgement : &none, length, found);

    part->start = NULL;
    if (refusal == LW_NOT_REFUSED)
        part->start = (found[0] == 1 ? acknowledgement : slots) + found[1];
    part->length = (size_t)found[2];
    return refusal;
}

/* ---- The layout of a frame --------------------------------------------- */

/* Whether the frame's layout is refused, and why: LW_NOT_REFUSED, or the first of
 * LW_REFUSED_FRAME_TOO_SHORT, LW_REFUSED_FRAME_TOO_LONG, LW_REFUSED_RESERVED_FLAG
 * and LW_REFUSED_PAST_FRAME_END that applies. No ID is known here, so none is
 * wrong. */
uint32_t lw_layout_refusal(const uint8_t *frame, size_t length);

/* The fields of the frame header, each as it stands there, or 0 if the layout is
 * refused. As 0 is also a possible value, ask lw_layout_refusal first. None of the
 * calls of this section writes anything. */

/* ID of the endpoint the frame is for, 0 to 65,535; 0 if refused. */
uint32_t lw_destination(const uint8_t *frame, size_t length);

/* ID of the endpoint the frame is from, 0 to 65,535; 0 if refused. */
uint32_t lw_source(const uint8_t *frame, size_t length);

/* Frame number, 0 to 65,535; 0 if refused. */
uint32_t lw_frame_number(const uint8_t *frame, size_t length);

/* First acknowledged frame number, 0 to 65,535; 0 if refused. The field is given
 * as it stands even if lw_ack_count is 0, but then it acknowledges nothing. */
uint32_t lw_ack_start(const uint8_t *frame, size_t length);

/* How many frame numbers are acknowledged from lw_ack_start on, 65,535 being
 * followed by 0; 0 to 255; 0 if refused. */
uint32_t lw_ack_count(const uint8_t *frame, size_t length);

/* Flags: 1 if the frame has messages, 0 if not; 0 if refused, as a frame with any
 * other flags is. */
uint32_t lw_flags(const uint8_t *frame, size_t length);

/* Number of messages, 0 to 374; 0 if refused. A clear flag means none, whatever
 * bytes follow the frame header. */
uint32_t lw_message_count(const uint8_t *frame, size_t length);

/* Sum of the messages' data lengths, 0 to 8,966: headers, gaps and what stands
 * after the last message do not count; 0 if refused, and 0 for a clear flag. */
uint32_t lw_data_bytes(const uint8_t *frame, size_t length);

/* ---- The replay from fragments ----------------------------------------- */

/* Opens a replay: a host of ID 1 for frames from 2, a memory of zeros, no line read. */
static inline void lw_replay_open(lw_replay *replay)
{
    lw_raw_replay_open(replay->place, replay->host, replay->memory);
}

/* Feeds a fragment of the text, cut anywhere; fragment may be NULL where length is 0.
 * It takes the bytes through the first newline and returns LW_LINE_ANSWERED with the
 * answer of that line. Without a newline, or once 1,000,000 lines are answered, it
 * takes all and returns LW_NO_LINE. The caller feeds what was not taken again. Once
 * closed, it takes nothing and returns LW_REFUSED_REPLAY_CLOSED. *taken is written each
 * time, *answer only where a line is answered. */
static inline uint32_t lw_replay_feed(lw_replay *replay, const uint8_t *fragment, size_t length,
                                      size_t *taken, lw_answer *answer)
{
    uint8_t none = 0;
    return lw_raw_replay_feed(replay->place, replay->host, replay->frame, replay->memory,
                              length != 0 ? fragment : &none, length, taken, answer);
}

/* Closes a replay, writes the totals, and returns LW_LINE_ANSWERED with the answer of
 * a last line without a newline, if it has a character and fewer than 1,000,000 lines
 * were answered; else LW_NO_LINE, and *answer stays as it was. Once closed, it writes
 * nothing and returns LW_REFUSED_REPLAY_CLOSED. */
static inline uint32_t lw_replay_close(lw_replay *replay, lw_answer *answer, lw_totals *totals)
{
    return lw_raw_replay_close(replay->place, replay->host, replay->frame, replay->memory, answer,
                               totals);
}

#ifdef __cplusplus
}
#endif

#endif
