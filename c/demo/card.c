/*
 * The card of the demonstration: opens transactions of a few messages each, adds
 * these to frames, seals and sends them, and sends what is not acknowledged again
 * by a clock, until the wanted number of frames is sealed and all of them are
 * acknowledged. Keeps what the host's memory, or its region of it, has to be then,
 * and prints its bill. With several cards each is given its ID. It ends with status 1
 * if the host stays silent or the time is up.
 */
#define _POSIX_C_SOURCE 200809L

#include "common.h"

#include <inttypes.h>
#include <stdio.h>
#include <stdlib.h>
#include <string.h>
#include <sys/socket.h>

enum {
    RESEND_AFTER = 12, /* milliseconds without an acknowledgement */
    PATIENCE = 10000,  /* milliseconds without one at all: the host must have gone */
    MOST_MESSAGES = 8, /* of a transaction */
    MOST_DATA = (MOST_BLOCK - COMPLETION_SIZE) / MOST_MESSAGES /* bytes of a message */
};

/* The transaction whose messages are being added. */
struct work {
    uint32_t transaction;
    uint32_t messages; /* in all; a transaction of count 0 has one */
    uint32_t added;
    uint16_t count;
    uint32_t value;
};

struct sender {
    lw_card card;
    uint32_t id; /* one of several cards has it given, otherwise 0 */
    uint8_t slots[LW_SLOTS_SIZE(FRAME_LIMIT)];
    int socket;
    struct sockaddr_in relay;
    uint32_t seed;
    uint32_t frames;  /* to be sealed */
    uint32_t seconds; /* in which all is to be done */

    struct work work;
    uint64_t opened;              /* transactions so far */
    uint64_t due[LW_FRAME_WINDOW]; /* when a held frame is to be sent again */
    uint16_t next;                /* the number that the next frame will have */
    uint64_t sealed;
    uint64_t sent;
    uint64_t sent_again;
    uint64_t acknowledgements;
    uint64_t heard; /* when the latest one came */

    struct bill bill;
    uint8_t memory[MOST_MEMORY]; /* what the host's has to be, or this card's region */
    uint32_t memory_size;        /* as much of it as there is */
};

/* ---- Sending ----------------------------------------------------------- */

static void send_part(struct sender *sender, uint16_t number, lw_part part)
{
    send_frame(sender->socket, &sender->relay, part.start, part.length);
    sender->due[number % LW_FRAME_WINDOW] = now() + RESEND_AFTER;
    sender->sent++;
}

/* Seals the frame being built, if there is one, and sends it. */
static void seal_and_send(struct sender *sender)
{
    uint16_t number;
    lw_part part;

    if (lw_card_seal(&sender->card, sender->slots, sizeof sender->slots, &number) != LW_NOT_REFUSED)
        return;
    sender->next = (uint16_t)(number + 1);
    sender->sealed++;
    if (lw_card_show(&sender->card, sender->slots, sizeof sender->slots, number, &part) ==
        LW_NOT_REFUSED)
        send_part(sender, number, part);
}

/* The oldest held frame's number; false if none is held. */
static bool oldest_held(const struct sender *sender, uint16_t *number)
{
    lw_part part;

    if (lw_card_choose(&sender->card, sender->slots, sizeof sender->slots, NULL, 0, &part) !=
        LW_NOT_REFUSED)
        return false;
    *number = (uint16_t)lw_frame_number(part.start, part.length);
    return true;
}

/* Sends every held frame whose time has come. */
static void send_again(struct sender *sender)
{
    const uint64_t time = now();
    uint16_t number;
    lw_part part;

    if (!oldest_held(sender, &number))
        return;
    for (; number != sender->next; number++) {
        if (sender->due[number % LW_FRAME_WINDOW] > time ||
            lw_card_show(&sender->card, sender->slots, sizeof sender->slots, number, &part) !=
                LW_NOT_REFUSED)
            continue;
        send_part(sender, number, part);
        sender->sent_again++;
    }
}

/* ---- What is sent ------------------------------------------------------ */

static void put32(uint8_t *at, uint32_t value)
{
    for (unsigned i = 0; i < 4; i++)
        at[i] = (uint8_t)(value >> 8 * i);
}

/* The numbers that decide about one message, or with `index` 0 a transaction. */
static uint64_t seed_of(const struct sender *sender, uint64_t transaction, uint32_t index)
{
    uint64_t seed = ((uint64_t)sender->seed << 32) + transaction * (MOST_MESSAGES + 1) + index;

    (void)next_random(&seed);
    return seed;
}

static uint32_t block_size(const struct sender *sender)
{
    return sender->memory_size / BLOCKS;
}

static uint32_t block_of(const struct sender *sender, uint32_t transaction)
{
    return transaction % BLOCKS * block_size(sender);
}

/* Where a transaction's completion is written: at the end of its block. */
static uint32_t completion_of(const struct sender *sender, uint32_t transaction)
{
    return block_of(sender, transaction) + block_size(sender) - COMPLETION_SIZE;
}

/* Bytes that a message may have, so that all of a transaction fit before its completion. */
static uint32_t most_data(const struct sender *sender)
{
    return (block_size(sender) - COMPLETION_SIZE) / MOST_MESSAGES;
}

/* Opens the next transaction; false if acknowledgements are to be read first. */
static bool open_next(struct sender *sender)
{
    uint64_t seed = seed_of(sender, sender->opened, 0);
    struct work work = {.value = (uint32_t)next_random(&seed)};

    work.count = (uint16_t)random_below(&seed, MOST_MESSAGES + 1);
    work.messages = work.count == 0 ? 1 : work.count;
    /* Numbers are handed out in order, so the next one's block is known. */
    const uint32_t address = completion_of(sender, (uint32_t)sender->opened);
    if (lw_card_open_transaction(&sender->card, work.count, address, work.value,
                                 &work.transaction) != LW_NOT_REFUSED) {
        /* What fills the window may be in the frame being built. */
        seal_and_send(sender);
        return false;
    }
    sender->opened++;
    sender->work = work;
    return true;
}

/* Enters a message that was added into the bill and into what memory has to be. */
static void enter(struct sender *sender, uint32_t address, const uint8_t *data, size_t length)
{
    struct work *work = &sender->work;

    work->added++;
    memcpy(sender->memory + address, data, length);
    sender->bill.messages++;
    sender->bill.bytes += length;
    if (work->added == work->messages) {
        put32(sender->memory + completion_of(sender, work->transaction), work->value);
        sender->bill.transactions++;
    }
}

/* Adds the next message; false if acknowledgements are to be read first. */
static bool add_next(struct sender *sender)
{
    const struct work *work = &sender->work;
    uint64_t seed = seed_of(sender, work->transaction, 1 + work->added);
    const uint32_t most = most_data(sender);
    const uint32_t address = block_of(sender, work->transaction) + work->added * most;
    const size_t length = work->count == 0 ? 0 : random_below(&seed, most + 1);
    uint8_t data[MOST_DATA];

    for (size_t i = 0; i < length; i++)
        data[i] = (uint8_t)next_random(&seed);
    switch (lw_card_add(&sender->card, sender->slots, sizeof sender->slots, work->transaction,
                        address, data, length)) {
    case LW_NOT_REFUSED:
        enter(sender, address, data, length);
        if (random_below(&seed, 2) == 0)
            seal_and_send(sender);
        return true;
    case LW_REFUSED_FRAME_FULL:
        seal_and_send(sender);
        return true;
    default:
        return false;
    }
}

/* Whether all frames are built: enough of them, and the last transaction whole. */
static bool is_built(const struct sender *sender)
{
    return sender->work.added == sender->work.messages && sender->sealed >= sender->frames;
}

/* Builds and sends frames as far as the windows let it. */
static void build(struct sender *sender)
{
    while (!is_built(sender)) {
        const bool whole = sender->work.added == sender->work.messages;
        if (!(whole ? open_next(sender) : add_next(sender)))
            return;
    }
    seal_and_send(sender);
}

/* ---- Acknowledgements -------------------------------------------------- */

static void read_all(struct sender *sender)
{
    uint8_t datagram[RECEIVED];

    for (;;) {
        const ssize_t length = recv(sender->socket, datagram, sizeof datagram, 0);
        if (length < 0)
            return;
        if (length < PREFIX || lw_card_read(&sender->card, datagram + PREFIX,
                                            (size_t)length - PREFIX) != LW_NOT_REFUSED)
            continue;
        sender->acknowledgements++;
        sender->heard = now();
    }
}

/* ---- The program ------------------------------------------------------- */

static void report(const struct sender *sender)
{
    print_bill("", &sender->bill, sender->memory, sender->memory_size);
    printf("sealed %" PRIu64 "\nsent %" PRIu64 "\nsent-again %" PRIu64 "\nacknowledgements %" PRIu64
           "\n",
           sender->sealed, sender->sent, sender->sent_again, sender->acknowledgements);
}

/* Says who is speaking. */
static void say_name(const struct sender *sender)
{
    if (sender->id == 0)
        fprintf(stderr, "card: ");
    else
        fprintf(stderr, "card %" PRIu32 ": ", sender->id);
}

static void show_progress(const struct sender *sender)
{
    say_name(sender);
    fprintf(stderr, "%" PRIu64 " of %" PRIu32 " frames sealed, %" PRIu64 " datagrams sent again\n",
            sender->sealed, sender->frames, sender->sent_again);
}

/* Sends all there is, and gives NULL or why it could not. */
static const char *run(struct sender *sender)
{
    const uint64_t started = now();
    uint64_t told = started;
    uint64_t looked = 0;
    uint16_t oldest;

    sender->heard = started;
    do {
        read_all(sender);
        build(sender);
        /* Held frames are looked through once a millisecond, not at every datagram. */
        if (now() != looked) {
            looked = now();
            send_again(sender);
        }
        if (looked - told >= 1000) {
            told = looked;
            show_progress(sender);
        }
        if (looked > sender->heard + PATIENCE)
            return "the host is silent";
        if (looked - started > (uint64_t)sender->seconds * 1000)
            return "the time is up";
        wait_for(&sender->socket, 1, 1);
    } while (!is_built(sender) || oldest_held(sender, &oldest));
    return NULL;
}

int main(int argc, char **argv)
{
    static struct sender sender = {
        .seed = 1, .frames = 3000, .seconds = 50, .memory_size = MOST_MEMORY};
    uint32_t relay = 0;
    const struct option options[] = {
        {"relay", &relay, 1, UINT16_MAX},
        {"id", &sender.id, CARD_ID, CARD_ID + LW_TABLE_CARDS - 1},
        {"seed", &sender.seed, 0, UINT32_MAX},
        {"frames", &sender.frames, 0, 10000000},
        {"seconds", &sender.seconds, 1, 1000000},
        {"memory", &sender.memory_size, LEAST_MEMORY, MOST_MEMORY}};
    uint16_t port = 0;

    read_options(argc, argv, options, sizeof options / sizeof options[0]);
    sender.relay = local_address((uint16_t)relay);
    sender.socket = open_socket(&port);
    const uint16_t own = sender.id == 0 ? CARD_ID : (uint16_t)sender.id;
    const uint32_t refusal = lw_card_open(&sender.card, own, HOST_ID, FRAME_LIMIT, sender.slots,
                                          sizeof sender.slots);
    if (refusal != LW_NOT_REFUSED) {
        say_name(&sender);
        fprintf(stderr, "not opened: %s\n", lw_refusal_name(refusal));
        return EXIT_FAILURE;
    }

    const char *const trouble = run(&sender);
    if (trouble != NULL) {
        say_name(&sender);
        fprintf(stderr, "given up: %s\n", trouble);
    }
    report(&sender);
    return trouble == NULL && fflush(stdout) == 0 && !ferror(stdout) ? EXIT_SUCCESS : EXIT_FAILURE;
}
