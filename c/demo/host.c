/*
 * The charging host of the demonstration: receives datagrams on a UDP port, hands
 * each frame to the library and sends back the acknowledgement that the answer
 * calls for. It is a host for one card, or a table for several, each with an equal
 * part of the memory. Prints `port NUMBER` at the start and, when it is told to end
 * by SIGTERM, its bill and how many frames got which answer; with several cards a
 * bill for each as well. Port and size of its memory can be set, so that its
 * datagrams can be captured and replayed; or it prints each of them itself, as
 * `datagram DIGITS`.
 */
#define _POSIX_C_SOURCE 200809L

#include "common.h"

#include <inttypes.h>
#include <stdio.h>
#include <stdlib.h>
#include <sys/socket.h>

/* Nobody sends for this long: the others must have gone. */
enum { PATIENCE = 20000 };

struct receiver {
    uint32_t cards;
    lw_host host;   /* of one card */
    lw_table table; /* of several */
    uint8_t memory[MOST_MEMORY];
    uint32_t memory_size; /* as much of it as is lent */
    uint32_t is_showing;  /* 1: prints every datagram */
    int socket;
    struct bill bill;
    struct bill bills[LW_TABLE_CARDS]; /* of each of several cards */
    uint64_t accepted;
    uint64_t again;
    uint64_t no_messages;
    uint64_t refused;
};

/* Bytes of each card's region. */
static size_t region_size(const struct receiver *receiver)
{
    return receiver->memory_size / receiver->cards;
}

/* Opens a host, or a table with all its cards registered; gives 0 or the refusal. */
static uint32_t open_host(struct receiver *receiver)
{
    const size_t size = region_size(receiver);

    if (receiver->cards == 1)
        return lw_host_open(&receiver->host, HOST_ID, CARD_ID);
    uint32_t refusal = lw_table_open(&receiver->table, HOST_ID);
    for (size_t k = 0; k < receiver->cards && refusal == LW_NOT_REFUSED; k++)
        refusal = lw_table_register(&receiver->table, (uint16_t)(CARD_ID + k), k * size, size,
                                    receiver->memory_size);
    return refusal;
}

static void add_to_bill(struct bill *bill, const lw_answer *answer)
{
    bill->messages += answer->messages;
    bill->bytes += answer->bytes;
    bill->transactions += answer->completed;
}

static void count_answer(struct receiver *receiver, const lw_answer *answer, uint16_t source)
{
    switch (answer->kind) {
    case LW_ACCEPTED:
        receiver->accepted++;
        add_to_bill(&receiver->bill, answer);
        /* Only a registered card's frame is accepted. */
        add_to_bill(&receiver->bills[source - CARD_ID], answer);
        break;
    case LW_AGAIN:
        receiver->again++;
        break;
    case LW_NO_MESSAGES:
        receiver->no_messages++;
        break;
    default:
        receiver->refused++;
        fprintf(stderr, "host: refused with %" PRIu64 ", %s\n", answer->refusal,
                lw_refusal_name((uint32_t)answer->refusal));
    }
}

static void receive_frame(struct receiver *receiver, const uint8_t *frame, size_t length,
                          const struct sockaddr_in *from)
{
    uint8_t acknowledgement[LW_ACKNOWLEDGEMENT];
    uint16_t source = CARD_ID;
    uint32_t is_due;
    lw_answer answer;

    if (receiver->cards == 1) {
        lw_host_receive(&receiver->host, frame, length, receiver->memory, receiver->memory_size,
                        &answer);
        is_due = lw_host_acknowledge(&receiver->host, &answer, 0, acknowledgement);
    } else {
        lw_table_receive(&receiver->table, frame, length, receiver->memory, receiver->memory_size,
                         &source, &answer);
        is_due = lw_table_acknowledge(&receiver->table, source, &answer, 0, acknowledgement);
    }
    count_answer(receiver, &answer, source);
    if (is_due == 1)
        send_frame(receiver->socket, from, acknowledgement, sizeof acknowledgement);
}

static void show_datagram(const uint8_t *datagram, size_t length)
{
    printf("datagram ");
    for (size_t i = 0; i < length; i++)
        printf("%02x", datagram[i]);
    putchar('\n');
}

/* Takes all datagrams that have arrived; false if there was none. */
static bool receive_all(struct receiver *receiver)
{
    uint8_t datagram[RECEIVED];
    struct sockaddr_in from;
    bool any = false;

    for (;;) {
        socklen_t size = sizeof from;
        const ssize_t length = recvfrom(receiver->socket, datagram, sizeof datagram, 0,
                                        (struct sockaddr *)&from, &size);
        if (length < 0)
            return any;
        any = true;
        if (receiver->is_showing)
            show_datagram(datagram, (size_t)length);
        if (length >= PREFIX)
            receive_frame(receiver, datagram + PREFIX, (size_t)length - PREFIX, &from);
    }
}

/* Each card's bill as `ID-messages NUMBER` and so on, its memory being its region, and
 * how many bytes outside all regions are not as they were at the start. */
static void report_cards(const struct receiver *receiver)
{
    const size_t size = region_size(receiver);
    unsigned long changed = 0;
    char prefix[16];

    for (size_t k = 0; k < receiver->cards; k++) {
        snprintf(prefix, sizeof prefix, "%zu-", CARD_ID + k);
        print_bill(prefix, &receiver->bills[k], receiver->memory + k * size, size);
    }
    for (size_t i = receiver->cards * size; i < sizeof receiver->memory; i++)
        changed += receiver->memory[i] != 0;
    printf("changed-outside %lu\n", changed);
}

static void report(const struct receiver *receiver)
{
    print_bill("", &receiver->bill, receiver->memory, receiver->memory_size);
    if (receiver->cards > 1)
        report_cards(receiver);
    printf("accepted %" PRIu64 "\nagain %" PRIu64 "\nno-messages %" PRIu64 "\nrefused %" PRIu64 "\n",
           receiver->accepted, receiver->again, receiver->no_messages, receiver->refused);
}

int main(int argc, char **argv)
{
    static struct receiver receiver = {.cards = 1, .memory_size = MOST_MEMORY};
    uint32_t wanted = 0;
    const struct option options[] = {
        {"port", &wanted, 0, UINT16_MAX},
        {"cards", &receiver.cards, 1, LW_TABLE_CARDS},
        {"datagrams", &receiver.is_showing, 0, 1},
        {"memory", &receiver.memory_size, LEAST_MEMORY, MOST_MEMORY}};

    read_options(argc, argv, options, sizeof options / sizeof options[0]);
    end_on_signals();
    const uint32_t refusal = open_host(&receiver);
    if (refusal != LW_NOT_REFUSED) {
        fprintf(stderr, "host: not opened: %s\n", lw_refusal_name(refusal));
        return EXIT_FAILURE;
    }
    uint16_t port = (uint16_t)wanted;
    receiver.socket = open_socket(&port);
    printf("port %u\n", port);
    fflush(stdout);

    uint64_t heard = now();
    while (!ended && now() - heard < PATIENCE) {
        wait_for(&receiver.socket, 1, 100);
        if (receive_all(&receiver))
            heard = now();
    }
    report(&receiver);
    return ended && fflush(stdout) == 0 && !ferror(stdout) ? EXIT_SUCCESS : EXIT_FAILURE;
}
