/*
 * The network of the demonstration: hands datagrams on between cards and host, and
 * on the way loses, repeats, delays and so reorders some of both directions, as a
 * seed decides. Of what is in them it looks at the IDs only: a card's datagrams tell
 * where it is, and what comes back goes to the card that is its destination. Prints
 * `port NUMBER` at the start, where the cards send to, and, when it is told to end by
 * SIGTERM, what it did.
 */
#define _POSIX_C_SOURCE 200809L

#include "common.h"

#include <inttypes.h>
#include <stdio.h>
#include <stdlib.h>
#include <string.h>
#include <sys/socket.h>

enum {
    PATIENCE = 20000,  /* nobody sends for this long: the others must have gone */
    LONGEST_DELAY = 6, /* milliseconds */
    MOST_DELAYED = 256 /* datagrams of one direction that wait at a time */
};

struct options {
    uint32_t host;
    uint32_t seed;
    uint32_t loss;
    uint32_t repeat;
    uint32_t reorder;
};

struct datagram {
    uint64_t due;
    uint64_t order; /* how many arrived before it */
    struct sockaddr_in to;
    size_t length;
    uint8_t bytes[LONGEST_DATAGRAM];
};

/* One of the two directions, from one socket out by the other. */
struct direction {
    const char *name;
    int in;
    int out;
    struct datagram delayed[MOST_DELAYED];
    size_t waiting;
    uint64_t arrived;
    uint64_t lost;
    uint64_t repeated;
    uint64_t held_back;
    uint64_t reordered; /* a later one was sent before */
    uint64_t sent;
    uint64_t latest; /* the highest order of those sent */
};

struct relay {
    struct direction to_host;
    struct direction to_card;
    struct sockaddr_in host;
    struct sockaddr_in cards[LW_TABLE_CARDS]; /* where the latest datagram of each came from */
    struct options options;
    uint64_t seed;
};

static bool happens(struct relay *relay, uint32_t per_cent)
{
    return random_below(&relay->seed, 100) < per_cent;
}

static void send_on(struct direction *direction, const struct datagram *datagram)
{
    (void)sendto(direction->out, datagram->bytes, datagram->length, 0,
                 (const struct sockaddr *)&datagram->to, sizeof datagram->to);
    direction->sent++;
    if (datagram->order < direction->latest)
        direction->reordered++;
    else
        direction->latest = datagram->order;
}

/* Sends it at once, or lets it wait while later ones pass. */
static void pass(struct relay *relay, struct direction *direction, struct datagram *datagram)
{
    if (!happens(relay, relay->options.reorder) || direction->waiting == MOST_DELAYED) {
        send_on(direction, datagram);
        return;
    }
    datagram->due = now() + 1 + random_below(&relay->seed, LONGEST_DELAY);
    direction->delayed[direction->waiting++] = *datagram;
    direction->held_back++;
}

static void take(struct relay *relay, struct direction *direction, struct datagram *datagram)
{
    datagram->order = direction->arrived++;
    if (happens(relay, relay->options.loss)) {
        direction->lost++;
        return;
    }
    if (happens(relay, relay->options.repeat)) {
        direction->repeated++;
        pass(relay, direction, datagram);
    }
    pass(relay, direction, datagram);
}

/* Where the card is whose ID stands at this place of a datagram's frame, the source or
 * the destination; NULL if it is no card's. */
static struct sockaddr_in *card_of(struct relay *relay, const struct datagram *datagram, size_t at)
{
    const uint8_t *id = datagram->bytes + PREFIX + at;

    if (datagram->length < PREFIX + LW_FRAME_HEADER)
        return NULL;
    const unsigned number = id[0] | (unsigned)id[1] << 8;
    if (number < CARD_ID || number >= CARD_ID + LW_TABLE_CARDS)
        return NULL;
    return &relay->cards[number - CARD_ID];
}

/* Finds out where a datagram goes; false if that is nowhere. */
static bool address(struct relay *relay, const struct direction *direction,
                    struct datagram *datagram, const struct sockaddr_in *from)
{
    enum { DESTINATION = 0, SOURCE = 2 };

    if (direction == &relay->to_host) {
        struct sockaddr_in *const card = card_of(relay, datagram, SOURCE);
        if (card != NULL)
            *card = *from;
        datagram->to = relay->host;
        return true;
    }
    const struct sockaddr_in *const card = card_of(relay, datagram, DESTINATION);
    if (card == NULL || card->sin_port == 0)
        return false;
    datagram->to = *card;
    return true;
}

/* Takes all datagrams that have arrived; false if there was none. */
static bool take_all(struct relay *relay, struct direction *direction)
{
    static struct datagram datagram;
    struct sockaddr_in from;
    bool any = false;

    for (;;) {
        socklen_t size = sizeof from;
        const ssize_t length = recvfrom(direction->in, datagram.bytes, sizeof datagram.bytes, 0,
                                        (struct sockaddr *)&from, &size);
        if (length < 0)
            return any;
        any = true;
        datagram.length = (size_t)length;
        if (address(relay, direction, &datagram, &from))
            take(relay, direction, &datagram);
    }
}

/* Sends the delayed ones whose time has come, and gives when the next one's does,
 * at most 100 milliseconds from now. */
static uint64_t release(struct direction *direction)
{
    uint64_t next = now() + 100;
    size_t kept = 0;

    for (size_t i = 0; i < direction->waiting; i++) {
        const struct datagram *datagram = &direction->delayed[i];
        if (datagram->due <= now()) {
            send_on(direction, datagram);
            continue;
        }
        if (datagram->due < next)
            next = datagram->due;
        if (kept != i)
            direction->delayed[kept] = *datagram;
        kept++;
    }
    direction->waiting = kept;
    return next;
}

static void report(const struct direction *direction)
{
    printf("%s: arrived %" PRIu64 ", lost %" PRIu64 ", repeated %" PRIu64 ", delayed %" PRIu64
           ", reordered %" PRIu64 ", sent on %" PRIu64 "\n",
           direction->name, direction->arrived, direction->lost, direction->repeated,
           direction->held_back, direction->reordered, direction->sent);
}

static void run(struct relay *relay)
{
    struct direction *to_host = &relay->to_host;
    struct direction *to_card = &relay->to_card;
    const int sockets[2] = {to_host->in, to_card->in};
    uint64_t heard = now();

    while (!ended && now() - heard < PATIENCE) {
        const uint64_t one = release(to_host);
        const uint64_t other = release(to_card);
        const uint64_t next = one < other ? one : other;
        const uint64_t time = now();
        wait_for(sockets, 2, next > time ? next - time : 0);
        const bool from_card = take_all(relay, to_host);
        const bool from_host = take_all(relay, to_card);
        if (from_card || from_host)
            heard = now();
    }
}

int main(int argc, char **argv)
{
    static struct relay relay = {
        .to_host.name = "to-host",
        .to_card.name = "to-card",
        .options = {.seed = 1, .loss = 3, .repeat = 3, .reorder = 10}};
    struct options *const given = &relay.options;
    const struct option options[] = {{"host", &given->host, 1, UINT16_MAX},
                                     {"seed", &given->seed, 0, UINT32_MAX},
                                     {"loss", &given->loss, 0, 90},
                                     {"repeat", &given->repeat, 0, 100},
                                     {"reorder", &given->reorder, 0, 100}};
    uint16_t port = 0;
    uint16_t unused = 0;

    read_options(argc, argv, options, sizeof options / sizeof options[0]);
    end_on_signals();
    relay.seed = given->seed;
    relay.to_host.in = relay.to_card.out = open_socket(&port);
    relay.to_card.in = relay.to_host.out = open_socket(&unused);
    relay.host = local_address((uint16_t)given->host);
    printf("port %u\n", port);
    fflush(stdout);

    run(&relay);
    report(&relay.to_host);
    report(&relay.to_card);
    return ended && fflush(stdout) == 0 && !ferror(stdout) ? EXIT_SUCCESS : EXIT_FAILURE;
}
