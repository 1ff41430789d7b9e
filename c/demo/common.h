/*
 * What the three programs of the demonstration share: the IDs they are set up
 * with, UDP sockets on 127.0.0.1, a clock, seeded numbers, and options. None of it
 * belongs to the library, which knows neither sockets nor time.
 */
#ifndef DEMO_COMMON_H
#define DEMO_COMMON_H

#include <logwhisker.h>

#include <netinet/in.h>
#include <signal.h>
#include <stdbool.h>
#include <stddef.h>
#include <stdint.h>

enum {
    HOST_ID = 1,
    CARD_ID = 2, /* of the first card; the others follow */

    /* In a UDP datagram the frame header starts after two bytes, which are ignored. */
    PREFIX = 2,
    /* A frame, its two bytes, and the headers of UDP and IP fill 1,500 bytes. */
    FRAME_LIMIT = 1470,
    LONGEST_DATAGRAM = PREFIX + FRAME_LIMIT,
    /* Room for any frame that is read, and a byte more: one that is too long is seen to be. */
    RECEIVED = PREFIX + LW_LONGEST_FRAME + 1,

    /* The memory that a card writes to is parted into blocks: each transaction writes into one, and
     * its completion into the block's last bytes. There are twice as many blocks as
     * transactions can be under way, so that nothing is written over before it is
     * complete. A block has room for a completion, at least. */
    BLOCKS = 2 * LW_TRANSACTION_WINDOW,
    COMPLETION_SIZE = 4,
    MOST_BLOCK = 4096,
    LEAST_MEMORY = BLOCKS * COMPLETION_SIZE,
    MOST_MEMORY = BLOCKS * MOST_BLOCK
};

/* What is billed. Both ends print it in the same words, to be compared. */
struct bill {
    uint64_t messages;
    uint64_t bytes;
    uint64_t transactions;
};

/* An option NAME=NUMBER of the command line. */
struct option {
    const char *name;
    uint32_t *value;
    uint32_t least;
    uint32_t most;
};

/* Set by SIGTERM and SIGINT once end_on_signals was called. */
extern volatile sig_atomic_t ended;
void end_on_signals(void);

/* Says what failed, with the reason that errno gives, and ends the program. */
_Noreturn void fail(const char *what);

/* Stores the options that are given, or ends the program where one is unknown or no
 * number from least to most. */
void read_options(int argc, char **argv, const struct option *options, size_t count);

/* A socket on 127.0.0.1 that does not block, at this port; where it is 0, at one
 * that the system chooses and that is stored there. */
int open_socket(uint16_t *port);
struct sockaddr_in local_address(uint16_t port);

/* Sends a frame with the two bytes before it, without copying it. A datagram that
 * the system does not take counts as one that was lost. */
void send_frame(int socket, const struct sockaddr_in *to, const uint8_t *frame, size_t length);

/* Waits until one of the sockets can be read, at most that many milliseconds. */
void wait_for(const int *sockets, size_t count, uint64_t milliseconds);

/* Milliseconds of a clock that only goes forward. */
uint64_t now(void);

/* The next of a row of numbers that the seed decides. */
uint64_t next_random(uint64_t *seed);
uint32_t random_below(uint64_t *seed, uint32_t limit);

/* Prints the bill and a digest of the memory, each line with this prefix. */
void print_bill(const char *prefix, const struct bill *bill, const uint8_t *memory, size_t size);

#endif
