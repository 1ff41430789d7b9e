/* Sockets, clock, seeded numbers and options of the demonstration: see common.h. */
#define _POSIX_C_SOURCE 200809L

#include "common.h"

#include <arpa/inet.h>
#include <errno.h>
#include <fcntl.h>
#include <inttypes.h>
#include <poll.h>
#include <stdio.h>
#include <stdlib.h>
#include <string.h>
#include <sys/socket.h>
#include <sys/uio.h>
#include <time.h>

volatile sig_atomic_t ended;

static void end(int signal)
{
    (void)signal;
    ended = 1;
}

void end_on_signals(void)
{
    struct sigaction action = {.sa_handler = end};

    if (sigaction(SIGTERM, &action, NULL) != 0 || sigaction(SIGINT, &action, NULL) != 0)
        fail("sigaction");
}

void fail(const char *what)
{
    perror(what);
    exit(EXIT_FAILURE);
}

static bool read_option(const char *text, const struct option *options, size_t count)
{
    for (size_t i = 0; i < count; i++) {
        const size_t length = strlen(options[i].name);
        if (strncmp(text, options[i].name, length) != 0 || text[length] != '=')
            continue;
        const char *digits = text + length + 1;
        char *end_of_digits;
        errno = 0;
        const unsigned long value = strtoul(digits, &end_of_digits, 10);
        if (*digits < '0' || *digits > '9' || *end_of_digits != '\0' || errno != 0 ||
            value < options[i].least || value > options[i].most)
            return false;
        *options[i].value = (uint32_t)value;
        return true;
    }
    return false;
}

void read_options(int argc, char **argv, const struct option *options, size_t count)
{
    for (int i = 1; i < argc; i++) {
        if (read_option(argv[i], options, count))
            continue;
        fprintf(stderr, "%s: cannot take '%s'; there is", argv[0], argv[i]);
        for (size_t k = 0; k < count; k++)
            fprintf(stderr, " %s=%" PRIu32 "..%" PRIu32, options[k].name, options[k].least,
                    options[k].most);
        fputc('\n', stderr);
        exit(EXIT_FAILURE);
    }
}

struct sockaddr_in local_address(uint16_t port)
{
    struct sockaddr_in address = {.sin_family = AF_INET, .sin_port = htons(port)};

    address.sin_addr.s_addr = htonl(INADDR_LOOPBACK);
    return address;
}

int open_socket(uint16_t *port)
{
    struct sockaddr_in address = local_address(*port);
    socklen_t size = sizeof address;
    const int opened = socket(AF_INET, SOCK_DGRAM, 0);

    if (opened < 0)
        fail("socket");
    if (bind(opened, (struct sockaddr *)&address, size) != 0)
        fail("bind");
    if (getsockname(opened, (struct sockaddr *)&address, &size) != 0)
        fail("getsockname");
    if (fcntl(opened, F_SETFL, O_NONBLOCK) != 0)
        fail("fcntl");
    *port = ntohs(address.sin_port);
    return opened;
}

void send_frame(int socket, const struct sockaddr_in *to, const uint8_t *frame, size_t length)
{
    uint8_t prefix[PREFIX] = {0, 0};
    struct iovec parts[2] = {{prefix, sizeof prefix}, {(void *)frame, length}};
    const struct msghdr datagram = {
        .msg_name = (void *)to, .msg_namelen = sizeof *to, .msg_iov = parts, .msg_iovlen = 2};

    (void)sendmsg(socket, &datagram, 0);
}

void wait_for(const int *sockets, size_t count, uint64_t milliseconds)
{
    struct pollfd waiting[2];

    for (size_t i = 0; i < count; i++)
        waiting[i] = (struct pollfd){.fd = sockets[i], .events = POLLIN};
    if (poll(waiting, count, (int)milliseconds) < 0 && errno != EINTR)
        fail("poll");
}

uint64_t now(void)
{
    struct timespec time;

    if (clock_gettime(CLOCK_MONOTONIC, &time) != 0)
        fail("clock_gettime");
    return (uint64_t)time.tv_sec * 1000 + (uint64_t)time.tv_nsec / 1000000;
}

/* The generator SplitMix64. */
uint64_t next_random(uint64_t *seed)
{
    *seed += 0x9e3779b97f4a7c15;
    uint64_t mixed = *seed;
    mixed = (mixed ^ mixed >> 30) * 0xbf58476d1ce4e5b9;
    mixed = (mixed ^ mixed >> 27) * 0x94d049bb133111eb;
    return mixed ^ mixed >> 31;
}

uint32_t random_below(uint64_t *seed, uint32_t limit)
{
    return (uint32_t)(next_random(seed) % limit);
}

void print_bill(const char *prefix, const struct bill *bill, const uint8_t *memory, size_t size)
{
    /* FNV-1a of 64 bits. */
    uint64_t digest = 0xcbf29ce484222325;

    for (size_t i = 0; i < size; i++)
        digest = (digest ^ memory[i]) * 0x100000001b3;
    printf("%smessages %" PRIu64 "\n%sbytes %" PRIu64 "\n%stransactions %" PRIu64
           "\n%smemory %016" PRIx64 "\n",
           prefix, bill->messages, prefix, bill->bytes, prefix, bill->transactions, prefix, digest);
}
