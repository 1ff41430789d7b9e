/*
 * The replay from fragments as a C program calls it: the whole case cut at every
 * place, byte by byte and with empty fragments, long and bad lines, and every call
 * after the closing. Each answer is written out here. The exit status is 1 if a
 * check failed.
 */
#include <logwhisker.h>

#include "check.h"

#include <stdio.h>
#include <string.h>

static const char whole_case[] =
    "010002000000000000010000000040000000443322110100000000000000040000000a0b0c0d";

static lw_replay replay;
static char said[64];

/* The replay's line for an answer, behind those before it. */
static void say(const lw_answer *answer)
{
    size_t used = strlen(said);
    char *end = said + used;
    size_t room = sizeof said - used;
    switch (answer->kind) {
    case LW_ACCEPTED:
        snprintf(end, room, "A %d %d %d %d\n", (int)answer->number, (int)answer->messages,
                 (int)answer->bytes, (int)answer->completed);
        break;
    case LW_AGAIN: snprintf(end, room, "G %d\n", (int)answer->number); break;
    case LW_NO_MESSAGES: snprintf(end, room, "N\n"); break;
    default: snprintf(end, room, "R %d\n", (int)answer->refusal); break;
    }
}

/* An answer that nothing has written. */
static lw_answer unwritten(void)
{
    lw_answer answer;
    memset(&answer, 0x5a, sizeof answer);
    return answer;
}

/* Says the answer of a line; where there is none, none may be written. */
static void hear(unsigned long at, uint32_t reply, const lw_answer *answer)
{
    const lw_answer before = unwritten();
    if (reply == LW_LINE_ANSWERED) {
        say(answer);
        return;
    }
    check("nothing is said of a line", at, reply, LW_NO_LINE);
    check_bytes("answer as it was", at, answer, &before, sizeof before);
}

/* Feeds bytes until all are taken. */
static void feed(const char *bytes, size_t length)
{
    size_t from = 0;
    do {
        lw_answer answer = unwritten();
        size_t taken = SIZE_MAX;
        const uint8_t *rest = bytes == NULL ? NULL : (const uint8_t *)bytes + from;
        uint32_t reply = lw_replay_feed(&replay, rest, length - from, &taken, &answer);
        hear(from, reply, &answer);
        if (reply == LW_LINE_ANSWERED && taken > 0 && taken <= length - from) {
            check("the line's newline is taken", from, rest[taken - 1], '\n');
        } else {
            check("all is taken", from, taken, length - from);
            return;
        }
        from += taken;
    } while (from < length);
}

static void start(void)
{
    memset(&replay, 0xa5, sizeof replay);
    lw_replay_open(&replay);
    said[0] = 0;
}

/* Closes, and compares all that was said and the totals. */
static void finish(unsigned long at, const char *want, lw_totals sums)
{
    lw_answer answer = unwritten();
    lw_totals totals = { 7, 7, 7 };
    hear(at, lw_replay_close(&replay, &answer, &totals), &answer);
    check("what was said", at, strcmp(said, want) == 0, 1);
    check_bytes("totals", at, &totals, &sums, sizeof sums);
}

static const lw_totals no_sums = { 0, 0, 0 };
static const lw_totals one_frame = { 1, 4, 1 };

static void check_cuts(void)
{
    char text[2 * sizeof whole_case + 1];
    size_t length = (size_t)snprintf(text, sizeof text, "%s\n%s", whole_case, whole_case);
    for (size_t at = 0; at <= length; at++) {
        start();
        feed(text, at);
        feed(NULL, 0);
        feed(text + at, length - at);
        finish(at, "A 0 1 4 1\nG 0\n", one_frame);
        check_bytes("memory", at, replay.memory, "\x0a\x0b\x0c\x0d", 4);
        check_bytes("completion", at, replay.memory + 64, "\x44\x33\x22\x11", 4);
    }
    start();
    for (size_t at = 0; at < length; at++)
        feed(text + at, 1);
    finish(length, "A 0 1 4 1\nG 0\n", one_frame);
    end_group("the whole case cut anywhere");
}

static void check_lines(void)
{
    static char digits[LW_LONGEST_FRAME * 2 + 3];
    memset(digits, '0', sizeof digits);
    start();
    feed("\n0\nzz\n0z", 8);
    finish(0, "R 1\nR 14\nR 14\nR 14\n", no_sums);
    start();
    feed("00\n", 3);
    finish(1, "R 1\n", no_sums);
    for (size_t length = 18000; length <= sizeof digits; length++) {
        start();
        feed(digits, length / 2);
        feed(digits, length - length / 2);
        feed("\n", 1);
        finish(length, length % 2 != 0 ? "R 14\n" : length == 18000 ? "R 3\n" : "R 2\n", no_sums);
    }
    start();
    feed(digits, sizeof digits);
    feed("g", 1);
    finish(2, "R 14\n", no_sums);
    end_group("lines that are no frame");
}

static void check_closed(void)
{
    lw_replay before;
    lw_answer answer = unwritten();
    const lw_answer untouched = answer;
    lw_totals totals = { 7, 7, 7 };
    const lw_totals sevens = { 7, 7, 7 };
    size_t taken = 9;
    start();
    feed(whole_case, sizeof whole_case - 1);
    finish(0, "A 0 1 4 1\n", one_frame);
    before = replay;
    check("feeding", 0, lw_replay_feed(&replay, (const uint8_t *)"\n", 1, &taken, &answer),
          LW_REFUSED_REPLAY_CLOSED);
    check("taken", 0, taken, 0);
    taken = 9;
    check("feeding nothing", 0, lw_replay_feed(&replay, NULL, 0, &taken, &answer),
          LW_REFUSED_REPLAY_CLOSED);
    check("taken", 1, taken, 0);
    check("closing", 0, lw_replay_close(&replay, &answer, &totals), LW_REFUSED_REPLAY_CLOSED);
    check_bytes("state", 0, &replay, &before, sizeof replay);
    check_bytes("answer", 0, &answer, &untouched, sizeof answer);
    check_bytes("totals", 0, &totals, &sevens, sizeof totals);
    end_group("calls after the closing");
}

int main(void)
{
    setvbuf(stdout, NULL, _IOLBF, 0);
    check_cuts();
    check_lines();
    check_closed();
    return end_checks();
}
