/*
 * Drives a card, a host, a table and a ledger by lines from standard input, one call
 * each, and writes every answer: for trying a sequence by hand, and for comparing the library with
 * an independent program. It is built over the installed header, so that what is
 * compared goes the way that users go.
 *
 * Words are separated by one space, numbers are decimal, bytes hexadecimal of
 * either case, and `-` stands for no bytes. A line of another form, or beyond the
 * limits below, is answered `?` and changes nothing. The exit status is 1 if
 * reading, writing or getting memory failed.
 */
#include <logwhisker.h>

#include <inttypes.h>
#include <stdbool.h>
#include <stdio.h>
#include <stdlib.h>
#include <string.h>

enum {
    LONGEST_LINE = 200000,
    MOST_SLOTS = 600000,
    MOST_MEMORY = 1048576,
    MOST_ARGUMENTS = 5,
    UNWRITTEN = 0xa5, /* what slots are filled with */
    UNSTORED = 0x2e   /* what a buffer to store in is filled with */
};

/* Bytes of the program's own, NULL while there are none. */
struct buffer {
    uint8_t *start;
    size_t size;
};

struct program {
    lw_card card;
    struct buffer slots;
    lw_host host;
    lw_table table;
    struct buffer memory; /* of host and table */
    lw_ledger ledger;
    struct buffer text; /* the latest buffer to store in */
    uint8_t bytes[LONGEST_LINE / 2]; /* those of the line's last word */
    char line[LONGEST_LINE];
    size_t length; /* of the line; one more than LONGEST_LINE stands for any more */
};

/* A part of the line. */
struct word {
    const char *start;
    size_t length;
};

/* ---- Words ------------------------------------------------------------- */

static bool is_word(struct word word, const char *text)
{
    return word.length == strlen(text) && memcmp(word.start, text, word.length) == 0;
}

/* Parts the line at every space, an empty word between two of them. Gives how many
 * words there are, of which at most `most` are stored. */
static size_t split(const char *line, size_t length, struct word *words, size_t most)
{
    size_t count = 0;
    size_t start = 0;

    for (size_t at = 0; at <= length; at++) {
        if (at < length && line[at] != ' ')
            continue;
        if (count < most)
            words[count] = (struct word){line + start, at - start};
        count++;
        start = at + 1;
    }
    return count;
}

/* One or more decimal digits, of a value of 64 bits. */
static bool read_wide(struct word word, uint64_t *value)
{
    uint64_t sum = 0;

    if (word.length == 0)
        return false;
    for (size_t i = 0; i < word.length; i++) {
        const char character = word.start[i];
        if (character < '0' || character > '9')
            return false;
        const uint64_t digit = (uint64_t)(character - '0');
        if (sum > (UINT64_MAX - digit) / 10)
            return false;
        sum = sum * 10 + digit;
    }
    *value = sum;
    return true;
}

/* The same, of a value up to `most`. */
static bool read_number(struct word word, uint32_t most, uint32_t *value)
{
    uint64_t wide;

    if (!read_wide(word, &wide) || wide > most)
        return false;
    *value = (uint32_t)wide;
    return true;
}

/* The value of a hexadecimal digit, or -1. */
static int digit_value(char digit)
{
    if (digit >= '0' && digit <= '9')
        return digit - '0';
    if (digit >= 'a' && digit <= 'f')
        return digit - 'a' + 10;
    if (digit >= 'A' && digit <= 'F')
        return digit - 'A' + 10;
    return -1;
}

/* Pairs of hexadecimal digits, or `-`. `bytes` has room for half a line. */
static bool read_bytes(struct word word, uint8_t *bytes, size_t *length)
{
    *length = 0;
    if (is_word(word, "-"))
        return true;
    if (word.length == 0 || word.length % 2 != 0)
        return false;
    for (size_t i = 0; i < word.length; i += 2) {
        const int high = digit_value(word.start[i]);
        const int low = digit_value(word.start[i + 1]);
        if (high < 0 || low < 0)
            return false;
        bytes[i / 2] = (uint8_t)(high * 16 + low);
    }
    *length = word.length / 2;
    return true;
}

/* ---- Answers ----------------------------------------------------------- */

static void put_bytes(const uint8_t *bytes, size_t length)
{
    static const char digits[] = "0123456789abcdef";

    for (size_t i = 0; i < length; i++) {
        putchar(digits[bytes[i] >> 4]);
        putchar(digits[bytes[i] & 15]);
    }
}

static void put_done(uint32_t refusal)
{
    if (refusal == LW_NOT_REFUSED)
        puts("ok");
    else
        printf("R %" PRIu32 "\n", refusal);
}

static void put_numbered(char letter, uint32_t refusal, uint32_t number)
{
    if (refusal == LW_NOT_REFUSED)
        printf("%c %" PRIu32 "\n", letter, number);
    else
        put_done(refusal);
}

/* A part of the slots is told with the offset where it starts there. */
static void put_part(const struct program *program, uint32_t refusal, lw_part part)
{
    if (refusal != LW_NOT_REFUSED) {
        put_done(refusal);
        return;
    }
    if (part.start == program->bytes)
        printf("lent ");
    else
        printf("slot %td ", part.start - program->slots.start);
    put_bytes(part.start, part.length);
    putchar('\n');
}

/* FNV-1a of 64 bits. */
static void put_digest(struct buffer buffer)
{
    uint64_t hash = 0xcbf29ce484222325;

    for (size_t i = 0; i < buffer.size; i++)
        hash = (hash ^ buffer.start[i]) * 0x100000001b3;
    printf("%016" PRIx64 "\n", hash);
}

/* ---- Calls ------------------------------------------------------------- */

/* Each takes the words after the command's, as many as the table below says. It
 * gives false, having changed and written nothing, if one is not of its form. */

/* A new buffer of bytes with this value instead of the old one. */
static void renew(struct buffer *buffer, size_t size, int value)
{
    free(buffer->start);
    buffer->start = NULL;
    buffer->size = size;
    if (size == 0)
        return;
    buffer->start = malloc(size);
    if (buffer->start == NULL) {
        perror("calls");
        exit(EXIT_FAILURE);
    }
    memset(buffer->start, value, size);
}

static bool call_card(struct program *program, const struct word *words)
{
    uint32_t own, peer, limit, size, changed;

    if (!read_number(words[0], UINT16_MAX, &own) || !read_number(words[1], UINT16_MAX, &peer) ||
        !read_number(words[2], UINT32_MAX, &limit) || !read_number(words[3], MOST_SLOTS, &size) ||
        !read_number(words[4], 1, &changed))
        return false;
    renew(&program->slots, size, UNWRITTEN);
    put_done(lw_card_open(&program->card, (uint16_t)own, (uint16_t)peer, limit,
                          program->slots.start, program->slots.size));
    return true;
}

static bool call_host(struct program *program, const struct word *words)
{
    uint32_t own, peer, size;

    if (!read_number(words[0], UINT16_MAX, &own) || !read_number(words[1], UINT16_MAX, &peer) ||
        !read_number(words[2], MOST_MEMORY, &size))
        return false;
    renew(&program->memory, size, 0);
    put_done(lw_host_open(&program->host, (uint16_t)own, (uint16_t)peer));
    return true;
}

static bool call_open(struct program *program, const struct word *words)
{
    uint32_t count, address, value;
    uint32_t transaction = 0;

    if (!read_number(words[0], UINT16_MAX, &count) ||
        !read_number(words[1], UINT32_MAX, &address) ||
        !read_number(words[2], UINT32_MAX, &value))
        return false;
    const uint32_t refusal =
        lw_card_open_transaction(&program->card, (uint16_t)count, address, value, &transaction);
    put_numbered('t', refusal, transaction);
    return true;
}

static bool call_add(struct program *program, const struct word *words)
{
    uint32_t transaction, address;
    size_t length;

    if (!read_number(words[0], UINT32_MAX, &transaction) ||
        !read_number(words[1], UINT32_MAX, &address) ||
        !read_bytes(words[2], program->bytes, &length))
        return false;
    put_done(lw_card_add(&program->card, program->slots.start, program->slots.size, transaction,
                         address, program->bytes, length));
    return true;
}

static bool call_seal(struct program *program, const struct word *words)
{
    uint16_t number = 0;

    (void)words;
    const uint32_t refusal =
        lw_card_seal(&program->card, program->slots.start, program->slots.size, &number);
    put_numbered('f', refusal, number);
    return true;
}

static bool call_read(struct program *program, const struct word *words)
{
    size_t length;

    if (!read_bytes(words[0], program->bytes, &length))
        return false;
    put_done(lw_card_read(&program->card, program->bytes, length));
    return true;
}

static bool call_show(struct program *program, const struct word *words)
{
    uint32_t number;
    lw_part part;

    if (!read_number(words[0], UINT16_MAX, &number))
        return false;
    const uint32_t refusal = lw_card_show(&program->card, program->slots.start,
                                          program->slots.size, (uint16_t)number, &part);
    put_part(program, refusal, part);
    return true;
}

static bool call_choose(struct program *program, const struct word *words)
{
    size_t length;
    lw_part part;

    if (!read_bytes(words[0], program->bytes, &length))
        return false;
    const uint32_t refusal = lw_card_choose(&program->card, program->slots.start,
                                            program->slots.size, program->bytes, length, &part);
    put_part(program, refusal, part);
    return true;
}

static void put_answer(const lw_answer *answer)
{
    switch (answer->kind) {
    case LW_ACCEPTED:
        printf("A %" PRIu64 " %" PRIu64 " %" PRIu64 " %" PRIu64 " run %" PRIu64, answer->number,
               answer->messages, answer->bytes, answer->completed, answer->run);
        break;
    case LW_AGAIN:
        printf("G %" PRIu64 " run %" PRIu64, answer->number, answer->run);
        break;
    case LW_NO_MESSAGES:
        putchar('N');
        break;
    default:
        printf("R %" PRIu64 " place %" PRIu64, answer->refusal, answer->place);
    }
}

/* The answer to a frame, with the acknowledgement that is due, if one is. */
static void put_received(const lw_answer *answer, uint32_t due, const uint8_t *acknowledgement)
{
    put_answer(answer);
    if (due == 1) {
        printf(" ack ");
        put_bytes(acknowledgement, LW_ACKNOWLEDGEMENT);
    }
    putchar('\n');
}

static bool call_receive(struct program *program, const struct word *words)
{
    uint8_t acknowledgement[LW_ACKNOWLEDGEMENT];
    size_t length;
    lw_answer answer;

    if (!read_bytes(words[0], program->bytes, &length))
        return false;
    lw_host_receive(&program->host, program->bytes, length, program->memory.start,
                    program->memory.size, &answer);
    put_received(&answer, lw_host_acknowledge(&program->host, &answer, 0, acknowledgement),
                 acknowledgement);
    return true;
}

static bool call_store(struct program *program, const struct word *words)
{
    uint32_t size;
    size_t length;

    if (!read_number(words[0], MOST_MEMORY, &size))
        return false;
    renew(&program->text, size, UNSTORED);
    const uint32_t refusal = lw_host_store(&program->host, program->text.start, size, &length);
    if (refusal == LW_NOT_REFUSED)
        printf("n %zu ", length);
    else
        printf("R %" PRIu32 " ", refusal);
    if (size == 0)
        putchar('-');
    put_bytes(program->text.start, size);
    putchar('\n');
    return true;
}

static bool call_restore(struct program *program, const struct word *words)
{
    size_t length;

    if (!read_bytes(words[0], program->bytes, &length))
        return false;
    put_done(lw_host_restore(&program->host, program->bytes, length));
    return true;
}

static bool call_table(struct program *program, const struct word *words)
{
    uint32_t own, size;

    if (!read_number(words[0], UINT16_MAX, &own) || !read_number(words[1], MOST_MEMORY, &size))
        return false;
    renew(&program->memory, size, 0);
    put_done(lw_table_open(&program->table, (uint16_t)own));
    return true;
}

/* A region's first byte and its length, and the length of a memory. */
static bool read_region(const struct word *words, size_t region[3])
{
    for (size_t i = 0; i < 3; i++) {
        uint64_t value;
        if (!read_wide(words[i], &value) || value > SIZE_MAX)
            return false;
        region[i] = (size_t)value;
    }
    return true;
}

static bool call_register(struct program *program, const struct word *words)
{
    uint32_t source;
    size_t region[3];

    if (!read_number(words[0], UINT16_MAX, &source) || !read_region(words + 1, region))
        return false;
    put_done(lw_table_register(&program->table, (uint16_t)source, region[0], region[1],
                               region[2]));
    return true;
}

static bool call_remove(struct program *program, const struct word *words)
{
    uint32_t source;

    if (!read_number(words[0], UINT16_MAX, &source))
        return false;
    put_done(lw_table_remove(&program->table, (uint16_t)source));
    return true;
}

static bool call_deliver(struct program *program, const struct word *words)
{
    uint8_t acknowledgement[LW_ACKNOWLEDGEMENT];
    size_t length;
    uint64_t lent;
    uint16_t source;
    lw_answer answer;

    if (!read_wide(words[0], &lent) || !read_bytes(words[1], program->bytes, &length))
        return false;
    if (lent > program->memory.size)
        lent = program->memory.size;
    lw_table_receive(&program->table, program->bytes, length, program->memory.start, (size_t)lent,
                     &source, &answer);
    put_received(&answer,
                 lw_table_acknowledge(&program->table, source, &answer, 0, acknowledgement),
                 acknowledgement);
    return true;
}

static bool call_take(struct program *program, const struct word *words)
{
    uint32_t source;

    if (!read_number(words[0], UINT16_MAX, &source))
        return false;
    put_done(lw_table_take(&program->table, (uint16_t)source, &program->host));
    return true;
}

static bool call_adopt(struct program *program, const struct word *words)
{
    size_t region[3];

    if (!read_region(words, region))
        return false;
    put_done(
        lw_table_adopt(&program->table, &program->host, region[0], region[1], region[2]));
    return true;
}

/* By first byte; no two cards have the same one. */
static int compare_cards(const void *one, const void *two)
{
    const lw_table_card *a = one;
    const lw_table_card *b = two;

    return (a->first > b->first) - (a->first < b->first);
}

static bool call_tablestate(struct program *program, const struct word *words)
{
    lw_table_description table;

    (void)words;
    lw_table_describe(&program->table, &table);
    qsort(table.cards, LW_TABLE_CARDS, sizeof table.cards[0], compare_cards);
    printf("own %" PRIu64, table.own);
    for (size_t i = 0; i < LW_TABLE_CARDS; i++) {
        const lw_table_card *card = &table.cards[i];
        if (card->source != 0)
            printf(" [%" PRIu64 " %" PRIu64 " %" PRIu64 "]", card->source, card->first, card->size);
    }
    putchar('\n');
    return true;
}

static bool call_ledger(struct program *program, const struct word *words)
{
    (void)words;
    lw_ledger_open(&program->ledger);
    puts("ok");
    return true;
}

static bool call_block(struct program *program, const struct word *words)
{
    size_t length;

    if (!read_bytes(words[0], program->bytes, &length))
        return false;
    put_done(lw_ledger_take(&program->ledger, program->bytes, length));
    return true;
}

static bool call_total(struct program *program, const struct word *words)
{
    uint32_t subscriber;
    uint64_t total;

    if (!read_number(words[0], LW_SUBSCRIBERS - 1, &subscriber))
        return false;
    lw_ledger_total(&program->ledger, subscriber, &total);
    printf("%" PRIu64 " %" PRIu64 "\n", total, lw_ledger_sum(&program->ledger));
    return true;
}

static bool call_layout(struct program *program, const struct word *words)
{
    static uint32_t (*const fields[])(const uint8_t *, size_t) = {
        lw_destination, lw_source, lw_frame_number,  lw_ack_start,
        lw_ack_count,   lw_flags,  lw_message_count, lw_data_bytes};
    size_t length;

    if (!read_bytes(words[0], program->bytes, &length))
        return false;
    const uint32_t refusal = lw_layout_refusal(program->bytes, length);
    if (refusal != LW_NOT_REFUSED) {
        put_done(refusal);
        return true;
    }
    putchar('L');
    for (size_t i = 0; i < sizeof fields / sizeof fields[0]; i++)
        printf(" %" PRIu32, fields[i](program->bytes, length));
    putchar('\n');
    return true;
}

static bool call_class(struct program *program, const struct word *words)
{
    static const char *const names[] = {"none", "wire", "message", "caller", "card"};
    uint32_t number;

    (void)program;
    if (!read_number(words[0], UINT32_MAX, &number))
        return false;
    puts(names[lw_refusal_class(number)]);
    return true;
}

static bool call_marks(struct program *program, const struct word *words)
{
    uint64_t marks;

    (void)program;
    if (!read_wide(words[0], &marks))
        return false;
    printf("%" PRIu32 "\n", lw_trailing_ones(marks));
    return true;
}

static bool call_slots(struct program *program, const struct word *words)
{
    (void)words;
    put_digest(program->slots);
    return true;
}

static bool call_memory(struct program *program, const struct word *words)
{
    (void)words;
    put_digest(program->memory);
    return true;
}

static bool call_state(struct program *program, const struct word *words)
{
    lw_description state;

    (void)words;
    lw_host_describe(&program->host, &state);
    printf("own %" PRIu64 " peer %" PRIu64 " next %" PRIu64 " marks %016" PRIx64 " lowest %" PRIu64
           " closed %08" PRIx64,
           state.own, state.peer, state.next, state.marks, state.lowest, state.closed);
    for (uint64_t i = 0; i < state.open; i++) {
        const lw_transaction *open = &state.transactions[i];
        printf(" [%" PRIu64 " %" PRIu64 " %" PRIu64 " %" PRIu64 " %" PRIu64 " 0]", open->number,
               open->address, open->value, open->count, open->received);
    }
    putchar('\n');
    return true;
}

/* ---- Lines ------------------------------------------------------------- */

static const struct command {
    const char *name;
    size_t arguments;
    bool (*call)(struct program *program, const struct word *words);
} commands[] = {
    {"card", 5, call_card},     {"host", 3, call_host},       {"open", 3, call_open},
    {"add", 3, call_add},       {"seal", 0, call_seal},       {"read", 1, call_read},
    {"show", 1, call_show},     {"choose", 1, call_choose},   {"receive", 1, call_receive},
    {"layout", 1, call_layout}, {"class", 1, call_class},     {"marks", 1, call_marks},
    {"slots", 0, call_slots},   {"memory", 0, call_memory},   {"state", 0, call_state},
    {"store", 1, call_store},   {"restore", 1, call_restore}, {"table", 2, call_table},
    {"register", 4, call_register}, {"remove", 1, call_remove}, {"deliver", 2, call_deliver},
    {"take", 1, call_take},     {"adopt", 3, call_adopt},     {"tablestate", 0, call_tablestate},
    {"ledger", 0, call_ledger}, {"block", 1, call_block},     {"total", 1, call_total},
};

/* Does what the line says and writes the answer; false if it is of no form. */
static bool answer_line(struct program *program)
{
    struct word words[1 + MOST_ARGUMENTS];

    if (program->length > LONGEST_LINE)
        return false;
    const size_t count = split(program->line, program->length, words, 1 + MOST_ARGUMENTS);
    for (size_t i = 0; i < sizeof commands / sizeof commands[0]; i++) {
        if (is_word(words[0], commands[i].name))
            return count == 1 + commands[i].arguments && commands[i].call(program, words + 1);
    }
    return false;
}

/* Reads a line without its newline; false at the end of input. */
static bool read_line(struct program *program)
{
    int character = getchar();

    program->length = 0;
    if (character == EOF)
        return false;
    for (; character != EOF && character != '\n'; character = getchar()) {
        if (program->length < LONGEST_LINE)
            program->line[program->length] = (char)character;
        if (program->length <= LONGEST_LINE)
            program->length++;
    }
    return true;
}

int main(void)
{
    static struct program program;

    /* Both ends and the table as a refused opening leaves them, with buffers of no bytes, and
     * an empty ledger. */
    lw_card_open(&program.card, 0, 0, 0, NULL, 0);
    lw_host_open(&program.host, 0, 0);
    lw_table_open(&program.table, 0);
    lw_ledger_open(&program.ledger);

    while (read_line(&program)) {
        if (!answer_line(&program))
            puts("?");
    }
    const bool failed = ferror(stdin) || fflush(stdout) != 0 || ferror(stdout);
    if (failed)
        perror("calls");
    free(program.slots.start);
    free(program.memory.start);
    free(program.text.start);
    return failed ? EXIT_FAILURE : EXIT_SUCCESS;
}
