/*
 * cells.c - what modules say of their cells, and of the limits that these are held to.  Reads the line or a capture of it from
 * standard input, and prints each reading as soon as its reply has come.
 *
 *     cells [--all-42] [ADR..] < capture        the modules' ADRs in hex, rising; 02 where none is given
 *
 * A reply does not name its command, so the command is taken from the line.  A frame whose CID2 is no return code is a question.
 * A frame with a return code answers the question before it, and is read where that one was 42H or 47H to a module that was named.
 * The question stays open until a reply to it was read or another question comes: a broken or foreign reply does not cost the
 * good one behind it.  But a question that was itself broken leaves the one before it open, and its reply is judged as one to that;
 * and a reply that comes after the next question is judged as one to this.  Most such replies are refused; any with 25 bytes of INFO
 * is read as limits (PROTOCOL 8.14).
 *
 * 47H has the module's own limits, all twelve.  Once they were read, each cell of the module has a line of its own with the low and
 * the high limit beside it.  It is marked where it is ABOVE the high one, BELOW the low one (the alarm's) or UNDER the under voltage
 * limit (the protection's), which is then said too; a cell at a limit is not outside.  Until then all cells stand in one line.  The
 * two questions may come in any order: a module's first limits, where they come after its cells, are printed with these, and with
 * the place of their reply.  Limits stay until the module sends others: one that was exchanged must be asked again.  A module whose
 * limits are all 0 has every cell marked, as a stand-in has whose table gives none.
 *
 * A reply to Command FFH at the master has a record for each module that is on and names none.  It is read where they are as many
 * as were named, and otherwise refused with 22.  So name those that are on, all of them, where such replies are to be read.
 *
 * --all-42 is for a capture of replies alone, as from a wire that only receives: it takes every reply of a module that was named
 * as one to 42H, with the Command that stands in it, and so has no limits.  THE RISK: nothing tells a reply to another command
 * apart.  Most are refused, but one whose bytes happen to fit is printed as values that the module never sent (PROTOCOL 8.14).
 *
 * A value is printed only from a reply that was read with code 00H.  Every refusal has its place in the capture (the offset of
 * the SOI), its number and its words; 4 and 9 also have the place of the bad character, 0 for the first after SOI.  The last line
 * begins with "readings", which counts the replies with values, to 42H and to 47H; without it the output is incomplete.
 */
#include "hanuzak.h"

#include <inttypes.h>
#include <stdio.h>
#include <stdlib.h>
#include <string.h>
#include <unistd.h>

/* The question that is open: none, one that is not for us, ours, or ours with a reply that was refused. */
enum asked { NONE, OTHER, OURS, OURS_REFUSED };

/* What was read of a module so far: a new record does not tell a value that was read from one that was not. */
struct seen {
    int      cells, limits;
    uint64_t cells_at; /* the offset of the reply that had them */
};

struct line {
    int              all_42;
    hanuzak_module   table[HANUZAK_MODULES];
    struct seen      seen[HANUZAK_MODULES]; /* of the record at the same place */
    size_t           modules;
    hanuzak_receiver receiver;
    uint8_t          store[HANUZAK_STORE];
    uint64_t         offset; /* of the next byte */
    enum asked       asked;
    uint64_t         asked_at;
    hanuzak_question question;
    unsigned long    readings, without_values, refused_replies, refused_stretches;
};

static void print_refusal(uint64_t at, const char *what, uint32_t number, uint32_t place)
{
    printf("at %" PRIu64 ": %s refused, %" PRIu32, at, what, number);
    if (number == HANUZAK_REFUSAL_LOWER_CASE || number == HANUZAK_REFUSAL_NO_HEX_DIGIT)
        printf(" at place %" PRIu32, place);
    printf(": %s\n", hanuzak_refusal(number));
}

/* ---- readings */

static void print_tenths(int32_t tenths)
{
    int32_t size = tenths < 0 ? -tenths : tenths;
    printf(" %s%" PRId32 ".%" PRId32, tenths < 0 ? "-" : "", size / 10, size % 10);
}

static void print_cells(const hanuzak_analog *analog)
{
    printf("  cells, mV:");
    for (size_t i = 0; i < analog->cell_count; i++)
        printf(" %d", analog->cells[i]);
    printf("\n");
}

/* Each cell beside the limits that it was held to.  Under comes before low: it is the graver of the two. */
static void print_held_cells(const hanuzak_analog *analog, const hanuzak_parameters *limits)
{
    for (size_t i = 0; i < analog->cell_count; i++) {
        int cell = analog->cells[i];

        printf("  cell %zu, mV: %d of %d to %d", i + 1, cell, limits->cell_low_voltage, limits->cell_high_voltage);
        if (cell > limits->cell_high_voltage)
            printf(", ABOVE");
        else if (cell < limits->cell_under_voltage)
            printf(", UNDER %d", limits->cell_under_voltage);
        else if (cell < limits->cell_low_voltage)
            printf(", BELOW");
        printf("\n");
    }
}

static void print_flow_limits(const char *of, int16_t high, int16_t low, int16_t current)
{
    printf("  %s limits, C: high", of);
    print_tenths(hanuzak_tenths_celsius(high));
    printf(", low");
    print_tenths(hanuzak_tenths_celsius(low));
    printf("; mA: %" PRId32 "\n", hanuzak_milliamps(current));
}

/* In the order of the reply. */
static void print_limits(const hanuzak_parameters *limits)
{
    printf("  cell limits, mV: high %d, low %d, under %d\n", limits->cell_high_voltage, limits->cell_low_voltage,
           limits->cell_under_voltage);
    print_flow_limits("charge", limits->charge_high_temperature, limits->charge_low_temperature, limits->charge_current);
    printf("  module limits, mV: high %u, low %u, under %u\n", limits->module_high_voltage, limits->module_low_voltage,
           limits->module_under_voltage);
    print_flow_limits("discharge", limits->discharge_high_temperature, limits->discharge_low_temperature,
                      limits->discharge_current);
}

static void print_analog(const hanuzak_module *module, int limits_seen)
{
    const hanuzak_analog *analog = &module->analog;

    if (limits_seen)
        print_held_cells(analog, &module->parameters);
    else
        print_cells(analog);
    printf("  temperatures, C:");
    for (size_t i = 0; i < analog->temperature_count; i++)
        print_tenths(hanuzak_tenths_celsius(analog->temperatures[i]));
    printf("\n  current, mA: %" PRId32 "\n", hanuzak_milliamps(analog->current));
    printf("  voltage, mV: %u\n", analog->voltage);
    printf("  remaining, mAh: %" PRIu32 "\n", analog->remaining);
    printf("  total, mAh: %" PRIu32 "\n", analog->total);
    printf("  cycles: %u\n", analog->cycles);
}

static void take_analog(const hanuzak_module *module, struct seen *seen, uint64_t at)
{
    seen->cells = 1;
    seen->cells_at = at;
    print_analog(module, seen->limits);
}

/* Cells that were read before stand beside the limits only where these are the first: else they were held to those before. */
static void take_limits(const hanuzak_module *module, struct seen *seen)
{
    int first = !seen->limits;

    seen->limits = 1;
    print_limits(&module->parameters);
    if (seen->cells && first) {
        printf("  beside the cells read at %" PRIu64 ":\n", seen->cells_at);
        print_held_cells(&module->analog, &module->parameters);
    }
}

/* Prints the modules whose records the reply replaced, and keeps what was read of them. */
static void take_reading(struct line *line, uint64_t at)
{
    int limits = line->question.cid2 == HANUZAK_PARAMETERS;
    int group = !limits && line->question.command == HANUZAK_GROUP;

    for (size_t i = 0; i < line->modules; i++) {
        if (!group && line->question.adr != line->table[i].adr)
            continue;
        printf("at %" PRIu64 ": module %02X\n", at, line->table[i].adr);
        if (limits)
            take_limits(&line->table[i], &line->seen[i]);
        else
            take_analog(&line->table[i], &line->seen[i], at);
    }
}

/* ---- questions and replies */

static int is_return_code(uint8_t cid2)
{
    return cid2 <= HANUZAK_CODE_DATA || cid2 == HANUZAK_CODE_ADR || cid2 == HANUZAK_CODE_LINK;
}

/* The value of a character that was judged to be hex. */
static uint8_t digit(uint8_t c)
{
    return (uint8_t)(c <= '9' ? c - '0' : c - 'A' + 10);
}

/* A byte of INFO, whose characters stand in the store from place 12 on. */
static uint8_t info_byte(const struct line *line, size_t at)
{
    return (uint8_t)(digit(line->store[12 + 2 * at]) << 4 | digit(line->store[13 + 2 * at]));
}

static int is_named(const struct line *line, uint8_t adr)
{
    for (size_t i = 0; i < line->modules; i++)
        if (line->table[i].adr == adr)
            return 1;
    return 0;
}

static void close_question(struct line *line)
{
    if (line->asked == OURS)
        printf("asked %02X at %" PRIu64 ": no reply\n", line->question.adr, line->asked_at);
    line->asked = NONE;
}

/* 42H with its Command, or 47H, which has none. */
static int is_ours(const struct line *line, hanuzak_event frame)
{
    return is_named(line, frame.adr) && frame.cid1 == HANUZAK_CID1
           && ((frame.cid2 == HANUZAK_ANALOG && frame.lenid == 2) || (frame.cid2 == HANUZAK_PARAMETERS && frame.lenid == 0));
}

static void take_question(struct line *line, uint64_t at, hanuzak_event frame)
{
    close_question(line);
    line->asked = OTHER;
    if (is_ours(line, frame)) {
        line->asked = OURS;
        line->asked_at = at;
        line->question = (hanuzak_question){.adr = frame.adr, .cid2 = frame.cid2};
        if (frame.cid2 == HANUZAK_ANALOG)
            line->question.command = info_byte(line, 0);
    }
}

static void read_reply(struct line *line, uint64_t at, size_t characters)
{
    hanuzak_reply reply = hanuzak_read_reply(line->table, line->modules, line->question, line->store, characters);

    if (reply.kind == HANUZAK_REFUSED) {
        print_refusal(at, "reply", reply.number, reply.place);
        line->refused_replies++;
        line->asked = OURS_REFUSED;
        return;
    }
    line->asked = NONE;
    if (reply.code != HANUZAK_CODE_NORMAL) {
        printf("at %" PRIu64 ": return code %02X, no values\n", at, reply.code);
        line->without_values++;
        return;
    }
    take_reading(line, at);
    line->readings++;
}

/* A reply without its question: INFO is the flag, Command and the records.  Only the master replies for the group. */
static void take_as_42(struct line *line, uint64_t at, hanuzak_event frame)
{
    int group = frame.lenid >= 4 && info_byte(line, 1) == HANUZAK_GROUP && frame.adr % 16 == 2;

    if (!is_named(line, frame.adr))
        return;
    line->question = (hanuzak_question){.adr = frame.adr, .cid2 = HANUZAK_ANALOG, .command = group ? HANUZAK_GROUP : frame.adr};
    read_reply(line, at, 16 + frame.lenid);
}

static void take_reply(struct line *line, uint64_t at, hanuzak_event frame)
{
    if (line->all_42)
        take_as_42(line, at, frame);
    else if (line->asked == OURS || line->asked == OURS_REFUSED)
        read_reply(line, at, 16 + frame.lenid);
    else if (line->asked == OTHER)
        line->asked = NONE;
    else if (is_named(line, frame.adr))
        printf("at %" PRIu64 ": reply not read, there is no question to it\n", at);
}

/* ---- the stream */

static void take_event(struct line *line, uint64_t at, hanuzak_event event)
{
    if (event.kind == HANUZAK_REFUSED) {
        print_refusal(at, "stretch", event.number, event.place);
        line->refused_stretches++;
    } else if (is_return_code(event.cid2)) {
        take_reply(line, at, event);
    } else if (!line->all_42) {
        take_question(line, at, event);
    }
}

/* The store is long enough and the receiver our own: 32 and 35, which take no byte, do not come. */
static void take_piece(struct line *line, const uint8_t *piece, size_t n)
{
    while (n > 0) {
        hanuzak_ran ran = hanuzak_run(line->receiver, line->store, sizeof line->store, piece, n);
        line->receiver = ran.next;
        line->offset += ran.taken;
        piece += ran.taken;
        n -= ran.taken;
        /* before the event's byte, the last one taken, came the characters that were held, and before them SOI */
        if (ran.event.kind != HANUZAK_NOTHING)
            take_event(line, line->offset - 1 - ran.held - 1, ran.event);
    }
}

/* ---- the program */

/* Whether the text is one or two hex digits, and which byte they say. */
static int hex_byte(const char *text, uint8_t *byte)
{
    size_t n = strlen(text);

    if (n < 1 || n > 2 || strspn(text, "0123456789ABCDEFabcdef") != n)
        return 0;
    *byte = (uint8_t)strtoul(text, NULL, 16);
    return 1;
}

/* The table of the modules that are named; whether it keeps its rule. */
static int name_modules(struct line *line, int count, char **names)
{
    uint8_t adr = 0x02;

    if (count > HANUZAK_MODULES)
        return 0;
    for (int i = 0; i < count; i++) {
        if (!hex_byte(names[i], &adr))
            return 0;
        line->table[i] = hanuzak_module_new(adr);
    }
    if (count == 0)
        line->table[0] = hanuzak_module_new(adr);
    line->modules = count == 0 ? 1 : (size_t)count;
    return hanuzak_table(line->table, line->modules) == 0;
}

int main(int argc, char **argv)
{
    static struct line line;
    static uint8_t     piece[1 << 16];
    ssize_t            got;

    line.all_42 = argc > 1 && strcmp(argv[1], "--all-42") == 0;
    if (!name_modules(&line, argc - 1 - line.all_42, argv + 1 + line.all_42)) {
        fprintf(stderr, "usage: cells [--all-42] [ADR..] < capture\n"
                        "one to twelve ADRs in hex, rising, of one group: 02 to 0D, 12 to 1D, up to 72 to 7D\n"
                        "--all-42  take every reply as one to 42H: for captures without questions.  A reply to another\n"
                        "          command is then refused or, where its bytes happen to fit, printed as wrong values; and\n"
                        "          limits (47H) are not read\n");
        return EXIT_FAILURE;
    }
    line.receiver = hanuzak_receiver_new();
    /* read() gives what has come so far; a buffered read would wait for more */
    while ((got = read(STDIN_FILENO, piece, sizeof piece)) > 0) {
        take_piece(&line, piece, (size_t)got);
        if (fflush(stdout) != 0) {
            perror("cells: write");
            return EXIT_FAILURE;
        }
    }
    if (got < 0) {
        perror("cells: read");
        return EXIT_FAILURE;
    }
    close_question(&line);
    printf("readings %lu, replies without values %lu, refused replies %lu, refused stretches %lu\n", line.readings,
           line.without_values, line.refused_replies, line.refused_stretches);
    if (fflush(stdout) != 0 || ferror(stdout)) {
        perror("cells: write");
        return EXIT_FAILURE;
    }
    return EXIT_SUCCESS;
}
