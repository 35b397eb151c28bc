/*
 * stand_in.c - stands in for the modules of a table.  Reads the line from standard input, and writes each reply to standard output
 * as soon as its question has come.
 *
 *     stand_in [TABLE] < questions        TABLE is a text file, see table.h; without one there are modules 02, 03 and 04, VER 20
 *
 * On a port, here with 9,600 baud (raw, as a terminal would change CR and echo what it gets):
 *
 *     stty -F /dev/ttyUSB0 9600 raw -echo && stand_in table.txt < /dev/ttyUSB0 > /dev/ttyUSB0
 *
 * A module that is turned off (95H) stays silent until the program ends.
 */
#include "hanuzak.h"
#include "table.h"

#include <stdio.h>
#include <stdlib.h>
#include <unistd.h>

/* A stretch that is no frame may have an answer too, with the code that says why: so all that a CR has closed is answered. */
static int was_judged(hanuzak_event event)
{
    return event.kind == HANUZAK_FRAME
           || (event.kind == HANUZAK_REFUSED && event.number >= HANUZAK_REFUSAL_TOO_SHORT
               && event.number <= HANUZAK_REFUSAL_NO_HEX_DIGIT);
}

static int answer(struct table *table, const uint8_t *stretch, size_t length)
{
    static uint8_t   reply[HANUZAK_ANSWER];
    hanuzak_answered answered
        = hanuzak_answer(table->modules, table->count, table->station, stretch, length, reply, sizeof reply);

    if (answered.kind == HANUZAK_REFUSED) {
        fprintf(stderr, "stand_in: refused, %u: %s\n", (unsigned)answered.number, hanuzak_refusal(answered.number));
        return 0;
    }
    if (answered.kind == HANUZAK_REPLY
        && (fwrite(reply, 1, answered.length, stdout) != answered.length || fflush(stdout) != 0)) {
        perror("stand_in: write");
        return 0;
    }
    return 1;
}

int main(int argc, char **argv)
{
    static struct table table;
    static uint8_t      store[HANUZAK_STORE], piece[4096];
    hanuzak_receiver    receiver = hanuzak_receiver_new();
    ssize_t             got;

    if (argc > 2) {
        fputs("usage: stand_in [TABLE] < questions\n", stderr);
        return EXIT_FAILURE;
    }
    if (!read_table(&table, argc == 2 ? argv[1] : NULL))
        return EXIT_FAILURE;
    /* read() gives what has come so far; a buffered read would wait for more */
    while ((got = read(STDIN_FILENO, piece, sizeof piece)) > 0)
        for (size_t at = 0; at < (size_t)got;) {
            hanuzak_ran ran = hanuzak_run(receiver, store, sizeof store, piece + at, (size_t)got - at);
            receiver = ran.next;
            at += ran.taken;
            if (was_judged(ran.event) && !answer(&table, store, ran.held))
                return EXIT_FAILURE;
        }
    if (got < 0) {
        perror("stand_in: read");
        return EXIT_FAILURE;
    }
    return EXIT_SUCCESS;
}
