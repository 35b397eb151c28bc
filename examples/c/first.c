/* The cells of module 02, from the replies to its 42H that stand in a capture on standard input. */
#include "hanuzak.h"
#include <stdio.h>

int main(void)
{
    static uint8_t   store[HANUZAK_STORE];
    hanuzak_module   table[] = {hanuzak_module_new(0x02)};
    hanuzak_question asked = {.adr = 0x02, .cid2 = HANUZAK_ANALOG, .command = 0x02};
    hanuzak_receiver receiver = hanuzak_receiver_new();
    for (int byte; (byte = getchar()) != EOF;) {
        hanuzak_stepped stepped = hanuzak_step(receiver, store, sizeof store, (uint8_t)byte);
        receiver = stepped.next;
        if (stepped.event.kind != HANUZAK_FRAME || stepped.event.cid2 == HANUZAK_ANALOG) continue; /* no frame, or the question */
        hanuzak_reply reply = hanuzak_read_reply(table, 1, asked, store, 16 + stepped.event.lenid);
        if (reply.kind == HANUZAK_REFUSED) printf("refused, %u: %s\n", (unsigned)reply.number, hanuzak_refusal(reply.number));
        else if (reply.code != HANUZAK_CODE_NORMAL) printf("return code %02X\n", (unsigned)reply.code);
        else for (int i = 0; i < table[0].analog.cell_count; i++) printf("cell %d: %d mV\n", i + 1, table[0].analog.cells[i]);
    }
    return 0;
}
