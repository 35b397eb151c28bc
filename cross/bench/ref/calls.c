/* The judge and the receiver in straightforward C, with the structs of hanuzak.h. */
#include "hanuzak.h"

enum { SOI = 0x7E, CR = 0x0D, MOST_CHARACTERS = 4110 };
enum { NOTHING, FRAME, REFUSED };

static int digit(int c) {
    if (c >= '0' && c <= '9')
        return c - '0';
    if (c >= 'A' && c <= 'F')
        return c - 'A' + 10;
    return -1;
}

static unsigned byte_at(const uint8_t *s) {
    return digit(s[0]) * 16 + digit(s[1]);
}

static unsigned word_at(const uint8_t *s) {
    return byte_at(s) * 256 + byte_at(s + 2);
}

static hanuzak_event refused(uint32_t number) {
    return (hanuzak_event){.kind = REFUSED, .number = number};
}

static hanuzak_event bad_character(uint8_t c, size_t place) {
    return (hanuzak_event){.kind = REFUSED, .number = c >= 'a' && c <= 'f' ? 4 : 9, .place = place};
}

hanuzak_event plain_judge(const uint8_t *s, size_t n) {
    if (n > MOST_CHARACTERS)
        return refused(1);
    if (n < 16)
        return refused(3);
    for (size_t i = 0; i < n; i++)
        if (digit(s[i]) < 0)
            return bad_character(s[i], i);
    unsigned length = word_at(s + 8), lenid = length & 0xFFF;
    unsigned digits = (lenid >> 8) + (lenid >> 4 & 15) + (lenid & 15);
    if (length >> 12 != (16 - digits % 16) % 16)
        return refused(5);
    if (lenid % 2)
        return refused(6);
    if (n != 16 + lenid)
        return refused(7);
    uint16_t sum = 0;
    for (size_t i = 0; i < n - 4; i++)
        sum += s[i];
    if (word_at(s + n - 4) != (uint16_t)-sum)
        return refused(8);
    return (hanuzak_event){
        .kind = FRAME,
        .ver = byte_at(s),
        .adr = byte_at(s + 2),
        .cid1 = byte_at(s + 4),
        .cid2 = byte_at(s + 6),
        .lenid = lenid,
    };
}

hanuzak_stepped plain_step(hanuzak_receiver receiver, uint8_t *store, size_t n, uint8_t byte) {
    hanuzak_stepped stepped = {.next = receiver};
    if (n < MOST_CHARACTERS) {
        stepped.event = refused(32);
    } else if (receiver.open && receiver.count > MOST_CHARACTERS) {
        stepped.event = refused(35);
    } else if (byte == SOI) {
        stepped.next = (hanuzak_receiver){.open = 1};
        if (receiver.open)
            stepped.event = refused(2);
    } else if (!receiver.open) {
        stepped.next.count = 0;
    } else if (byte == CR) {
        stepped.next = (hanuzak_receiver){0};
        stepped.event = plain_judge(store, receiver.count);
    } else if (receiver.count == MOST_CHARACTERS) {
        stepped.next = (hanuzak_receiver){0};
        stepped.event = refused(1);
    } else {
        store[receiver.count] = byte;
        stepped.next = (hanuzak_receiver){.open = 1, .count = receiver.count + 1};
    }
    return stepped;
}

hanuzak_ran plain_run(hanuzak_receiver receiver, uint8_t *store, size_t n, const uint8_t *piece, size_t m) {
    hanuzak_ran ran = {.next = receiver};
    if (n < MOST_CHARACTERS || (receiver.open && receiver.count > MOST_CHARACTERS)) {
        ran.event = refused(n < MOST_CHARACTERS ? 32 : 35);
        return ran;
    }
    while (ran.taken < m && ran.event.kind == NOTHING) {
        hanuzak_stepped stepped = plain_step(ran.next, store, n, piece[ran.taken]);
        ran.held = stepped.event.kind == NOTHING ? 0 : ran.next.count;
        ran.next = stepped.next;
        ran.event = stepped.event;
        ran.taken++;
    }
    return ran;
}
