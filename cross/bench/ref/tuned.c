/* The listing in tuned C: memchr from tilde to tilde, one pass over each stretch, own writing of lines. */
#include <stdint.h>
#include <string.h>
#include <unistd.h>

enum { SOI = 0x7E, CR = 0x0D, MOST_CHARACTERS = 4110, PIECE = 65536, ROOM = 131072, LONGEST_BLOCK = 4300 };
enum { BAD = -1 };

static unsigned digit(unsigned char c) {
    return c <= '9' ? c - '0' : c - 'A' + 10;
}

static unsigned word_at(const unsigned char *s) {
    return digit(s[0]) << 12 | digit(s[1]) << 8 | digit(s[2]) << 4 | digit(s[3]);
}

static int not_hex(unsigned char c) {
    return ((unsigned char)(c - '0') > 9) & ((unsigned char)(c - 'A') > 5);
}

/* 0 for a frame, otherwise the refusal's number; BAD stands for 4 and 9. */
static int judge(const unsigned char *s, unsigned count) {
    if (count < 16)
        return 3;
    const unsigned char *check = s + count - 4;
    unsigned char bad = not_hex(check[0]) | not_hex(check[1]) | not_hex(check[2]) | not_hex(check[3]);
    uint16_t sum = 0;
    for (unsigned i = 0; i < count - 4; i++) {
        bad |= not_hex(s[i]);
        sum += s[i];
    }
    if (bad)
        return BAD;
    unsigned length = word_at(s + 8), lenid = length & 0xFFF;
    if (((length >> 12) + (lenid >> 8) + (lenid >> 4) + lenid) % 16)
        return 5;
    if (lenid % 2)
        return 6;
    if (count != 16 + lenid)
        return 7;
    if ((uint16_t)(word_at(check) + sum))
        return 8;
    return 0;
}

static unsigned char in[MOST_CHARACTERS + 1 + PIECE], out[ROOM], *end_of_out = out;
static uint64_t frames, refusals;

static void flush(void) {
    for (unsigned char *p = out; p < end_of_out;) {
        ssize_t put = write(1, p, end_of_out - p);
        if (put <= 0)
            _exit(1);
        p += put;
    }
    end_of_out = out;
}

static void text(const void *s, unsigned count) {
    memcpy(end_of_out, s, count);
    end_of_out += count;
}

static void decimal(uint64_t n) {
    unsigned char digits[20], *p = digits + sizeof digits;
    do
        *--p = '0' + n % 10;
    while (n /= 10);
    text(p, digits + sizeof digits - p);
}

static void refuse(uint64_t at, int number) {
    text("at=", 3);
    decimal(at);
    text("\nrefused=", 9);
    *end_of_out++ = '0' + number;
    *end_of_out++ = '\n';
    refusals++;
}

/* There is a bad character: the first of them decides. */
static void refuse_bad(uint64_t at, const unsigned char *s) {
    unsigned place = 0;
    while (!not_hex(s[place]))
        place++;
    refuse(at, s[place] >= 'a' && s[place] <= 'f' ? 4 : 9);
    text("place=", 6);
    decimal(place);
    *end_of_out++ = '\n';
}

static void list(uint64_t at, const unsigned char *s, unsigned count) {
    int number = judge(s, count);
    if (number == BAD) {
        refuse_bad(at, s);
        return;
    }
    if (number) {
        refuse(at, number);
        return;
    }
    text("at=", 3);
    decimal(at);
    text("\nver=", 5);
    text(s, 2);
    text("\nadr=", 5);
    text(s + 2, 2);
    text("\ncid1=", 6);
    text(s + 4, 2);
    text("\ncid2=", 6);
    text(s + 6, 2);
    text("\ninfo=", 6);
    text(s + 12, count - 16);
    *end_of_out++ = '\n';
    frames++;
}

int main(void) {
    uint64_t base = 0, left = 1073741824;
    unsigned kept = 0; /* the open stretch from its SOI on, at the front of `in` */
    for (;;) {
        ssize_t got = left ? read(0, in + kept, left < PIECE ? left : PIECE) : 0;
        if (got < 0)
            return 1;
        left -= got;
        unsigned char *end = in + kept + got;
        unsigned char *soi = memchr(in, SOI, end - in);
        while (soi) {
            if (end_of_out > out + ROOM - LONGEST_BLOCK)
                flush();
            unsigned char *s = soi + 1;
            unsigned char *next = memchr(s, SOI, end - s);
            unsigned room = (next ? next : end) - s;
            unsigned char *cr = memchr(s, CR, room < MOST_CHARACTERS + 1 ? room : MOST_CHARACTERS + 1);
            if (cr)
                list(base + (soi - in), s, cr - s);
            else if (room > MOST_CHARACTERS)
                refuse(base + (soi - in), 1);
            else if (next)
                refuse(base + (soi - in), 2);
            else
                break;
            soi = next;
        }
        flush();
        if (got == 0)
            break;
        unsigned char *keep = soi ? soi : end;
        base += keep - in;
        kept = end - keep;
        memmove(in, keep, kept);
    }
    text("frames=", 7);
    decimal(frames);
    text("\nrefusals=", 10);
    decimal(refusals);
    text("\n", 1);
    flush();
    return 0;
}
