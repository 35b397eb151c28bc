/* The listing in straightforward C: one byte after the other through the receiver, buffered input and output. */
#include <stdint.h>
#include <stdio.h>

enum { SOI = 0x7E, CR = 0x0D, MOST_CHARACTERS = 4110 };

static int digit(int c) {
    if (c >= '0' && c <= '9')
        return c - '0';
    if (c >= 'A' && c <= 'F')
        return c - 'A' + 10;
    return -1;
}

static unsigned byte_at(const unsigned char *s) {
    return digit(s[0]) * 16 + digit(s[1]);
}

static unsigned word_at(const unsigned char *s) {
    return byte_at(s) * 256 + byte_at(s + 2);
}

/* 0 for a frame, otherwise the refusal's number; with 4 and 9 also the place of the first bad character. */
static int judge(const unsigned char *s, unsigned count, unsigned *place) {
    if (count < 16)
        return 3;
    for (unsigned i = 0; i < count; i++)
        if (digit(s[i]) < 0) {
            *place = i;
            return s[i] >= 'a' && s[i] <= 'f' ? 4 : 9;
        }
    unsigned length = word_at(s + 8), lenid = length & 0xFFF;
    unsigned digits = (lenid >> 8) + (lenid >> 4 & 15) + (lenid & 15);
    if (length >> 12 != (16 - digits % 16) % 16)
        return 5;
    if (lenid % 2)
        return 6;
    if (count != 16 + lenid)
        return 7;
    uint16_t sum = 0;
    for (unsigned i = 0; i < count - 4; i++)
        sum += s[i];
    if (word_at(s + count - 4) != (uint16_t)-sum)
        return 8;
    return 0;
}

static unsigned long long frames, refusals;

static void refuse(unsigned long long at, int number) {
    printf("at=%llu\nrefused=", at);
    putchar('0' + number);
    putchar('\n');
    refusals++;
}

static void list(unsigned long long at, const unsigned char *s, unsigned count) {
    unsigned place;
    int number = judge(s, count, &place);
    if (number) {
        refuse(at, number);
        if (number == 4 || number == 9)
            printf("place=%u\n", place);
        return;
    }
    printf("at=%llu\nver=%02X\nadr=%02X\ncid1=%02X\ncid2=%02X\ninfo=", at, byte_at(s), byte_at(s + 2),
           byte_at(s + 4), byte_at(s + 6));
    fwrite(s + 12, 1, count - 16, stdout);
    putchar('\n');
    frames++;
}

int main(void) {
    static unsigned char piece[65536], store[MOST_CHARACTERS];
    static char buffer[65536];
    unsigned long long offset = 0, at = 0, left = 1073741824;
    unsigned count = 0;
    int open = 0;
    setvbuf(stdin, NULL, _IONBF, 0);
    setvbuf(stdout, buffer, _IOFBF, sizeof buffer);
    while (left > 0) {
        size_t got = fread(piece, 1, left < sizeof piece ? left : sizeof piece, stdin);
        if (got == 0)
            break;
        left -= got;
        for (size_t i = 0; i < got; i++, offset++) {
            unsigned char b = piece[i];
            if (b == SOI) {
                if (open)
                    refuse(at, 2);
                open = 1;
                count = 0;
                at = offset;
            } else if (!open) {
                continue;
            } else if (b == CR) {
                open = 0;
                list(at, store, count);
            } else if (count == MOST_CHARACTERS) {
                open = 0;
                refuse(at, 1);
            } else {
                store[count++] = b;
            }
        }
    }
    printf("frames=%llu\nrefusals=%llu\n", frames, refusals);
    if (ferror(stdin) || fflush(stdout) || ferror(stdout)) {
        perror("listing");
        return 1;
    }
    return 0;
}
