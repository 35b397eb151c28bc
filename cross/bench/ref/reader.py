"""The listing in plain Python: one byte after the other, the way one writes it at the bench."""
import sys

SOI, CR, MOST_CHARACTERS = 0x7E, 0x0D, 4110
HEX, LOWER = frozenset(b'0123456789ABCDEF'), frozenset(b'abcdef')


def judge(s):
    """0 for a frame, otherwise the refusal's number; with 4 and 9 also the line of the place."""
    if len(s) < 16:
        return 3, ''
    for place, c in enumerate(s):
        if c not in HEX:
            return 4 if c in LOWER else 9, 'place=%d\n' % place
    length = int(s[8:12], 16)
    lenid = length & 0xFFF
    if length >> 12 != -((lenid >> 8) + (lenid >> 4 & 15) + (lenid & 15)) % 16:
        return 5, ''
    if lenid % 2:
        return 6, ''
    if len(s) != 16 + lenid:
        return 7, ''
    if int(s[-4:], 16) != -sum(s[:-4]) % 65536:
        return 8, ''
    return 0, ''


def main():
    source, out = sys.stdin.buffer, sys.stdout
    opened, s, at, offset = False, bytearray(), 0, 0
    frames, refusals, left = 0, 0, 1073741824
    while left:
        piece = source.read(min(65536, left))
        if not piece:
            break
        left -= len(piece)
        for b in piece:
            number, place = 0, ''
            if b == SOI:
                if opened:
                    number = 2
            elif not opened:
                pass
            elif b == CR:
                opened = False
                number, place = judge(s)
                if number == 0:
                    t = s.decode('ascii')
                    out.write('at=%d\nver=%s\nadr=%s\ncid1=%s\ncid2=%s\ninfo=%s\n'
                              % (at, t[0:2], t[2:4], t[4:6], t[6:8], t[12:-4]))
                    frames += 1
            elif len(s) == MOST_CHARACTERS:
                opened = False
                number = 1
            else:
                s.append(b)
            if number:
                out.write('at=%d\nrefused=%d\n%s' % (at, number, place))
                refusals += 1
            if b == SOI:
                opened, s, at = True, bytearray(), offset
            offset += 1
    out.write('frames=%d\nrefusals=%d\n' % (frames, refusals))


main()
