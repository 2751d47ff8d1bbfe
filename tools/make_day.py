#!/usr/bin/env python3
"""Writes a day of mixed instruction lines, good, refused and malformed, from a seed."""
import random
import sys

SEED = int(sys.argv[1]) if len(sys.argv) > 1 else 5
COUNT = int(sys.argv[2]) if len(sys.argv) > 2 else 420
BAD = [
    b"", b" O", b"F", b"F ", b"F 01 0 1", b"F 0 0 -", b"F 0 0 -0", b"F 0 0 -01", b"F 0 0 +1", b"B 0 0 -5", b"F -1 0 5",
    b"F 0 0 5 ", b"F1 0 0", b"F  1 0 0", b"F 1234567890123456789 0 0", b"F 0 0 1234567890123456789",
    b"F 0 0 -1234567890123456789", b"F 0 0 5\r", b"F 0 \xc3\xa9 5", b"f 0 0 5", b"\x00", b"F\t0 0 5", b"F 0 0", b"F 0 0 ",
    b"Q 0 0", b"K 0 2 5 5", b"E 1 2 x", b"S 12 3 00", b"U 0 0 1,5", b"G 0  0 1", b"\xff\xff", b"C 0 0 999999999999999999x",
    b"D 0 10 7\x00", b"B 0 0 1 2 3", b"T 1000 100", b"O",
]
EDGE = [1, 250, 500_000_000, 999_999_999, 1_000_000_000, 1_000_000_000, 1_000_000_001, 0, 999_999_999_999_999_999]


def number(rng, edges, most, often=0.1):
    return rng.choice(edges) if rng.random() < often else rng.randrange(most)


def main():
    rng = random.Random(SEED)
    lines, bad = [], list(BAD)
    rng.shuffle(bad)
    for k in range(COUNT):
        if bad and rng.random() < 0.1:
            lines.append(bad.pop())
            continue
        letter = rng.choice("FFBBSSCDEGKU")
        account = number(rng, [0, 63, 64, 255, 4096], 3)
        series = number(rng, [0, 62, 63, 64, 1000], 4)
        amount = number(rng, EDGE, 12, 0.3)
        if letter == "F" and amount and rng.random() < 0.5:
            amount = -amount
        lines.append(b"%s %d %d %d" % (letter.encode(), account, series, amount))
    lines += bad
    sys.stdout.buffer.write(b"\n".join(lines))


main()
