#!/usr/bin/env python3
"""An independent model of the program `positions`: reads a day's lines on standard input, writes the expected output.

It shares nothing with the program but the rules in docs/DEFINITIONS.md, and keeps its state in plain dictionaries.
"""
import re
import sys

REACH = 10**9
NUMBER = rb"(?:0|[1-9][0-9]{0,17})"


def good_line(line):
    """The letter and three numbers of a line, or None."""
    amount = rb"(?:" + NUMBER + rb"|-[1-9][0-9]{0,17})" if line[:1] == b"F" else NUMBER
    m = re.fullmatch(rb"([FBSCDEGKU]) (" + NUMBER + rb") (" + NUMBER + rb") (" + amount + rb")", line, re.S)
    return m and (chr(m[1][0]), int(m[2]), int(m[3]), int(m[4]))


def can_begin(start):
    """Whether some good line begins with these bytes: tried by completing the start in a few ways."""
    tails = [b"", b"0", b"1", b" 0", b" 1"]
    ends = [b"", b" 0", b" 0 0", b" 0 0 0"]
    if not start:
        return True
    return any(good_line(start + t + e) for t in tails for e in ends)


def column(line):
    """The length of the longest start of the line that begins some good line."""
    best = 0
    for k in range(len(line) + 1):
        if can_begin(line[:k]):
            best = k
    return best


class Day:
    def __init__(self):
        self.held, self.buys, self.sells, self.cover = {}, {}, {}, {}

    def refused(self, number, depth):
        return "no %d %d 0" % (number, depth)

    def answer(self, letter, account, series, amount):
        cell = (account, series)
        if account > 63 or series > 63:
            return self.refused(7, 0)
        if letter == "F":
            if amount == 0 or abs(amount) > REACH:
                return self.refused(8, 0)
        elif not 1 <= amount <= REACH:
            return self.refused(8, 0)
        held = self.held.get(cell, 0)
        buys, sells, cover = (t.get(cell, 0) for t in (self.buys, self.sells, self.cover))
        # cover layer, on top
        if letter in "KU":
            if series % 2:
                return self.refused(11, 0)
            if letter == "U" and amount > cover:
                return self.refused(10, 0)
            cover += amount if letter == "K" else -amount
            if cover > REACH:
                return self.refused(12, 0)
            self.cover[cell] = cover
            return "ok"
        # order layer, below it
        if letter in "CE" and amount > buys or letter in "DG" and amount > sells:
            return self.refused(10, 1)
        held += {"F": amount, "E": amount, "G": -amount}.get(letter, 0)
        if abs(held) > REACH:
            return self.refused(12, 2)
        buys += {"B": amount, "C": -amount, "E": -amount}.get(letter, 0)
        sells += {"S": amount, "D": -amount, "G": -amount}.get(letter, 0)
        if held - sells < -REACH or held + buys > REACH:
            return self.refused(12, 1)
        self.held[cell], self.buys[cell], self.sells[cell] = held, buys, sells
        return "ok"

    def line(self, line):
        good = good_line(line)
        return self.answer(*good) if good else "no 17 0 %d" % column(line)

    def sheet(self):
        for account, series in sorted(self.held):
            if self.held[account, series]:
                yield "p %d %d %d" % (account, series, self.held[account, series])


def main():
    text = sys.stdin.buffer.read()
    lines = text.split(b"\n")
    if lines[-1] == b"":
        lines.pop()
    day = Day()
    for line in lines:
        print(day.line(line))
    for row in day.sheet():
        print(row)


main()
