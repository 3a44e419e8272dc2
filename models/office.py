#!/usr/bin/env python3
"""What the office program has to print for the lines on standard input, computed from docs/RULES.md apart from the library: every claim is
measured for every ask, and there is no tree. Numbers in brackets are rules."""
import sys

CAPACITY = 1024  # [10.1]
LONGEST = 573  # [5.11]
MOST_LINES = 4294967295  # [10.10]
CLAIM = 3
ASKS = {1: "near", 4: "far"}  # [5.5]
ANSWERS = {"near": 2, "far": 5}  # [5.6]
DIGITS = b"0123456789abcdef"


class Refused(Exception):
    """A refusal, by its number."""


class Fields:
    """A frame that is read from its front."""

    def __init__(self, frame):
        self.frame, self.at = frame, 0

    def take(self, width, signed=False):
        """[5.2] [5.3] The next number."""
        self.at += width
        return int.from_bytes(self.frame[self.at - width:self.at], "big", signed=signed)


def frame_of(line):
    """[5.1] [8.9] The bytes of a line."""
    digits = line[:-1]
    if len(line) > LONGEST or line[-1:] != b"\n" or not digits or len(digits) % 2 or any(x not in DIGITS for x in digits):
        raise Refused(9)
    return bytes.fromhex(digits.decode())


def head(fields, length):
    """[5.4] Table number, measure and d behind the kind, in a frame whose length follows from d."""
    number, measure, d = fields.take(4), fields.take(1), fields.take(1)
    if len(fields.frame) < 7 or not (1 <= measure <= 3 and 1 <= d <= 8 and len(fields.frame) == length(d)):
        raise Refused(10)
    return number, measure, d


def read_claim(fields):
    """[5.7] Whom a claim is for, its reference and its point."""
    for_whom = head(fields, lambda d: 11 + 4 * d)
    return for_whom, fields.take(4), [fields.take(4, signed=True) for _ in range(for_whom[2])]


def read_ask(fields):
    """[5.5] [5.8] [5.9] [5.10] Whom an ask is for, probe, reach, from, snapshot, mark and page size."""
    for_whom = head(fields, lambda d: 29 + 4 * d)
    probe = [fields.take(4, signed=True) for _ in range(for_whom[2])]
    reach, start, snapshot, distance, number, size = (fields.take(width) for width in (8, 1, 2, 8, 2, 1))
    if start > 1 or snapshot > 4096 or number > 4095 or not 1 <= size <= 16:
        raise Refused(10)
    if start == 0 and (snapshot, distance, number) != (0, 0, 0):
        raise Refused(10)
    return for_whom, probe, reach, start, snapshot, (distance, number), size


def distance(measure, p, q):
    """[1.6] [1.7] [1.8]"""
    gaps = [abs(a - b) for a, b in zip(p, q, strict=True)]
    return (sum(gaps), max(gaps), sum(g > 0 for g in gaps))[measure - 1]


def rank(order, x, number):
    """[2.1] [2.2] [2.3] What items are sorted by."""
    return (x if order == "near" else -x, number)


class Office:
    def __init__(self):
        self.for_whom, self.claims = None, []

    def enter(self, for_whom, reference, point):
        """[10.2] [10.3] [10.6] [3.17]"""
        if self.claims and for_whom != self.for_whom:
            raise Refused(11)
        if any(reference == known for known, _ in self.claims):
            raise Refused(17)
        if len(self.claims) == CAPACITY:
            raise Refused(3)
        self.for_whom = for_whom
        self.claims.append((reference, point))
        return b""

    def page(self, order, probe, reach, snapshot, mark, size):
        """[2.5] [4.5] [4.6] [4.7] The items of a page, and whether none follows them; without a mark, from the start."""
        items = []
        for number, (reference, point) in enumerate(self.claims[:snapshot]):
            x = distance(self.for_whom[1], point, probe)
            if x <= reach and (mark is None or rank(order, x, number) > rank(order, *mark)):
                items.append((number, reference, x))
        items.sort(key=lambda item: rank(order, item[2], item[0]))
        return items[:size], not items[size:]

    def answer(self, order, ask):
        """[6.1] to [6.4] The answer line, or 11, 7 or 8."""
        for_whom, probe, reach, start, snapshot, mark, size = ask
        if not self.claims or for_whom != self.for_whom:
            raise Refused(11)
        if start == 0:
            snapshot = len(self.claims)
        elif snapshot > len(self.claims):
            raise Refused(7)
        elif mark[1] >= snapshot or mark[0] > reach or mark[0] != distance(for_whom[1], self.claims[mark[1]][1], probe):
            raise Refused(8)
        items, last = self.page(order, probe, reach, snapshot, mark if start else None, size)
        number, measure, d = for_whom
        fields = [(1, ANSWERS[order]), (4, number), (1, measure), (1, d)] + [(4, x % 2**32) for x in probe]
        fields += [(8, reach), (1, start), (2, snapshot), (8, mark[0]), (2, mark[1])]
        fields += [(1, last), (1, len(items))]
        fields += [field for item in items for field in zip((2, 4, 8), item)]
        return b"".join(int(x).to_bytes(width, "big") for width, x in fields).hex().encode() + b"\n"

    def serve(self, line):
        """[10.4] [10.5] [10.6] What one line has printed."""
        try:
            fields = Fields(frame_of(line))
            kind = fields.take(1)
            if kind == CLAIM:
                return self.enter(*read_claim(fields))
            if kind in ASKS:
                return self.answer(ASKS[kind], read_ask(fields))
            raise Refused(10)
        except Refused as refusal:
            return b"refused %d\n" % refusal.args[0]


def main():
    office = Office()
    # [10.8] [10.9] what is behind the last 0A is a line too
    for count, line in enumerate(sys.stdin.buffer):
        if count < MOST_LINES:
            sys.stdout.buffer.write(office.serve(line))


main()
