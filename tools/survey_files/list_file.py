#!/usr/bin/env python3
"""A second implementation of the call on a survey file, written apart from the program.

It goes through the file line by line and checks each line as it comes; the expected outputs of examples and tests come from it.
"""
import sys
from collections import deque

MOST_BYTES, MOST_STEPS = 65536, 10000
ROOM = {"marks": 4096, "values": 16384, "waiting": 16384}
WIDTHS = {"H": [5, 5, 5, 5], "N": [5], "B": [5, 5], "T": [5, 5, 5], "M": [5, 5, 10], "Q": [5]}
AXES = ["first", "next", "owner", "previous"]


class Fault(Exception):
    def __init__(self, number, line):
        super().__init__(number, line)
        self.number, self.line = number, line


def number(field):
    text = field.decode("latin-1")
    digits = text.lstrip(" ")
    if not digits or any(c not in "0123456789" for c in digits) or (digits[0] == "0" and len(digits) > 1):
        return None
    return int(digits)


class File:
    """Hands out lines; one that is malformed, or of another kind than those wanted, is a fault."""

    def __init__(self, data):
        self.lines = data.split(b"\n")
        self.tail = self.lines.pop()  # what stands behind the last end of a line
        self.at = 0

    def line(self, kinds):
        self.at += 1
        if self.at > len(self.lines):
            raise Fault(12, self.at)
        line = self.lines[self.at - 1]
        letter = chr(line[0]) if line else ""
        if letter not in kinds or letter == "":
            raise Fault(12, self.at)
        numbers, column = [], 1
        for width in WIDTHS[letter]:
            field = line[column:column + width]
            value = number(field) if len(field) == width else None
            if value is None:
                raise Fault(12, self.at)
            numbers.append(value)
            column += width
        rest = line[column:].decode("latin-1")
        if letter == "H":
            if len(rest) != 2 or rest[0] not in "YG" or rest[1] not in "RL":
                raise Fault(12, self.at)
            return letter, numbers + [rest[0], rest[1]]
        if rest:
            raise Fault(12, self.at)
        return letter, numbers

    def end(self):
        if self.at < len(self.lines) or self.tail:
            raise Fault(12, self.at + 1)


def tree_of(depths):
    n = len(depths)
    axes = {a: [None] * n for a in AXES}
    for x in range(n):
        for y in range(x + 1, n):
            if depths[y] < depths[x]:
                break
            if depths[y] == depths[x]:
                axes["next"][x], axes["previous"][y] = y, x
                break
        if x + 1 < n and depths[x + 1] == depths[x] + 1:
            axes["first"][x], axes["owner"][x + 1] = x + 1, x
    return axes


def mirrored(axes):
    n = len(axes["first"])
    out = {"next": axes["previous"], "previous": axes["next"], "first": [None] * n, "owner": [None] * n}
    for x in range(n):
        child = axes["first"][x]
        if child is not None:
            while axes["next"][child] is not None:
                child = axes["next"][child]
            out["first"][x], out["owner"][child] = child, x
    return out


def reads(term):
    kind, a, b = term
    if kind in (2, 3):
        return [a, b]
    return [a] if kind in (1, 4, 5, 6, 7, 8, 9, 10, 11) else []


def read(data):
    file = File(data)
    _, (n, tags, blocks, terms, kind, hand) = file.line("H")
    if not 1 <= n <= 2048:
        raise Fault(1, 1)
    if tags > 16 or not 1 <= terms <= 64 or blocks == 0:
        raise Fault(3, 1)
    if tags * n > ROOM["marks"] or terms * n > min(ROOM["values"], ROOM["waiting"]):
        raise Fault(7, 1)
    depths = []
    for x in range(n):
        _, (depth,) = file.line("N")
        if (depth != 0) if x == 0 else not 1 <= depth <= depths[-1] + 1:
            raise Fault(2, file.at)
        depths.append(depth)
    rows = []
    for b in range(blocks):
        _, (solution, count) = file.line("B")
        if solution > 1 or count == 0 or (b == blocks - 1 and sum(c for _, c in rows) + count != terms):
            raise Fault(3, file.at)
        rows.append((solution, count))
    block_of = [b for b, (_, count) in enumerate(rows) for _ in range(count)]
    query = []
    for i in range(terms):
        _, term = file.line("T")
        kind_, a, b = term
        bad = kind_ > 13 or (kind_ not in (2, 3) and b != 0) or (kind_ >= 12 and a != 0)
        if not bad:
            bad = a >= tags if kind_ == 0 else any(j >= terms for j in reads(term))
        if bad:
            raise Fault(4, file.at)
        if any(block_of[j] > block_of[i] for j in reads(term)):
            raise Fault(5, file.at)
        if kind_ == 1 and block_of[a] == block_of[i]:
            raise Fault(6, file.at)
        query.append(tuple(term))
    marks = [[0] * n for _ in range(tags)]
    while True:
        letter, numbers = file.line("MQ")
        if letter == "Q":
            break
        node, tag, grade = numbers
        if grade > (1 if kind == "Y" else 2 ** 32 - 1):
            raise Fault(12, file.at)
        if node >= n or tag >= tags:
            raise Fault(8, file.at)
        marks[tag][node] = grade
    asked = numbers[0]
    if asked >= terms:
        raise Fault(8, file.at)
    file.end()
    return depths, kind, hand, rows, block_of, query, marks, asked, file.at


def settle(depths, kind, hand, rows, block_of, query, marks, last):
    n, top = len(depths), (1 if kind == "Y" else 2 ** 32 - 1)
    axes = tree_of(depths)
    if hand == "L":
        axes = mirrored(axes)
    values = [[top if rows[block_of[i]][0] else 0] * n for i in range(len(query))]

    def grade(i, x):
        kind_, a, b = query[i]
        if kind_ == 0:
            return marks[a][x]
        if kind_ == 1:
            return top - values[a][x]
        if kind_ == 2:
            return values[a][x] & values[b][x]
        if kind_ == 3:
            return values[a][x] | values[b][x]
        if kind_ < 12:
            y = axes[AXES[kind_ % 4]][x]
            return values[a][y] if y is not None else (0 if kind_ < 8 else top)
        return 0 if kind_ == 12 else top

    back = {"first": "owner", "next": "previous", "owner": "first", "previous": "next"}
    steps = 0
    for b in range(len(rows)):
        members = [i for i in range(len(query)) if block_of[i] == b]
        queue = deque((i, x) for i in members for x in range(n))
        waiting = set(queue)
        while queue:
            if steps == MOST_STEPS:
                raise Fault(14, last)
            steps += 1
            entry = queue.popleft()
            waiting.discard(entry)
            i, x = entry
            new = grade(i, x)
            if new == values[i][x]:
                continue
            values[i][x] = new
            for r in members:
                if i not in reads(query[r]):
                    continue
                kind_ = query[r][0]
                y = axes[back[AXES[kind_ % 4]]][x] if 4 <= kind_ <= 11 else x
                if y is not None and (r, y) not in waiting:
                    waiting.add((r, y))
                    queue.append((r, y))
    return values, steps


def list_file(data):
    """The output bytes, and whether the file was taken."""
    try:
        if len(data) > MOST_BYTES:
            raise Fault(13, 0)
        depths, kind, hand, rows, block_of, query, marks, asked, last = read(data)
        values, steps = settle(depths, kind, hand, rows, block_of, query, marks, last)
    except Fault as fault:
        return b"F%5d%5d\n" % (fault.number, fault.line), False
    selected = [(x, g) for x, g in enumerate(values[asked]) if g]
    lines = [b"A%5d%10d\n" % (len(depths), steps)] + [b"S%5d%10d\n" % line for line in selected] + [b"E%5d\n" % len(selected)]
    return b"".join(lines), True


if __name__ == "__main__":
    output, taken = list_file(open(sys.argv[1], "rb").read() if len(sys.argv) > 1 else sys.stdin.buffer.read())
    sys.stdout.buffer.write(output)
    sys.exit(0 if taken else 1)
