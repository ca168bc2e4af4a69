#!/usr/bin/env python3
"""Writes the cases of the test program `file_cases`: survey files on its standard input, and their outputs by the second implementation.

Without an argument it writes both, with `--names` it lists the cases by number, and with `--check` it says whether they, and the outputs beside the examples, are as they would be written.
"""
import random
import sys
from pathlib import Path

from list_file import list_file

ROOT = Path(__file__).resolve().parents[2]
CRATE = ROOT / "crates" / "file_cases"
EXAMPLES = sorted((ROOT / "examples").glob("*.txt"))

LEAST, GREATEST = 0, 1


def file_of(depths, tags, blocks, terms, marks, asked, kind="Y", hand="R", **counts):
    head = {"nodes": len(depths), "tags": tags, "blocks": len(blocks), "terms": len(terms), **counts}
    lines = ["H%5d%5d%5d%5d%s%s" % (head["nodes"], head["tags"], head["blocks"], head["terms"], kind, hand)]
    lines += ["N%5d" % d for d in depths]
    lines += ["B%5d%5d" % b for b in blocks]
    lines += ["T%5d%5d%5d" % t for t in terms]
    lines += ["M%5d%5d%10d" % m for m in marks]
    lines += ["Q%5d" % asked]
    return "".join(line + "\n" for line in lines).encode()


def depth_list(rng, most):
    depths = [0]
    for _ in range(rng.randrange(most)):
        depths.append(rng.randint(1, depths[-1] + 1))
    return depths


def random_term(rng, i, block_of, tags):
    own = [j for j in range(len(block_of)) if block_of[j] <= block_of[i]]
    earlier = [j for j in own if block_of[j] < block_of[i]]
    kinds = [2, 3, 4, 5, 6, 7, 8, 9, 10, 11, 12, 13] + [0] * 4 * (tags > 0) + [1] * 2 * bool(earlier)
    kind = rng.choice(kinds)
    if kind == 0:
        return (0, rng.randrange(tags), 0)
    if kind == 1:
        return (1, rng.choice(earlier), 0)
    if kind in (2, 3):
        return (kind, rng.choice(own), rng.choice(own))
    return (kind, rng.choice(own) if kind < 12 else 0, 0)


def lawful_file(rng):
    depths = depth_list(rng, 9)
    tags = rng.randrange(4)
    sizes = [rng.randint(1, 4) for _ in range(rng.randint(1, 3))]
    blocks = [(rng.choice((LEAST, GREATEST)), size) for size in sizes]
    block_of = [b for b, size in enumerate(sizes) for _ in range(size)]
    terms = [random_term(rng, i, block_of, tags) for i in range(len(block_of))]
    kind, hand = rng.choice("YG"), rng.choice("RL")
    top = 1 if kind == "Y" else rng.choice((15, 2 ** 32 - 1))
    marks = [(rng.randrange(len(depths)), rng.randrange(tags), rng.randint(0, top)) for _ in range(rng.randrange(7) if tags else 0)]
    return file_of(depths, tags, blocks, terms, marks, rng.randrange(len(terms)), kind, hand)


def put_number(rng, data, value):
    """Another number in a field of a line that has one."""
    lines = data.split(b"\n")
    at = rng.randrange(len(lines) - 1)
    line = bytearray(lines[at])
    field = rng.randrange((len(line) - 1) // 5)
    line[1 + 5 * field:6 + 5 * field] = b"%5d" % value
    lines[at] = bytes(line)
    return b"\n".join(lines)


def put_in(letter, values):
    """A damage: one of the values in a field of a line with this letter, where the file has such a line."""
    def damage(rng, data):
        lines = data.split(b"\n")
        at = [i for i, line in enumerate(lines) if line[:1] == letter]
        if not at:
            return data
        i = rng.choice(at)
        return b"\n".join(lines[:i] + [put_number(rng, lines[i] + b"\n", rng.choice(values))[:-1]] + lines[i + 1:])
    return damage


def swap_bytes(rng, data, choices):
    at = rng.randrange(len(data))
    return data[:at] + bytes([rng.choice(choices)]) + data[at + 1:]


def change_lines(rng, data, change):
    lines = data.split(b"\n")[:-1]
    change(lines, rng.randrange(len(lines)))
    return b"".join(line + b"\n" for line in lines)


def swap_neighbours(lines, at):
    other = (at + 1) % len(lines)
    lines[at], lines[other] = lines[other], lines[at]


DAMAGE = {
    "number": lambda rng, data: put_number(rng, data, rng.choice((0, 1, 2, 3, 5, 7, 13, 14, 17, 65, 2049, 99999))),
    "byte": lambda rng, data: swap_bytes(rng, data, b"0 1-+AMNQ\t\r\n\x00\xff"),
    "counts": put_in(b"H", range(18)),
    "depth": put_in(b"N", range(5)),
    "block": put_in(b"B", range(5)),
    "term": put_in(b"T", range(15)),
    "operand": put_in(b"T", range(7)),
    "mark": put_in(b"M", range(12)),
    "asked": put_in(b"Q", range(14)),
    "leading zero": lambda rng, data: data.replace(b"    1", b"   01", 1),
    "line left out": lambda rng, data: change_lines(rng, data, lambda lines, at: lines.pop(at)),
    "line twice": lambda rng, data: change_lines(rng, data, lambda lines, at: lines.insert(at, lines[at])),
    "lines swapped": lambda rng, data: change_lines(rng, data, swap_neighbours),
    "column more": lambda rng, data: change_lines(rng, data, lambda lines, at: lines.__setitem__(at, lines[at] + b" ")),
    "column less": lambda rng, data: change_lines(rng, data, lambda lines, at: lines.__setitem__(at, lines[at][:-1])),
    "return before the end": lambda rng, data: data.replace(b"\n", b"\r\n"),
    "last end missing": lambda rng, data: data[:-1],
    "something behind": lambda rng, data: data + rng.choice((b"\n", b"Q    0\n", b"x", b" ")),
    "cut off": lambda rng, data: data[:rng.randrange(len(data))],
    "empty": lambda rng, data: b"",
}


TIMES = {"byte": 24, "term": 30, "operand": 60, "mark": 16, "empty": 1}


def large_cases():
    """The limits: nodes, terms, tables, steps and bytes."""
    def wide(nodes, terms, **more):
        return file_of([0] + [1] * (nodes - 1), 1, [(LEAST, terms)], [(0, 0, 0)] + [(12, 0, 0)] * (terms - 1), [(nodes - 1, 0, 1)], 0, **more)

    yield "2048 nodes", wide(2048, 2)
    yield "2049 nodes", wide(2049, 2)
    yield "64 terms", wide(3, 64)
    yield "65 terms", wide(3, 65)
    yield "tables just long enough", wide(256, 64)
    yield "tables too short", wide(257, 64)
    yield "16 tags", file_of([0, 1], 16, [(LEAST, 1)], [(0, 15, 0)], [(1, 15, 1)], 0)
    yield "17 tags", file_of([0, 1], 17, [(LEAST, 1)], [(0, 15, 0)], [(1, 15, 1)], 0)
    yield "too many marks", file_of([0] + [1] * 299, 14, [(LEAST, 1)], [(0, 13, 0)], [], 0)
    yield "just the steps", file_of([0] + [1] * 1999, 0, [(LEAST, 5)], [(12, 0, 0)] * 5, [], 0)
    yield "a step too many", file_of([0] + [1] * 2000, 0, [(LEAST, 5)], [(12, 0, 0)] * 5, [], 0)
    filler = (65536 - len(file_of([0], 1, [(LEAST, 1)], [(0, 0, 0)], [], 0))) // 22
    longest = file_of([0], 1, [(LEAST, 1)], [(0, 0, 0)], [(0, 0, 1)] * filler, 0)
    yield "a long file", longest
    yield "65536 bytes", longest + b" " * (65536 - len(longest))
    yield "65537 bytes", longest + b" " * (65537 - len(longest))
    yield "everything listed", file_of([0] + [1] * 2047, 1, [(LEAST, 1)], [(13, 0, 0)], [], 0, kind="G")


def cases():
    for path in EXAMPLES:
        yield "example " + path.stem, path.read_bytes()
    yield from large_cases()
    rng = random.Random(17)
    for i in range(120):
        yield "lawful %d" % i, lawful_file(rng)
    for name, damage in DAMAGE.items():
        for i in range(TIMES.get(name, 8)):
            yield "%s %d" % (name, i), damage(rng, lawful_file(rng))


def written():
    """The test program's input (the size of each file before it) and output (the number of each case before its listing), and the outputs beside the examples."""
    files = [data for _, data in cases()]
    texts = {
        CRATE / "stdin": b"".join(b"C%5d\n" % len(data) + data for data in files),
        CRATE / "stdout": b"".join(b"C%5d\n" % i + list_file(data)[0] for i, data in enumerate(files)),
    }
    for path in EXAMPLES:
        texts[path.with_suffix(".out")] = list_file(path.read_bytes())[0]
    return texts


def main():
    if "--names" in sys.argv[1:]:
        for i, (name, _) in enumerate(cases()):
            print(i, name)
        return
    texts = written()
    if "--check" in sys.argv[1:]:
        stale = [path for path, text in texts.items() if not path.exists() or path.read_bytes() != text]
        for path in stale:
            print("%s is not what would be written" % path.relative_to(ROOT))
        sys.exit(1 if stale else 0)
    for path, text in texts.items():
        path.write_bytes(text)


if __name__ == "__main__":
    main()
