#!/usr/bin/env python3
"""Writes the small heap of docs/FORMAT.md from the tables there, in hex, or with `spec` as the lists of
crates/sdr_stands/specs/Example.antt. It shares nothing with the crates.

    python3 docs/heap_example.py [spec]
"""
import sys

LINES = 1024
FIRST = 1024 + 64 * ((LINES + 63) // 64)


def word(n):
    return n.to_bytes(8, "big")


def words(*ns):
    return b"".join(word(n) for n in ns)


# The blocks in the order in which they were taken. Each stands behind the one before it, so that the lengths tell the
# addresses.
STRING, LIST, ELEMENT, NAME, SOURCE, OBJECT, EXTENT, HEADER = range(8)
LENGTHS = [6, 32, 32, 56, 56, 72, 32, 11]


def places():
    at, place = [], FIRST
    for length in LENGTHS:
        at.append(place + 8)
        place += 8 + 8 * max(1, -(-length // 8))
    return at, place


AT, LOW = places()

# The number and the name of each block's kind, and its bytes.
BLOCKS = [
    (2, "Text", bytes([5]) + b"hello"),
    (3, "List", words(7, 1, AT[ELEMENT], AT[ELEMENT])),
    (4, "Element", words(AT[LIST], 0, 0, AT[STRING])),
    (8, "Name", words(0, 3, AT[LIST]) + bytes([4]) + b"mail" + bytes(27)),
    (9, "Source", words(1, 0, 0, 1, 0, 10) + b"data.bin"),
    (10, "Object", words(1, AT[EXTENT], AT[EXTENT], AT[HEADER], AT[HEADER], 0, 0, 0, 10)),
    (11, "Extent", words(AT[SOURCE], 0, 10, 0)),
    (12, "Capsule", words(0) + b"H1:"),
]

MAXIMA = [2**40, 2**40, 32 * LINES]
ROOTS = [AT[NAME], AT[NAME], 2]
ROOTS += [0, 0, 0] + MAXIMA + [0, 0]
ROOTS += [10, 0, 72 + 32 + 8 * 2] + MAXIMA + [0, 0]
ROOTS += [1] + [0] * 19


def heap():
    data = bytearray(64 * LINES)
    data[0:1024] = words(64 * LINES, FIRST, LOW, 64 * LINES, *[0] * 85, *ROOTS)
    for addr, (kind, _, content) in zip(AT, BLOCKS):
        k = max(1, -(-len(content) // 8))
        data[addr - 8 : addr] = bytes([kind]) + k.to_bytes(3, "big") + len(content).to_bytes(4, "big")
        data[addr : addr + len(content)] = content
        bit = (addr - 8) // 8
        data[1024 + bit // 8] |= 128 >> (bit % 8)
    return bytes(data)


def rows(data):
    """Each line of 16 bytes that has a byte other than 0."""
    for place in range(0, len(data), 16):
        row = data[place : place + 16]
        if any(row):
            half = row[:8].hex(" "), row[8:].hex(" ")
            print(f"{place:5}  {half[0]}  {half[1]}")


def antt(numbers, indent):
    """A list of numbers, eight to a line."""
    lines = [numbers[i : i + 8] for i in range(0, len(numbers), 8)]
    texts = [" ∷ ".join(str(n) for n in line) for line in lines]
    return ("\n" + indent + "∷ ").join(texts) + " ∷ []"


def spec():
    for addr, (_, kind, content) in zip(AT, BLOCKS):
        print(f"    ({addr}, record {{ kind = kinds.{kind}; bytes = {antt(list(content), '        ')} }}) ∷")
    print("    []")
    print(antt(ROOTS, "    "))


if __name__ == "__main__":
    spec() if sys.argv[1:] == ["spec"] else rows(heap())
