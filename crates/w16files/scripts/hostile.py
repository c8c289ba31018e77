#!/usr/bin/env python3
"""Writes module files as a stranger may make them, of very many names, blocks, references, resources or relocation records.

usage: hostile.py FOLDER COUNT

Each of the ten files has COUNT of what it is of, or as many as such a file may have. It prints the rows of `hostile.txt` for them:
`./hostile.py ../data 1000 > ../data/hostile.txt`. How long one takes to be read, and how much memory, GNU's `time` tells:
`/usr/bin/time -v w16ne FOLDER/LETTERS.DLL > /dev/null`.
"""
import struct
import sys
from itertools import product
from pathlib import Path

from expected import answer


def letters(number):
    """Five letters for the low 20 bits of a number."""
    return bytes(65 + (number >> 4 * i) % 16 for i in range(5))


def colliding_texts():
    """Texts of six letters that a map of 65,000 names under the kit's default hasher, whose seed is fixed, puts into 64 of its 8,192 groups."""

    def fed(state, part, factor):
        folded = (state ^ part) * factor
        return (folded ^ folded >> 64) & 2**64 - 1

    for head in product(range(65, 81), repeat=5):
        state = fed(0x243F6A8885A308D3, 6, 0x9E3779B97F4A7C15 ^ 16)
        for letter in head:
            state = fed(state, letter * 0x10101, 0x9E3779B97F4A7C15 ^ 2)
        for last in range(65, 81):
            found = fed(state, last * 0x10101, 0x9E3779B97F4A7C15 ^ 2)
            if (found ^ found >> 32) & 0x1FC0 == 0:
                yield bytes([*head, last])


COLLIDING = colliding_texts()


def texts(number):
    """A block of one resource without bytes. Its type and its id lead to bytes FF of the first blocks, where texts of 255 bytes begin."""
    block = 2 + 20 * (number % 1600)
    return struct.pack("<HHI", block + 4, 1, 0xFFFFFFFF) + struct.pack("<4HI", 0xFFFF, 0, 0xFFFF, block + 16, 0xFFFFFFFF)


# What each file has many of: a title, how many there are at most, and the bytes of the one of a number.
FILES = {
    "LETTERS.DLL": ("names of one letter", 262_144, lambda n: bytes([1, 65 + n % 256 % 26]) + struct.pack("<H", n % 65_536)),
    "ALIKE.DLL": ("names that begin alike", 80_000, lambda n: b"\x0dCOLLIDES" + letters(n) + struct.pack("<H", n % 65_536)),
    "COLLIDES.DLL": ("names that collide", 65_000, lambda n: b"\x06" + next(COLLIDING) + struct.pack("<H", n % 65_536)),
    # The text of the type begins at such a block, whose first byte is its length.
    "BLOCKS.DLL": ("blocks without resources", 131_072, lambda n: bytes([250, 0, 0, 0, 0, 0, 0, 0])),
    "REFS.DLL": ("references to one name of 255 bytes", 65_535, lambda n: bytes(2)),
    "TEXTS.DLL": ("blocks whose texts overlap", 65_535, texts),
    # Records of a system's part, which have no sites; such that add a byte, each at one of its own, by ordinal and by name; and one chain of words.
    "SHARED.DLL": ("records in a table that 253 segments share", 65_535, lambda n: struct.pack("<BBHHH", 5, 3, 0, 1, 0)),
    "RECORDS.DLL": ("records of one segment", 65_535, lambda n: struct.pack("<BBHHH", 0, 5, n, 1, n)),
    "IMPORTS.DLL": ("records that import by name", 65_535, lambda n: struct.pack("<BBHHH", 0, 6, n, 1, 1)),
    "CHAIN.DLL": ("sites of one chain", 32_767, lambda n: struct.pack("<H", 2 * n + 2)),
}


def headers(resources, references):
    """Both headers: the words of the new one at their places, all others zero."""
    header = bytearray(128)
    header[:2], header[0x3C], header[64:66] = b"MZ", 64, b"NE"

    def put(at, word):
        struct.pack_into("<H", header, 64 + at, word)

    put(0x1E, references)
    put(0x22, 64)  # where the segment table begins, which is empty
    put(0x24, resources)  # where the resource table begins
    put(0x26, 64)  # where the resident names begin
    put(0x28, 331)  # where the references begin
    put(0x2A, 75)  # where the imported names begin
    put(0x32, 4)  # sectors are of 2 to the power of this
    put(0x36, 2)  # for Windows
    return bytes(header)


def segments(segments, data, records, many):
    """A file of so many segments, all with the same data and the same records."""
    table = 64 + 8 * segments
    header = bytearray(headers(table, 1))
    for at, word in ((0x1C, segments), (0x26, table), (0x28, table + 11), (0x2A, table + 13)):
        struct.pack_into("<H", header, 64 + at, word)
    # After the module's name there are one reference and the imported names, of which it leads to the second.
    names = b"\x07HOSTILE\x00\x00\x00" + struct.pack("<H", 1) + b"\x00\x06KERNEL"
    place = (64 + table + len(names) + 15) // 16
    row = struct.pack("<4H", place, len(data), 0x0100, len(data))
    front = bytes(header) + row * segments + names
    return front.ljust(16 * place, b"\x00") + data + struct.pack("<H", records) + many


def file_of(name, count):
    many = b"".join(map(FILES[name][2], range(count)))
    if name == "CHAIN.DLL":
        return segments(1, many[:-2] + b"\xff\xff", 1, struct.pack("<BBHHH", 5, 1, 0, 1, 1))
    if name in ("SHARED.DLL", "RECORDS.DLL", "IMPORTS.DLL"):
        return segments(253 if name == "SHARED.DLL" else 1, bytes(count), count, many)
    # Behind the module's name the names go on, or they end, and the shift of a resource table comes, or an imported name.
    begin = {"BLOCKS.DLL": bytes([0, 4, 0]), "TEXTS.DLL": bytes([0, 4, 0]), "REFS.DLL": bytes(1) + bytes([255]) * 256}.get(name, b"")
    has_resources = name in ("BLOCKS.DLL", "TEXTS.DLL")
    front = headers(75 if has_resources else 64, count if name == "REFS.DLL" else 0) + b"\x07HOSTILE\x00\x00" + begin
    # The last of the texts that overlap go on behind the table.
    return front + many + bytes(2) + bytes([255]) * 256


def main():
    folder, count = Path(sys.argv[1]), int(sys.argv[2])
    print("# What is read of module files of very many names, blocks, references, resources or relocation records. Written by `scripts/hostile.py`.")
    for name, (title, most, _) in FILES.items():
        data = file_of(name, min(count, most))
        (folder / name).write_bytes(data)
        print(f"\n[{title}]\nsum {name} -> {answer(data)}")


if __name__ == "__main__":
    main()
