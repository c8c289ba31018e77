#!/usr/bin/env python3
"""Makes local heaps of many shapes, each with a request for which it may grow, and works out how far it does by trying every size in turn.

Written from docs/DEFINITIONS.md over plain lists, apart from the program. Each heap is in a segment of its own, which the global heap has room for at
any size. It prints rows as `w16rows` plays them: `./ends.py > ../data/ends.txt`.
"""
import itertools
import random

SIZE, START, LAST = 64, 4, 65536
MOVEABLE, NOCOMPACT, NODISCARD = 0x2, 0x10, 0x20
# A fixed object, a moveable one, a discardable one, a moveable one that is locked, and a hole.
SIZES = {"F": 8, "M": 12, "D": 16, "L": 8, "H": 12}
FLAGS = {"F": 0, "M": MOVEABLE, "D": 0x102, "L": MOVEABLE, "H": MOVEABLE}


class Block:
    def __init__(self, number, kind, at):
        self.number, self.kind, self.at, self.size = number, kind, at, SIZES[kind]
        self.name = at if kind == "F" else 4 * number + 2
        self.is_pinned = kind in "FL"


def blocks_of(shape):
    blocks, at = [], START
    for number, kind in enumerate(shape):
        blocks.append(Block(number, kind, at))
        at += SIZES[kind]
    return blocks


def holes(blocks, end):
    """The free stretches between blocks, which are in their order."""
    starts = [START] + [block.at + block.size for block in blocks]
    ends = [block.at for block in blocks] + [end]
    return [to - at for at, to in zip(starts, ends)]


def has_room(blocks, end, size):
    """Whether blocks that aren't pinned can be slid so that so many bytes are free in a row."""
    at, loose = START, 0
    for block in blocks + [None]:
        if block is None or block.is_pinned:
            if (end if block is None else block.at) - at - loose >= size:
                return True
            at, loose = (end if block is None else block.at + block.size), 0
        else:
            loose += block.size
    return False


def is_answered(blocks, own, size, flags, end):
    """Whether a request is answered in a heap that ends there: for a new object, or for one of the blocks."""
    if own is not None and size <= own.size:
        return True
    if own is not None and (own.is_pinned and not flags & MOVEABLE or flags & NOCOMPACT):
        later = [block.at for block in blocks if block.at > own.at]
        if own.at + size <= min(later + [end]):
            return True
        if own.is_pinned and not flags & MOVEABLE:
            return False
    others = [block for block in blocks if block is not own]
    if flags & NOCOMPACT:
        return any(hole >= size for hole in holes(blocks, end))
    discardable = [block for block in others if block.kind == "D"]
    for count in range(1 if flags & NODISCARD else len(discardable) + 1):
        if has_room([block for block in others if block not in discardable[:count]], end, size):
            return True
    return False


def size_for(blocks, own, size, flags):
    """The size of the segment behind a request, or none where it is refused."""
    if is_answered(blocks, own, size, flags, SIZE):
        return SIZE
    if not flags & NOCOMPACT:
        for end in range(SIZE + 32, LAST + 1, 32):
            if is_answered(blocks, own, size, flags, end):
                return end
    return None


def print_case(shape, own, size, flags):
    """A heap of a shape, and a request for a new moveable object, or for the object of this number."""
    print("GlobalAlloc 0x42 64 -> 0106")
    print("LocalInit 0x107 4 64 -> 0001")
    print("DS 0x107 -> ok")
    made = blocks_of(shape)
    for block in made:
        print(f"LocalAlloc {FLAGS[block.kind]:#x} {block.size} -> {block.name:04x}")
    for block in made:
        if block.kind == "L":
            print(f"LocalLock {block.name:#x} -> {block.at:04x}")
        if block.kind == "H":
            print(f"LocalFree {block.name:#x} -> 0000")
    blocks = [block for block in made if block.kind != "H"]
    target = None if own is None else made[own]
    end = size_for(blocks, target, size, flags)
    if own is None:
        used = {block.number for block in blocks}
        name = 4 * min(number for number in range(5) if number not in used) + 2
        print(f"LocalAlloc {flags | MOVEABLE:#x} {size} -> {0 if end is None else name:04x}")
    else:
        print(f"LocalReAlloc {target.name:#x} {size} {flags:#x} -> {0 if end is None else target.name:04x}")
    print(f"GlobalSize 0x106 -> {SIZE if end is None else end:08x}")
    print("Moved -> 00000000")
    print("GlobalFree 0x106 -> 0000")


def print_row(shape):
    print(f"\n[a heap of {' '.join(shape)}]" if shape else "\n[an empty heap]")
    print("memory: 65536\nrefusals: none")
    for flags, size in itertools.product([0, NODISCARD, NOCOMPACT], [20, 52, 100]):
        print_case(shape, None, size, flags)
    for own, kind in enumerate(shape):
        for flags in [0, NODISCARD, NOCOMPACT, MOVEABLE]:
            if kind != "H" and not (kind == "F" and flags == MOVEABLE):
                print_case(shape, own, 48, flags)


def main():
    random.seed(53)
    print("# Local heaps in segments of 64 bytes, whose objects are fixed (F), moveable (M), discardable (D) and locked (L), with holes (H). Each is asked")
    print("# for room, and grows by the least that serves. Made by `scripts/ends.py`.")
    shapes = [shape for count in range(3) for shape in itertools.product("FMDLH", repeat=count)]
    shapes += random.sample(list(itertools.product("FMDLH", repeat=3)), 30)
    for shape in shapes:
        print_row(shape)


if __name__ == "__main__":
    main()
