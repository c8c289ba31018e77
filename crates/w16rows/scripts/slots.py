#!/usr/bin/env python3
"""Makes calls on objects of 1 to 255 selectors, and works out what they answer.

Written from docs/DEFINITIONS.md over a plain list of slots, apart from the program. Each object is discarded as soon as it is there, so that all have
room and only slots can be wanting. It prints rows as `w16rows` plays them: `./slots.py > ../data/slots.txt`.
"""
import random

ROWS = 4
FIRST, SLOTS, REACH = 32, 8160, 65536
MOVEABLE_DISCARDABLE = 0x102


def handle_of(slot):
    return 8 * slot + 6


class Table:
    """The slots, each with the first slot of its object or none, and how many slots each object has."""

    def __init__(self):
        self.owner = [None] * (FIRST + SLOTS)
        self.counts = {}

    def is_free(self, first, count):
        return first + count <= len(self.owner) and all(owner is None for owner in self.owner[first : first + count])

    def lowest(self, count):
        """The lowest run of so many free slots, or none."""
        free = 0
        for slot in range(FIRST, len(self.owner)):
            free = free + 1 if self.owner[slot] is None else 0
            if free == count:
                return slot - count + 1
        return None

    def put(self, first, count):
        self.owner[first : first + count] = [first] * count
        self.counts[first] = count

    def take(self, first):
        count = self.counts.pop(first)
        self.owner[first : first + count] = [None] * count

    def run_for(self, first, count):
        """Where an object's run of another length begins: where its own does, or elsewhere while it still has its own."""
        own = self.counts[first]
        if count <= own or self.is_free(first + own, count - own):
            return first
        return self.lowest(count)


class Script:
    def __init__(self, seed):
        self.random = random.Random(seed)
        self.table = Table()
        self.lines = []

    def say(self, line, reply):
        self.lines.append(f"{line} -> {reply}")

    def count(self):
        """A number of slots: mostly few."""
        return self.random.choice([1, 1, 2, 3, self.random.randint(1, 20), self.random.randint(1, 255), 255])

    def size(self, count):
        """A size that needs so many slots."""
        return self.random.choice([REACH * count, REACH * (count - 1) + 1, REACH * (count - 1) + self.random.randint(1, REACH)])

    def discard(self, first):
        self.say(f"GlobalDiscard {handle_of(first):#x}", f"{handle_of(first):04x}")

    def allocate(self):
        count = self.count()
        first = self.table.lowest(count)
        line = f"GlobalAlloc {MOVEABLE_DISCARDABLE:#x} {self.size(count)}"
        if first is None:
            self.say(line, "0000")
            return
        self.say(line, f"{handle_of(first):04x}")
        self.table.put(first, count)
        self.discard(first)

    def reallocate(self, first):
        count = self.count()
        then = self.table.run_for(first, count)
        line = f"GlobalReAlloc {handle_of(first):#x} {self.size(count)} 0"
        if then is None:
            self.say(line, "0000")
            return
        self.say(line, f"{handle_of(then):04x}")
        self.table.take(first)
        self.table.put(then, count)
        self.discard(then)
        if then != first:
            self.say(f"GlobalFlags {handle_of(first):#x}", "0000")

    def free(self, first):
        self.say(f"GlobalFree {handle_of(first):#x}", "0000")
        self.table.take(first)

    def ask(self):
        """Whose selector a slot's is."""
        slot = self.random.randrange(FIRST, FIRST + SLOTS)
        owner, selector = self.table.owner[slot], 8 * slot + 7
        self.say(f"GlobalHandle {selector:#x}", "00000000" if owner is None else f"{selector:04x}{handle_of(owner):04x}")

    def run(self, steps):
        for _ in range(steps):
            firsts = sorted(self.table.counts)
            what = self.random.choice("aaafrrq") if firsts else "a"
            if what == "a":
                self.allocate()
            elif what == "f":
                self.free(self.random.choice(firsts))
            elif what == "r":
                self.reallocate(self.random.choice(firsts))
            else:
                self.ask()
        return self.lines


def main():
    print("# Objects of 1 to 255 selectors, made by `scripts/slots.py`.")
    for seed in range(ROWS):
        print(f"\n[runs of slots {seed + 1}]\nmemory: 16777216\nselectors: {SLOTS}\nrefusals: none")
        print("\n".join(Script(seed).run(400)))


main()
