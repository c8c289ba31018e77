#!/usr/bin/env python3
"""Makes sets of random module files and works out what calls on them answer.

Written from docs/DEFINITIONS.md, apart from the loader: modules here are what `File` says, and no file is read. It prints rows as `w16rows` plays
them: `./sets.py > ../data/sets.txt`. With a number it prints that set alone, and with `handles` rows on the last handle of a module:
`./sets.py handles > ../data/last-handles.txt`.
"""
import random
import re
import struct
import sys

SETS = 120
FIRST_HANDLE, HANDLES = 33, 200
WIDTHS = {0: 1, 2: 2, 3: 4, 5: 2}


def word(number):
    return struct.pack("<H", number % 65536)


def text(name):
    return bytes([len(name)]) + name.encode()


def bundle(entry):
    """A bundle of one entry: none, one in a moveable segment, or one in a fixed segment, or a constant where that is 254."""
    way, segment, offset = entry
    if segment == 0:
        return b"\1\0"
    return b"\1\xff\1\xcd\x3f" + bytes([segment]) + word(offset) if way == "moveable" else bytes([1, segment, 1]) + word(offset)


def sectors(data):
    return data + bytes(-len(data) % 16)


class Part:
    """A segment: its flags, its data with the links of chains, and its records."""

    def __init__(self, flags, least, length, seed):
        self.flags, self.least, self.seed = flags, least, seed
        self.data = bytearray(seed * (i + 1) % 256 for i in range(length))
        self.records = []
        self.fixed = not flags & 0x10
        self.discardable = not self.fixed and not flags & 1 and bool(flags & 0x1000)
        self.at_once = self.fixed or bool(flags & 0x40)
        self.size = -(-max(length, least) // 32) * 32

    def put(self, at, value):
        for i, byte in enumerate(value):
            if at + i < len(self.data):
                self.data[at + i] = byte

    def add(self, address, kind, first, second, sites):
        if kind < 3:
            for site, following in zip(sites, sites[1:] + [0xffff]):
                self.put(site, word(following))
        self.records.append((address, kind, first, second, sites))

    def relocations(self):
        """Its records behind their number."""
        return word(len(self.records)) + b"".join(
            bytes([address, kind]) + word(sites[0]) + word(first) + word(second)
            for address, kind, first, second, sites in self.records)

    def word_at(self, at):
        return self.data[at] | self.data[at + 1] << 8

    def sites(self, record):
        """The sites that a record names, or none where one is wrong by itself."""
        address, kind, _, _, sites = record
        width = WIDTHS[address]
        if kind == 3:
            return []
        if kind & 4:
            return sites[:1] if sites[0] + width <= len(self.data) else None
        found, at = [], sites[0]
        while at != 0xffff:
            if at + max(width, 2) > len(self.data) or at in found:
                return None
            found.append(at)
            at = self.word_at(at)
        return found

    def is_sound(self, segments, references):
        taken = set()
        for record in self.records:
            address, kind, first, _, _ = record
            if kind & 3 == 0 and first != 255 and not 0 < first <= segments:
                return False
            if kind & 3 in (1, 2) and not 0 < first <= references:
                return False
            sites = self.sites(record)
            if sites is None:
                return False
            width = WIDTHS[address] if kind & 4 else max(WIDTHS[address], 2)
            for site in sites:
                covered = set(range(site, site + width))
                if covered & taken:
                    return False
                taken |= covered
        return True

    def image(self, values):
        image = bytearray(self.data) + bytes(self.size - len(self.data))
        for record, (selector, offset) in zip(self.records, values):
            address, kind = record[:2]
            for site in self.sites(record):
                added = 0 if not kind & 4 else self.data[site] if address == 0 else self.word_at(site) if address != 2 else 0
                moved = word(offset + added)
                value = {0: moved[:1], 2: word(selector), 3: moved + word(selector), 5: moved}[address]
                image[site:site + len(value)] = value
        return bytes(image)


class File:
    def __init__(self, name, library, target):
        self.name, self.library, self.target = name, library, target
        self.spoiled, self.parts, self.entries, self.names, self.references, self.imports = False, [], [], [], [], []

    def refusal(self):
        if self.spoiled:
            return 11
        return {2: None, 1: 12, 3: 13}.get(self.target, 14)

    def is_sound(self):
        return all(part.is_sound(len(self.parts), len(self.references)) for part in self.parts)

    def offset_of(self, i):
        """Where the i-th imported text stands: those of the references come first."""
        return sum(len(text) + 1 for text in (self.references + self.imports)[:i])

    def text_at(self, offset):
        texts = self.references + self.imports
        return next(text for i, text in enumerate(texts) if self.offset_of(i) == offset)

    def bytes(self):
        """The file behind its old header of 64 bytes: the new header, the tables one after another, and the segments in sectors of 16 bytes."""
        names = text(self.name) + word(0) + b"".join(text(name) + word(ordinal) for name, ordinal in self.names) + b"\0"
        references = b"".join(word(self.offset_of(i)) for i in range(len(self.references)))
        imported = b"".join(map(text, self.references + self.imports))
        entries = b"".join(map(bundle, self.entries)) + b"\0"
        begins, at = [], 64 + 8 * len(self.parts)
        for table in (names, references, imported, entries):
            begins.append(at)
            at += len(table)
        fields = {0: 0x454e, 4: begins[3], 6: len(entries), 0x0c: 0x8000 * self.library, 0x1c: len(self.parts), 0x1e: len(self.references),
                  0x22: 64, 0x24: begins[0], 0x26: begins[0], 0x28: begins[1], 0x2a: begins[2], 0x32: 4, 0x36: self.target}
        header = b"".join(word(fields.get(at, 0)) for at in range(0, 64, 2))
        table, data, sector = b"", b"", 4 + -(-at // 16)
        for part in self.parts:
            table += word(sector) + word(len(part.data)) + word(part.flags | 0x100 * bool(part.records)) + word(part.least)
            data += sectors(bytes(part.data) + part.relocations())
            sector = 4 + -(-at // 16) + len(data) // 16
        return sectors(header + table + names + references + imported + entries) + data

    def line(self, file):
        """Its bytes as `files.rt` of `w16_play` reads them: hexadecimal digits, and a length in place of many zeros."""
        at, words = 64, [file] + ["0=58"] * self.spoiled
        for zeros, others in re.findall(rb"(\0{6,})|((?:(?!\0{6}).)+)", self.bytes(), re.S):
            at += len(zeros) + len(others)
            words.append(f"len={at}" if zeros else f"hex={others.hex()}")
        return " ".join(words)


class Module:
    def __init__(self, file, uses):
        self.file, self.uses, self.slots, self.imports, self.values = file, uses, [], [], []

    def address(self, ordinal):
        if not 0 < ordinal <= len(self.file.entries):
            return 0, 0
        _, segment, offset = self.file.entries[ordinal - 1]
        return (0, 0) if segment == 0 else (0xffff, offset) if segment == 254 else (self.slots[segment - 1] * 8 + 7, offset)

    def address_named(self, name):
        ordinals = [ordinal for text, ordinal in self.file.names if text.upper() == name.upper()]
        return self.address(ordinals[0]) if ordinals else (0, 0)


class World:
    """Objects by slot: a part or none for the script's own, whether it is discardable, its size, and its bytes or none."""

    def __init__(self, files, memory, slots):
        self.files, self.memory, self.slots = files, memory, slots
        self.modules, self.objects, self.order = {}, {}, []

    def name_of(self, handle):
        named = self.modules[handle]
        return named if isinstance(named, str) else named.file.name

    def handle_of(self, name):
        return next((h for h in sorted(self.modules) if self.name_of(h).upper() == name.upper()), None)

    def address(self, handle, label):
        """Where a number behind #, or a name, leads in what a handle names."""
        named = self.modules.get(handle)
        if isinstance(named, Module):
            return named.address(int(label[1:])) if label[0] == "#" else named.address_named(label)
        return (handle, int(label[1:])) if named and label[0] == "#" and label != "#0" else (0, 0)

    def free_handles(self):
        return [h for h in range(FIRST_HANDLE, FIRST_HANDLE + HANDLES) if h not in self.modules]

    def free_slots(self):
        return [q for q in range(32, 32 + self.slots) if q not in self.objects]

    def builtin(self, name):
        handle = self.free_handles()[0]
        self.modules[handle] = name
        return handle

    def used(self):
        return sum(o["size"] for o in self.objects.values() if o["bytes"] is not None)

    def give(self, slot, data):
        """A request for room: the fewest discards, the least recently used first; false where all of them are too few."""
        discards = 0
        while self.memory - self.used() + sum(self.objects[q]["size"] for q in self.order[:discards]) < len(data):
            if discards == len(self.order):
                return False
            discards += 1
        for q in self.order[:discards]:
            self.objects[q]["bytes"] = None
        self.order = self.order[discards:]
        self.objects[slot]["bytes"] = data
        self.touch(slot)
        return True

    def touch(self, slot):
        o = self.objects[slot]
        if o["discardable"] and o["bytes"] is not None:
            self.order = [q for q in self.order if q != slot] + [slot]

    def release(self, slot):
        del self.objects[slot]
        self.order = [q for q in self.order if q != slot]

    def alloc(self, discardable, size):
        slot = self.free_slots()[0]
        self.objects[slot] = {"fixed": False, "discardable": discardable, "size": size, "bytes": None}
        return slot * 8 + 6 if self.give(slot, bytes(size)) else self.release(slot) or 0

    def reading(self, name, found):
        """A number, a handle, the place of a new module, or a file."""
        file = self.files.get(name.upper())
        if file is None:
            return "refused", 2
        if file.refusal():
            return "refused", file.refusal()
        meant = self.meant(file.name, found)
        if meant:
            return meant
        if not file.is_sound():
            return "refused", 11
        return ("new", file) if len(found) < len(self.free_handles()) else ("refused", 0)

    def meant(self, name, found):
        handle = self.handle_of(name)
        if handle is not None:
            return "there", handle
        return next((("place", i) for i, file in enumerate(found) if file.name.upper() == name.upper()), None)

    def closure(self, file):
        """The new modules and what their references mean, or a number."""
        found, meant, place = [file], [], 0
        while place < len(found):
            meant.append([])
            for name in found[place].references:
                what = self.meant(name, found)
                if what is None:
                    what = self.reading(name + ".DLL", found)
                if what[0] == "refused":
                    return 20 if what[1] else 0
                if what[0] == "new":
                    found.append(what[1])
                    what = "place", len(found) - 1
                meant[place].append(what)
            place += 1
        return found, meant

    def load(self, name, is_load_module):
        what, value = self.reading(name, [])
        if what == "refused":
            return value
        if what == "there":
            named = self.modules[value]
            if isinstance(named, Module):
                if is_load_module and not named.file.library:
                    return 16
                named.uses += 1
            return value
        closure = self.closure(value)
        if isinstance(closure, int):
            return closure
        return self.load_new(*closure)

    def load_new(self, found, meant):
        if sum(len(file.parts) for file in found) > len(self.free_slots()):
            return 0
        handles = self.free_handles()[:len(found)]
        for place, (handle, file) in enumerate(zip(handles, found)):
            module = self.modules[handle] = Module(file, int(place == 0))
            for part in file.parts:
                slot = self.free_slots()[0]
                module.slots.append(slot)
                self.objects[slot] = {"fixed": part.fixed, "discardable": part.discardable, "size": part.size, "bytes": None}
            module.imports = [value if what == "there" else handles[value] for what, value in meant[place]]
        for handle in handles:
            module = self.modules[handle]
            module.values = [[self.value(module, record) for record in part.records] for part in module.file.parts]
        for handle in handles:
            module = self.modules[handle]
            for slot, part, values in zip(module.slots, module.file.parts, module.values):
                if part.at_once and not self.give(slot, part.image(values)):
                    for other in handles:
                        self.remove(other)
                    return 0
        return handles[0]

    def value(self, module, record):
        _, kind, first, second, _ = record
        if kind & 3 == 3:
            return 0, 0
        if kind & 3 == 0:
            return module.address(second) if first == 255 else (module.slots[first - 1] * 8 + 7, second)
        handle = module.imports[first - 1]
        named = self.modules[handle]
        if isinstance(named, str):
            return (handle, second) if kind & 3 == 1 and second else (0, 0)
        return named.address(second) if kind & 3 == 1 else named.address_named(module.file.text_at(second))

    def remove(self, handle):
        for slot in self.modules.pop(handle).slots:
            self.release(slot)

    def usage(self, handle):
        loaded = {h: m for h, m in self.modules.items() if isinstance(m, Module)}
        return (loaded[handle].uses if handle in loaded else 0) + sum(handle in m.imports for h, m in loaded.items() if h != handle)

    def free(self, handle):
        if isinstance(self.modules.get(handle), Module):
            self.modules[handle].uses = max(self.modules[handle].uses - 1, 0)
        while idle := [h for h, m in self.modules.items() if isinstance(m, Module) and not self.usage(h)]:
            self.remove(idle[0])
        return int(handle in self.modules)

    def discard(self):
        """A compaction that discards all it may, and what it answers where no object is fixed: all that isn't taken then."""
        for slot in self.order:
            self.objects[slot]["bytes"] = None
        self.order = []
        return f"GlobalCompact 0xffffffff -> {self.memory - self.used():08x}"

    def read(self, slot, count=None):
        """A read of bytes of an object that has some, or of all."""
        self.touch(slot)
        data = self.objects[slot]["bytes"][:count]
        return f"Read 0x{slot * 8 + 7:04x}0000 {len(data)} -> bytes {data.hex()}"

    def fetches(self):
        """A read of each object of a segment that has no bytes then."""
        owned = {slot: (part, values) for m in self.modules.values() if isinstance(m, Module)
                 for slot, part, values in zip(m.slots, m.file.parts, m.values)}
        for slot in sorted(owned):
            part, values = owned[slot]
            if self.objects[slot]["bytes"] is None:
                yield self.read(slot, 1) if self.give(slot, part.image(values)) else f"Read 0x{slot * 8 + 7:04x}0000 1 -> fault room"

    def state(self):
        """What is told of all modules and objects, and the bytes of these."""
        for handle in sorted(self.modules)[-3:]:
            yield f"GetModuleUsage 0x{handle:x} -> {self.usage(handle):04x}"
        for slot, o in sorted(self.objects.items()):
            handle = slot * 8 + 6 + o["fixed"]
            if o["bytes"] is None:
                yield f"GlobalFlags 0x{handle:x} -> {0x4100 if o['discardable'] else 0x4000:04x}"
            else:
                yield f"GlobalSize 0x{handle:x} -> {o['size']:08x}"
                yield self.read(slot)


def random_part(dice, file, segments, fixed):
    """A segment whose sites mostly don't overlap."""
    length = dice.choice([8, 20, 33])
    flags = dice.choice([0x1050, 0x1010, 0x50, 0x10, 0x11, 0x51] + ([0, 1, 0x40] if fixed else []))
    part = Part(flags, dice.choice([1, length, 40]), length, dice.randrange(1, 256, 2))
    places = list(range(0, length - 3, 4))
    dice.shuffle(places)
    while places and dice.random() < 0.7:
        kind = dice.choice([0, 0, 1, 1, 1, 2, 2, 3, 4, 5, 6] if file.references else [0, 0, 3, 4])
        sites = [places.pop() for _ in range(min(len(places), 1 if kind > 2 else dice.choice([1, 1, 2, 3])))]
        first, second = dice.choice([255, dice.randint(1, segments)]), dice.choice([1, 2, dice.randrange(65536)])
        if kind & 3 in (1, 2):
            first, second = dice.randint(1, len(file.references)), dice.choice([0, 1, 1, 2, 2, 3])
        if kind & 3 == 2:
            second = file.offset_of(dice.randrange(len(file.references) + len(file.imports)))
        if dice.random() < 0.02:
            first, sites = dice.choice([(9, sites), (first, [length - 1]), (first, [4, 6])])
        part.add(dice.choice([0, 2, 3, 3, 5]), kind, first, second, sites)
    return part


def random_file(dice, letters, name, fixed):
    file = File(name, dice.random() < 0.7, dice.choices([2, 1, 3, 4, 5], [95, 1, 1, 1, 1])[0])
    file.spoiled = dice.random() < 0.03
    file.references = [dice.choice(letters + ["KERNEL"] * (i == 0) + ["Z"] * (dice.random() < 0.1)) for i in range(dice.choice([0, 1, 1, 2]))]
    file.imports = ["f", "G"][:dice.choice([0, 1, 2])] if file.references else []
    segments = dice.choice([0, 1, 1, 1, 2])
    for _ in range(segments):
        file.parts.append(random_part(dice, file, segments, fixed))
    for _ in range(dice.choice([0, 1, 2])):
        way = dice.choice(["entry", "moveable"] if segments else ["entry"])
        segment = dice.randint(1, segments) if way == "moveable" else dice.choice([0, 254] + [1] * 3 * bool(segments))
        file.entries.append((way, segment, dice.randrange(100) if segment else 0))
    file.names = [(dice.choice(["F", "g"]), dice.randint(0, 3)) for _ in range(dice.choice([0, 0, 1, 2]))]
    return file


def random_steps(dice, world, letters):
    what = dice.choice(["Library", "Library", "Library", "Module", "free", "free", "discard", "fetch", "usage", "read", "address", "named"])
    if what in ("Library", "Module"):
        file = dice.choice(letters) + ".DLL"
        return [f"Load{what} {file} -> {world.load(file, what == 'Module'):04x}"]
    handle = dice.choice(sorted(world.modules)[-4:] or [40])
    if what == "free":
        return [f"FreeLibrary 0x{handle:x} -> {world.free(handle):04x}"]
    if what == "usage":
        return [f"GetModuleUsage 0x{handle:x} -> {world.usage(handle) if handle in world.modules else 0:04x}"]
    if what in ("address", "named"):
        label = dice.choice(["f", "G", "h"]) if what == "named" else f"#{dice.randint(0, 3)}"
        selector, offset = world.address(handle, label)
        return [f"GetProcAddress 0x{handle:x} {label} -> {selector:04x}{offset:04x}"]
    there = [q for q, o in world.objects.items() if o["bytes"] is not None]
    if what == "read" and there:
        return [world.read(dice.choice(there), 1)]
    if what == "discard" and not any(world.objects[q]["fixed"] for q in there):
        return [world.discard()]
    return list(world.fetches())


def random_set(seed):
    """Files, and lines with replies. Where memory is short no segment is fixed: then room is what isn't taken."""
    dice = random.Random(seed)
    is_short = dice.random() < 0.4
    letters = "ABCDEF"[:dice.choice([2, 2, 3, 3, 4, 5])]
    files, texts = {}, []
    for letter in letters:
        name = dice.choice(letters) if dice.random() < 0.1 else letter
        files[letter + ".DLL"] = file = random_file(dice, list(letters), name, not is_short)
        texts.append(file.line(letter + ".DLL"))
    memory = dice.choice([96, 128, 192, 256, 384]) if is_short else 65536
    slots = dice.choice([3, 5, 12, 12, 12, 12])
    world, lines = World(files, memory, slots), []
    if dice.random() < 0.1:
        lines += [f"Builtin M{i} -> {world.builtin(f'M{i}'):04x}" for i in range(dice.randint(196, 200))]
    elif dice.random() < 0.6:
        lines.append(f"Builtin KERNEL -> {world.builtin('KERNEL'):04x}")
    if is_short and dice.random() < 0.5:
        discardable, size = dice.choice([True, True, False]), dice.choice([32, 64])
        lines.append(f"GlobalAlloc {'0x142' if discardable else '0x42'} {size} -> {world.alloc(discardable, size):04x}")
    for _ in range(dice.randint(4, 9)):
        lines += random_steps(dice, world, letters)
    return row(f"set {seed}", memory, slots, texts, lines + list(world.state()))


def row(name, memory, selectors, files, lines):
    """A row of which no growth is refused."""
    return "\n".join([f"[{name}]", f"memory: {memory}", f"selectors: {selectors}", f"files: {', '.join(files)}", "refusals: none"] + lines)


def chain(count, reply):
    """So many libraries, made from the sample of an application, of which each imports the next one, and the last one imports number 7."""
    def letters(offset, number):
        """The changes that put the digits of a number from an offset on."""
        return " ".join(f"{offset + i:X}=3{digit}" for i, digit in enumerate(f"{number:03}"))

    files = [f"TAPP.EXE as=M{i:03}.DLL 4D=80 89=4d {letters(0x8a, i)} 94=4d {letters(0x95, i + 1 if i + 1 < count else 7)}" for i in range(count)]
    return row(f"a chain of {count} libraries", 65536, 256, files, [f"LoadLibrary M000.DLL -> {reply}"])


def behind_builtins(count, memory, selectors, files, lines):
    builtins = [f"Builtin M{i} -> {FIRST_HANDLE + i:04x}" for i in range(count)]
    return row(f"behind {count} built-in modules", memory, selectors, files, builtins + lines)


def last_handles():
    """No built-in module, and no library, gets a two hundred and first handle."""
    return [
        chain(200, "0021"), chain(201, "0000"), chain(230, "0000"),
        behind_builtins(200, 32, 1, ["TRES.DLL"], [
            "Builtin M200 -> 0000", "Builtin M199 -> 00e8", "LoadLibrary TRES.DLL -> 0000"]),
        behind_builtins(199, 4096, 8, ["TAPP.EXE", "TLIB.DLL"], [
            "LoadModule TAPP.EXE -> 0000", "GetModuleHandle TAPP -> 0000", "GetModuleHandle TLIB -> 0000", "LoadLibrary TLIB.DLL -> 00e8",
            "LoadModule TAPP.EXE -> 0000", "LoadLibrary NONE.DLL -> 0002", "LoadLibrary TLIB.DLL -> 00e8", "GetModuleUsage 0xe8 -> 0002"]),
    ]


def main():
    what = sys.argv[1] if len(sys.argv) > 1 else ""
    if what == "handles":
        print("# Modules up to the last handle. Made by sets.py.\n")
        print("\n\n".join(last_handles()))
    elif what:
        print(random_set(int(what)))
    else:
        print("# Random module files, with the replies to lines. Made by sets.py.\n")
        print("\n\n".join(map(random_set, range(SETS))))


if __name__ == "__main__":
    main()
