#!/usr/bin/env python3
"""Assembles the programs of this folder with nasm, and writes them as module files into a folder: TEST.EXE, MATH.DLL and EXTRA.DLL, and the stub of
KERNEL that ../make-modules.py has.

usage: make-programs.py FOLDER
"""
import importlib.util
import shutil
import struct
import subprocess
import sys
import tempfile
from pathlib import Path

HERE = Path(__file__).resolve().parent
found = importlib.util.spec_from_file_location("modules", HERE.parent / "make-modules.py")
modules = importlib.util.module_from_spec(found)
found.loader.exec_module(modules)
words, text = modules.words, modules.text
KINDS = {"I": 0, "O": 1, "N": 2}  # of records: what they lead to


class Reader:
    """Reads what nasm made."""

    def __init__(self, data):
        self.data, self.at = data, 0

    def number(self, code):
        value, = struct.unpack_from("<" + code, self.data, self.at)
        self.at += struct.calcsize("<" + code)
        return value

    def string(self):
        end = self.data.index(0, self.at)
        value, self.at = self.data[self.at:end], end + 1
        return value


def assemble(source):
    """A segment's bytes, its records and its entries. A record is what it writes, what it leads to, the site and the target."""
    with tempfile.TemporaryDirectory() as room:
        out = Path(room, "out")
        subprocess.run(["nasm", "-f", "bin", "-o", out, source], cwd=HERE, check=True)
        it = Reader(out.read_bytes())
    size = it.number("H")
    segment, it.at = bytearray(it.data[2:2 + size]), 2 + size
    records, entries = [], []
    while it.at < len(it.data):
        kind = chr(it.number("B"))
        if kind == "E":
            entries.append((it.number("H"), it.string(), it.number("H")))
            continue
        writes, site = it.number("B"), it.number("H")
        if kind == "I":
            target = it.number("B"), it.number("H")
        else:
            target = it.string(), it.number("H") if kind == "O" else it.string()
        records.append((writes, kind, site, target))
    return segment, records, entries


def link(name, flags, sources, resources=(), program=bytes(14)):
    """A module file, of segments that are each a source and its flags."""
    imported, references, segments, entries = bytearray(b"\0"), [], [], {}

    def place(name):
        """Where a name stands among those that are imported."""
        at = imported.find(text(name), 1)
        if at < 0:
            at = len(imported)
            imported.extend(text(name))
        return at

    def reference(name):
        """The number of a module that is referred to."""
        at = place(name)
        if at not in references:
            references.append(at)
        return references.index(at) + 1

    for number, (source, kind) in enumerate(sources, 1):
        segment, records, own = assemble(source)
        entries.update((ordinal, (name, number, offset)) for ordinal, name, offset in own)
        # Sites of one target are a chain: the word at each is the next site.
        chains = {}
        for writes, leads_to, site, target in records:
            chains.setdefault((writes, leads_to, target), []).append(site)
        listed = []
        for (writes, leads_to, target), sites in chains.items():
            for site, after in zip(sites, [*sites[1:], 0xFFFF]):
                struct.pack_into("<H", segment, site, after)
            first, second = target
            if leads_to != "I":
                first, second = reference(first), second if leads_to == "O" else place(second)
            listed.append(modules.record(writes, KINDS[leads_to], sites[0], first, second))
        segments.append((kind | (modules.RECORDS if listed else 0), bytes(segment), listed))
    table, last = b"", 0
    for ordinal, (_, number, offset) in sorted(entries.items()):
        if ordinal > last + 1:
            table += bytes([ordinal - last - 1, 0])
        table += bytes([1, 0xFF, 1, 0xCD, 0x3F, number]) + words(offset)
        last = ordinal
    listed = modules.names(name, [(entry, ordinal) for ordinal, (entry, _, _) in sorted(entries.items())])
    return modules.module(flags, segments, listed, references, bytes(imported), table + b"\0", len(entries), b"", resources, program)


def main():
    if len(sys.argv) != 2:
        sys.exit(__doc__.strip())
    if shutil.which("nasm") is None:
        sys.exit("make-programs: nasm isn't in PATH")
    folder = Path(sys.argv[1])
    folder.mkdir(parents=True, exist_ok=True)
    moveable, preload, discardable, data = modules.MOVEABLE, modules.PRELOAD, modules.DISCARDABLE, modules.DATA
    # TEST has a heap of 9 KB, and a stack of 4 KB that lies after the data: its SP is 0.
    test = [("main.asm", moveable | preload), ("more.asm", moveable | discardable), ("data.asm", data | moveable | preload)]
    resource = (10, 1, discardable | moveable | modules.PURE, b"Hello win!" * 200)
    (folder / "TEST.EXE").write_bytes(link(b"TEST", 2, test, [resource], words(3, 0x2400, 0x1000, 0, 1, 0, 3)))
    math = [("math.asm", moveable | discardable), ("zeros.asm", data | moveable)]
    (folder / "MATH.DLL").write_bytes(link(b"MATH", modules.LIBRARY, math))
    (folder / "EXTRA.DLL").write_bytes(link(b"EXTRA", modules.LIBRARY, [("extra.asm", moveable | preload)]))
    (folder / "KERNEL.DLL").write_bytes(modules.kernel())


if __name__ == "__main__":
    main()
