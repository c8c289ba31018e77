#!/usr/bin/env python3
"""Writes the module files of the examples into a folder: TLIB.DLL, a library, TAPP.EXE, an application that imports from it, TRES.DLL, a library of a
resource, TDATA.DLL, a library with two fixed segments, TMAIN.EXE, an application with a stack, KERNEL.DLL, a stub of KERNEL, and TTOP.EXE, which
refers to TLIB.DLL and TRING1.DLL, which refers to TRING2.DLL, which refers to TRING1.DLL.

usage: make-modules.py FOLDER
"""
import struct
import sys
from pathlib import Path

OLD, HEAD = 64, 64  # bytes of the old header, and of the header after it
SHIFT = 4  # segments and resources begin at whole units of 16 bytes
LIBRARY = 0x8000  # of a module
# Flags of a segment or a resource; RECORDS: it has relocation records.
DATA, MOVEABLE, PURE, PRELOAD, RECORDS, DISCARDABLE = 0x0001, 0x0010, 0x0020, 0x0040, 0x0100, 0x1000
NUMBER = 0x8000  # a type or an id of a resource that is no text
OFFSET, POINTER = 5, 3  # what a record writes: an offset, or a far pointer
INTERNAL, BY_ORDINAL, BY_NAME, ADDED = 0, 1, 2, 4  # what it leads to, and whether its value is added


def words(*numbers):
    return struct.pack(f"<{len(numbers)}H", *numbers)


def text(name):
    return bytes([len(name)]) + name


def names(module, entries=()):
    """A table of names: the module's, and those of entries with their ordinals."""
    return text(module) + words(0) + b"".join(text(name) + words(ordinal) for name, ordinal in entries) + b"\0"


def record(writes, leads_to, site, first, second):
    """A relocation record. Its site is the first of a chain: the word at each site is the next one, and FFFF ends it."""
    return bytes([writes, leads_to]) + words(site, first, second)


def module(flags, segments, names, references, imported, entries, moveable, description, resources=(), program=bytes(14)):
    """A module file, from its tables. A segment is its flags, its bytes and its records, a resource its type, its id, its flags and its bytes.
    The program is the automatic data segment, the sizes of heap and stack, and where a program begins: ip, cs, sp and ss."""
    resources_at = HEAD + 8 * len(segments)
    names_at = resources_at + (4 + 20 * len(resources) if resources else 0)
    references_at = names_at + len(names)
    imported_at = references_at + 2 * len(references)
    entries_at = imported_at + len(imported)
    start = OLD + entries_at + len(entries)
    table, listed, data = b"", b"", description
    for kind, code, records in segments:
        data += bytes(-(start + len(data)) % (1 << SHIFT))
        table += words((start + len(data)) >> SHIFT, len(code), kind, len(code))
        data += code + (words(len(records)) + b"".join(records) if records else b"")
    for kind, number, flag, content in resources:
        data += bytes(-(start + len(data)) % (1 << SHIFT))
        listed += words(NUMBER | kind, 1, 0, 0, (start + len(data)) >> SHIFT, len(content) >> SHIFT, flag, NUMBER | number, 0, 0)
        data += content
    listed = words(SHIFT) + listed + words(0) if resources else b""
    old = b"MZ" + bytes(58) + struct.pack("<L", OLD)
    head = b"NE" + bytes([5, 10]) + words(entries_at, len(entries), 0, 0, flags) + program
    head += words(len(segments), len(references), len(description))
    head += words(HEAD, resources_at, names_at, references_at, imported_at)
    head += struct.pack("<L", start if description else 0) + words(moveable, SHIFT, 0)
    head += bytes([2]) + bytes(7) + words(0x030A)  # for Windows, 3.10
    return old + head + table + listed + names + words(*references) + imported + entries + data


def library():
    """Two segments. The first has two far calls of GETB, in one chain, and GETB's offset, added to 0x10."""
    calls = bytes.fromhex("9a06000000 9affff0000 b81000 cb 9090")
    records = [record(POINTER, INTERNAL, 1, 2, 4), record(OFFSET, INTERNAL | ADDED, 11, 2, 4)]
    segments = [
        (DISCARDABLE | MOVEABLE | PRELOAD | RECORDS, calls, records),
        (DISCARDABLE | MOVEABLE, bytes.fromhex("01020304 cb 909090"), []),
    ]
    # GETA is segment 1, offset 0; GETB is segment 2, offset 4, as an entry of a moveable segment.
    entries = bytes([1, 1, 1]) + words(0) + bytes([1, 0xFF, 1, 0xCD, 0x3F, 2]) + words(4) + b"\0"
    return module(LIBRARY, segments, names(b"TLIB", [(b"GETA", 1), (b"GETB", 2)]), [], b"\0", entries, 1, text(b"T") + words(0) + b"\0")


def application():
    """One segment with three far calls: of TLIB's entry 1, of its GETB, and of an entry 9 that it doesn't have."""
    calls = bytes.fromhex("9affff0000 9affff0000 9affff0000 cb")
    records = [record(POINTER, BY_ORDINAL, 1, 1, 1), record(POINTER, BY_NAME, 6, 1, 6), record(POINTER, BY_ORDINAL, 11, 1, 9)]
    segments = [(DISCARDABLE | MOVEABLE | PRELOAD | RECORDS, calls, records)]
    return module(0, segments, names(b"TAPP"), [1], b"\0" + text(b"TLIB") + text(b"GETB"), b"\0", 0, b"")


def resources():
    """No segments, and one resource of 16 bytes."""
    resource = (10, 1, DISCARDABLE | MOVEABLE | PURE, b"Hello, resource!")
    return module(LIBRARY, [], names(b"TRES"), [], b"", b"\0", 0, b"", [resource])


def application_with_stack():
    """A program without imports: it begins in segment 1, and segment 2 is its automatic data segment, to which a heap of 256 and a stack of 1024 bytes
    are to be added."""
    segments = [(MOVEABLE | PRELOAD, bytes.fromhex("9090 cb 90"), []), (DATA | MOVEABLE | PRELOAD, b"data" + bytes(28), [])]
    return module(2, segments, names(b"TMAIN"), [], b"", b"\0", 0, b"", program=words(2, 256, 1024, 1, 1, 0, 2))


def fixed_data():
    """Two fixed segments of 64 bytes, and nothing else."""
    return module(LIBRARY, [(DATA, bytes(64), []), (DATA, bytes(64), [])], names(b"TDATA"), [], b"", b"\0", 0, b"")


def referring(flags, name, others):
    """No segments: nothing but references to other modules."""
    imported, references = b"\0", []
    for other in others:
        references.append(len(imported))
        imported += text(other)
    return module(flags, [], names(name), references, imported, b"\0", 0, b"")


# Entries of KERNEL, by their ordinals in Windows 3.1, with the bytes of their arguments, as far as this machine has their calls, and two more that a
# program needs to run; and the constants by which pointers go on from one selector of an object to the next.
KERNEL = {
    4: (b"LOCALINIT", 6), 5: (b"LOCALALLOC", 4), 6: (b"LOCALREALLOC", 6), 7: (b"LOCALFREE", 2), 8: (b"LOCALLOCK", 2),
    9: (b"LOCALUNLOCK", 2), 10: (b"LOCALSIZE", 2), 11: (b"LOCALHANDLE", 2), 12: (b"LOCALFLAGS", 2), 13: (b"LOCALCOMPACT", 2),
    15: (b"GLOBALALLOC", 6), 16: (b"GLOBALREALLOC", 8), 17: (b"GLOBALFREE", 2), 18: (b"GLOBALLOCK", 2), 19: (b"GLOBALUNLOCK", 2),
    20: (b"GLOBALSIZE", 2), 21: (b"GLOBALHANDLE", 2), 22: (b"GLOBALFLAGS", 2), 25: (b"GLOBALCOMPACT", 4), 47: (b"GETMODULEHANDLE", 4),
    48: (b"GETMODULEUSAGE", 2), 50: (b"GETPROCADDRESS", 6), 60: (b"FINDRESOURCE", 10), 61: (b"LOADRESOURCE", 4), 62: (b"LOCKRESOURCE", 2),
    63: (b"FREERESOURCE", 2), 65: (b"SIZEOFRESOURCE", 4), 91: (b"INITTASK", 0), 95: (b"LOADLIBRARY", 4), 96: (b"FREELIBRARY", 2),
    115: (b"OUTPUTDEBUGSTRING", 4), 163: (b"GLOBALLRUOLDEST", 2), 164: (b"GLOBALLRUNEWEST", 2), 186: (b"GETSELECTORBASE", 2),
    188: (b"GETSELECTORLIMIT", 2),
}
CONSTANTS = {113: (b"__AHSHIFT", 3), 114: (b"__AHINCR", 8)}


def kernel():
    """Entry N is the four bytes at offset 4 * N of one fixed segment: a breakpoint, CC, and a far return that takes the arguments from the stack. So a
    processor that stops there knows by its offset which call it has to answer, and goes on to the return."""
    code = bytearray(b"\xcc" * 4 * (max(KERNEL) + 1))
    entries, last = b"", 0
    for ordinal in sorted(KERNEL | CONSTANTS):
        if ordinal > last + 1:
            entries += bytes([ordinal - last - 1, 0])
        if ordinal in KERNEL:
            code[4 * ordinal:4 * ordinal + 4] = bytes([0xCC, 0xCA]) + words(KERNEL[ordinal][1])
            entries += bytes([1, 1, 1]) + words(4 * ordinal)
        else:
            entries += bytes([1, 0xFE, 1]) + words(CONSTANTS[ordinal][1])
        last = ordinal
    listed = [(name, ordinal) for ordinal, (name, _) in (KERNEL | CONSTANTS).items()]
    return module(LIBRARY, [(PRELOAD, bytes(code), [])], names(b"KERNEL", listed), [], b"\0", entries + b"\0", 0, b"")


def main():
    if len(sys.argv) != 2:
        sys.exit(__doc__.strip())
    folder = Path(sys.argv[1])
    folder.mkdir(parents=True, exist_ok=True)
    (folder / "TLIB.DLL").write_bytes(library())
    (folder / "TAPP.EXE").write_bytes(application())
    (folder / "TRES.DLL").write_bytes(resources())
    (folder / "TDATA.DLL").write_bytes(fixed_data())
    (folder / "TMAIN.EXE").write_bytes(application_with_stack())
    (folder / "KERNEL.DLL").write_bytes(kernel())
    (folder / "TTOP.EXE").write_bytes(referring(0, b"TTOP", [b"TLIB", b"TRING1"]))
    (folder / "TRING1.DLL").write_bytes(referring(LIBRARY, b"TRING1", [b"TRING2"]))
    (folder / "TRING2.DLL").write_bytes(referring(LIBRARY, b"TRING2", [b"TRING1"]))


if __name__ == "__main__":
    main()
