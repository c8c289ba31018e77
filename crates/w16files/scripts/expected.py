#!/usr/bin/env python3
"""Works out what has to be answered for the sample files, for each front of one, and for each change of one of its bytes.

Written from the rules of the format, apart from the reader: it has the whole file at hand, and cuts what it needs.
It prints the rows of `changes.txt`: `./expected.py > ../data/changes.txt`.
"""
import struct
from pathlib import Path

# Of TAPP.EXE the nonresident names are at the file's own start here, with a description of 77 bytes.
SAMPLES = ["TLIB.DLL", "TAPP.EXE 60=60", "TRES.DLL"]

PROBES = [b"GETA", b"getb", b"getB", b"GET", b"TLIB", b"TAPP", b"TRES", b"T", b""]


class Fault(Exception):
    pass


def cut(data, form, at, fault="Truncated"):
    """Numbers at an offset, or the fault where the data end before."""
    if at + struct.calcsize("<" + form) > len(data):
        raise Fault(fault)
    return struct.unpack_from("<" + form, data, at)


def pascal(data, at, fault):
    """A length byte and so many bytes."""
    (n,) = cut(data, "B", at, fault)
    return cut(data, f"{n}s", at + 1, fault)[0]


def segments(data, at, count, shift):
    cut(data, f"{8 * count}s", at if count else 0)
    found = []
    for sector, length, flags, least in struct.iter_unpack("<4H", data[at:at + 8 * count]):
        if flags & 0x0008:
            raise Fault("Unsupported")
        place, length, least, records = sector << shift, length or 0x10000, least or 0x10000, 0
        if sector == 0:
            length = 0
        else:
            cut(data, f"{length}s", place)
            if flags & 0x0100:
                (records,) = cut(data, "H", place + length)
                cut(data, f"{8 * records}s", place + length + 2)
        size = -(-max(length, least) // 32) * 32
        found.append(f"Segment {{ place: {place}, len: {length}, flags: SegmentFlags({flags}), size: {size}, records: {records} }}")
    return found


def names(data, at, end, past):
    """Entries up to a length of 0, or up to an end where there is one."""
    found = []
    while end is None or at < end:
        text = pascal(data[:end], at, past)
        if not text:
            break
        (ordinal,) = cut(data[:end], "H", at + 1 + len(text), past)
        found.append((text, ordinal))
        at += len(text) + 3
    return found


def references(data, table, base, count):
    words = cut(data, f"{count}H", table if count else 0)
    found = [pascal(data, base + word, "Truncated") for word in words]
    if b"" in found:
        raise Fault("BadTable")
    return found


def entries(table, count):
    found, at = [], 0
    while at < len(table) and table[at]:
        n, kind = cut(table, "BB", at, "BadTable")
        form = {0: "0s", 0xFF: "3xBH", 0xFE: "xH"}.get(kind, "xH")
        width = struct.calcsize("<" + form)
        bundle = cut(table, f"{n * width}s", at + 2, "BadTable")[0]
        for i in range(n):
            if kind == 0:
                found.append("None")
                continue
            values = struct.unpack_from("<" + form, bundle, i * width)
            if kind == 0xFE:
                found.append(f"Some(Constant({values[0]}))")
                continue
            segment = values[0] if kind == 0xFF else kind
            if not 1 <= segment <= count:
                raise Fault("BadTable")
            found.append(f"Some(InSegment {{ segment: {segment}, offset: {values[-1]} }})")
        at += 2 + n * width
    if len(found) > 65535:
        raise Fault("BadTable")
    return found


def resources(data, table):
    (shift,) = cut(data, "H", table)
    at, blocks = table + 2, []
    while cut(data, "H", at) != (0,):
        kind, count = cut(data, "HH4x", at)
        rows = [cut(data, "4H4x", at + 8 + 12 * i) for i in range(count)]
        blocks.append((kind, rows))
        at += 8 + 12 * count
    if shift > 15:
        raise Fault("BadTable")

    def label(word):
        if word & 0x8000:
            return f"Number({word & 0x7FFF})"
        return f"Text({[*pascal(data, table + word, 'BadTable')]})"

    found = [
        (label(kind), label(name), place << shift, length << shift, flags)
        for kind, rows in [(kind, rows) for kind, rows in blocks if label(kind)]
        for place, length, flags, name in rows
    ]
    if len(found) > 65535:
        raise Fault("Unsupported")
    for _, _, place, length, _ in found:
        if length and place + length - len(data) >= 1 << shift:
            raise Fault("Truncated")
    return [
        f"Some(({kind}, Resource {{ id: {name}, place: {place}, len: {length}, flags: ResourceFlags({flags}) }}))"
        for kind, name, place, length, flags in found
    ]


def told(data):
    """Bytes as they are told."""
    return "".join(chr(byte) if 32 <= byte < 127 and byte != 92 else f"\\x{byte:02x}" for byte in data)


def tables(data):
    """All that a module's readers give, or a fault."""
    if data[:2] != b"MZ":
        raise Fault("NotMz")
    (ne,) = cut(data, "60xI", 0)
    if data[ne:ne + 2] != b"NE":
        raise Fault("NotNe")
    cut(data, "64s", ne)

    def field(at):
        return struct.unpack_from("<H", data, ne + at)[0]

    if data[ne + 0x36] not in (0, 2):
        raise Fault(f"Target({data[ne + 0x36]})")
    if field(0x0C) & 0x2800 or field(0x1C) > 253:
        raise Fault("Unsupported")
    shift = field(0x32) or 9
    if shift > 15:
        raise Fault("BadTable")
    segs = segments(data, ne + field(0x22), field(0x1C), shift)
    resident = names(data, ne + field(0x26), None, "Truncated")
    if not resident:
        raise Fault("BadTable")
    refs = references(data, ne + field(0x28), ne + field(0x2A), field(0x1E))
    size = field(0x06)
    table = cut(data, f"{size}s", ne + field(0x04) if size else 0)[0]
    ents = entries(table, field(0x1C))
    (far,) = struct.unpack_from("<I", data, ne + 0x2C)
    size = field(0x20)
    others = names(cut(data, f"{size}s", far if size else 0)[0], 0, size, "BadTable")
    res = [] if field(0x24) == field(0x26) else resources(data, ne + field(0x24))
    named = {}
    for text, ordinal in resident[1:] + others[1:]:
        named.setdefault(text.upper(), ordinal)
    described = others[0][0] if others else b""
    return " / ".join([
        f"header {ne} {data[ne:ne + 64].hex()}",
        f"library {'true' if field(0x0C) & 0x8000 else 'false'}",
        f"imported names {ne + field(0x2A)}",
        f"name {told(resident[0][0])}",
        f"description {told(described)}",
        *segs,
        *[f"reference {told(ref)}" for ref in refs],
        *[f"{ordinal}: {entry}" for ordinal, entry in enumerate(["None", *ents, "None"])],
        *[f"name {ordinal} {told(name)}" for name, ordinal in resident[1:] + others[1:]],
        f"{len(resident) - 1} resident",
        *[f"'{probe.decode()}' {named.get(probe.upper(), 0)}" for probe in PROBES],
        "None", *res, "None",
    ])


def answer(data):
    """The fault, or the sum of the tables."""
    try:
        total = 0
        for byte in tables(data).encode():
            total = (total * 31 + byte) % 65521
        return f"{total:04x}"
    except Fault as fault:
        return str(fault)


def main():
    print("# What is read of the sample files, of each front of one, and with each byte made 00, 01, 7F, 80 and FF. Written by `scripts/expected.py`.")
    for sample in SAMPLES:
        name, *change = sample.split()
        data = bytearray((Path(__file__).parent / "../data" / name).read_bytes())
        for at, byte in [word.split("=") for word in change]:
            data[int(at, 16)] = int(byte, 16)
        print(f"\n[{name}]\nsum {sample} -> {answer(data)}")
        for n in range(len(data)):
            print(f"sum {sample} len={n} -> {answer(data[:n])}")
        for at in range(len(data)):
            for value in (0x00, 0x01, 0x7F, 0x80, 0xFF):
                print(f"sum {sample} {at:x}={value:x} ->", answer(data[:at] + bytes([value]) + data[at + 1:]))


if __name__ == "__main__":
    main()
