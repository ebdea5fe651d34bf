#!/usr/bin/env python3
"""Writes crates/moves/data: files of byte pages that were altered, for the script that lays them open.

By docs/FORMATS.md, and with nothing of the library: width 11, 4 slots, 2 rows, 16 bytes.
"""
import os

WIDTH, SLOTS, ROWS, BYTES = 11, 4, 2, 16


def fnv(data):
    h = 0x811C9DC5
    for b in data:
        h = (h ^ b) * 0x01000193 % 2**32
    return h.to_bytes(4, "big")


def sealed(data):
    return data + fnv(data)


def head(start, rows):
    return sealed(start.to_bytes(8, "big") + rows.to_bytes(4, "big"))


def row(number, key, offset, size):
    return sealed(number.to_bytes(8, "big") + key + offset.to_bytes(8, "big") + size.to_bytes(4, "big"))


def page(start, records):
    """A section's page and its values; what is not written is FF, as old bytes may be."""
    entries, values = head(start, len(records)), b""
    for number, key, value in records:
        entries += row(number, key, len(values), len(value) + 4)
        values += sealed(value)
    return entries.ljust(16 + ROWS * (24 + WIDTH), b"\xff"), values.ljust(BYTES, b"\xff")


def good():
    pages = [
        page(20, [(21, b"AAAU0000007", b"hi"), (23, b"AAAU0000012", b"bay 1")]),
        page(0, []),
        page(30, [(30, b"CSQU3054383", b"")]),
        page(40, [(41, b"TASU1170000", b"on deck"), (42, b"AAAU0000007", b"x")]),
    ]
    entries, values = b"".join(p[0] for p in pages), b"".join(p[1] for p in pages)
    at = len(pages[0][0])
    return bytearray(entries[:at] + bytes(16) + entries[at + 16 :]), bytearray(values)


def write(name, entries, values):
    with open(os.path.join(os.path.dirname(__file__), "..", "crates", "moves", "data", name), "wb") as f:
        f.write(entries + values)


size = 16 + ROWS * (24 + WIDTH)

# One bit of a value: mounted, and the value is damaged.
entries, values = good()
values[8] ^= 1
write("damaged.pages", entries, values)

# A file that was cut off in its third page.
write("short.pages", entries[: 2 * size + 20], b"")

# A header's count without its check, a row whose number was changed, one whose size is less than a check's, and one whose
# offset is far out with its check right.
entries[2 * size + 11] = 2
entries[3 * size + 16 + 7] = 43
entries[3 * size + 16 + 35 :] = row(42, b"AAAU0000007", 2**64 - 1, 3)
write("altered.pages", entries, values)

# The same start in two slots.
entries, values = good()
entries[3 * size : 3 * size + 16] = head(20, 2)
write("twice.pages", entries, values)
