#!/usr/bin/env python3
"""Writes a table whose data blocks share one tail: shared.py BLOCKS ENTRIES > TABLE.

Each block is a header of its own, an entry whose value covers the headers of the later blocks, and
then the tail with so many entries, which all blocks have in common. Four free bytes in each header
are chosen so that all blocks have one checksum. By the rules of blocks alone such a table spells
BLOCKS * (ENTRIES + 1) entries, which is the square of its bytes. Keys are eight bytes behind four
that name the block; sequences are 2^56 - 1.
"""
import struct
import sys

MAGIC = bytes.fromhex("57fb808b247547db")
MARK = struct.pack("<Q", ((1 << 56) - 1) << 8 | 1)
NO_ENTRIES = struct.pack("<II", 0, 1)
CHECKSUM = 0x12345678

TABLE = []
for first in range(256):
    value = first
    for _ in range(8):
        value = (value >> 1) ^ (0x82F63B78 if value & 1 else 0)
    TABLE.append(value)
BACK = {TABLE[first] >> 24: first for first in range(256)}


def forward(state, text):
    for byte in text:
        state = TABLE[(state ^ byte) & 255] ^ (state >> 8)
    return state


def backward(state, text):
    """The state before the text, where this one is behind it."""
    for byte in reversed(text):
        first = BACK[state >> 24]
        state = ((state ^ TABLE[first]) << 8 | (first ^ byte)) & 0xFFFFFFFF
    return state


def masked(checksum):
    return ((checksum >> 15 | checksum << 17) + 0xA282EAD8) & 0xFFFFFFFF


def varint(number):
    text = bytearray()
    while number > 127:
        text.append(number & 127 | 128)
        number >>= 7
    return bytes([*text, number])


def entry(shared, own, value=b""):
    return varint(shared) + varint(len(own)) + varint(len(value)) + own + value


def tail_of(entries):
    """The tail, and what the user key and the mark of its last entry are behind the block's four bytes."""
    tail, last = bytearray(), b""
    for number in range(entries):
        last = struct.pack(">I", number) + MARK
        tail += entry(4, last)
    return bytes(tail), last


def headers_of(blocks, end):
    """The first entry of each block, each with the four bytes that give its block the checksum."""
    state, headers, covered = backward(CHECKSUM ^ 0xFFFFFFFF, end), [], 0
    for number in reversed(range(blocks)):
        key = struct.pack(">I", number) + MARK
        front = varint(0) + varint(len(key)) + varint(4 + covered) + key
        free = struct.pack("<I", forward(0xFFFFFFFF, front) ^ backward(state, bytes(4)))
        header = front + free
        headers.insert(0, header)
        covered += len(header)
        state = backward(state, header)
    return headers


def stored(block):
    return block + b"\0" + struct.pack("<I", masked(forward(0xFFFFFFFF, block + b"\0") ^ 0xFFFFFFFF))


def table(blocks, entries):
    tail, last = tail_of(entries)
    headers = headers_of(blocks, tail + NO_ENTRIES + b"\0")
    contents = b"".join(headers) + tail + NO_ENTRIES
    index, restarts, offset = bytearray(), [], 0
    for number, header in enumerate(headers):
        restarts.append(len(index))
        index += entry(0, struct.pack(">I", number) + last, varint(offset) + varint(len(contents) - offset))
        offset += len(header)
    index += struct.pack(f"<{len(restarts) + 1}I", *restarts, len(restarts))
    file, handles = bytearray(contents + b"\0" + struct.pack("<I", masked(CHECKSUM))), b""
    for block in (NO_ENTRIES, bytes(index)):
        handles += varint(len(file)) + varint(len(block))
        file += stored(block)
    return bytes(file) + handles.ljust(40, b"\0") + MAGIC


if __name__ == "__main__":
    sys.stdout.buffer.write(table(int(sys.argv[1]), int(sys.argv[2])))
