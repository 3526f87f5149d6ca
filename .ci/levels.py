#!/usr/bin/env python3
"""levels.py LEVELS FILE: writes the CAR of a file of 2^LEVELS bytes `a`, each node of which has its only child twice, with
each block once (LEVELS + 1 sections), and prints its root.

levels.py LEVELS FILE shards: the same of so many shards of 256 slots, each of which has the next one behind all its slots, over
one without a slot."""
import base64
import hashlib
import sys


def varint(n):
    out = b""
    while n >= 128:
        out += bytes([n % 128 + 128])
        n //= 128
    return out + bytes([n])


def field(number, data):
    return bytes([number * 8 + 2]) + varint(len(data)) + data


def cid(codec, block):
    return b"\x01" + bytes([codec]) + b"\x12\x20" + hashlib.sha256(block).digest()


def file_sections(levels):
    block, size = b"a", 1
    sections = [(cid(0x55, block), block)]
    for _ in range(levels):
        link = field(1, sections[-1][0]) + field(2, b"") + b"\x18" + varint(size)
        unix = b"\x08\x02\x18" + varint(2 * size) + 2 * (b"\x20" + varint(size))
        block, size = 2 * field(2, link) + field(1, unix), 2 * size
        sections.append((cid(0x70, block), block))
    return sections


def shard_sections(levels):
    block = field(1, b"\x08\x05\x28\x22\x30\x80\x02")
    sections = [(cid(0x70, block), block)]
    for _ in range(levels):
        child = field(1, sections[-1][0])
        links = [field(2, child + field(2, b"%02X" % slot) + b"\x18\x01") for slot in range(256)]
        block = b"".join(links) + field(1, b"\x08\x05" + field(2, 32 * b"\xff") + b"\x28\x22\x30\x80\x02")
        sections.append((cid(0x70, block), block))
    return sections


def main():
    sections = (shard_sections if sys.argv[3:] == ["shards"] else file_sections)(int(sys.argv[1]))
    root = sections[-1][0]
    header = b"\xa2eroots\x81\xd8\x2a\x58\x25\x00" + root + b"gversion\x01"
    with open(sys.argv[2], "wb") as car:
        car.write(varint(len(header)) + header)
        for name, block in reversed(sections):
            car.write(varint(len(name) + len(block)) + name + block)
    print("b" + base64.b32encode(root).decode().rstrip("=").lower())


main()
