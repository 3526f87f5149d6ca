#!/usr/bin/env python3
"""The importer's profile of docs/FORMATS.md as a model of its own: prints the root of a folder and the bytes of its pack.

profile.py FOLDER [--chunk N] [--width N] [--shard N]
"""
import argparse
import base64
import hashlib
import os

RAW, DAG_PB = 0x55, 0x70
MASK = (1 << 64) - 1


def varint(n):
    out = b""
    while n > 127:
        out += bytes([n & 127 | 128])
        n >>= 7
    return out + bytes([n])


def field(number, data):
    return bytes([number << 3 | 2]) + varint(len(data)) + data


def number(key, n):
    return bytes([key << 3]) + varint(n)


def rotl(x, r):
    return (x << r | x >> 64 - r) & MASK


def fmix(k):
    k = (k ^ k >> 33) * 0xFF51AFD7ED558CCD & MASK
    k = (k ^ k >> 33) * 0xC4CEB9FE1A85EC53 & MASK
    return k ^ k >> 33


def name_hash(data):
    """The first 64 bits of MurmurHash3_x64_128 with seed 0."""
    c1, c2 = 0x87C37B91114253D5, 0x4CF5AD432745937F
    h1 = h2 = 0
    full = len(data) // 16 * 16
    for i in range(0, full, 16):
        k1 = int.from_bytes(data[i:i + 8], "little")
        k2 = int.from_bytes(data[i + 8:i + 16], "little")
        h1 ^= rotl(k1 * c1 & MASK, 31) * c2 & MASK
        h1 = (rotl(h1, 27) + h2) * 5 + 0x52DCE729 & MASK
        h2 ^= rotl(k2 * c2 & MASK, 33) * c1 & MASK
        h2 = (rotl(h2, 31) + h1) * 5 + 0x38495AB5 & MASK
    tail = data[full:].ljust(16, b"\0")
    h2 ^= rotl(int.from_bytes(tail[8:], "little") * c2 & MASK, 33) * c1 & MASK
    h1 ^= rotl(int.from_bytes(tail[:8], "little") * c1 & MASK, 31) * c2 & MASK
    h1 ^= len(data)
    h2 ^= len(data)
    h1 = h1 + h2 & MASK
    h2 = h2 + h1 & MASK
    return fmix(h1) + fmix(h2) & MASK


class Profile:
    """A folder's DAG; each block once, under its CID."""

    def __init__(self, chunk, width, shard):
        self.chunk, self.width, self.shard = chunk, width, shard
        self.blocks = {}

    def keep(self, codec, block):
        cid = bytes([1, codec, 0x12, 0x20]) + hashlib.sha256(block).digest()
        self.blocks[cid] = block
        return cid

    def node(self, links, data):
        """The CID and the Tsize of a node with these links: CID, name, Tsize."""
        block = b"".join(field(2, field(1, c) + field(2, n) + number(3, t)) for c, n, t in links) + field(1, data)
        return self.keep(DAG_PB, block), len(block) + sum(t for _, _, t in links)

    def file(self, data):
        chunks = [data[i:i + self.chunk] for i in range(0, len(data), self.chunk)] or [b""]
        level = [(self.keep(RAW, c), len(c), len(c)) for c in chunks]
        while len(level) > 1:
            above = []
            for i in range(0, len(level), self.width):
                group = level[i:i + self.width]
                size = sum(n for _, n, _ in group)
                unix = number(1, 2) + number(3, size) + b"".join(number(4, n) for _, n, _ in group)
                cid, tsize = self.node([(c, b"", t) for c, _, t in group], unix)
                above.append((cid, size, tsize))
            level = above
        return level[0][0], level[0][2]

    def sharded(self, entries, level):
        slots = {}
        for entry in entries:
            slots.setdefault(name_hash(entry[0]).to_bytes(8, "big")[level], []).append(entry)
        links, bits = [], 0
        for slot, group in sorted(slots.items()):
            bits |= 1 << slot
            name, cid, tsize = group[0] if len(group) == 1 else (b"",) + self.sharded(group, level + 1)
            links.append((cid, b"%02X" % slot + name, tsize))
        field_bits = bits.to_bytes((bits.bit_length() + 7) // 8, "big")
        return self.node(links, number(1, 5) + field(2, field_bits) + number(5, 0x22) + number(6, 256))

    def directory(self, entries):
        if sum(len(n) + len(c) for n, c, _ in entries) > self.shard:
            return self.sharded(entries, 0)
        return self.node([(c, n, t) for n, c, t in sorted(entries)], number(1, 1))

    def folder(self, path):
        entries = []
        for name in sorted(os.listdir(path)):
            at = os.path.join(path, name)
            if os.path.isdir(at):
                made = self.folder(at)
            else:
                with open(at, "rb") as file:
                    made = self.file(file.read())
            entries.append((name,) + made)
        return self.directory(entries)

    def pack_size(self):
        """The header of a CARv1 with one root has 59 bytes; a section its length, its CID and its block."""
        sizes = [len(cid) + len(block) for cid, block in self.blocks.items()]
        return 59 + sum(len(varint(n)) + n for n in sizes)


def main():
    assert name_hash(b"hello") == 0xCBD8A7B341BD9B02
    parser = argparse.ArgumentParser()
    parser.add_argument("folder")
    parser.add_argument("--chunk", type=int, default=1048576)
    parser.add_argument("--width", type=int, default=1024)
    parser.add_argument("--shard", type=int, default=262144)
    asked = parser.parse_args()
    profile = Profile(asked.chunk, asked.width, asked.shard)
    root, _ = profile.folder(os.fsencode(asked.folder))
    print("b" + base64.b32encode(root).decode().lower().rstrip("="))
    print(profile.pack_size())


main()
