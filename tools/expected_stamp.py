#!/usr/bin/env python3
"""Prints what the program `stamp` must print for crates/stamp/data, computed by python3's hashlib."""
import hashlib, os
import rules

SEED = b"a seed of thirty-two bytes, here"
assert len(SEED) == 32
SECOND = 5
here = os.path.join(os.path.dirname(__file__), "..", "crates", "stamp", "data")
SIDES = ("port", "starboard")
records = []
for side in SIDES:
    path = f"ping-{side}.rec"
    with open(os.path.join(here, path), "rb") as f:
        records.append(f.read())
    print(f"{side}: {path}, {len(records[-1])} bytes")
tokens = 0
for name, short, h in (("SHA-256", "sha256", hashlib.sha256), ("SHA3-256", "sha3", hashlib.sha3_256)):
    digest_of = lambda message: h(message).digest()
    node = lambda left, right: digest_of(b"\1" + left + right)
    join = lambda left, right: digest_of(b"\2" + left + right)
    print(name)
    digests = [digest_of(record) for record in records]
    leaves = [digest_of(b"\0" + digest) for digest in digests]
    for side, digest, leaf in zip(SIDES, digests, leaves):
        print(f"  {side} digest {digest.hex()}")
        print(f"  {side} leaf {leaf.hex()}")
    masks = [digest_of(b"\4" + SEED + SECOND.to_bytes(4, "big") + i.to_bytes(2, "big")) for i in range(2)]
    down = [node(mask, leaf) for mask, leaf in zip(masks, leaves)]
    calendar = [digest_of(b"\3")] * SECOND + [rules.root(node, down)]
    print(f"  second {SECOND} {calendar[-1].hex()}")
    path = rules.path(join, calendar, SECOND)
    root = rules.root(join, calendar)
    for i, side in enumerate(SIDES):
        way = [(1, masks[i])] + rules.path(node, down, i)
        print(f"  {side}-{short}.hct: {48 + 33 * (len(way) + len(path))} bytes")
        print(f"    record {digests[i].hex()}")
        print(f"    second {SECOND}, publication {SECOND}")
        for kind, links in (("round", way), ("calendar", path)):
            for number, sibling in links:
                print(f"    {kind} {number} {sibling.hex()}")
        print(f"    leads to {root.hex()}")
        tokens += 1
    print(f"  roots-{short}.hcp: {8 + 36} bytes")
    print(f"    second {SECOND} root {root.hex()}")
print(f"done: 1 ping, 2 records, {tokens} tokens written and read back")
