#!/usr/bin/env python3
"""Prints what the program `pile_vectors` must print: rounds of several sizes through stacks of layers over a head,
computed from the rules with python3's hashlib."""
import hashlib

from rules import node, path, root

SIZES = (0, 1, 8, 9, 64, 65, 256, 257)
SEED, OTHER = bytes(range(100, 132)), bytes(range(7, 39))


class Head:
    most, deepest = 1, 0

    def __init__(self, h):
        self.h = h

    def sealed(self, xs, second):
        return (xs[0] if xs else self.h(b"\3").digest()), [[] for _ in xs]


class Grouping:
    def __init__(self, below):
        self.below, self.h = below, below.h
        self.most, self.deepest = min(256, 8 * below.most), below.deepest + 3

    def sealed(self, xs, second):
        join = lambda left, right: self.h(b"\1" + left + right).digest()
        groups = [xs[i:i + 8] for i in range(0, len(xs), 8)]
        digest, ways = self.below.sealed([root(join, g) for g in groups], second)
        return digest, [path(join, groups[i // 8], i % 8) + ways[i // 8] for i in range(len(xs))]


class Masking:
    def __init__(self, below, seed):
        self.below, self.h, self.seed = below, below.h, seed
        self.most, self.deepest = min(256, below.most), below.deepest + 1

    def sealed(self, xs, second):
        masks = [self.h(b"\4" + self.seed + second.to_bytes(4, "big") + i.to_bytes(2, "big")).digest() for i in range(len(xs))]
        down = [self.h(b"\1" + m + x).digest() for m, x in zip(masks, xs)]
        digest, ways = self.below.sealed(down, second)
        return digest, [[(1, m)] + way for m, way in zip(masks, ways)]


def show(label, pile):
    row, span = [], 10
    print(f"{label}: most {pile.most}, span {span}, deepest {pile.deepest}")
    for n in SIZES:
        if n > pile.most:
            print(f"{label} {n}: refused 11")
            continue
        xs = [node(i) for i in range(n)]
        digest, ways = pile.sealed(xs, len(row))
        row.append(digest)
        print(f"{label} {n}: second {len(row) - 1} {digest.hex()}")
        for i in sorted({0, n // 2, n - 1}) if n else ():
            links = b"".join(bytes([side]) + sibling for side, sibling in ways[i])
            sides = "".join(str(side) for side, _ in ways[i])
            print(f"{label} {n}: way {i} sides {sides or 'none'} {pile.h(links).hexdigest()}")
        print(f"{label} {n}: way {n} refused 13")


for name, h in (("SHA-256", hashlib.sha256), ("SHA3-256", hashlib.sha3_256)):
    G, M, H = Grouping, Masking, Head
    show(f"{name} head", H(h))
    show(f"{name} grouping", G(H(h)))
    show(f"{name} grouping grouping", G(G(H(h))))
    show(f"{name} grouping grouping grouping", G(G(G(H(h)))))
    show(f"{name} masking grouping grouping", M(G(G(H(h))), SEED))
    show(f"{name} grouping masking grouping grouping", G(M(G(G(H(h))), SEED)))
    show(f"{name} masking masking grouping", M(M(G(H(h)), OTHER), SEED))
