#!/usr/bin/env python3
"""Prints what the program `tree_vectors` must print: roots, paths and shapes of all sizes up to 70 and shapes under some
large publications, computed from the rules with python3's hashlib."""
import hashlib

from rules import node, path, root, shape

SIZES = range(1, 71)
LARGE = ((2**31 - 1, 0), (2**31 - 1, 2**31 - 1), (2**31 - 1, 1431655765), (2**31 - 2, 2**31 - 2), (2**31 - 2, 2**30),
         (1000000, 999999), (1000000, 524288), (86399, 86399), (86400, 86400), (2**31, 0), (5, 6))


def told(text):
    return text if text else "none"


for name, h in (("SHA-256", hashlib.sha256), ("SHA3-256", hashlib.sha3_256)):
    for kind, tag in (("round", b"\1"), ("calendar", b"\2")):
        def join(left, right):
            return h(tag + left + right).digest()
        for n in SIZES:
            xs = [node(i) for i in range(n)]
            links = b"".join(bytes([side]) + sibling for i in range(n) for side, sibling in path(join, xs, i))
            print(f"{name} {kind} {n}: root {root(join, xs).hex()}")
            print(f"{name} {kind} {n}: paths {h(links).hexdigest()}, {n} followed")
for n in SIZES:
    print(f"shapes of {n}: " + " ".join(told(shape(n, i)) for i in range(n)))
for p, s in LARGE:
    print(f"shape of {s} under {p}: " + (told(shape(p + 1, s)) if p < 2**31 and s <= p else "absent"))
