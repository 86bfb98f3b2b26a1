#!/usr/bin/env python3
"""Prints what the program `vectors` must print, computed by python3's hashlib. The lines of the standards' own examples
(empty, abc, 448 bits, 896 bits, 200 of a3) are also held here to the digests that NIST publishes for them."""
import hashlib

LENGTHS = (0, 1, 3, 8, 31, 32, 33, 54, 55, 56, 57, 63, 64, 65, 66, 111, 119, 120, 127, 128, 129, 135, 136, 137, 271, 272, 273,
           1000, 16384, 65535, 65536, 65537)
EXAMPLES = (
    ("empty", b""),
    ("abc", b"abc"),
    ("448 bits", b"abcdbcdecdefdefgefghfghighijhijkijkljklmklmnlmnomnopnopq"),
    ("896 bits", b"abcdefghbcdefghicdefghijdefghijkefghijklfghijklmghijklmnhijklmno"
                 b"ijklmnopjklmnopqklmnopqrlmnopqrsmnopqrstnopqrstu"),
    ("200 of a3", b"\xa3" * 200),
)
PUBLISHED = {
    ("SHA-256", "empty"): "e3b0c44298fc1c149afbf4c8996fb92427ae41e4649b934ca495991b7852b855",
    ("SHA-256", "abc"): "ba7816bf8f01cfea414140de5dae2223b00361a396177a9cb410ff61f20015ad",
    ("SHA-256", "448 bits"): "248d6a61d20638b8e5c026930c3e6039a33ce45964ff2167f6ecedd419db06c1",
    ("SHA-256", "896 bits"): "cf5b16a778af8380036ce59e7b0492370b249b11e8f07a51afac45037afee9d1",
    ("SHA3-256", "empty"): "a7ffc6f8bf1ed76651c14756a061d662f580ff4de43b49fa82d80a4b80f8434a",
    ("SHA3-256", "abc"): "3a985da74fe225b2045c172d6bd390bd855f086e3e9d525b46bfe24511431532",
    ("SHA3-256", "448 bits"): "41c0dba2a9d6240849100376a8235e2c82e1b9998a999e21db32dd97496d3376",
    ("SHA3-256", "896 bits"): "916f6061fe879741ca6469b43971dfdb28b1a32dc36cb3254e812be27aad1d18",
    ("SHA3-256", "200 of a3"): "79f38adec5c20307a98ef76e8324afbfd46cfd81b22e3973c65fa1bd9de31787",
}
LONGEST = 65536


def pattern(length):
    return bytes((17 + 131 * i) % 256 for i in range(length))


def show(name, label, h, message):
    print(f"{name} {label}: " + (h(message).hexdigest() if len(message) <= LONGEST else "refused 5"))


for name, number, h in (("SHA-256", 1, hashlib.sha256), ("SHA3-256", 2, hashlib.sha3_256)):
    print(f"{name} has number {number}")
    for label, message in EXAMPLES:
        assert h(message).hexdigest() == PUBLISHED.get((name, label), h(message).hexdigest()), (name, label)
        show(name, label, h, message)
    for length in LENGTHS:
        show(name, f"{length} bytes", h, pattern(length))
    left, right = bytes(range(32)), bytes(range(32, 64))
    show(name, "leaf", h, b"\0" + left)
    show(name, "round node", h, b"\1" + left + right)
    show(name, "calendar node", h, b"\2" + left + right)
    show(name, "empty second", h, b"\3")
    show(name, "mask", h, b"\4" + right + (0x01020304).to_bytes(4, "big") + (0x0506).to_bytes(2, "big"))
