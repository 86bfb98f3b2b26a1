#!/usr/bin/env python3
"""Makes the two record files of a sample ping in crates/stamp/data: a header, then echo strengths, 16 bits each, highest byte first."""
import os, struct

here = os.path.join(os.path.dirname(__file__), "..", "crates", "stamp", "data")


def record(side, samples):
    state = 1 + side
    out = [b"PING", struct.pack(">IBH", 4711, side, samples)]
    for i in range(samples):
        state = (1103515245 * state + 12345) % 2**31
        echo = 40000 * 300 // (300 + i) + state % 997
        out.append(struct.pack(">H", echo))
    return b"".join(out)


os.makedirs(here, exist_ok=True)
for side, name, samples in ((0, "port", 1024), (1, "starboard", 1000)):
    with open(os.path.join(here, f"ping-{name}.rec"), "wb") as f:
        f.write(record(side, samples))
