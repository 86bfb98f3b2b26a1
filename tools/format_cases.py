#!/usr/bin/env python3
"""Makes the case files of crates/format_vectors/data: tokens and printed lists of roots, good ones and faulty ones.

A case is the length of its name (1 byte), its name, the number of the hash to read for (1 byte), the length of its bytes
(4 bytes, highest first), and its bytes. What a reader must answer is not in the files."""
import hashlib, os, re

from rules import path, root, shape

HERE = os.path.join(os.path.dirname(os.path.abspath(__file__)), "..", "crates", "format_vectors")
HASHES = {1: hashlib.sha256, 2: hashlib.sha3_256}
TOKEN_MARK, LIST_MARK, VERSION = b"HCT", b"HCP", 1
VERSION_AT, HASH_AT, RECORD_AT, SECOND_AT, PUBLICATION_AT, ROUND_AT, CALENDAR_AT, TOKEN_FRONT = 3, 5, 6, 38, 42, 46, 47, 48
COUNT_AT, LIST_FRONT = 6, 8
LINK, ENTRY = 33, 36
MOST_ROUND, MOST_CALENDAR, MOST_ENTRIES, SECONDS = 64, 31, 1800, 2**31
NOISE = 65536


def big(number, size):
    return number.to_bytes(size, "big")


def tagged(code, tag):
    """The digest of a message with a tag in front, under the hash of this number."""
    return lambda *parts: HASHES[code](tag + b"".join(parts)).digest()


def leaf(code):
    return tagged(code, b"\0")


def round_node(code):
    return tagged(code, b"\1")


def calendar_node(code):
    return tagged(code, b"\2")


def token(second, publication, round_links=(), calendar_links=(), code=1, record=None):
    """A token's bytes. Nothing is tested, so that faulty ones can be made too."""
    links = b"".join(bytes([side]) + sibling for side, sibling in [*round_links, *calendar_links])
    return (TOKEN_MARK + big(VERSION, 2) + bytes([code]) + (record or digest(1000)) + big(second, 4) + big(publication, 4)
            + bytes([len(round_links), len(calendar_links)]) + links)


def printed(entries, code=1, count=None):
    """The bytes of a printed list of roots, untested likewise. A count can be given that is not the true one."""
    front = LIST_MARK + big(VERSION, 2) + bytes([code]) + big(len(entries) if count is None else count, 2)
    return front + b"".join(big(second, 4) + top for second, top in entries)


def digest(i):
    """Digest number i of the cases."""
    return hashlib.sha256(big(i, 4)).digest()


def links(sides, start=0):
    """Links with these sides and with the digests from a number on."""
    return [(int(side), digest(start + i)) for i, side in enumerate(sides)]


def entries(seconds):
    """Entries at these seconds, with 19 different roots in turn, so that long lists pack well."""
    return [(second, digest(2000 + (second + 2 * i) % 19)) for i, second in enumerate(seconds)]


def noise(size):
    """Bytes without sense, the same 2,048 over and over."""
    return (b"".join(digest(3000 + i) for i in range(64)) * (size // 2048 + 1))[:size]


def put(data, *changes):
    """The bytes with others put over them, each at its place."""
    for place, part in changes:
        data = data[:place] + part + data[place + len(part):]
    return data


def side_at(k):
    """The place of the side of link k."""
    return TOKEN_FRONT + LINK * k


def true_token(code):
    """A token from real trees: record 3 of 5 in second 5, published at 6, where other seconds have digests of their own."""
    leaves = [leaf(code)(digest(i)) for i in range(5)]
    row = [digest(10 + s) for s in range(7)]
    row[5] = root(round_node(code), leaves)
    return token(5, 6, path(round_node(code), leaves, 3), path(calendar_node(code), row, 5), code, digest(3))


def example():
    """The worked example of the rule book: the records `abc` and an empty one in second 1, behind an empty second 0.
    Answers the token of `abc` and the list with the one root."""
    record, other = (hashlib.sha256(text).digest() for text in (b"abc", b""))
    empty = tagged(1, b"\3")()
    joined = round_node(1)(leaf(1)(record), leaf(1)(other))
    return (token(1, 1, [(0, leaf(1)(other))], [(1, empty)], 1, record),
            printed([(1, calendar_node(1)(empty, joined))]))


def hash_number_cases(good, other):
    """Numbers of no hash, in good bytes of hash 1 and of hash 2: both formats have theirs at one place."""
    yield "hash number 0", 1, put(good, (HASH_AT, b"\0"))
    yield "hash number 0 under hash 2", 2, put(other, (HASH_AT, b"\0"))
    yield "hash number 3", 2, put(other, (HASH_AT, b"\3"))
    yield "hash number 255", 1, put(good, (HASH_AT, b"\xff"))


def token_cases():
    bare, good = token(5, 9), token(5, 9, links("0110"), links(shape(10, 5), 4))
    other = token(5, 9, links("0110"), links(shape(10, 5), 4), code=2)
    late = 1431655765
    longest = token(late, SECONDS - 1, links("01" * 32), links(shape(SECONDS, late), 64))
    yield "empty", 1, b""
    yield "1 byte", 1, bare[:1]
    yield "47 bytes", 1, bare[:47]
    yield "47 bytes under hash 2", 2, token(5, 9, code=2)[:47]
    yield "47 zero bytes", 1, bytes(47)
    yield "48 bytes", 1, bare
    yield "48 bytes under hash 2", 2, token(5, 9, code=2)
    yield "48 zero bytes", 1, bytes(48)
    yield "49 bytes", 1, bare + b"\0"
    yield "example of the rule book", 1, example()[0]
    yield "true paths under hash 1", 1, true_token(1)
    yield "true paths under hash 2", 2, true_token(2)
    yield "four and four links under hash 1", 1, good
    yield "four and four links under hash 2", 2, other
    yield "one round link on the right", 1, token(0, 0, links("0"))
    yield "one round link on the left", 1, token(0, 0, links("1"))
    yield "one calendar link on the right", 1, token(0, 1, (), links("0"))
    yield "one calendar link on the left", 1, token(1, 1, (), links("1"))
    yield "round links only", 2, token(0, 0, links("101"), (), 2)
    yield "calendar links only", 2, token(2, 4, (), links(shape(5, 2)), 2)
    yield "sides that are no shape", 1, token(5, 9, links("1"), links("1111111"))
    yield "mark wrong in its first byte", 1, put(good, (0, b"h"))
    yield "mark wrong in its middle byte", 1, put(good, (1, b"\0"))
    yield "mark wrong in its last byte", 1, put(good, (2, b"t"))
    yield "mark wrong under hash 2", 2, put(other, (2, b"U"))
    yield "mark of a list", 1, put(good, (0, LIST_MARK))
    yield "a list of two roots", 1, printed(entries((1, 2)))
    yield "version wrong in its first byte", 1, put(good, (VERSION_AT, b"\1"))
    yield "version wrong in its last byte", 1, put(good, (VERSION_AT + 1, b"\2"))
    yield "version 0", 1, put(good, (VERSION_AT, big(0, 2)))
    yield "version lowest byte first", 1, put(good, (VERSION_AT, VERSION.to_bytes(2, "little")))
    yield "version 65535", 1, put(good, (VERSION_AT, big(65535, 2)))
    yield from hash_number_cases(good, other)
    yield "hash number changed to the other", 1, put(good, (HASH_AT, b"\2"))
    yield "token of hash 1 read for hash 2", 2, good
    yield "token of hash 2 read for hash 1", 1, other
    yield "64 round links", 1, token(5, 9, links("10" * 32))
    yield "65 round links", 1, token(5, 9, links("1" * 65))
    yield "65 round links without their bytes", 1, put(bare, (ROUND_AT, b"\x41"))
    yield "255 round links", 2, token(5, 9, links("0" * 5) * 51, (), 2)
    yield "255 round links without their bytes", 1, put(bare, (ROUND_AT, b"\xff"))
    yield "31 calendar links", 1, token(1, SECONDS - 1, (), links(shape(SECONDS, 1)))
    yield "32 calendar links", 1, token(1, SECONDS - 1, (), links("1" * 32))
    yield "32 calendar links without their bytes", 1, put(bare, (CALENDAR_AT, b"\x20"))
    yield "64 calendar links", 2, token(1, SECONDS - 1, (), links("1" * 64), 2)
    yield "255 calendar links without their bytes", 1, put(bare, (CALENDAR_AT, b"\xff"))
    yield "64 round and 32 calendar links", 1, token(5, 9, links("0" * 64), links("1" * 32))
    yield "65 round and 31 calendar links", 1, token(5, 9, links("0" * 65), links("1" * 31))
    yield "65 round and 32 calendar links", 1, token(5, 9, links("0" * 65), links("1" * 32))
    yield "longest", 1, longest
    yield "longest under hash 2", 2, put(longest, (HASH_AT, b"\2"))
    yield "3182 bytes", 1, longest[:-1]
    yield "3184 bytes", 1, longest + b"\0"
    yield "one byte short", 1, good[:-1]
    yield "one byte long", 1, good + b"\0"
    yield "one byte long under hash 2", 2, other + b"\0"
    yield "one link short", 1, good[:-LINK]
    yield "one link long", 1, good + bytes(LINK)
    yield "front of a token with links", 1, good[:TOKEN_FRONT]
    yield "noise", 1, noise(NOISE)
    yield "noise behind a mark", 1, put(noise(1000), (0, TOKEN_MARK))
    yield "noise behind a good front", 1, put(noise(NOISE), (0, good[:TOKEN_FRONT]))
    yield "noise for links", 1, good[:TOKEN_FRONT] + noise(len(good) - TOKEN_FRONT)
    for name, k in (("first round", 0), ("last round", 3), ("first calendar", 4), ("last calendar", 7)):
        yield f"side 2 at the {name} link", 1, put(good, (side_at(k), b"\2"))
        yield f"side 255 at the {name} link", 2, put(other, (side_at(k), b"\xff"))
    yield "side 128", 1, put(good, (side_at(2), b"\x80"))
    yield "two bad sides", 1, put(good, (side_at(1), b"\3"), (side_at(2), b"\2"))
    yield "bad sides in both paths", 1, put(good, (side_at(3), b"\2"), (side_at(4), b"\xff"))
    yield "every side bad", 1, put(good, *((side_at(k), b"\2") for k in range(8)))
    yield "last side of the longest bad", 1, put(longest, (side_at(94), b"\2"))
    yield "first calendar side of the longest bad", 1, put(longest, (side_at(64), b"\2"))
    yield "last publication and second 0", 1, token(0, SECONDS - 1)
    yield "last publication and its second", 2, token(SECONDS - 1, SECONDS - 1, code=2)
    yield "publication 2147483648", 1, token(0, SECONDS)
    yield "publication 2147483648 with links", 2, put(other, (PUBLICATION_AT, big(SECONDS, 4)))
    yield "publication 4294967295", 1, token(0, 2**32 - 1)
    yield "publication 128", 1, token(0, 128)
    yield "publication 0", 1, token(0, 0)
    yield "second equal to the publication", 1, token(9, 9)
    yield "second one beyond the publication", 1, token(10, 9)
    yield "second one beyond publication 0", 2, token(1, 0, code=2)
    yield "second one beyond with links", 1, put(good, (SECOND_AT, big(10, 4)))
    yield "second 256 beyond publication 255", 1, token(256, 255)
    yield "second 255 and publication 256", 1, token(255, 256)
    yield "second 2147483648", 1, token(SECONDS, SECONDS - 1)
    yield "second 4294967295", 1, token(2**32 - 1, 9)
    yield "length and mark", 1, b"HCP"
    yield "mark and version", 1, put(good, (2, b"P\0\2"))
    yield "mark and length", 1, put(good, (2, b"P")) + b"\0"
    yield "version and hash number", 1, put(good, (VERSION_AT + 1, b"\2\2"))
    yield "hash number and round count", 1, put(good, (HASH_AT, b"\2"), (ROUND_AT, b"\x41"))
    yield "both counts", 1, put(good, (ROUND_AT, b"\x41\x20"))
    yield "round count and length", 1, put(good, (ROUND_AT, b"\x41"))
    yield "calendar count and length", 1, put(good, (CALENDAR_AT, b"\x20"))
    yield "length and side", 1, put(good, (side_at(0), b"\2")) + b"\0"
    yield "side and publication", 1, put(good, (side_at(7), b"\2"), (PUBLICATION_AT, big(2**32 - 1, 4)))
    yield "side and second", 1, put(good, (side_at(7), b"\2"), (SECOND_AT, big(10, 4)))
    yield "publication and second", 1, token(SECONDS + 1, SECONDS)
    yield "publication and second by far", 2, token(2**32 - 1, 2**32 - 2, code=2)
    yield "every field bad", 1, b"\xff" * 100


def list_cases():
    few, far = entries((3, 7, 12)), (4, 9, 300, 70000, 2000000000)
    good, other = printed(few), printed(entries((0, 1)), code=2)
    dense = range(10, 10 + MOST_ENTRIES)
    full = printed(entries(dense))
    yield "empty", 1, b""
    yield "1 byte", 1, LIST_MARK[:1]
    yield "7 bytes", 1, printed([])[:7]
    yield "9 bytes", 1, printed([]) + b"\0"
    yield "8 bytes", 1, printed([])
    yield "no entries under hash 2", 2, printed([], code=2)
    yield "example of the rule book", 1, example()[1]
    yield "one entry", 1, printed(entries((77,)))
    yield "one entry under hash 2", 2, printed(entries((78,)), code=2)
    yield "one entry at second 0", 1, printed(entries((0,)))
    yield "one entry at the last second", 1, printed(entries((SECONDS - 1,)))
    yield "two entries", 1, printed(entries((5, 6)))
    yield "two entries under hash 2", 2, other
    yield "three entries", 1, good
    yield "five entries", 1, printed(entries(far))
    yield "seconds 255 and 256", 1, printed(entries((255, 256)))
    yield "256 entries", 2, printed(entries(range(0, 3 * 256, 3)), code=2)
    yield "1800 entries", 1, full
    yield "7 bytes after 1800 entries", 1, good[:7]
    yield "mark wrong in its first byte", 1, put(good, (0, b"h"))
    yield "mark wrong in its middle byte", 1, put(good, (1, b"\0"))
    yield "mark wrong in its last byte", 1, put(good, (2, b"p"))
    yield "mark wrong under hash 2", 2, put(other, (2, b"Q"))
    yield "mark of a token", 1, put(good, (0, TOKEN_MARK))
    yield "a token", 1, example()[0]
    yield "version wrong in its first byte", 1, put(good, (VERSION_AT, b"\1"))
    yield "version wrong in its last byte", 1, put(good, (VERSION_AT + 1, b"\2"))
    yield "version 0", 1, put(good, (VERSION_AT, big(0, 2)))
    yield "version lowest byte first", 2, put(other, (VERSION_AT, VERSION.to_bytes(2, "little")))
    yield from hash_number_cases(good, other)
    yield "list of hash 1 loaded for hash 2", 2, good
    yield "list of hash 2 loaded for hash 1", 1, other
    yield "1801 entries", 1, printed(entries(range(1, MOST_ENTRIES + 2)))
    yield "1801 entries without their bytes", 1, printed([], count=MOST_ENTRIES + 1)
    yield "1800 entries without their bytes", 1, printed([], count=MOST_ENTRIES)
    yield "count 65535", 2, printed(entries((1,)), code=2, count=65535)
    yield "count lowest byte first", 1, printed(entries((1,)), count=0x0100)
    yield "count one too low", 1, printed(few, count=2)
    yield "count one too high", 1, printed(few, count=4)
    yield "count 0 with one entry", 1, printed(entries((1,)), count=0)
    yield "one byte short", 1, good[:-1]
    yield "one byte long", 1, good + b"\0"
    yield "one entry short", 1, good[:-ENTRY]
    yield "one entry long", 1, good + bytes(ENTRY)
    yield "one byte long under hash 2", 2, other + b"\0"
    yield "three entries after 1800", 1, good
    yield "equal seconds in the first pair", 1, printed(entries((4, 4, 9, 12, 13)))
    yield "equal seconds in the last pair", 1, printed(entries((4, 9, 12, 13, 13)))
    yield "equal seconds in the only pair", 2, printed(entries((8, 8)), code=2)
    yield "seconds 0 and 0", 1, printed(entries((0, 0)))
    yield "equal seconds at the end of 1800", 1, printed(entries([*dense[:-1], dense[-2]]))
    yield "falling seconds in the first pair", 1, printed(entries((5, 4, 9, 12, 13)))
    yield "falling seconds in a middle pair", 1, printed(entries((4, 12, 9, 13, 14)))
    yield "falling seconds in the last pair", 1, printed(entries((4, 9, 12, 14, 13)))
    yield "seconds 256 and 255", 2, printed(entries((256, 255)), code=2)
    yield "last second at the end", 1, printed(entries((4, 9, SECONDS - 1)))
    yield "second 2147483648 at the end", 1, printed(entries((4, 9, SECONDS)))
    yield "second 2147483648 alone", 1, printed(entries((SECONDS,)))
    yield "second 2147483648 in front", 1, printed(entries((SECONDS, SECONDS + 1, SECONDS + 2)))
    yield "second 4294967295 at the end", 2, printed(entries((4, 2**32 - 1)), code=2)
    yield "length and mark", 1, b"HCT\0\2\3\0"
    yield "mark and version", 1, put(good, (2, b"T\0\2"))
    yield "mark and length", 1, put(good, (2, b"T")) + b"\0"
    yield "version and hash number", 1, put(good, (VERSION_AT + 1, b"\2\2"))
    yield "hash number and count", 1, put(good, (HASH_AT, b"\2\xff"))
    yield "length and seconds", 1, printed(entries((9, 4))) + b"\0"
    yield "count and seconds", 1, printed(entries((9, 4)), count=MOST_ENTRIES + 1)
    yield "every field bad", 2, b"\xff" * 100
    yield "noise", 1, noise(NOISE)
    yield "noise behind a good front", 1, put(noise(5000), (0, full[:LIST_FRONT]))
    yield "noise for entries", 1, put(noise(LIST_FRONT + 12 * ENTRY), (0, printed([], count=12)))
    yield "no entries after some", 2, printed([], code=2)
    yield "one entry short after none", 2, other[:-ENTRY]
    yield "loads again under hash 1", 1, printed(entries(far[1:]))
    yield "loads again under hash 2", 2, other


FILES = {"tokens": token_cases, "lists": list_cases}


def place(kind):
    return os.path.join(HERE, "data", kind + ".cases")


def read(kind):
    """The cases of a file: name, hash number, bytes."""
    with open(place(kind), "rb") as f:
        while size := f.read(1):
            name = f.read(size[0]).decode("ascii")
            code = f.read(1)[0]
            yield name, code, f.read(int.from_bytes(f.read(4), "big"))


def write(kind):
    cases = list(FILES[kind]())
    assert len({name for name, _, _ in cases}) == len(cases), "two cases of one name"
    assert all(re.fullmatch("[a-z0-9]+([ -][a-z0-9]+)*", name) for name, _, _ in cases)
    os.makedirs(os.path.dirname(place(kind)), exist_ok=True)
    with open(place(kind), "wb") as f:
        for name, code, data in cases:
            f.write(bytes([len(name)]) + name.encode("ascii") + bytes([code]) + big(len(data), 4) + data)
    assert list(read(kind)) == cases


if __name__ == "__main__":
    for kind in FILES:
        write(kind)
