#!/usr/bin/env python3
"""Writes crates/format_vectors/stdout, what the program `format_vectors` must print for the case files that format_cases.py
makes: what readers and writers of both formats answer, computed from the rules with python3's hashlib."""
import os

from format_cases import (CALENDAR_AT, COUNT_AT, ENTRY, HASH_AT, HERE, LINK, LIST_FRONT, LIST_MARK, MOST_CALENDAR,
                          MOST_ENTRIES, MOST_ROUND, PUBLICATION_AT, RECORD_AT, ROUND_AT, SECONDS, SECOND_AT, TOKEN_FRONT,
                          TOKEN_MARK, VERSION, VERSION_AT, calendar_node, entries, leaf, links, printed, read, round_node,
                          token)

TOKEN_ROOM, LIST_ROOM = 3300, 65000


class Refused(Exception):
    """A refusal: its number and the place that it is told with."""

    def __init__(self, number, place):
        self.number, self.place = number, place


def refuse(when, number, place=0):
    if when:
        raise Refused(number, place)


def number(data, place, size):
    return int.from_bytes(data[place:place + size], "big")


def test_counts(a, c):
    refuse(a > MOST_ROUND, 64, ROUND_AT)
    refuse(c > MOST_CALENDAR, 65, CALENDAR_AT)


def test_times(second, publication):
    refuse(publication >= SECONDS, 68, PUBLICATION_AT)
    refuse(second > publication, 69, SECOND_AT)


def read_token(code, data):
    """Record digest, second, publication, round links, calendar links."""
    refuse(len(data) < TOKEN_FRONT, 60, len(data))
    refuse(data[:3] != TOKEN_MARK, 61, 0)
    refuse(number(data, VERSION_AT, 2) != VERSION, 62, VERSION_AT)
    refuse(data[HASH_AT] != code, 63, HASH_AT)
    a, c = data[ROUND_AT], data[CALENDAR_AT]
    test_counts(a, c)
    refuse(len(data) != TOKEN_FRONT + LINK * (a + c), 66, len(data))
    path = []
    for place in range(TOKEN_FRONT, len(data), LINK):
        refuse(data[place] > 1, 67, place)
        path.append((data[place], data[place + 1:place + LINK]))
    second, publication = number(data, SECOND_AT, 4), number(data, PUBLICATION_AT, 4)
    test_times(second, publication)
    return data[RECORD_AT:SECOND_AT], second, publication, path[:a], path[a:]


def write_token(room, second, publication, round_links=(), calendar_links=(), code=1, record=None):
    """The bytes of a token that is written into so much room."""
    test_counts(len(round_links), len(calendar_links))
    test_times(second, publication)
    data = token(second, publication, round_links, calendar_links, code, record)
    refuse(len(data) > room, 44)
    return data


def test_seconds(roots):
    seconds = [second for second, _ in roots]
    refuse(any(a >= b for a, b in zip(seconds, seconds[1:])) or any(second >= SECONDS for second in seconds), 95)


def load_list(code, data):
    """The entries of a printed list: second and root."""
    refuse(len(data) < LIST_FRONT, 90)
    refuse(data[:3] != LIST_MARK, 91)
    refuse(number(data, VERSION_AT, 2) != VERSION, 92)
    refuse(data[HASH_AT] != code, 93)
    count = number(data, COUNT_AT, 2)
    refuse(count > MOST_ENTRIES or len(data) != LIST_FRONT + ENTRY * count, 94)
    roots = [(number(data, at, 4), data[at + 4:at + ENTRY]) for at in range(LIST_FRONT, len(data), ENTRY)]
    test_seconds(roots)
    return roots


def print_list(room, roots, code=1):
    """The bytes of a list that is printed into so much room."""
    refuse(len(roots) > MOST_ENTRIES, 94)
    test_seconds(roots)
    data = printed(roots, code)
    refuse(len(data) > room, 44)
    return data


def followed(node, digest, path):
    for side, sibling in path:
        digest = node(sibling, digest) if side else node(digest, sibling)
    return digest


def token_lines(name, code, data):
    try:
        record, second, publication, round_links, calendar_links = read_token(code, data)
    except Refused as fault:
        yield f"{name}: refused {fault.number} reader {fault.place}"
        return
    yield (f"{name}: second {second} publication {publication} round {len(round_links)} calendar {len(calendar_links)} "
           f"length {len(data)}")
    yield f"  record {record.hex()}"
    for kind, path in (("round", round_links), ("calendar", calendar_links)):
        for which, link in (("first", path[:1]), ("last", path[-1:])):
            for side, sibling in link:
                yield f"  {which} {kind} {side} {sibling.hex()}"
    top = followed(round_node(code), leaf(code)(record), round_links)
    yield f"  followed {followed(calendar_node(code), top, calendar_links).hex()}"
    assert write_token(TOKEN_ROOM, second, publication, round_links, calendar_links, code, record) == data
    yield f"  written {len(data)}, {TOKEN_ROOM - len(data)} bytes behind stay"


def list_lines(held, name, code, data):
    """What the holders, one for each hash, answer; what they hold changes here."""
    try:
        roots = held[code] = load_list(code, data)
    except Refused as fault:
        yield f"{name}: refused {fault.number} roots {fault.place}, holds {len(held[code])}"
        return
    yield f"{name}: loaded {len(roots)}"
    known = [roots[i][0] for i in (0, len(roots) // 2, -1)] if roots else []
    known += [second + 1 for second in known[-1:]]
    for second in dict.fromkeys([0, *known, SECONDS - 1, 2**32 - 1]):
        root = dict(roots).get(second)
        yield f"  second {second} " + (f"root {root.hex()}" if root else "absent")
    assert print_list(LIST_ROOM, roots, code) == data
    yield f"  printed {len(data)}, {LIST_ROOM - len(data)} bytes behind stay"


def answer(write, *fields):
    """What a writer answers: the length written, or a refusal."""
    try:
        return len(write(*fields))
    except Refused as fault:
        return f"refused {fault.number}"


def writer_lines():
    most = links("0" * MOST_ROUND), links("1" * MOST_CALENDAR)
    longest = TOKEN_FRONT + LINK * (MOST_ROUND + MOST_CALENDAR)
    single = LIST_FRONT + ENTRY
    round_links, calendar_links = links("0" * (MOST_ROUND + 1)), links("1" * (MOST_CALENDAR + 1))
    roots = entries(range(MOST_ENTRIES + 1))
    yield f"write round {len(round_links)}: {answer(write_token, TOKEN_ROOM, 0, 0, round_links)}"
    yield f"write calendar {len(calendar_links)}: {answer(write_token, TOKEN_ROOM, 0, 0, (), calendar_links)}"
    yield f"write publication {SECONDS}: {answer(write_token, TOKEN_ROOM, 0, SECONDS)}"
    yield f"write second beyond publication: {answer(write_token, TOKEN_ROOM, 1, 0)}"
    for room in (longest - 1, longest):
        yield f"write into {room} bytes: {answer(write_token, room, 0, 0, *most)}"
    yield f"print {len(roots)}: {answer(print_list, LIST_ROOM, roots)}"
    yield f"print equal seconds: {answer(print_list, LIST_ROOM, entries((1, 1)))}"
    for room in (single - 1, single):
        yield f"print into {room} bytes: {answer(print_list, room, entries((1,)))}"


def lines():
    tokens, lists, held = list(read("tokens")), list(read("lists")), {1: [], 2: []}
    yield "tokens"
    for case in tokens:
        yield from token_lines(*case)
    yield "lists"
    for case in lists:
        yield from list_lines(held, *case)
    yield "refusals"
    yield from writer_lines()
    yield f"done: {len(tokens)} token cases, {len(lists)} list cases"


with open(os.path.join(HERE, "stdout"), "w", newline="\n") as f:
    f.writelines(line + "\n" for line in lines())
