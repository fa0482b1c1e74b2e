#!/usr/bin/env python3
"""Writes crates/read_sheets/stdin, sheets with books that meet 2 to 7 and 18 at every kind of place, and stdout, what the oracle's
reader says of each.

Run in the checkout after the oracle is built: python3 oracle/readings.py
"""
import struct
import subprocess
from collections import Counter

import numbering

CRATE = "crates/read_sheets"
# What the program has for the list.
SPACE = 524288
ORACLE = "oracle/target/release/oracle"
# By the edition: the number that its label numbers are under.
LABELS = {1: 1024, 2: 4096, 3: 4096}
# Editions that there are not.
OTHER_EDITIONS = (0, 4, 5, 255, 256, 257, 258, 259, 512, 768, 65535)
# Counts of entries at which a reader could change its way of finding one.
COUNTS = (4096, 4097, 8192, 8193, 16384, 16385, 32768, 32769, 65535)


def u16(n):
    return struct.pack("<H", n)


def string(s):
    return u16(len(s)) + s


def body(*actions, labels=()):
    labels = list(labels)
    return u16(len(labels)) + b"".join(u16(l) + u16(i) for l, i in labels) + u16(len(actions)) + b"".join(actions)


def sheet(main, note=b"", distance=None, edition=1):
    return note + main + struct.pack("<IH", len(main) if distance is None else distance, edition) + b"A1"


def named(entry):
    """A string of edition 3 that is an entry of the book."""
    return u16(65535) + u16(entry)


def book(*entries, note=b"", distance=None, count=None):
    front = b"".join(map(string, entries))
    distance = len(front) if distance is None else distance
    return note + front + struct.pack("<IH", distance, len(entries) if count is None else count) + b"B1"


EMPTY_BOOK = book()
# What sheets of editions 1 and 2 get in turn, which do not look at it: mostly nothing, and books that are empty, good and bad.
ANY_BOOKS = (b"", b"", EMPTY_BOOK, b"", b"", book(b"e", b"f"), b"", b"", b"\0B1", b"", b"")


class Lent(bytes):
    """A sheet, and the book that is lent with it."""

    def __new__(cls, sheet, book):
        lent = super().__new__(cls, sheet)
        lent.book = book
        return lent


def edition_of(s):
    """The edition that its trailer names, or none."""
    return struct.unpack_from("<H", s, len(s) - 4)[0] if len(s) >= 8 and s.endswith(b"A1") else None


def book_of(s):
    """The book that is lent with a sheet: its own; else in edition 3 the empty one, in others any."""
    if isinstance(s, Lent):
        return s.book
    return EMPTY_BOOK if edition_of(s) == 3 else ANY_BOOKS[len(s) % len(ANY_BOOKS)]


def function2(flags):
    return b"\x8e" + string(b"f") + u16(1) + b"\x02" + string(b"p") + b"\x05" + u16(flags) + body()


def nested(depth):
    """A main body in which bodies stand to this depth, the main body counted."""
    return body() if depth == 1 else body(b"\x94" + nested(depth - 1))


def attempt(shape, target=b""):
    bodies = 1 + shape % 2 + shape // 2 % 2
    return b"\x8f" + bytes([shape]) + target + body(b"\x17") * bodies


GOOD = body(
    b"\x96" + u16(4) + b"\x00" + string(b"abc") + b"\x05\x01" + b"\x06" + bytes(8) + b"\x08" + u16(300),
    b"\x9d" + u16(3),
    attempt(3, string(b"e")),
    function2(511),
    b"\x9a\x01\x00\xff",
    labels=[(3, 1), (1023, 5)],
)
# One of edition 2, with label numbers that it adds.
GOOD_2 = body(
    b"\x9d" + u16(4095),
    b"\x94" + body(b"\x99" + u16(1024), labels=[(0, 0), (1024, 1), (4095, 9)]),
    function2(511),
    labels=[(3, 1), (1023, 3), (1024, 0), (4095, 65535)],
)
# One of edition 3, with strings that are entries and label numbers that edition 1 does not have.
GOOD_3 = body(
    b"\x8b" + named(2),
    b"\x9d" + u16(4095),
    b"\x96" + u16(3) + b"\x00" + named(0) + b"\x00" + string(b"s") + b"\x00" + named(1),
    b"\x9b" + named(0) + u16(2) + named(1) + named(2) + body(b"\x99" + u16(1024), labels=[(1024, 1)]),
    attempt(3, named(0)),
    labels=[(4095, 2)],
)


def sheets():
    # a good sheet, after a note, cut at every byte of its main body; and its trailer cut
    for n in range(len(GOOD) + 1):
        yield sheet(GOOD[:n], note=b"note")
    whole = sheet(GOOD)
    for n in range(1, 9):
        yield whole[:-n]
    # D too large, 0 and too small; another mark
    for d in (len(GOOD) + 1, 4294967295, 0, 1, len(GOOD) - 1):
        yield sheet(GOOD, distance=d)
    yield whole[:-2] + b"A2"
    yield whole[:-2] + b"B1"
    # left over
    yield sheet(GOOD + b"\x00")
    yield sheet(body() + body())
    # a NUL first, in the middle and last; a string cut at its length and at its bytes
    for s in (b"\x00bc", b"a\x00c", b"ab\x00", b"\x00\x00\x00", b"", b"\xff\xfe\x80"):
        yield sheet(body(b"\x8b" + string(s)))
    yield sheet(body(b"\x8b" + b"\x03"))
    yield sheet(body(b"\x8b" + u16(3) + b"ab"))
    # label numbers 1,023 and 1,024, equal and falling ones, in entries and in branches
    for labels in ([(1023, 0)], [(1024, 0)], [(5, 0), (5, 1)], [(5, 0), (4, 0)], [(0, 65535), (1, 0)], [(7, 0), (65535, 0)]):
        yield sheet(body(b"\x17", labels=labels))
    for label in (0, 1023, 1024, 65535):
        yield sheet(body(b"\x99" + u16(label)))
        yield sheet(body(b"\x9d" + u16(label)))
    # depth 16 and 17, and a chain cut right at the body of depth 17
    yield sheet(nested(16))
    yield sheet(nested(17))
    yield sheet(nested(17)[: nested(17).rindex(b"\x94") + 1])
    yield sheet(nested(40))
    # every byte as the first action's opcode, alone and with bytes after it
    for op in range(256):
        yield sheet(body(bytes([op])))
        yield sheet(body(bytes([op]) + bytes(6)))
    # every push kind, and a boolean of 2
    for kind in range(256):
        yield sheet(body(b"\x96" + u16(1) + bytes([kind]) + bytes(2)))
    for flag in (0, 1, 2, 255):
        yield sheet(body(b"\x96" + u16(1) + b"\x05" + bytes([flag])))
        yield sheet(body(b"\x9a" + bytes([flag]) + b"\x00\x00"))
        yield sheet(body(b"\x9a\x01" + bytes([flag]) + b"\x00"))
        yield sheet(body(b"\x9f" + u16(1) + bytes([flag])))
    # every Try shape; those without other bits also with a name and with a register
    for shape in range(256):
        yield sheet(body(b"\x8f" + bytes([shape])))
    for shape in range(8):
        yield sheet(body(attempt(shape, string(b"e"))))
        yield sheet(body(attempt(shape, b"\x03")))
        yield sheet(body(attempt(shape)))
    # flags up to bit 8, and from bit 9 on
    for flags in (0, 511, 512, 1023, 32768, 65535):
        yield sheet(body(function2(flags)))


def editions():
    """Document 02's item 6: a sheet, and the number and value of its reading; a sheet that reads whole is 0 0."""
    whole, refused = (0, 0), (2, 0)
    for edition, labels in LABELS.items():
        of = lambda main, note=b"": sheet(main, note=note, edition=edition)
        # the same sheets, with small label numbers, in every edition
        yield of(body()), whole
        yield of(GOOD, note=b"note"), whole
        yield of(GOOD + b"\x00"), (7, len(GOOD))
        yield of(nested(16)), whole
        yield of(nested(17)), (6, 80)
        # at all bounds, as an entry, behind another entry, as branches, in a body and behind a note
        for label in (0, 1023, 1024, 1025, 2048, 4094, 4095, 4096, 4097, 8192, 65535):
            at = lambda place: whole if label < labels else (5, place)
            yield of(body(b"\x17", labels=[(label, 0)])), at(2)
            if label > 0:
                yield of(body(b"\x17", labels=[(label - 1, 0), (label, 0)])), at(6) if label <= labels else (5, 2)
            yield of(body(b"\x99" + u16(label))), at(5)
            yield of(body(b"\x17", b"\x9d" + u16(label), labels=[(0, 0)])), at(10)
            yield of(body(b"\x94" + body(b"\x99" + u16(label)))), at(10)
            yield of(body(b"\x94" + body(labels=[(label, 65535)])), note=b"note"), at(11)
            # a field that is cut comes before its value, and behind the value of the field before it
            yield of(body(b"\x99" + u16(label))[:-1]), (3, 5)
            yield of(u16(1) + u16(label)[:-1]), (3, 2)
            yield of(u16(1) + u16(label)), (3, 4) if label < labels else (5, 2)
        # equal and falling ones, with small numbers and with large ones
        for first, second in ((5, 5), (5, 4), (1023, 1023), (1024, 1024), (1024, 1023), (4095, 1024), (4095, 0), (4095, 4095)):
            yield of(body(labels=[(first, 0), (second, 0)])), (5, 6 if first < labels else 2)
        # D too large; another mark
        yield sheet(GOOD, distance=len(GOOD) + 1, edition=edition), refused
        yield of(GOOD)[:-1] + b"2", refused
    # no other edition is taken, and 2 comes before what is wrong with a main body
    for edition in OTHER_EDITIONS:
        for main in (body(), GOOD_2, body(b"\x99" + u16(4096)), b"\xff"):
            yield sheet(main, edition=edition), refused
    # a good one, cut at every byte of its main body
    for n in range(len(GOOD_2)):
        yield sheet(GOOD_2[:n], edition=2), None
    yield sheet(GOOD_2, edition=2), whole
    yield sheet(GOOD_2), (5, 10)


# Entries, with a note that would be two entries more.
WORDS, NOTE = (b"ab", b"", b"\xffcd"), b"\x01\0n\0\0"
GOOD_BOOK = book(*WORDS, note=NOTE)


def bad_books():
    """Books that are bad, each in one way."""
    front, trailer = GOOD_BOOK[:-8], GOOD_BOOK[-8:]
    n = len(front) - len(NOTE)
    # under 8 bytes, and another mark
    yield from (EMPTY_BOOK[:7], EMPTY_BOOK[1:], b"", b"B1")
    yield from (GOOD_BOOK[:-2] + mark for mark in (b"A1", b"B2", b"1B", b"B\0"))
    # the book and its front cut at every byte, with the trailer as it was and with one that fits
    for at in range(len(NOTE), len(front)):
        yield GOOD_BOOK[:at]
        yield front[len(NOTE) : at] + trailer
        yield book(note=front[:at], distance=at - len(NOTE), count=len(WORDS))
    # a NUL first, in the middle and last, in the first entry and in the last
    for nul in (b"\0bc", b"a\0c", b"ab\0", b"\0"):
        yield from (book(nul, b"d"), book(b"abc", nul), book(b"", nul, b"d"))
    # too far back, by little and by much; not at an entry; no distance for entries, and one for none
    far = (len(front) + 1, len(front) + 8, 65536 + n, 1 << 31, (1 << 32) - 1)
    for distance in (*far, n + 1, n - 1, n - 2, 1, 0):
        yield book(*WORDS, note=NOTE, distance=distance)
    yield from (book(distance=1), book(note=b"\0", distance=1), book(note=b"\0\0", distance=2))
    # too few and too many
    for count in (0, 1, 2, 4, 5, 259, 65535):
        yield book(*WORDS, note=NOTE, count=count)
    yield from (book(count=1), book(count=65535), book(b"", count=2))


def good_books():
    """Books with these words: with a note of each kind."""
    yield from (book(*WORDS), GOOD_BOOK)
    for note in (b"\0", b"\xff" * 9, EMPTY_BOOK, book(*WORDS), b"n" * 256):
        yield book(*WORDS, note=note)


# An action with a string, in each place where one can stand; and where the string stands behind the opcode. What comes behind the
# string is not needed for it to be read.
PLACES = [
    (lambda s: b"\x8b" + s, 1),
    (lambda s: b"\x8c" + s, 1),
    (lambda s: b"\x83" + s + string(b"t"), 1),
    (lambda s: b"\x83" + string(b"u") + s, 4),
    (lambda s: b"\x88" + u16(1) + s, 3),
    (lambda s: b"\x88" + u16(3) + string(b"a") + string(b"bc") + s, 10),
    (lambda s: b"\x9b" + s + u16(0) + body(), 1),
    (lambda s: b"\x9b" + string(b"f") + u16(2) + string(b"") + s + body(), 8),
    (lambda s: b"\x8e" + s + u16(0) + b"\x00" + u16(0) + body(), 1),
    (lambda s: b"\x8e" + string(b"") + u16(1) + b"\x01" + s + b"\x02" + u16(511) + body(), 6),
    (lambda s: b"\x8f\x03" + s + body() + body() + body(), 2),
    (lambda s: b"\x96" + u16(1) + b"\x00" + s, 4),
    (lambda s: b"\x96" + u16(2) + b"\x02\x00" + s, 5),
]


def entry_numbers():
    """Entry numbers in each place of a string: a sheet, and the number and value of its reading."""
    lend = lambda main, book=GOOD_BOOK, **more: Lent(sheet(main, edition=3, **more), book)
    for action, n in PLACES:
        at = 4 + 1 + n
        of = lambda entry: body(b"\x17", action(named(entry)))
        for entry in range(len(WORDS)):
            yield lend(of(entry)), (0, 0)
        # at the count and past it, and in a book without entries
        for entry in (len(WORDS), len(WORDS) + 1, 256, 65534, 65535):
            yield lend(of(entry), note=b"note"), (5, 4 + at + 2)
        yield lend(of(0), EMPTY_BOOK), (5, at + 2)
        # cut: the length, the number, and behind it
        for cut, due in ((0, 0), (1, 0), (2, 2), (3, 2)):
            yield lend(of(0)[: at + cut]), (3, at + due)
            yield lend(of(0)[: at + cut], EMPTY_BOOK), (3, at + due)
        # in editions 1 and 2 it is a length, with nothing behind it or not enough
        for edition in (1, 2):
            yield Lent(sheet(body(b"\x17", action(named(0))[: n + 4]), edition=edition), GOOD_BOOK), None
    # behind the number the sheet goes on: an unknown code, what would be the string's bytes, the next string
    yield lend(body(b"\x8b" + named(0), b"\x01")), (4, 9)
    yield lend(body(b"\x8b" + named(0)) + b"ab"), (7, 9)
    yield lend(body(b"\x83" + named(2) + named(3))), (5, 11)
    yield lend(body(b"\x83" + named(2) + string(b"a\0"))), (5, 12)


def word_books():
    """Document 02's item 8: a sheet with its book, and the number and value of its reading."""
    unnamed, names = body(b"\x8b" + string(b"x")), body(*[b"\x8b" + named(entry) for entry in range(len(WORDS))])
    # good and bad, with entries named and not; editions 1 and 2 do not look at them
    for good in good_books():
        yield Lent(sheet(names, edition=3), good), (0, 0)
    for i, bad in enumerate(bad_books()):
        yield Lent(sheet((names, unnamed)[i % 2], edition=3), bad), (18, 0)
        if len(bad) < 1000:
            yield Lent(sheet((names, unnamed)[i % 2][:-1], edition=3), bad), (18, 0)
            yield Lent(sheet(unnamed, edition=1 + i % 2), bad), (0, 0)
    for main in (body(), unnamed):
        yield Lent(sheet(main, edition=3), EMPTY_BOOK), (0, 0)
    yield Lent(sheet(names, edition=3), EMPTY_BOOK), (5, 7)
    # 18 comes behind 2 and before 3 to 7
    bad = book(count=1)
    faults = [(b"", (3, 0)), (body(b"\x01"), (4, 4)), (body(b"\x99" + u16(4096)), (5, 5)), (nested(17), (6, 80))]
    for main, due in [*faults, (body() + b"\0", (7, 4))]:
        yield Lent(sheet(main, edition=3), GOOD_BOOK), due
        yield Lent(sheet(main, edition=3), bad), (18, 0)
        yield Lent(sheet(main, edition=2), bad), due
        yield Lent(sheet(main, edition=4), bad), (2, 0)
        yield Lent(sheet(main, edition=3)[:-1], bad), (2, 0)
        yield Lent(sheet(main, edition=3, distance=len(main) + 1), bad), (2, 0)
    # in edition 3 a length of 65,534 is plain and one of 65,535 is not; in a book it is
    longest = book(b"a" * 65535, b"b")
    yield Lent(sheet(body(b"\x8b" + named(0), b"\x8b" + named(1)), edition=3), longest), (0, 0)
    # a good one, with entries named, cut at every byte of its main body
    for n in range(len(GOOD_3)):
        yield Lent(sheet(GOOD_3[:n], edition=3), GOOD_BOOK), None
    yield Lent(sheet(GOOD_3, edition=3), GOOD_BOOK), (0, 0)
    yield Lent(sheet(GOOD_3, edition=2), GOOD_BOOK), (3, 11)
    yield from entry_numbers()


def probed(count):
    """Entry numbers of a book of so many entries: the first, the last, and around multiples of 2, 4, 8 and 16 and some COUNTS."""
    near = [0, 32, *[n for n in COUNTS if n <= count][-3:], count // 2, count]
    found = {n + k for n in near for k in (-17, -16, -15, -9, -8, -7, -5, -4, -3, -2, -1, 0, 1, 2, 3, 4, 5, 7, 8, 9, 15, 16, 17)}
    return sorted(n for n in found if 0 <= n < count)


def counts():
    """Books of many entries, all empty: a sheet that names some and last one that there is not, and the number and value.

    They are long: packings.py, which has patterns, has all COUNTS.
    """
    for count in (4096, 4097, 8193, 16385, 32768, 32769, 65535):
        actions = [b"\x8b" + named(entry) for entry in (*probed(count), count)]
        main = body(*actions)
        yield Lent(sheet(main, edition=3), book(*[b""] * count)), (5, len(main) - 2)


def entries():
    """As many label entries as edition 2 has label numbers: a sheet, and the number and value of its reading."""
    yield sheet(body(b"\x99" + u16(4095), labels=[(n, n % 3) for n in range(4096)]), edition=2), (0, 0)


def numbered():
    """Document 02's item 7: a sheet, and the number, value and action number of its reading."""
    pop, wrong = b"\x17", b"\x99" + u16(65535)
    # what stands before a body, from its owner's opcode on, and how many actions that is; no body of the owner comes behind it
    owners = [
        (b"\x94", 1),
        (b"\x9b" + string(b"f") + u16(0), 1),
        (function2(0)[:-4], 1),
        (b"\x8f\x00", 1),
        (b"\x8f\x01" + string(b"e") + body(pop), 2),
        (b"\x8f\x07\x03" + body(b"\x94" + body(pop)) + body(pop), 4),
    ]
    # from the body on: the bytes, the number, and the place and the action counted from there
    faults = [
        # the count of entries, a label, its index and the count of actions give the next action
        (b"", 3, 0, 0),
        (u16(1) + u16(65535), 5, 2, 0),
        (u16(1) + u16(5) + b"\x00", 3, 4, 0),
        (u16(0) + b"\x01", 3, 2, 0),
        # so does an opcode that is missing; an unknown one is the action's own, and so are a count, a kind and a label
        (body(pop, pop)[:-1], 3, 5, 1),
        (body(pop, b"\x01"), 4, 5, 1),
        (body(pop, b"\x88\x01"), 3, 6, 1),
        (body(pop, b"\x96" + u16(1) + b"\x01"), 4, 8, 1),
        (body(pop, wrong), 5, 6, 1),
        # behind the body: an opcode that is missing, a label, and bytes that are left over
        (body(pop, pop), 3, 6, 2),
        (body(pop) + wrong, 5, 6, 1),
        (body(pop, pop) + pop + pop, 7, 7, 3),
    ]
    for owner, n in owners:
        front = u16(0) + u16(3) + pop + owner
        for rest, number, place, action in faults:
            yield sheet(front + rest), (number, len(front) + place, 1 + n + action)
    # a body that is too deep: a Pop beside each With; in functions; in the last bodies of Trys, where the first of one is too deep
    yield sheet((u16(0) + u16(2) + pop + b"\x94") * 16), (6, 96, 31)
    yield sheet((u16(0) + u16(1) + b"\x9b" + string(b"") + u16(0)) * 16 + body()), (6, 144, 15)
    attempts = u16(0) + u16(1) + b"\x8f\x02" + body(pop)
    yield sheet(attempts * 15 + attempts[:6] + body()), (6, 171, 30)
    # behind a body
    withs = (u16(0) + u16(1) + b"\x94") * 15
    yield sheet(u16(0) + u16(2) + b"\x94" + body(pop, pop) + b"\x94" + withs + body()), (6, 87, 18)


def question(s, room):
    """A sheet after its length, its book after its length, and the room."""
    lent = book_of(s)
    return b"".join(struct.pack("<I", len(part)) + part for part in (s, lent)) + struct.pack("<I", room)


def main():
    dues = [(s, None) for s in sheets()] + [*editions(), *entries(), *numbered(), *word_books(), *counts()]
    questions = [question(s, 1 << 20) for s, _ in dues]
    stream = b"".join(questions)
    assert len(stream) <= SPACE, len(stream)
    # a question to the oracle ends in the mode, which has no part in reading
    asked = b"".join(question + b"\x00" for question in questions)
    answers = subprocess.run([ORACLE, "stream"], input=asked, stdout=subprocess.PIPE, check=True).stdout
    told, at = [], 0
    while at < len(answers):
        number, value, action, length = struct.unpack_from("<BqII", answers, at)
        at += 17 + length
        told.append((number, value, action) if 1 <= number <= 7 or number == 18 else (0, 0, 0))
    assert len(told) == len(dues)
    for (s, due), answer in zip(dues, told):
        assert due is None or due == answer[: len(due)], (s.hex(), due, answer)
    numbering.check((s, book_of(s), *answer) for (s, _), answer in zip(dues, told))
    open(f"{CRATE}/stdin", "wb").write(stream)
    open(f"{CRATE}/stdout", "w").write("".join(f"{number} {value} {action}\n" for number, value, action in told))
    of_edition_3 = sum(edition_of(s) == 3 for s, _ in dues)
    numbers = dict(sorted(Counter(number for number, *_ in told).items()))
    print(len(told), "sheets,", of_edition_3, "of them of edition 3,", len(stream), "bytes,", numbers)


if __name__ == "__main__":
    main()
