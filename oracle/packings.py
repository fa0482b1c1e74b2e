#!/usr/bin/env python3
"""Writes stdin and stdout of crates/replay: sheets with books and rooms, and what the oracle answers to each in every mode.

Run in the checkout after the oracle is built: python3 oracle/packings.py
"""
import re
import struct
import subprocess
from collections import Counter

import numbering
import readings
from readings import COUNTS, EMPTY_BOOK, GOOD_BOOK, LABELS, ORACLE, OTHER_EDITIONS, WORDS, Lent
from readings import body, book, book_of, edition_of, function2, named, nested, probed, sheet, string, u16

GENERATE = "oracle/target/release/generate"
# The rooms that are called ample: of small sheets, and of long ones all that the program can lend.
SHEETS_SPACE, LONG_SPACE = 4096, 1048514
POP, PLAY, STOP, CALL = b"\x17", b"\x06", b"\x07", b"\x9e"
# The modes' names by their bytes: bit 0 is strict, bit 1 contained.
MODES = ("plain", "strict", "contained", "both")
PLAIN = 0


def jump(label):
    return b"\x99" + u16(label)


def branch(label):
    return b"\x9d" + u16(label)


def with_(*actions, labels=()):
    return b"\x94" + body(*actions, labels=labels)


def function(name, params, inside):
    return b"\x9b" + string(name) + u16(len(params)) + b"".join(map(string, params)) + inside


def target(n):
    """SetTarget of n letters."""
    return b"\x8b" + string(b"a" * n)


def push(*values):
    return b"\x96" + u16(len(values)) + b"".join(values)


def attempt(first, catch=None, last=None, name=b"e"):
    """Try, whose bodies are given; with a catch body, into a name."""
    shape = (catch is not None) + 2 * (last is not None)
    return b"\x8f" + bytes([shape]) + (b"" if catch is None else string(name)) + first + (catch or b"") + (last or b"")


def at_depth_16(inside):
    """A main body that holds this body at depth 16."""
    for _ in range(15):
        inside = body(b"\x94" + inside)
    return inside


# P1 to P12 of document 01: a main body, and its block.
HAND = [
    (body(), "00"),
    (body(CALL), "9E 00 00 00"),
    (body(push(b"\x08" + u16(255))), "96 02 00 08 FF 00"),
    (body(push(b"\x08" + u16(256))), "96 03 00 09 00 01 00"),
    (body(push(b"\x06" + struct.pack("<d", 1.0))), "96 09 00 06 00 00 F0 3F 00 00 00 00 00"),
    (body(jump(0), labels=[(0, 0)]), "99 02 00 FB FF 00"),
    (body(jump(0), labels=[(0, 2)]), "99 02 00 00 00 00"),
    (body(with_(POP)), "94 02 00 01 00 17 00"),
    (
        body(b"\x8e" + string(b"f") + u16(1) + b"\x01" + string(b"x") + b"\x02" + u16(257) + body()),
        "8E 0C 00 66 00 01 00 02 01 01 01 78 00 00 00 00",
    ),
    (body(attempt(body(PLAY), last=body(STOP))), "8F 08 00 02 01 00 00 00 01 00 00 06 07 00"),
    (body(b"\x9a\x01\x00\x07"), "9A 01 00 83 00"),
    (body(jump(0), with_(PLAY, labels=[(0, 0)]), labels=[(0, 0)]), "99 02 00 05 00 94 02 00 01 00 06 00"),
]

# Main bodies of edition 3 that name entries of GOOD_BOOK, and their blocks, worked by hand.
HAND_3 = [
    (body(b"\x8b" + named(0)), "8B 03 00 61 62 00 00"),
    (body(b"\x8c" + named(1), b"\x8b" + named(2)), "8C 01 00 00 8B 04 00 FF 63 64 00 00"),
    (body(b"\x83" + named(0) + named(2)), "83 07 00 61 62 00 FF 63 64 00 00"),
    (body(b"\x88" + u16(3) + named(0) + string(b"q") + named(0)), "88 0A 00 03 00 61 62 00 71 00 61 62 00 00"),
    (body(push(b"\x00" + named(0), b"\x02", b"\x00" + named(1))), "96 07 00 00 61 62 00 02 00 00 00"),
    (
        body(b"\x8e" + named(0) + u16(1) + b"\x01" + named(1) + b"\x02" + u16(257) + body()),
        "8E 0C 00 61 62 00 01 00 02 01 01 01 00 00 00 00",
    ),
    (body(b"\x9b" + named(1) + u16(1) + named(0) + body(PLAY)), "9B 08 00 00 01 00 61 62 00 01 00 06 00"),
    (
        body(b"\x8f\x01" + named(0) + body(b"\x8b" + named(1)) + body()),
        "8F 0A 00 01 04 00 00 00 00 00 61 62 00 8B 01 00 00 00",
    ),
    (body(jump(4095), b"\x8b" + named(0), labels=[(4095, 2)]), "99 02 00 06 00 8B 03 00 61 62 00 00"),
]

# Label numbers of edition 2 that have their low bits in common: all 0, and all 1.
ZEROS, ONES = (0, 1024, 2048, 3072), (255, 1023, 2047, 4095)
# Main bodies of edition 2 that name label numbers from 1,024 on, and their blocks, worked by hand.
HAND_2 = [
    (body(jump(4095), labels=[(4095, 0)]), "99 02 00 FB FF 00"),
    (body(branch(1024), labels=[(1024, 1)]), "9D 02 00 00 00 00"),
    (body(jump(1024)), "99 02 00 00 00 00"),
    (body(jump(4095), labels=[(1023, 0), (4095, 2)]), "99 02 00 00 00 00"),
    (
        body(*map(jump, ZEROS), labels=zip(ZEROS, (3, 2, 1, 0))),
        "99 02 00 0A 00 99 02 00 00 00 99 02 00 F6 FF 99 02 00 EC FF 00",
    ),
    (
        body(*map(branch, ONES), labels=zip(ONES, (4, 0, 1, 2))),
        "9D 02 00 0F 00 9D 02 00 F6 FF 9D 02 00 F6 FF 9D 02 00 F6 FF 00",
    ),
    (body(jump(4095), with_(PLAY, labels=[(4095, 0)]), labels=[(4095, 0)]), "99 02 00 05 00 94 02 00 01 00 06 00"),
    (body(function(b"f", [], body(jump(1024), labels=[(1024, 0)]))), "9B 06 00 66 00 00 00 05 00 99 02 00 FB FF 00"),
]


def all_named(s, note=b""):
    """A sheet of edition 1 or 2 that spells its strings, in edition 3: they are all entries of its book."""
    numbers, main, start = {}, b"", len(s) - 8 - struct.unpack_from("<I", s, len(s) - 8)[0]
    at = start
    for first, end in numbering.read(s, b"", None).strings:
        main += s[at:first] + named(numbers.setdefault(s[first + 2 : end], len(numbers)))
        at = end
    lent = Lent(sheet(main + s[at:-8], note=s[:start], edition=3), book(*numbers, note=note))
    lent.spelt = s
    return lent


def labels_and_branches():
    play = with_(PLAY, labels=[(0, 0)])
    # the outer record after the inner one, before it, and both in turn; index at the count and past it; never met
    for index in range(5):
        yield body(jump(0), play, branch(0), labels=[(0, index)])
    for index in (1, 2, 3, 65535):
        yield body(jump(0), POP, labels=[(0, index)])
    yield body(jump(0), branch(1023))
    yield body(POP, jump(7), with_(POP, labels=[(7, 2)]), labels=[(6, 0), (8, 0)])
    # an entry alone; several at one index, in and out of order; empty bodies that record
    yield body(labels=[(0, 0)])
    yield body(jump(1), jump(2), jump(1023), labels=[(1, 3), (2, 3), (1023, 0)])
    yield body(jump(3), with_(labels=[(3, 0)]), with_(labels=[(3, 0)]), with_(labels=[(3, 1)]))
    # into a body, out of one, from one to another, and each body of a Try recording the same label
    inner = body(jump(5), POP, branch(6), labels=[(5, 2), (6, 9)])
    yield body(jump(5), b"\x94" + inner, jump(5), labels=[(6, 1)])
    yield body(function(b"f", [b"x"], inner), function2(1), jump(5), labels=[(6, 3)])
    for records in ((0, 2, 2), (2, 0, 2), (2, 2, 0), (1, 1, 1), (0, 1, 2)):
        bodies = [body(jump(0), labels=[(0, index)]) for index in records]
        yield body(branch(0), attempt(*bodies), jump(0))
        yield body(branch(0), attempt(bodies[0], last=bodies[2]), jump(0))
        yield body(branch(0), attempt(bodies[0], bodies[1], name=b""), jump(0))
    # at depth 16
    yield at_depth_16(body(jump(0), POP, labels=[(0, 2)]))
    yield at_depth_16(body(labels=[(0, 0)]))
    yield body(jump(0), at_depth_16(body(labels=[(0, 0)]))[4:], labels=[(1, 0)])
    yield nested(16)
    for deeper in (with_(), function2(0), attempt(body(), body(), body())):
        yield at_depth_16(body(POP, deeper))


def strings_and_values():
    for s in (b"", b"a", b"\xff\xfe\x80", b"\xc3\x28\xa5", "ä€𝄞".encode()):
        t = string(s)
        yield body(b"\x83" + t + string(b"t"), b"\x83" + string(b"u") + t)
        yield body(b"\x8b" + t, b"\x8c" + t, b"\x88" + u16(2) + t + t)
        yield body(function(s, [s, b"p"], body(PLAY)), push(b"\x00" + t, b"\x02", b"\x00" + t))
        yield body(b"\x8e" + t + u16(2) + b"\x00" + t + b"\xff" + t + b"\x03" + u16(511) + body(STOP))
        yield body(attempt(body(PLAY), body(STOP), body(), name=s))
    yield body(b"\x8b" + string(bytes(range(1, 256))))
    yield body(b"\x8f\x05\xc8" + body(PLAY) + body(STOP), b"\x8f\x07\x00" + body() + body(POP) + body(PLAY))
    # every push kind with its ends, and doubles whose bits could be lost
    for n in (0, 1, 255, 256, 257, 65535):
        yield body(push(b"\x08" + u16(n)))
    for n in (0, -1, 1, 2**31 - 1, -(2**31)):
        yield body(push(b"\x07" + struct.pack("<i", n)))
    for bits in (0, 1 << 63, 0x7FF0000000000001, 0xFFF8123456789ABC, 0x0123456789ABCDEF):
        yield body(push(b"\x06" + struct.pack("<Q", bits)))
    yield body(push(), push(b"\x02", b"\x03", b"\x04\x00", b"\x04\xff", b"\x05\x00", b"\x05\x01", b"\x07" + bytes(4)))


def every_opcode():
    for op in range(256):
        yield body(bytes([op]))
    for n in (0, 1, 65535):
        yield body(b"\x81" + u16(n), b"\x8a" + u16(n) + b"\xfe", b"\x9f" + u16(n) + b"\x00", b"\x9f" + u16(n) + b"\x01")
    for n in (0, 255):
        yield body(b"\x87" + bytes([n]), b"\x8d" + bytes([n]))
    for method in (0, 1, 2, 3, 4, 7, 252, 255):
        for flags in (b"\x00\x00", b"\x00\x01", b"\x01\x00", b"\x01\x01"):
            yield body(b"\x9a" + flags + bytes([method]))
    for bit in range(9):
        yield body(function2(1 << bit))
    yield body(function2(511), function(b"", [], body()), CALL, CALL, b"\x00", POP)


def small_questions():
    """Of each sheet that plain mode takes: ample room, the exact one, one less and none."""
    mains = [main for main, _ in HAND] + [*labels_and_branches(), *strings_and_values()]
    sheets = [sheet(main) for main in mains] + [sheet(mains[11], note=b"a note"), sheet(mains[11], note=bytes(9))]
    sheets += [sheet(main, edition=2) for main, _ in HAND + HAND_2] + [sheet(HAND_2[0][0], note=b"a note", edition=2)]
    sheets += [sheet(main, edition=3) for main, _ in HAND + HAND_2] + [sheet(HAND_2[0][0], note=b"a note", edition=3)]
    sheets += [Lent(sheet(main, edition=3), GOOD_BOOK) for main, _ in HAND_3]
    sheets += [all_named(sheet(main), note=b"note") for main in strings_and_values()]
    for s, (number, n, *_) in zip(sheets, answers((s, SHEETS_SPACE, PLAIN) for s in sheets)):
        yield s, SHEETS_SPACE
        if number == 0:
            yield from ((s, room) for room in (n, n - 1, 0))
    for main in every_opcode():
        yield sheet(main), SHEETS_SPACE
    # editions 2 and 3 with small label numbers
    for main in labels_and_branches():
        yield sheet(main, edition=2), SHEETS_SPACE
        yield all_named(sheet(main)), SHEETS_SPACE
    # 2 to 7 come before 11, and so does 18
    for i, s in enumerate([*readings.sheets(), *(s for s, _ in readings.editions())]):
        if i % 9 == 0:
            yield s, i % 2 * 7
    for i, (s, _) in enumerate(readings.word_books()):
        if i % 3 != 2:
            yield s, i % 2 * 7
    # a block of 64 bytes and of 65, and a sheet that takes all the room there is
    for n in (63, 64):
        yield from ((sheet(body(*[POP] * n)), room) for room in (n, n + 1, n + 2))
    for kind in (("mixed", 200, 2, 1), ("damaged", 90, 41, 3), ("small", 60, 1501, 1), ("books", 300, 301, 1)):
        yield from generated(*kind, SHEETS_SPACE)


def alike(due):
    """An answer in every mode."""
    return due, due, due, due


def by_strict(plain, strict):
    """The answers where contained mode refuses nothing."""
    return plain, strict, plain, strict


def by_contained(plain, contained):
    """The answers where strict mode refuses nothing."""
    return plain, plain, contained, contained


# The sums that document 01 runs: a main body, and the answer's number and value in every mode; document 01 gives 0 no value here.
RUN = [
    (body(target(65534)), 0, None),
    (body(target(65535)), 8, 65536),
    (body(with_(*[POP] * 65535)), 0, None),
    (body(with_(CALL, *[POP] * 65533)), 9, 65536),
    (body(jump(0), *[POP] * 32767, labels=[(0, 32768)]), 0, None),
    (body(jump(0), *[POP] * 32768, labels=[(0, 32769)]), 10, 32768),
    (body(*[POP] * 32763, jump(0), labels=[(0, 0)]), 0, None),
    (body(*[POP] * 32764, jump(0), labels=[(0, 0)]), 10, -32769),
]


def of_length(n):
    """A body that is written with n bytes, up to 65,541 of them."""
    calls = max(0, (n - 65535 + 1) // 2)
    return body(*[CALL] * calls, *[POP] * (n - 3 * calls))


def orders():
    """Which of two overflows is met first: a main body, and the answer's number and value in every mode."""
    bad_payload = body(target(65535))
    # of the bodies of a Try that are too long, try before catch before finally
    for long in range(1, 8):
        lengths = [65536 + 2 * k if long >> k & 1 else 65535 - k for k in range(3)]
        first = next(n for n in lengths if n > 65535)
        yield body(attempt(*map(of_length, lengths))), 9, first
        if not long & 2:
            yield body(attempt(of_length(lengths[0]), last=of_length(lengths[2]))), 9, first
        # they are tested after all three are written, and after what stands in them
        yield body(attempt(of_length(lengths[0]), of_length(lengths[1]), bad_payload)), 8, 65536
    yield body(attempt(of_length(65536), bad_payload, of_length(65540))), 8, 65536
    yield body(attempt(bad_payload, of_length(65538), of_length(65540))), 8, 65536
    yield body(attempt(of_length(65536), body(b"\x94" + of_length(65540)), body())), 9, 65540
    # inside a body that is too long too, and after one
    yield body(with_(target(65535), *[CALL] * 30000)), 8, 65536
    yield body(with_(*[CALL] * 30000, target(65535))), 8, 65536
    yield body(b"\x94" + of_length(65536), target(65535)), 9, 65536
    yield body(target(65535), b"\x94" + of_length(65538)), 8, 65536
    yield body(function(b"a" * 65531, [], of_length(65536))), 8, 65536
    # a body's own bodies count, and are tested first
    yield body(with_(b"\x94" + of_length(65531))), 9, 65536
    yield body(with_(b"\x94" + of_length(65538))), 9, 65538
    yield body(function(b"", [], of_length(65536))), 9, 65536
    yield body(function2(0)[:-4] + of_length(65537)), 9, 65537
    # before 10, which goes by writing order
    far = [jump(0), *[POP] * 32768]
    yield body(*far, target(65535), labels=[(0, 32769)]), 8, 65536
    yield body(*far, b"\x94" + of_length(65536), labels=[(0, 32769)]), 9, 65536
    yield body(jump(1), jump(0), *[POP] * 32768, labels=[(0, 32770), (1, 32769)]), 10, 32772
    yield body(branch(2), with_(jump(1)), *[POP] * 40000, jump(0), labels=[(0, 0), (1, 40002), (2, 1)]), 10, 40000
    yield body(*[POP] * 40000, jump(0), jump(1), labels=[(0, 0), (1, 0)]), 10, -40005


# By the edition: three label numbers for the sheets below, and the last that there is. The three of edition 2 have their low bits
# in common.
NUMBERS = {1: (0, 1, 2, 1023), 2: (*ZEROS[1:], 4095), 3: (*ONES[1:], 4094)}


def unrecorded(edition):
    """Document 02's item 1: a main body, and the answer's number and value in plain mode and in strict mode."""
    a, b, c, last = NUMBERS[edition]
    # P7 and P6; no entry at all; a record right behind the branch, in main and in a body
    yield body(jump(a), labels=[(a, 2)]), (0, 6), (14, 3)
    yield body(jump(a), labels=[(a, 0)]), (0, 6), (0, 6)
    yield body(POP, branch(last)), (0, 7), (14, 4)
    yield body(jump(a), labels=[(a, 1)]), (0, 6), (0, 6)
    yield body(branch(a), branch(a), labels=[(a, 1)]), (0, 11), (0, 11)
    yield body(with_(jump(a), labels=[(a, 1)])), (0, 11), (0, 11)
    # a record only later, in another body; beside it, before or behind, an entry past its body's count
    past, records = with_(labels=[(a, 1)]), with_(POP, labels=[(a, 1)])
    yield body(jump(a), records), (0, 12), (0, 12)
    yield body(jump(a), past), (0, 11), (14, 3)
    yield body(jump(a), past, records), (0, 17), (0, 17)
    yield body(jump(a), records, past), (0, 17), (0, 17)
    yield body(jump(a), records, labels=[(a, 3)]), (0, 12), (0, 12)
    yield body(jump(a), past, labels=[(a, 3), (b, 0)]), (0, 11), (14, 3)
    # the first in writing order: inside a body before main, behind a recorded one, in each body of a Try
    yield body(with_(branch(a)), jump(b)), (0, 16), (14, 8)
    yield body(jump(a), with_(branch(b), jump(c)), labels=[(a, 0), (c, 0)]), (0, 21), (14, 13)
    yield body(branch(a), jump(a), with_(jump(b)), labels=[(a, 3)]), (0, 21), (14, 18)
    for k in range(3):
        bodies = [body(POP, jump(a if i == k else b), labels=[(b, 0)]) for i in range(3)]
        yield body(attempt(*bodies)), (0, 31), (14, 16 + 6 * k)
    yield body(function(b"f", [b"xy"], body(jump(a)))), (0, 18), (14, 15)
    yield body(function2(1)[:-4] + body(jump(a))), (0, 21), (14, 18)
    yield at_depth_16(body(jump(a), labels=[(a, 2)])), (0, 81), (14, 78)
    # before 10 and behind it, forward and backward, in one body and in two
    far = [POP] * 32768
    yield body(jump(b), jump(a), *far, labels=[(a, 32770)]), (10, 32768), (14, 3)
    yield body(jump(a), *far, jump(b), labels=[(a, 32769)]), (10, 32768), (10, 32768)
    yield body(branch(b), *far, jump(a), labels=[(a, 0)]), (10, -32778), (14, 3)
    yield body(*far, jump(a), branch(b), labels=[(a, 0)]), (10, -32773), (10, -32773)
    yield body(with_(branch(b), jump(a)), *far, labels=[(a, 32769)]), (10, 32768), (14, 8)
    yield body(with_(jump(a), branch(b)), *far, labels=[(a, 32769)]), (10, 32773), (10, 32773)
    yield body(with_(branch(b)), jump(a), *far, labels=[(a, 32770)]), (10, 32768), (14, 8)
    yield body(with_(jump(a)), jump(b), *far, labels=[(a, 32770)]), (10, 32773), (10, 32773)
    # behind a branch that just reaches, and far into the block
    yield body(jump(a), *far[1:], branch(b), labels=[(a, 32768)]), (0, 32778), (14, 32775)
    yield body(*[target(65534)] * 15, jump(a)), (0, 983076), (14, 983073)
    # 8 and 9 come first, wherever they stand
    for long, answer in ((target(65535), (8, 65536)), (b"\x94" + of_length(65536), (9, 65536))):
        yield body(jump(a), long), answer, answer
        yield body(long, jump(a)), answer, answer
    yield body(with_(jump(a), *[POP] * 65531)), (9, 65536), (9, 65536)


def contained(edition):
    """Document 02's item 9: a main body, and the answers' numbers and values in each mode."""
    a, b, c, _ = NUMBERS[edition]
    f = lambda inside: function(b"f", [], inside)
    records, branches = body(PLAY, labels=[(a, 0)]), body(branch(a))
    # A body of each kind: its action, the bytes before it, and whether it is a function's.
    owners = [
        (f, 9, True),
        (lambda inside: function2(1)[:-4] + inside, 15, True),
        (lambda inside: b"\x94" + inside, 5, False),
        (lambda inside: attempt(inside, body(), body()), 12, False),
        (lambda inside: attempt(body(), inside, body()), 12, False),
        (lambda inside: attempt(body(), body(), inside), 12, False),
    ]
    for owner, n, apart in owners:
        strays = lambda length, operand: by_contained((0, length), (15, operand)) if apart else alike((0, length))
        # into it and out of it
        yield body(owner(records), jump(a)), strays(n + 7, n + 4)
        yield body(owner(branches), labels=[(a, 0)]), strays(n + 6, n + 3)
        # to its end and to what follows it, which is the same position, from outside and from inside
        yield body(owner(body(PLAY, labels=[(a, 1)])), branch(a)), strays(n + 7, n + 4)
        yield body(owner(body(PLAY)), branch(a), labels=[(a, 1)]), alike((0, n + 7))
        yield body(owner(branches), labels=[(a, 1)]), strays(n + 6, n + 3)
        yield body(owner(body(branch(a), labels=[(a, 1)]))), alike((0, n + 6))
        # recorded before it and in it, in it and behind it: the last counts
        yield body(jump(a), owner(records), labels=[(a, 0)]), strays(n + 7, 3)
        yield body(owner(body(jump(a), labels=[(a, 0)])), labels=[(a, 0)]), alike((0, n + 6))
        yield body(jump(a), owner(records), labels=[(a, 2)]), alike((0, n + 7))
        yield body(owner(body(jump(a), labels=[(a, 0)])), labels=[(a, 1)]), strays(n + 6, n + 3)
        # in a function, to its label and from it
        yield body(f(body(owner(branches), labels=[(a, 0)]))), strays(n + 15, n + 12)
        yield body(f(body(owner(records), branch(a)))), strays(n + 16, n + 13)
        # behind it, in the function around it
        yield body(f(body(owner(body(PLAY)), jump(a), labels=[(a, 0)]))), alike((0, n + 16))
        # in a function, to main's label and from main; a function in it
        yield body(f(body(owner(branches))), labels=[(a, 0)]), by_contained((0, n + 15), (15, n + 12))
        yield body(f(body(owner(records))), jump(a)), by_contained((0, n + 16), (15, n + 13))
        yield body(owner(body(f(branches), labels=[(a, 0)]))), by_contained((0, n + 15), (15, n + 12))
        yield body(owner(body(f(records))), jump(a)), by_contained((0, n + 16), (15, n + 13))
    # from one function to another, forward and back; each with a label of the same number; an empty one
    yield body(f(branches), f(records)), by_contained((0, 25), (15, 12))
    yield body(f(records), f(branches)), by_contained((0, 25), (15, 22))
    yield body(*[f(body(jump(a), labels=[(a, 0)]))] * 2), by_contained((0, 29), (15, 12))
    yield body(f(body(labels=[(a, 0)])), jump(a)), by_contained((0, 15), (15, 12))
    # from the deepest function to the one around it and to main
    for index in (0, 14):
        inside = branches
        for depth in range(15):
            inside = body(f(inside), labels=[(a, 0)] if depth == index else [])
        yield inside, by_contained((0, 141), (15, 138))
    # the first in writing order: in a body before main, behind one that stays, in each body of a Try
    yield body(f(records), with_(branch(a)), jump(a)), by_contained((0, 26), (15, 18))
    yield body(jump(b), f(records), jump(b), jump(a), labels=[(b, 0)]), by_contained((0, 26), (15, 23))
    for k in range(3):
        bodies = [body(POP, jump(a if i == k else b), labels=[(b, 0)]) for i in range(3)]
        yield body(f(records), attempt(*bodies)), by_contained((0, 41), (15, 26 + 6 * k))
    # a label without a record is left to strict mode; before one that strays and behind it
    yield body(f(branches)), by_strict((0, 15), (14, 12))
    yield body(f(branches), labels=[(a, 2)]), by_strict((0, 15), (14, 12))
    yield body(f(body(labels=[(a, 1)])), jump(a)), by_strict((0, 15), (14, 12))
    yield body(jump(b), f(records), jump(a)), ((0, 21), (14, 3), (15, 18), (14, 3))
    yield body(f(records), jump(a), jump(b)), ((0, 21), (14, 18), (15, 13), (15, 13))
    # a branch that strays and goes too far, back and forward, out of a function and into it
    far = [POP] * 32768
    yield body(f(records), *far, jump(a)), by_contained((10, -32774), (15, 32781))
    yield body(jump(a), *far, f(records)), by_contained((10, 32777), (15, 3))
    yield body(f(branches), *far, labels=[(a, 32769)]), by_contained((10, 32768), (15, 12))
    yield body(*far, f(branches), labels=[(a, 0)]), by_contained((10, -32782), (15, 32780))
    # one that strays before one that goes too far and behind it; before both, one without a record
    yield body(f(records), jump(a), jump(b), *far, labels=[(b, 32771)]), by_contained((10, 32768), (15, 13))
    yield body(jump(b), f(records), jump(a), *far, labels=[(b, 32771)]), alike((10, 32783))
    yield body(jump(c), f(records), jump(a), jump(b), *far, labels=[(b, 32772)]), ((10, 32768), (14, 3), (15, 18), (14, 3))
    # functions whose first bytes are a power of two from that of another
    yield body(target(243), f(records), jump(a)), by_contained((0, 263), (15, 260))
    yield body(target(65523), f(records), jump(a)), by_contained((0, 65543), (15, 65540))
    yield body(f(branches), target(65518), f(records)), by_contained((10, 65531), (15, 12))
    calls = with_(*[CALL] * 21845)
    yield body(*[calls] * 31, target(65399), f(records), jump(a)), by_contained((11, 2097159), (15, 2097156))
    # 8 and 9 come first, wherever they stand
    for long, answer in ((target(65535), (8, 65536)), (b"\x94" + of_length(65536), (9, 65536))):
        yield body(f(records), jump(a), long), alike(answer)
        yield body(long, f(records), jump(a)), alike(answer)
    yield body(f(body(branch(a), *[POP] * 65531)), labels=[(a, 0)]), alike((9, 65536))


def editions():
    """Document 02's item 6: a sheet, and the answers' numbers and values in each mode."""
    f = lambda inside: function(b"f", [], inside)
    for edition, bound in LABELS.items():
        of = lambda *actions, labels=(): sheet(body(*actions, labels=labels), edition=edition)
        # at the bounds of all editions; a label that is out of bounds is refused where it is met first
        for label in (1, 1022, 1023, 1024, 1025, 2048, 4094, 4095, 4096, 4097, 65535):
            unless = lambda place, answers: answers if label < bound else alike((5, place))
            # an entry, and one behind another; a branch, and one behind another; both
            yield of(POP, labels=[(label, 0)]), unless(2, alike((0, 2)))
            yield of(POP, labels=[(0, 1), (label, 1)]), unless(6, alike((0, 2)))
            yield of(jump(label)), unless(5, by_strict((0, 6), (14, 3)))
            yield of(jump(0), branch(label), labels=[(0, 0)]), unless(12, by_strict((0, 11), (14, 8)))
            yield of(jump(label), labels=[(label, 0)]), unless(2, alike((0, 6)))
            yield of(branch(label), labels=[(label, 2)]), unless(2, by_strict((0, 6), (14, 3)))
            # in a function, in a catch body, and into a function
            yield of(f(body(jump(label)))), unless(15, by_strict((0, 15), (14, 12)))
            yield of(attempt(body(), body(branch(label)))), unless(18, by_strict((0, 18), (14, 15)))
            yield of(f(body(PLAY, labels=[(label, 0)])), jump(label)), unless(12, by_contained((0, 16), (15, 13)))
        # entries of all numbers up to 1,024
        yield of(jump(1024), labels=[(n, 0) for n in range(1025)]), alike((0, 6) if 1024 < bound else (5, 4098))
    # editions 2 and 3 with small label numbers: what document 01 runs
    for main, number, value in RUN:
        yield sheet(main, edition=2), alike((number, value))
        yield all_named(sheet(main)), alike((number, value))
    # the same with large ones: as far as a branch reaches, and one further
    for label in (1024, 4095):
        for pops, answer in ((32767, (0, 32773)), (32768, (10, 32768))):
            yield sheet(body(jump(label), *[POP] * pops, labels=[(label, pops + 1)]), edition=2), alike(answer)
        for pops, answer in ((32763, (0, 32769)), (32764, (10, -32769))):
            yield sheet(body(*[POP] * pops, branch(label), labels=[(label, 0)]), edition=2), alike(answer)
    # numbers that have their low bits in common are four labels: all recorded; one without a record; one recorded in a function
    for numbers in (ZEROS, ONES):
        jumps = [jump(label) for label in numbers]
        yield sheet(body(*jumps, labels=[(label, 4) for label in numbers]), edition=2), alike((0, 21))
        for k, label in enumerate(numbers):
            rest = [(other, 0) for other in numbers if other != label]
            yield sheet(body(*jumps, labels=rest), edition=2), by_strict((0, 21), (14, 3 + 5 * k))
            inside = f(body(labels=[(label, 0)]))
            yield sheet(body(inside, *jumps, labels=rest), edition=2), by_contained((0, 30), (15, 12 + 5 * k))
    # no other edition is taken: 2 comes behind 1 and before all else
    for edition in OTHER_EDITIONS:
        for main in (HAND[5][0], HAND_2[0][0], body(jump(4096))):
            yield sheet(main, edition=edition), alike((2, 0))
    for edition in (2, 3, 4):
        for n in (1048576, 1048577):
            s = sheet(HAND_2[0][0], note=b"n" * (n - 8 - len(HAND_2[0][0])), edition=edition)
            yield s, alike((1, n) if n > 1048576 else (0, 6) if edition < 4 else (2, 0))
            if edition > 2:
                yield Lent(s, b""), alike((1, n) if n > 1048576 else (18, 0) if edition < 4 else (2, 0))
    yield sheet(HAND_2[0][0], distance=12, edition=2), alike((2, 0))
    yield sheet(HAND_2[0][0], edition=2)[:-1] + b"2", alike((2, 0))


def numbered():
    """Document 02's item 7: a main body, and the answers in each mode, with action numbers and not all with values."""
    f = lambda inside: function(b"f", [], inside)
    # An owner of a body, how many actions it has up to that body, itself counted, and behind it; whether it is a function.
    owners = [
        (f, 1, 0, True),
        (lambda inside: function2(1)[:-4] + inside, 1, 0, True),
        (lambda inside: b"\x94" + inside, 1, 0, False),
        (lambda inside: attempt(inside, body(POP), body(POP)), 1, 2, False),
        (lambda inside: attempt(body(POP), inside, body(POP)), 2, 1, False),
        (lambda inside: attempt(body(POP), body(POP), inside), 3, 0, False),
    ]
    far = [POP] * 32768
    for owner, n, m, apart in owners:
        # the second action of its body, where it stands second in main; and the action behind it, where its body has two
        inner, behind = 1 + n + 1, 1 + n + 2 + m
        pops = owner(body(POP, POP))
        # a payload that is too long: inside and behind
        yield body(POP, owner(body(POP, target(65535)))), alike((8, 65536, inner))
        yield body(POP, pops, target(65535)), alike((8, 65536, behind))
        # a body that is too long: its own, behind a body; one inside; its own by the one inside; another behind it
        yield body(with_(POP), owner(of_length(65536))), alike((9, 65536, 2))
        yield body(POP, owner(body(POP, b"\x94" + of_length(65538)))), alike((9, 65538, inner))
        yield body(POP, owner(body(POP, b"\x94" + of_length(65530)))), alike((9, 65536, 1))
        yield body(POP, pops, b"\x94" + of_length(65537)), alike((9, 65537, behind))
        # a branch that goes too far, behind one that every mode takes: inside and behind
        inside = owner(body(POP, jump(1)))
        strays = by_contained if apart else lambda plain, _: alike(plain)
        yield body(branch(0), inside, *far, labels=[(0, 0), (1, 32770)]), strays((10, None, inner), (15, None, inner))
        yield body(branch(0), pops, jump(1), *far, labels=[(0, 0), (1, 32771)]), alike((10, 32768, behind))
        # one without a record
        yield body(branch(0), inside, jump(2), labels=[(0, 0)]), by_strict((0, None), (14, None, inner))
        yield body(branch(0), pops, jump(1), labels=[(0, 0)]), by_strict((0, None), (14, None, behind))
        # one that leaves its function, out of the second in the body and into it
        out, into = f(body(POP, jump(0))), f(body(POP, labels=[(1, 0)]))
        yield body(branch(0), owner(body(POP, out)), labels=[(0, 0)]), by_contained((0, None), (15, None, inner + 2))
        yield body(branch(0), owner(body(POP, into)), jump(1), labels=[(0, 0)]), by_contained((0, None), (15, None, behind + 1))
    # an owner's payload is tested before what stands in its bodies, and Try's bodies after it
    bad_payload = body(POP, target(65535))
    yield body(POP, function(b"a" * 65531, [], bad_payload)), alike((8, 65536, 1))
    yield body(POP, attempt(bad_payload, bad_payload, name=b"a" * 65528)), alike((8, 65536, 1))
    yield body(POP, attempt(of_length(65536), bad_payload, body())), alike((8, 65536, 65537))
    yield body(POP, attempt(of_length(65536), body(POP, b"\x94" + of_length(65538)), body())), alike((9, 65538, 65537))
    yield body(POP, attempt(body(with_(POP)), of_length(65538), of_length(65540))), alike((9, 65538, 1))
    # at depth 16, and as the last of 65,535 actions
    yield at_depth_16(bad_payload), alike((8, 65536, 16))
    yield at_depth_16(body(POP, jump(0))), by_strict((0, None), (14, None, 16))
    yield body(*[POP] * 65534, jump(0)), by_strict((0, 65540), (14, 65537, 65534))
    # behind more actions than a u16 counts
    many = [with_(*[POP] * 65535)] * 2
    yield body(*many, b"\x01"), alike((4, None, 131072))
    yield body(*many, target(65535)), alike((8, 65536, 131072))
    yield body(*many, b"\x94" + of_length(65536)), alike((9, 65536, 131072))
    yield body(*many, jump(0), labels=[(0, 0)]), alike((10, -131085, 131072))
    yield body(*many, jump(0)), by_strict((0, 131086), (14, 131083, 131072))
    yield body(*many, f(body(jump(0))), labels=[(0, 2)]), by_contained((0, 131095), (15, 131092, 131073))
    yield body(*[with_(*[POP] * 65535)] * 15) + POP, alike((7, None, 983040))
    # all other answers give 0
    yield body(with_(POP), POP), alike((0, 8, 0))


def word_books():
    """Document 02's item 8: a sheet with its book, and the answers' numbers and values in each mode."""
    target_of = lambda *entries: body(*[b"\x8b" + named(entry) for entry in entries])
    lend = lambda main, lent, edition=3: Lent(sheet(main, edition=edition), lent)
    # a bad book comes before what a mode refuses, and before 8 to 11; editions 1 and 2 do not look at it
    bad = book(b"a\0")
    for main, edition_2 in (
        (body(target(65535)), alike((8, 65536))),
        (body(b"\x94" + of_length(65536)), alike((9, 65536))),
        (body(*[POP] * 40000, jump(0), labels=[(0, 0)]), alike((10, -40005))),
        (body(jump(0)), by_strict((0, 6), (14, 3))),
        (body(function(b"f", [], body(labels=[(0, 0)])), jump(0)), by_contained((0, 15), (15, 12))),
        (body(*[CALL] * 65535), alike((0, 196606))),
    ):
        yield lend(main, bad), alike((18, 0))
        yield lend(main, bad, edition=2), edition_2
        yield lend(main, bad, edition=1), edition_2
    # the longest entries: of 65,535 bytes for a payload that has room for one less; a book that is longer than they
    longest = book(b"a" * 65535, b"b", b"c" * 65534, note=b"n" * 70000)
    for entry, answer in ((0, (8, 65536)), (1, (0, 6)), (2, (0, 65539)), (3, (5, 7))):
        yield lend(target_of(entry), longest), alike(answer)
    yield lend(target_of(1), longest, edition=2), alike((3, 7))
    for cut in (1, 2, 65535, 65536):
        yield lend(body(), book(note=u16(65535) + b"a" * 65535)[cut:-8] + longest[-8:-4] + b"\x01\x00B1"), alike((18, 0))
        front = (u16(65535) + b"a" * 65535)[:-cut]
        yield lend(body(), book(note=front, distance=len(front), count=1)), alike((18, 0))
    yield lend(target_of(0), book(b"a" * 65534 + b"\0")), alike((18, 0))
    yield lend(target_of(0), book(b"a" * 65535, b"b", count=1)), alike((18, 0))
    # a length of 65,535 is plain in editions 1 and 2; in edition 3 it is entry 24,929, with bytes left over
    plain, many = body(target(65535)), book(*[b""] * 24930)
    for edition, answer in ((1, (8, 65536)), (2, (8, 65536)), (3, (7, 9))):
        yield lend(plain, many, edition=edition), alike(answer)
    yield lend(plain, book(*[b""] * 24929)), alike((5, 7))
    # the longest note, and the longest book that the program has space for
    yield lend(target_of(0, 1, 2), book(*WORDS, note=b"\0" * 1048000)), alike((0, 18))
    yield lend(target_of(15), book(*[b"a" * 65533] * 15, b"b")), alike((0, 6))
    # sheets of the longest length
    for n in (1048575, 1048576, 1048577):
        main = target_of(0, 2)
        s = sheet(main, note=b"n" * (n - 8 - len(main)), edition=3)
        for lent, answer in ((GOOD_BOOK, (0, 14)), (EMPTY_BOOK, (5, n - 15)), (bad, (18, 0))):
            yield Lent(s, lent), alike((1, n) if n > 1048576 else answer)


def many_words(count):
    """So many entries: those that are probed are all different, the others are one letter."""
    words = [b"z"] * count
    for n in probed(count):
        words[n] = b"%x" % n
    return words


def counts():
    """Books of many entries, up to the most, and sheets that name those that are probed: a sheet, and the answers."""
    pool = lambda strings: body(b"\x88" + u16(len(strings)) + b"".join(strings))
    for count in sorted({*COUNTS, *(n - 1 for n in COUNTS), 1, 2, 3, 15, 16, 17}):
        words, numbers = many_words(count), probed(count)
        lent = Lent(sheet(pool([named(n) for n in numbers]), edition=3), book(*words))
        lent.spelt = sheet(pool([string(words[n]) for n in numbers]))
        yield lent, alike((0, None))
        backward = Lent(sheet(pool([named(n) for n in numbers[::-7]]), edition=3), book(*words, note=b"note"))
        backward.spelt = sheet(pool([string(words[n]) for n in numbers[::-7]]))
        yield backward, alike((0, None))
        # empty ones, and a number at the count; one entry too few and one too many
        main = pool([named(0), named(count - 1), named(count)])
        empty = [b""] * count
        yield Lent(sheet(main, edition=3), book(*empty)), alike((5, 17))
        for other in (count - 1, count + 1):
            yield Lent(sheet(main, edition=3), book(*empty, count=other % 65536)), alike((18, 0))


# What a book of LONG_WORDS makes the longest of: a payload, and with it one body of 65,535 bytes, and three.
LONG_WORDS = book(*[b"a" * n for n in (65534, 65531, 65530, 65527)])
LONG_TARGET = b"\x8b" + named(0)
LONG_BODY = body(b"\x8b" + named(1))
LONG_FUNCTION = b"\x9b" + named(2) + u16(0) + LONG_BODY
LONG_TRY = b"\x8f\x03" + named(3) + 3 * LONG_BODY


def long_blocks():
    """Blocks that are longer than a u32 counts, of sheets of edition 3: a sheet, and the answers in each mode."""
    lend = lambda *actions, labels=(): Lent(sheet(body(*actions, labels=labels), edition=3), LONG_WORDS)
    each = 65538
    # with one and with three long bodies; as many as there can be of each; the most that a sheet can come to
    yield lend(LONG_FUNCTION), alike((0, 2 * 65535 + 4))
    yield lend(LONG_TRY), alike((0, 4 * 65535 + 4))
    yield lend(*[LONG_TARGET] * 65535), alike((11, 4295032831))
    yield lend(*[LONG_FUNCTION] * 65535), alike((11, 65535 * 131073 + 1))
    yield lend(*[LONG_TRY] * 31774), alike((11, 8329331683))
    yield lend(*[LONG_TARGET] * 39789, *[LONG_TRY] * 25746), alike((11, 39789 * each + 25746 * 262143 + 1))
    # around 2 to the 31 and 2 to the 32
    for n in (1 << 31, 1 << 32):
        for length in (n - 1, n, n + 1):
            times, rest = divmod(length - 1 - 4, each)
            rest = [target(rest)] if rest + 4 <= each else [target(rest - 4), target(0)]
            yield lend(*[LONG_TARGET] * times, *rest), alike((11, length))
    # refused behind so many bytes, and before them
    front, far = [LONG_TARGET] * 65500, 65500 * each
    f = lambda inside: function(b"f", [], inside)
    yield lend(*front, b"\x83" + named(0) + named(3)), alike((8, 65534 + 65527 + 2, 65500))
    yield lend(*front, with_(LONG_TARGET)), alike((9, each, 65500))
    yield lend(*front, jump(0), labels=[(0, 0)]), alike((10, -far - 5, 65500))
    yield lend(branch(0), *front, labels=[(0, 65501)]), alike((10, far, 0))
    yield lend(*front, jump(0), labels=[(0, 65501)]), alike((11, far + 6, 0))
    yield lend(*front, jump(0)), by_strict((11, far + 6, 0), (14, far + 3, 65500))
    yield lend(*front, f(body(labels=[(0, 0)])), jump(0)), by_contained((11, far + 15, 0), (15, far + 12, 65501))
    yield lend(f(body(labels=[(0, 0)])), *front, jump(0)), by_contained((10, -far - 5, 65501), (15, far + 12, 65501))
    # a function whose first byte is 2 to the 32 from that of main
    start, n = [LONG_TRY, *[LONG_TARGET] * 65530, target(0)], 1 << 32
    strays = lend(*start, f(body(PLAY, labels=[(0, 0)])), jump(0))
    yield strays, by_contained((11, n + 7, 0), (15, n + 4, 65537))


def tables_2():
    """4,096 label entries in edition 2, and a jump to every 65th label: a sheet, and the answers in each mode."""
    actions = [POP if n % 64 else jump(n // 64 * 65) for n in range(4096)]
    done = (0, 64 * 5 + 63 * 64 + 1)
    # at rising indices, at falling ones, and all at one
    for index in (lambda n: n, lambda n: 4095 - n, lambda n: 7):
        yield sheet(body(*actions, labels=[(n, index(n)) for n in range(4096)]), edition=2), alike(done)
    # at the count and past it in turn: the second jump's label has no record
    yield sheet(body(*actions, labels=[(n, 4096 + n % 2) for n in range(4096)]), edition=2), by_strict(done, (14, 71))


def payloads():
    """Payloads of 65,535 and 65,536 bytes, of each kind that can be so long."""
    for n in (65535, 65536):
        s = lambda less: string(b"a" * (n - less))
        yield n, body(b"\x8c" + s(1))
        yield n, body(b"\x83" + s(2) + string(b""))
        yield n, body(b"\x83" + string(b"bc") + s(4))
        yield n, body(b"\x88" + u16(2) + s(5) + string(b"b"))
        yield n, body(b"\x9b" + s(5) + u16(0) + body())
        yield n, body(b"\x9b" + string(b"") + u16(1) + s(6) + body(PLAY))
        yield n, body(b"\x8e" + s(8) + u16(0) + b"\x00" + u16(0) + body())
        yield n, body(b"\x8e" + string(b"f") + u16(1) + b"\x01" + s(11) + b"\x02" + u16(0) + body())
        yield n, body(attempt(body(), body(), name=b"a" * (n - 8)))
        yield n, body(push(b"\x00" + s(2)))
        yield n, body(push(*[b"\x02"] * (n - 5535), b"\x00" + string(b"a" * 5533)))
    yield 65535, body(push(*[b"\x03"] * 65535))
    yield 65537, body(b"\x88" + u16(65535) + bytes(2 * 65535))


def longest_branches(edition):
    """Blocks of 32,768 bytes and a few more, with branches from end to end: to the very start, to the very end, and both."""
    a, b, _, last = NUMBERS[edition]
    for n in (32768, 32769, 32770, 32773, 32774):
        pops = [POP] * (n - 6)
        yield body(*pops, jump(a), labels=[(a, 0)])
        yield body(branch(last), *pops, labels=[(last, n - 5)])
        yield body(jump(b), *pops[5:], branch(a), labels=[(a, 0), (b, n - 9)])
        yield body(with_(jump(a)), *pops[5:], labels=[(a, n - 10)])
        yield body(*pops[5:], with_(jump(a)), labels=[(a, 0)])


def tables():
    """1,024 label entries in edition 1: at rising indices, at falling ones, all at one, at the count and past it."""
    jumps = [jump(label) for label in range(1024)]
    for index in (lambda n: n, lambda n: 1023 - n, lambda n: 1024, lambda n: 1025):
        yield body(*jumps, labels=[(n, index(n)) for n in range(1024)])
    yield body(jump(0), *[POP] * 2000, branch(1023), labels=[(n, 7) for n in range(1024)])


def long_sheets():
    """Sheets of the longest length and over it, and the longest blocks of short sheets."""
    for n in (1048576, 1048577, 1048578):
        yield sheet(HAND[11][0], note=b"n" * (n - 8 - len(HAND[11][0])))
        front = target(65534) * 15
        yield sheet(u16(0) + u16(16) + front + target(n - 15 - len(front)))
    for action in (CALL, jump(0), with_()):
        yield sheet(body(*[action] * 65535))
        yield sheet(body(*[action] * 65535, labels=[(0, 65535)]))
    yield sheet(at_depth_16(of_length(65535 - 14 * 5)))
    yield sheet(at_depth_16(of_length(65536 - 14 * 5)))


def long_questions():
    """Sheets with rooms, and the answers in each mode where documents 01 and 02 give them."""
    dues = [(sheet(main), alike((number, value))) for main, number, value in [*RUN, *orders()]]
    dues += [(all_named(sheet(main)), alike((number, value))) for main, number, value in orders()]
    for edition in LABELS:
        dues += [(in_edition(edition, main), by_strict(plain, strict)) for main, plain, strict in unrecorded(edition)]
        dues += [(in_edition(edition, main), due) for main, due in contained(edition)]
    for s, due in [*dues, *editions(), *word_books()]:
        yield s, ample(s), due
        # 8 to 10, 14 and 15 come before 11
        if any(number in (8, 9, 10, 14, 15) for number, _ in due):
            yield s, 0, tuple(map(without_room, due))
    for s, due in readings.numbered():
        yield s, SHEETS_SPACE, alike(due)
    for i, (main, due) in enumerate(numbered()):
        s, is_taken = numbered_in(1 + i % 3, main, due), any(number == 0 for number, *_ in due)
        yield s, ample(s) if is_taken else SHEETS_SPACE, due
    for s, due in tables_2():
        yield s, LONG_SPACE, due
    for s, due in [*counts(), *long_blocks()]:
        yield s, LONG_SPACE, due
    for n, main in payloads():
        for s in (sheet(main), all_named(sheet(main))):
            yield s, LONG_SPACE, alike((0, None) if n < 65536 else (8, n))
    for edition in LABELS:
        for main in longest_branches(edition):
            yield in_edition(edition, main), LONG_SPACE, alike(None)
    for main in tables():
        yield sheet(main), LONG_SPACE, alike(None)
    sheets = [sheet(main) for main, number, _ in RUN if number == 0] + list(long_sheets())
    for s, (number, n, *_) in zip(sheets, answers((s, LONG_SPACE, PLAIN) for s in sheets)):
        yield s, LONG_SPACE, alike(None)
        if number == 0:
            yield from ((s, room, ((0, n) if room == n else (11, n), None, None, None)) for room in (n, n - 1, 0))
    for family, longest, step in (("distances", LONG_SPACE, 17), ("limits", LONG_SPACE, 19), ("books", 60000, 211)):
        for s, room in generated(family, longest, step, 1, LONG_SPACE):
            # of label entries, which no pattern shortens, there are enough above
            if len(pattern(s)) < 5000 and len(pattern(book_of(s))) < 5000:
                yield s, room, alike(None)


def ample(s):
    return LONG_SPACE if len(s) + len(book_of(s)) > 1000 else SHEETS_SPACE


def in_edition(edition, main):
    """A sheet of an edition; of edition 3 with all strings named."""
    return all_named(sheet(main, edition=2)) if edition == 3 else sheet(main, edition=edition)


def numbered_in(edition, main, due):
    """The same; where reading meets a fault, no string is named, so that its place stays."""
    reads_whole = all(number > 7 or number == 0 for number, *_ in due)
    return in_edition(edition, main) if reads_whole else sheet(main, edition=edition)


def without_room(due):
    number, value = due
    return (11, value) if number == 0 else due


def generated(family, longest, step, seed, space):
    """Every step-th of a family's sheets, with books, both of at most this length, with rooms of at most this space."""
    count = {"mixed": 900, "damaged": 20}.get(family, 1)
    stream = subprocess.run([GENERATE, family, str(seed), str(count)], stdout=subprocess.PIPE, check=True).stdout
    at, seen = 0, 0
    while at < len(stream):
        parts = []
        for _ in ("sheet", "book"):
            (n,) = struct.unpack_from("<I", stream, at)
            parts.append(stream[at + 4 : at + 4 + n])
            at += 4 + n
        (room,) = struct.unpack_from("<I", stream, at)
        at += 5
        if max(map(len, parts)) <= longest:
            if seen % step == 0:
                yield Lent(*parts), min(room, space)
            seen += 1


def question(s, room, mode):
    return readings.question(s, room) + bytes([mode])


def answers(questions):
    """Number, value, action number and block of each answer of the oracle."""
    stream = b"".join(question(*asked) for asked in questions)
    told = subprocess.run([ORACLE, "stream"], input=stream, stdout=subprocess.PIPE, check=True).stdout
    found, at = [], 0
    while at < len(told):
        number, value, action, length = struct.unpack_from("<BqII", told, at)
        found.append((number, value, action, told[at + 17 : at + 17 + length]))
        at += 17 + length
    return found


# Up to six bytes, many times; or one of the actions that are repeated, and are longer.
LONG_ACTIONS = b"|".join(map(re.escape, (LONG_FUNCTION, LONG_TRY)))
REPEATED = re.compile(rb"(" + LONG_ACTIONS + rb"|.{1,6}?)\1{15,}", re.S)


def pattern(s):
    """Bytes as crates/patterns reads them: a run's length, and the bytes that fill it again and again."""
    runs, at = [], 0
    for found in REPEATED.finditer(s):
        runs += [(s[at : found.start()], 1), (found[1], len(found[0]) // len(found[1]))]
        at = found.end()
    # a part has a length of two bytes
    runs = [(part[i : i + 65535], times) for part, times in runs + [(s[at:], 1)] for i in range(0, len(part), 65535)]
    assert b"".join(part * times for part, times in runs) == s
    return b"".join(struct.pack("<IH", len(part) * times, len(part)) + part for part, times in runs)


def record(s, room, mode, number, value, action, block):
    parts = [pattern(part) for part in (s, book_of(s), block)]
    return struct.pack("<IIIIBBqI", *map(len, parts), room, mode, number, value, action) + b"".join(parts)


def check(due, answer):
    """Holds the oracle's answer against what the documents say, as far as they do: number, value and action number."""
    assert all(part in (None, told) for part, told in zip(due or (), answer)), (due, answer[:3])


def main():
    by_hand = [(sheet(main, edition=edition), text) for edition in LABELS for main, text in HAND]
    by_hand += [(sheet(main, edition=edition), text) for edition in (2, 3) for main, text in HAND_2]
    by_hand += [(Lent(sheet(main, edition=3), GOOD_BOOK), text) for main, text in HAND_3]
    told = answers((s, 32, PLAIN) for s, _ in by_hand)
    for (_, text), answer in zip(by_hand, told):
        block = bytes.fromhex(text)
        assert answer == (0, len(block), 0, block), answer

    sheets = [(s, room, alike(None)) for s, room in small_questions()] + list(long_questions())
    asked = [(s, room, mode) for s, room, _ in sheets for mode in range(len(MODES))]
    told = answers(asked)
    for due, answer in zip([due for *_, dues in sheets for due in dues], told):
        check(due, answer)
    # a string that is named is the string that it stands for
    named_ones = [(asked, answer) for asked, answer in zip(asked, told) if hasattr(asked[0], "spelt") and not 1 <= answer[0] <= 7]
    spelt = answers((s.spelt, room, mode) for (s, room, mode), _ in named_ones)
    assert all(by_names == by_letters for (_, by_names), by_letters in zip(named_ones, spelt))
    # all else is as in plain mode
    by_mode = [told[mode :: len(MODES)] for mode in range(len(MODES))]
    for plain, strict, contained, both in zip(*by_mode):
        for number, answer in ((14, strict), (15, contained)):
            assert answer == plain or answer[0] == number and plain[0] in (0, 10, 11), (plain, answer)
        assert both in (strict, contained), (strict, contained, both)
    numbering.check((s, book_of(s), *answer[:3]) for (s, *_), answer in zip(asked, told))
    stdin = b"".join(record(*question, *answer) for question, answer in zip(asked, told))
    assert len(stdin) < 3145728, len(stdin)
    numbers = Counter(number for number, *_ in told)
    lines = [f"{number} {count}\n" for number, count in sorted(numbers.items())] + ["differ 0, first 0\n"]
    open("crates/replay/stdin", "wb").write(stdin)
    open("crates/replay/stdout", "w").write("".join(lines))
    of_2, of_3 = (sum(edition_of(s) == edition for s, *_ in sheets) for edition in (2, 3))
    print(len(sheets), "sheets,", of_2, "of edition 2 and", of_3, "of edition 3, each in every mode,", len(stdin), "bytes")
    for mode, found in zip(MODES, by_mode):
        print(mode, dict(sorted(Counter(number for number, *_ in found).items())))


if __name__ == "__main__":
    main()
