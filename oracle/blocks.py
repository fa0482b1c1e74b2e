#!/usr/bin/env python3
"""Writes stdin and stdout of crates/block, block_full and block_cases: inputs of the block program, and what the oracle prints of each.

Run in the checkout after the oracle is built: python3 oracle/blocks.py
"""
import struct
import subprocess

from packings import CALL, HAND, HAND_2, HAND_3, POP, jump, pattern, push, string
from readings import LABELS, ORACLE, OTHER_EDITIONS, PLACES, body, named, nested, sheet, u16

# What document 01 says of the program: an input, and its text.
SAMPLE = bytes.fromhex("01 00 00 00 00 00 01 00 99 00 00 0B 00 00 00 01 00 41 31")
SAMPLE_TEXT = "0 6\n99 02 00 FB FF 00\n"
# What the program has for its input, and for the block.
SPACE = 65536


def of_size(n):
    """A block of n bytes, its End counted, from few bytes: Call is one byte of a sheet and three of a block."""
    calls, pops = divmod(n - 1, 3)
    return sheet(body(*[CALL] * calls, *[POP] * pops))


def as_long_as(n, main, distance=None):
    """A sheet of n bytes: the rest is a note."""
    return sheet(main, note=b"n" * (n - len(main) - 8), distance=distance)


def in_edition(edition):
    """The sample in another edition."""
    return SAMPLE[:-4] + u16(edition) + SAMPLE[-2:]


def without_entries():
    """Sheets of edition 3 that name an entry, of which the program's book has none, each with the line that it must give."""
    for main, _ in HAND_3:
        # the first string's number stands two bytes behind its length
        yield sheet(main, edition=3), f"5 {main.index(named(0)[:2]) + 2}"
    for action, n in PLACES:
        main = body(POP, action(named(0)))
        yield sheet(main, edition=3), f"5 {5 + n + 2}"
        yield sheet(main[: 5 + n + 3], edition=3), f"3 {5 + n + 2}"


def refusals():
    """2 to 7 and 9 to 11, each with the line that it must give. A sheet so short has no payload for 8, and 18 is not met."""
    for bad in (b"", b"\x01", SAMPLE[:7], SAMPLE[:-1], SAMPLE[:-1] + b"2", sheet(body(), distance=5)):
        yield bad, "2 0"
    for edition in OTHER_EDITIONS:
        yield in_edition(edition), "2 0"
    yield sheet(body(), distance=0), "3 4"
    yield sheet(body(jump(0))[:-1]), "3 5"
    yield as_long_as(65535, body(POP) + b"\x17", distance=6), "7 65526"
    yield sheet(body(b"\xff")), "4 4"
    yield sheet(body(push(b"\x01"))), "4 7"
    for edition, bound in LABELS.items():
        yield sheet(body(jump(bound)), edition=edition), "5 5"
        yield sheet(body(labels=[(bound, 0)]), edition=edition), "5 2"
    yield sheet(body(jump(4095), labels=[(4095, 0)])), "5 2"
    yield from without_entries()
    yield sheet(body(b"\x8b" + string(b"a\0b"))), "5 8"
    yield sheet(nested(17)), "6 80"
    yield sheet(body() + b"\x00"), "7 4"
    yield sheet(body(b"\x94" + body(*[CALL] * 21845, POP))), "9 65536"
    yield sheet(body(jump(0), *[CALL] * 10922, POP, POP, labels=[(0, 10925)])), "10 32768"
    yield sheet(body(*[CALL] * 10921, POP, jump(0), labels=[(0, 0)])), "10 -32769"
    yield sheet(body(*[CALL] * 21000, jump(0), labels=[(0, 0)])), "10 -63005"
    yield of_size(SPACE + 1), "11 65537"
    yield sheet(body(*[CALL] * 65519)), "11 196558"


def blocks():
    """Blocks that end before a line's end, at it and behind it; of all editions; every byte; and the longest."""
    for main, _ in HAND:
        yield sheet(main)
    for main, _ in HAND_2:
        yield sheet(main, edition=2)
    for main, _ in HAND + HAND_2:
        yield sheet(main, edition=3)
    yield sheet(body(jump(4095), labels=[(n, 0) for n in range(4096)]), edition=2)
    for n in (1, 2, 15, 16, 17, 31, 32, 33, 48, 255, 256, 257, 999, 1000, 1001):
        yield of_size(n)
    yield sheet(body(b"\x8b" + string(bytes(range(1, 256)))))
    yield as_long_as(65535, HAND[0][0])
    yield of_size(SPACE)


def text(s):
    """What the oracle prints."""
    return subprocess.run([ORACLE], input=s, stdout=subprocess.PIPE, check=True).stdout.decode()


def records(inputs):
    """Each input's pattern after its length in four bytes."""
    return b"".join(struct.pack("<I", len(p)) + p for p in map(pattern, inputs))


def write(crate, stdin, stdout):
    assert len(stdin) <= SPACE, (crate, len(stdin))
    open(f"crates/{crate}/stdin", "wb").write(stdin)
    open(f"crates/{crate}/stdout", "w").write(stdout)
    print(crate, len(stdin), "bytes in,", len(stdout), "out")


def main():
    assert text(SAMPLE) == text(in_edition(2)) == text(in_edition(3)) == SAMPLE_TEXT
    write("block", SAMPLE, text(SAMPLE))
    full = as_long_as(SPACE, HAND[5][0])
    assert text(full) == "12 65536\n"
    write("block_full", full, text(full))

    cases = [*blocks(), full]
    for s, line in refusals():
        assert text(s) == line + "\n", (line, text(s))
        cases.append(s)
    cases += [in_edition(2), in_edition(3), SAMPLE]
    write("block_cases", records(cases), "".join(map(text, cases)))


if __name__ == "__main__":
    main()
