#!/usr/bin/env python3
"""Writes stdin and stdout of crates/step_cases: byte strings, and what stepping through each answers, as defined here.

Run in the checkout: python3 oracle/steps.py
"""
from collections import Counter
from itertools import product

from blocks import SPACE, records, write
from packings import CALL, HAND, POP
from readings import u16

END = b"\x00"
DONE, UNCLEAN = 0, 13
# Byte strings, and the answers that documents 01 and 02 give them.
VECTORS = {
    "": (13, 0),
    "00": (0, 1),
    "00 00": (0, 2),
    "17": (13, 1),
    "00 17": (13, 2),
    "00 80": (13, 1),
    "17 9E 00": (13, 1),
    "96 05 00 01": (13, 0),
    "80 00 00 00": (0, 2),
    "80 01 00 00": (13, 4),
    "9E 00 00 00 17 00": (0, 4),
    "99 02 00 05 00 94 02 00 01 00 06 00": (0, 4),
}
# End and length 0; lengths that pass the end, by one and by more; Pop; both sides of 80; Call; the largest byte.
BYTES = b"\x00\x01\x02\x17\x7f\x80\x9e\xff"
# An End or a length 0; an opcode of one byte or a length 1; an opcode with a length.
FEW = b"\x00\x01\x80"


def cut(block):
    """The block cut into its steps, and what is left from an opcode on whose step passes the end."""
    steps, at = [], 0
    while at < len(block):
        # where a length byte is missing, the 3 alone passes the end
        size = 1 if block[at] < 0x80 else 3 + int.from_bytes(block[at + 1 : at + 3], "little")
        if at + size > len(block):
            break
        steps.append(block[at : at + size])
        at += size
    return steps, block[at:]


def answer(block):
    """Number and value."""
    steps, left = cut(block)
    if left:
        return UNCLEAN, len(block) - len(left)
    if steps and steps[-1] == END:
        return DONE, len(steps)
    return UNCLEAN, len(block)


def to_first_end(block):
    """Document 01's rule, which document 02 replaces: stepping stops at the first End."""
    steps, _ = cut(block)
    if END not in steps:
        return answer(block)
    made = steps[: steps.index(END) + 1]
    place = len(b"".join(made))
    return (DONE, len(made)) if place == len(block) else (UNCLEAN, place)


def any_last_step(block):
    """Takes a last step that is no End."""
    steps, left = cut(block)
    return (DONE, len(steps)) if steps and not left else answer(block)


def ends_counted(block):
    """Counts Ends only."""
    number, value = answer(block)
    return (number, value) if number != DONE else (number, cut(block)[0].count(END))


def length_as_place(block):
    """Answers a step past the end with the block's length."""
    number, value = answer(block)
    return (number, value) if number == DONE else (number, len(block))


WRONG = (to_first_end, any_last_step, ends_counted, length_as_place)


def strings(alphabet, sizes):
    """Every byte string of these lengths."""
    for n in sizes:
        yield from map(bytes, product(alphabet, repeat=n))


def push(n):
    """The opcode of Push, which declares n bytes."""
    return b"\x96" + u16(n)


def longest():
    """Blocks that fill the space."""
    for fill in (END, POP, b"\xff"):
        # a payload up to the end; an End behind it; a last byte 00 in it, which is no step
        yield push(SPACE - 3) + fill * (SPACE - 3)
        yield push(SPACE - 4) + fill * (SPACE - 4) + END
        yield push(SPACE - 3) + fill * (SPACE - 4) + END
        # one byte more declared than there is, at the front and behind a Pop
        yield push(SPACE - 2) + fill * (SPACE - 3)
        yield POP + push(SPACE - 3) + fill * (SPACE - 4)
    yield push(65535) + END * (SPACE - 3)
    # a step for each byte, and for each three
    for fill in (END, POP):
        for last in (END, POP, CALL):
            yield fill * (SPACE - 1) + last
        for n in (0, 1):
            yield fill * (SPACE - 3) + push(n)
    for last in (END, POP, CALL):
        yield push(0) * (SPACE // 3) + last


def lengths():
    """Declared lengths, most with a high byte that counts: a byte too few, the payload alone, an End behind it, and two."""
    for n in (1, 2, 255, 256, 255 + 256, 512, 32768):
        for there in (n - 1, n, n + 1, n + 2):
            yield push(n) + END * there
            yield END + POP + push(n) + END * there


def main():
    for text, due in VECTORS.items():
        assert answer(bytes.fromhex(text)) == due, (text, due)
    known = [bytes.fromhex(text) for text in [*VECTORS, *(text for _, text in HAND)]]
    every = [*strings(BYTES, range(4)), *strings(FEW, range(4, 7))]
    blocks = list(dict.fromkeys([*known, *every, *longest(), *lengths()]))
    answers = [answer(block) for block in blocks]
    assert max(map(len, blocks)) == SPACE
    for wrong in WRONG:
        assert [wrong(block) for block in blocks] != answers, wrong.__name__
    write("step_cases", records(blocks), "".join(f"{number} {value}\n" for number, value in answers))
    print(len(blocks), "byte strings,", dict(sorted(Counter(number for number, _ in answers).items())))


if __name__ == "__main__":
    main()
