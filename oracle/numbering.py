"""Which action an answer gives: document 02's item 7 by a definition of its own, beside the oracle's, and by wrong ones.

readings.py and packings.py hold the oracle's action numbers to the first, and see that their lists tell each of the others from it.
"""
import struct
from functools import lru_cache

# The fields behind an opcode, but for bodies: b and w are numbers of one and two bytes, s is a string; S, P and V are lists of
# strings, of parameters and of values. Any other opcode has none, but for Try, whose shape tells its fields.
FIELDS = {0x81: "w", 0x83: "ss", 0x87: "b", 0x88: "S", 0x8A: "wb", 0x8B: "s", 0x8C: "s", 0x8D: "b", 0x8E: "sPbw", 0x96: "V"}
FIELDS |= {0x99: "w", 0x9A: "bbb", 0x9B: "sS", 0x9D: "w", 0x9F: "wb"}
TRY, GET_URL_2, GOTO_FRAME_2 = 0x8F, 0x9A, 0x9F
OWNERS, BRANCHES = (0x8E, 0x94, 0x9B), (0x99, 0x9D)
# The bytes behind the kind of a value that is no string.
VALUES = {2: 0, 3: 0, 4: 1, 5: 1, 6: 8, 7: 4, 8: 2}
STRING, CONSTANT = 0, 8
LONGEST = 65535
# The length of a string that is an entry of the book, in the edition that has one.
NAMED, WITH_BOOK = 65535, 3


class Met(Exception):
    """Reading has come to its place."""


class Body:
    """The owners around it, from outside; the index of each in its body; how many actions stand in earlier bodies of them."""

    def __init__(self, owners=(), path=(), skipped=0):
        self.owners, self.path, self.skipped = owners, path, skipped

    def inside(self, owner, index, skipped):
        return Body((*self.owners, owner), (*self.path, index), self.skipped + skipped)


class Action:
    __slots__ = "opcode", "body", "index", "payload", "label"

    def __init__(self, opcode, body, index):
        self.opcode, self.body, self.index, self.payload = opcode, body, index, 0


@lru_cache(4)
def entry_lengths(book):
    """Of each entry of a book that is well formed."""
    distance, count = struct.unpack_from("<IH", book, len(book) - 8)
    at, lengths = len(book) - 8 - distance, []
    for _ in range(count):
        lengths += struct.unpack_from("<H", book, at)
        at += 2 + lengths[-1]
    return lengths


class Reading:
    """A sheet read as far as the field at a place, or whole: its actions in sheet order, and what was being read then.

    No field is tested: the oracle has told that there is a fault at the place, or that there is none.
    """

    def __init__(self, sheet, book, place):
        distance, edition = struct.unpack_from("<IH", sheet, len(sheet) - 8)
        self.bytes, self.at, self.place = sheet, len(sheet) - 8 - distance, -1 if place is None else place
        self.entries = entry_lengths(book) if edition == WITH_BOOK else None
        # where each string stands, its length included
        self.actions, self.records, self.bodies, self.strings = [], [], [], []
        try:
            self.read_body(Body())
        except Met:
            pass

    def take(self, n):
        at = self.at
        self.at += n
        if at <= self.place < self.at:
            raise Met
        return self.bytes[at : self.at]

    def number(self, n=2):
        return int.from_bytes(self.take(n), "little")

    def read_body(self, body):
        """Gives the number of its first action and of the one behind its last."""
        self.part, self.body, self.index = "front", body, 0
        first = len(self.actions)
        entries = [(self.number(), self.number()) for _ in range(self.number())]
        numbers = []
        for index in range(self.number()):
            numbers.append(len(self.actions))
            self.part, self.body, self.index = "opcode", body, index
            self.actions.append(Action(self.number(1), body, index))
            if self.actions[-1].opcode >= 0x80:
                self.read_fields(self.actions[-1], numbers[-1])
        numbers.append(len(self.actions))
        # a label is recorded where the action of a number begins
        self.records += [(label, numbers[index]) for label, index in entries if index < len(numbers)]
        return first, len(self.actions)

    def read_fields(self, action, number):
        """Bodies are kept in the order in which they are tested: those of an action behind all that stand in them."""
        self.part, start = "action", self.at
        if action.opcode == TRY:
            shape = self.number(1)
            target = self.field("b" if shape & 4 else "s") if shape & 1 else 1
            action.payload, count = 7 + target, 1 + (shape & 1) + (shape >> 1 & 1)
        else:
            count = int(action.opcode in OWNERS)
            action.payload = 2 * count + sum(map(self.field, FIELDS.get(action.opcode, "")))
        word = int.from_bytes(self.bytes[start : start + 2], "little")
        if action.opcode in BRANCHES:
            action.label = word
        if action.opcode == GET_URL_2 or action.opcode == GOTO_FRAME_2 and word == 0:
            action.payload = 1
        bodies = []
        for _ in range(count):
            skipped = len(self.actions) - number - 1
            bodies.append((number, *self.read_body(action.body.inside(number, action.index, skipped))))
        self.bodies += bodies

    def field(self, kind):
        """Gives what it comes to in the block."""
        if kind in "bw":
            return len(self.take("bw".index(kind) + 1))
        if kind == "s":
            start = self.at
            length = self.string()
            self.strings.append((start, self.at))
            return length + 1
        items = range(self.number())
        if kind == "V":
            return sum(self.value() for _ in items)
        return 2 + sum((self.field("b") if kind == "P" else 0) + self.field("s") for _ in items)

    def string(self):
        """Gives the length of the bytes that it stands for."""
        n = self.number()
        if n == NAMED and self.entries is not None:
            return self.entries[self.number()]
        return len(self.take(n))

    def value(self):
        kind = self.number(1)
        if kind == STRING:
            return 1 + self.field("s")
        n = VALUES[kind]
        return 1 + (1 if self.number(n) < 256 and kind == CONSTANT else n)

    def positions(self):
        """Where each action begins in the block, and where the last ends: actions are written in sheet order."""
        found = [0]
        for action in self.actions:
            found.append(found[-1] + (1 if action.opcode < 0x80 else 3 + action.payload))
        return found

    def branches(self):
        return [n for n, action in enumerate(self.actions) if action.opcode in BRANCHES]

    def distances(self, at):
        """Each branch whose label has a record, and its distance. The last record is the one that stands furthest behind."""
        ends = {}
        for label, n in self.records:
            ends[label] = max(ends.get(label, 0), at[n])
        for n in self.branches():
            if self.actions[n].label in ends:
                yield n, ends[self.actions[n].label] - (at[n] + 5)


# A sheet is asked for in several modes.
read = lru_cache(4)(Reading)


def refused(reading, number, value):
    """The action of 8 to 10, 14 and 15, and of 9 the last action of the body."""
    at = reading.positions()
    if number == 8:
        found = next((n, action.payload, n) for n, action in enumerate(reading.actions) if action.payload > LONGEST)
    elif number == 9:
        lengths = ((owner, at[end] - at[first], end - 1) for owner, first, end in reading.bodies)
        found = next(body for body in lengths if body[1] > LONGEST)
    elif number == 10:
        found = next((n, distance, n) for n, distance in reading.distances(at) if not -32768 <= distance <= 32767)
    else:
        found = next((n, at[n] + 3, n) for n in reading.branches() if at[n] + 3 == value)
    n, told, last = found
    assert told == value, (number, value, told)
    return n, last


# How the wrong ones count, or what they give in one case; and the numbers of the answers that must show it.
BUT_7 = (3, 4, 5, 6, 8, 9, 10, 14, 15)
WRONG = {
    "each body from 0": (*BUT_7, 7),
    "on behind an owner as if its bodies were empty": (*BUT_7, 7),
    "each body of a Try from right behind the Try": BUT_7,
    "an owner only when its bodies are read": BUT_7,
    "the owner, for a fault in a body's entries or counts": (3, 5),
    "the last action, for a missing opcode": (3,),
    "the next action, for TooDeep": (6,),
    "the last action, for LeftOver": (7,),
    "the last action of the body, for 9": (9,),
    "how many branches come before, for 10, 14 and 15": (10, 14, 15),
}


@lru_cache(4)
def numberings(sheet, book, number, value):
    """The action number of an answer with this number and value: by the rules, and then by each of the wrong ones."""
    if number in (0, 1, 2, 11, 12, 13, 18):
        return (0,) * (1 + len(WRONG))
    reading = read(sheet, book, value if number <= 6 else None)
    begun, body, index, last = len(reading.actions), reading.body, reading.index, None
    if number <= 5:
        right = begun - 1 if reading.part == "action" else begun
    elif number == 6:
        right = body.owners[-1]
    elif number == 7:
        right, body, index = begun, Body(), sum(not action.body.owners for action in reading.actions)
    else:
        right, last = refused(reading, number, value)
    if number == 6 or number > 7:
        body, index = reading.actions[right].body, reading.actions[right].index
    owner, before = (body.owners or (right,))[-1], max(begun - 1, 0)
    unless = lambda case, wrong: wrong if case else right
    return (
        right,
        index,
        index + sum(i + 1 for i in body.path),
        right - body.skipped,
        right - len(body.owners),
        unless(number <= 5 and reading.part == "front", owner),
        unless(number == 3 and reading.part == "opcode", before),
        unless(number == 6, begun),
        unless(number == 7, before),
        unless(number == 9, last),
        unless(number in (10, 14, 15), sum(n < right for n in reading.branches())),
    )


def check(answers):
    """Holds action numbers to the rules, and sees that the answers tell each of the wrong ones apart, as far as they have its numbers.

    Of each answer the sheet, the book, number, value and action number are given.
    """
    met, told = set(), set()
    for sheet, book, number, value, action in answers:
        right, *others = numberings(sheet, book, number, value)
        assert action == right, (sheet[:64].hex(), number, value, action, right)
        met.add(number)
        told.update((name, number) for name, other in zip(WRONG, others) if other != right)
    due = {(name, number) for name, numbers in WRONG.items() for number in met.intersection(numbers)}
    assert due <= told, due - told
