#!/usr/bin/env python3
"""Sends blocks through a peer: haxe 4.2, which reads each action of a linked SWF and writes it anew.

Run in the checkout after the oracle is built: python3 oracle/peer.py [replay | FAMILY:SEED:COUNT]...
A family is one of the oracle's generator; without an argument, those of SOURCES are sent. The command haxe is that of
Debian's package, or the one that HAXE names. Prints how many blocks came back the same, and the smallest that did not;
ends with 1, where one did not that has no inner End and no Push of 65,535 bytes. docs/PEER.md has counts and what they say.
"""
import os
import struct
import subprocess
import sys
import tempfile
import zlib
from collections import Counter

GENERATE, ORACLE, REPLAY = "oracle/target/release/generate", "oracle/target/release/oracle", "crates/replay/stdin"
HAXE = os.environ.get("HAXE", "haxe")
SOURCES = ["replay", "mixed:1:4000", "damaged:1:100", "small:1:1", "distances:1:1", "limits:1:1", "books:1:1"]
# A file holds this many blocks, and no further one after so many bytes.
BLOCKS, BYTES = 500, 1 << 20
# So many blocks of a source are sent alone, which is slow.
ALONE = 60
END, PLAY, PUSH = 0x00, 0x06, 0x96
SHOW_FRAME, DO_ACTION = 1, 12
# The bytes of a pushed value but a string, by its kind.
SIZES = {2: 1, 3: 1, 4: 2, 5: 2, 6: 9, 7: 5, 8: 2, 9: 3}
# Blocks that our packer does not write or that have an inner End, and what is odd in them.
PROBES = [
    ("06 00 07 00", "an inner End"),
    ("06 00 02 03 07 00", "an inner End, and behind it what reads as a tag"),
    ("94 02 00 01 00 00 00", "an End as body"),
    ("99 02 00 01 00 00", "a branch behind the block"),
    ("99 02 00 FA FF 00", "a branch before the block"),
    ("99 02 00 01 00 81 02 00 00 00 00", "a branch into an action"),
    ("94 02 00 05 00 17 00", "a body that ends behind the block"),
    ("94 02 00 01 00 81 02 00 00 00 00", "a body that ends in an action"),
    ("8B 01 00 61 00 00", "a length too short"),
    ("8B 03 00 61 00 00", "a length too long"),
    ("9E 02 00 06 07 00", "a Call with a length"),
    ("9F 03 00 01 05 00 00", "a bias that no flag tells"),
    ("8F 08 00 F8 00 00 00 00 00 00 00 00", "unused bits of a Try"),
    ("8E 08 00 00 00 00 00 00 FE 00 00 00", "unused bits of a DefineFunction2"),
    ("96 02 00 05 02 00", "a boolean of 2"),
    ("96 02 00 0A 00 00", "an unknown kind"),
    ("01 00", "an unknown opcode"),
    ("80 01 00 05 00", "an unknown opcode with a length"),
    ("9A 01 00 3C 00", "unused bits of a GetUrl2"),
    ("96 09 00 06 00 00 00 00 00 00 F0 3F 00", "1.0 with its words the other way"),
    ("94 02 00 00 00 17 00", "a body that ends one action early"),
]
LONG = 63


# Blocks.


def generated(family, seed, count):
    """The blocks of the oracle's answers to a family of sheets."""
    asked = subprocess.run([GENERATE, family, seed, count], stdout=subprocess.PIPE, check=True).stdout
    told = subprocess.run([ORACLE, "stream"], input=asked, stdout=subprocess.PIPE, check=True).stdout
    at = 0
    while at < len(told):
        number, _, _, length = struct.unpack_from("<BqII", told, at)
        at += 17 + length
        if number == 0:
            yield told[at - length : at]


def unrolled(pattern):
    """The bytes that a pattern stands for, as crates/patterns reads it."""
    found, at = [], 0
    while at < len(pattern):
        run, n = struct.unpack_from("<IH", pattern, at)
        at += 6 + n
        found.append(pattern[at - n : at] * (run // n))
    return b"".join(found)


def replayed():
    """The blocks in the list of crates/replay."""
    with open(REPLAY, "rb") as file:
        records = file.read()
    at = 0
    while at < len(records):
        sheet, book, block, _, _, number, _, _ = struct.unpack_from("<IIIIBBqI", records, at)
        at += 30 + sheet + book + block
        if number == 0:
            yield unrolled(records[at - block : at])


def blocks_of(source):
    return replayed() if source == "replay" else generated(*source.split(":"))


# Actions of a block.


def actions(block):
    """Place, opcode and length of each action, straight into bodies and past every End."""
    at = 0
    while at < len(block):
        op = block[at]
        n = struct.unpack_from("<H", block, at + 1)[0] if op >= 0x80 else 0
        yield at, op, n
        at += 3 + n if op >= 0x80 else 1


def ends(block):
    """The places of its Ends."""
    return [at for at, op, _ in actions(block) if op == END]


def mended(block):
    """The block with Play for each inner End."""
    new = bytearray(block)
    for at in ends(block)[:-1]:
        new[at] = PLAY
    return bytes(new)


def kinds(block):
    """The kinds of value that its Pushes hold."""
    for at, op, n in actions(block):
        at, end = at + 3, at + 3 + n
        while op == PUSH and at < end:
            kind = block[at]
            yield kind
            at = block.index(0, at + 1) + 1 if kind == 0 else at + SIZES[kind]


def has_full_push(block):
    return any(op == PUSH and n == 65535 for _, op, n in actions(block))


def spoiled(block, turn):
    """The block with one action's length raised by one, by turns; none, where there is no such action.

    Not a Push's, which tells where its values end.
    """
    found = [(at, n) for at, op, n in actions(block) if op >= 0x80 and op != PUSH and n < 65535]
    if not found:
        return None
    at, n = found[turn % len(found)]
    return block[: at + 1] + struct.pack("<H", n + 1) + block[at + 3 :]


# The peer.


def tag(code, content=b""):
    if len(content) < LONG:
        return struct.pack("<H", code << 6 | len(content)) + content
    return struct.pack("<HI", code << 6 | LONG, len(content)) + content


def movie(blocks):
    """A file of version 8, of no size and of one frame, with a DoAction for each block."""
    rest = b"\x00" + struct.pack("<HH", 24 << 8, 1) + b"".join(tag(DO_ACTION, block) for block in blocks)
    rest += tag(SHOW_FRAME) + tag(END)
    return b"FWS\x08" + struct.pack("<I", 8 + len(rest)) + rest


def blocks_in(file):
    """The blocks of a file, in order."""
    rest = zlib.decompress(file[8:]) if file[:3] == b"CWS" else file[8:]
    at = (5 + 4 * (rest[0] >> 3) + 7) // 8 + 4
    found = []
    while at < len(rest):
        (head,) = struct.unpack_from("<H", rest, at)
        at, n = at + 2, head & LONG
        if n == LONG:
            (n,) = struct.unpack_from("<I", rest, at)
            at += 4
        if head >> 6 == DO_ACTION:
            found.append(rest[at : at + n])
        at += n
    return found


# How often the peer ran, and what it says beside its refusals.
runs = Counter()
remarks = set()


def ask(blocks, folder):
    """What the peer makes of these blocks in one file; none with its words, where it refuses the file."""
    runs["haxe"] += 1
    out = os.path.join(folder, "out.swf")
    with open(os.path.join(folder, "in.swf"), "wb") as file:
        file.write(movie(blocks))
    if os.path.exists(out):
        os.remove(out)
    command = [HAXE, "-main", "Empty", "-swf", "out.swf", "-swf-version", "11", "-swf-lib", "in.swf"]
    told = subprocess.run(command, cwd=folder, stdout=subprocess.PIPE, stderr=subprocess.STDOUT)
    lines = told.stdout.decode(errors="replace").splitlines()
    errors = [line for line in lines if line.startswith("Error")]
    remarks.update(line for line in lines if line not in errors)
    if told.returncode or not os.path.exists(out):
        return None, " ".join(errors) or f"status {told.returncode}"
    with open(out, "rb") as file:
        return blocks_in(file.read()), None


def send(blocks, due, folder):
    """What the peer makes of each block, or none with its words. A file of which not all is as due is halved."""
    backs, words = ask(blocks, folder)
    if backs == due:
        return [(back, None) for back in backs]
    if len(blocks) == 1:
        return [(backs[0] if backs else None, words)]
    half = len(blocks) // 2
    return send(blocks[:half], due[:half], folder) + send(blocks[half:], due[half:], folder)


def files(blocks, per_file=BLOCKS):
    """Blocks in lists, each for one file."""
    found, size = [], 0
    for block in blocks:
        if found and (len(found) == per_file or size > BYTES):
            yield found
            found, size = [], 0
        found.append(block)
        size += len(block)
    if found:
        yield found


# Counts.


def text(block):
    if block is None:
        return "refused"
    return block[:64].hex(" ").upper() + (f" and so on, {len(block)} bytes" if len(block) > 64 else "")


def smallest(title, pairs):
    """Prints the smallest of some blocks, with what came back."""
    if pairs:
        block, back = min(pairs, key=lambda pair: (len(pair[0]), pair[0]))
        print(f"  smallest {title}: {text(block)} -> {text(back)}")


def report(title, pairs, said):
    """Prints what came back of blocks, and returns those that came back the same."""
    back_as = {
        "same": [(block, back) for block, back in pairs if back == block],
        "cut at an inner End": [(block, back) for block, back in pairs if back != block and back == front(block)],
        "different": [(block, back) for block, back in pairs if back not in (None, block, front(block))],
        "refused": [(block, back) for block, back in pairs if back is None],
    }
    counts = "".join(f", {name} {len(found)}" for name, found in back_as.items() if found)
    print(f"{title}: sent {len(pairs)}{counts}", flush=True)
    for name in list(back_as)[1:]:
        smallest(name, back_as[name])
    for words, count in said.most_common():
        print(f"  said {count} times: {words}")
    if remarks:
        print("  said too:", ", ".join(sorted(remarks)))
    return [block for block, _ in back_as["same"]]


def front(block):
    """The block as far as its first End."""
    return block[: ends(block)[0] + 1]


def sent(title, blocks, folder, per_file=BLOCKS):
    """Sends blocks; returns those that came back the same."""
    pairs, said = [], Counter()
    remarks.clear()
    for file in files(blocks, per_file):
        told = send(file, file, folder)
        pairs += zip(file, (back for back, _ in told))
        said.update(words for _, words in told if words)
    return report(title, pairs, said) if pairs else []


def probe(folder):
    """Prints what the peer makes of odd blocks."""
    for block, what in PROBES:
        backs, _ = ask([bytes.fromhex(block)], folder)
        print(f"{what}: {block} -> {', '.join(map(text, backs or [None]))}", flush=True)


def control(blocks, folder):
    """Spoils one length in each block, and prints how many of them the peer puts right."""
    pairs = [(block, spoiled(block, turn)) for turn, block in enumerate(blocks)]
    due = {bad: block for block, bad in pairs if bad is not None}
    backs = [back for file in files(due) for back, _ in send(file, [due[bad] for bad in file], folder)]
    other = [(bad, back) for bad, back in zip(due, backs) if back != due[bad]]
    print(f"one length raised: sent {len(due)}, put right {len(due) - len(other)}, otherwise {len(other)}")
    smallest("not put right", other)


def cover(blocks):
    """Prints what stands in blocks."""
    found = Counter(op for block in blocks for op in {op for _, op, _ in actions(block)})
    pushed = Counter(kind for block in blocks for kind in set(kinds(block)))
    print(f"in these: {sum(1 for block in blocks for _ in actions(block))} actions of {len(found)} opcodes")
    print("blocks by opcode:", ", ".join(f"{op:02X} {count}" for op, count in sorted(found.items()) if op >= 0x80))
    print("blocks by kind of pushed value:", ", ".join(f"{kind} {count}" for kind, count in sorted(pushed.items())))


def main():
    print("haxe", subprocess.run([HAXE, "--version"], stdout=subprocess.PIPE, check=True).stdout.decode().strip())
    met, due, same = set(), 0, []
    with tempfile.TemporaryDirectory() as folder:
        with open(os.path.join(folder, "Empty.hx"), "w") as file:
            file.write("class Empty { static function main() {} }\n")
        probe(folder)
        for source in sys.argv[1:] or SOURCES:
            new = [block for block in dict.fromkeys(blocks_of(source)) if block not in met]
            broken = [block for block in new if len(ends(block)) > 1]
            mends = [block for block in dict.fromkeys(map(mended, broken)) if block not in {*met, *new}]
            met.update(new + mends)
            whole = [block for block in new if len(ends(block)) == 1 and not has_full_push(block)]
            full = [block for block in new if len(ends(block)) == 1 and has_full_push(block)]
            same += sent(f"{source}, one End", whole, folder)
            same += sent(f"{source}, Play for inner Ends", mends, folder)
            sent(f"{source}, with a Push of 65,535 bytes", full, folder, 1)
            sent(f"{source}, with inner Ends, first of {len(broken)}", broken[:ALONE], folder, 1)
            due += len(whole) + len(mends)
        print(f"one End, and Play for inner Ends, of all: sent {due}, same {len(same)}, of {sum(map(len, same))} bytes")
        cover(same)
        control(same, folder)
        print("runs of haxe:", runs["haxe"])
    return 0 if len(same) == due else 1


if __name__ == "__main__":
    sys.exit(main())
