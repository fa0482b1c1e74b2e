/*
 * driver.c: packs the sheets of a list through the C-callable entries, and looks at every byte that must keep its value.
 *
 *   driver < crates/replay/stdin
 *
 * A record is as crates/replayed/src/lib.rt tells: lengths, the room, the mode, the oracle's number, value and action number, and
 * the patterns of the sheet, of the book and of the block, which are as crates/patterns/src/lib.rt tells. Number, value, action
 * number and block must be the oracle's. It writes what crates/replay writes: a line for each number that was met, with its count;
 * then how many answers differ, and the first that does.
 *
 * Each sheet, book and block ends where memory ends, so a byte read past it stops the program. A sheet that is not of edition 3 is
 * packed with the book and without one. Each sheet and block is also stepped through, and so is every block of up to 4 bytes from
 * a choice of seven; the answer is held to a stepper written here.
 * Status 0: all is well; 1: a fault, told on standard error; 2: a bad list or call.
 */
#define _DEFAULT_SOURCE /* for MAP_ANONYMOUS */
#include <inttypes.h>
#include <stdbool.h>
#include <stdio.h>
#include <stdlib.h>
#include <string.h>
#include <sys/mman.h>
#include <unistd.h>

#include "merinovault.h"

enum {
    HALF = 8,               /* the bytes of a value, and of an action number: half of a value slice */
    GUARD = 64,             /* bytes on both sides of the output and of the value slice that must keep theirs */
    SPACE = 4 * 1024 * 1024, /* the longest sheet, book and block, and the largest room, of a record */
    HEAD = 30,              /* the bytes of a record before its patterns */
    STRICT = 1,             /* the bits of a mode */
    CONTAINED = 2,
    MODES = 4,
    NUMBERS = 19            /* the answers of documents 01 and 02 */
};

/* A run of bytes that is lent to be read. */
struct run {
    const uint8_t *bytes;
    size_t len;
};

static const struct run no_bytes = {NULL, 0}, empty_book = {merinovault_empty_book, sizeof merinovault_empty_book};

static int status = 0;

static void fault(size_t line, const char *what)
{
    fprintf(stderr, "driver: line %zu: %s\n", line, what);
    status = 1;
}

static _Noreturn void stop(const char *what)
{
    fprintf(stderr, "driver: %s\n", what);
    exit(2);
}

/* The end of `size` bytes of memory, with memory that cannot be touched behind them. */
static uint8_t *memory_end(size_t size)
{
    size_t page = (size_t)sysconf(_SC_PAGESIZE), pages = (size + page - 1) / page * page;
    uint8_t *start = mmap(NULL, pages + page, PROT_READ | PROT_WRITE, MAP_PRIVATE | MAP_ANONYMOUS, -1, 0);
    if (start == MAP_FAILED || mprotect(start + pages, page, PROT_NONE) != 0)
        stop("no memory");
    return start + pages;
}

/* The number that fills these HALF bytes. */
static int64_t number_in(const uint8_t *bytes)
{
    uint64_t bits = 0;
    for (size_t i = HALF; i > 0; i--)
        bits = bits << 8 | bytes[i - 1];
    return (int64_t)bits;
}

/* Whether a value slice holds this value, and behind it this action number. */
static bool holds(const uint8_t *slice, int64_t value, int64_t action)
{
    return number_in(slice) == value && number_in(slice + HALF) == action;
}

/* How many of these bytes are not `fill`. */
static size_t changed(const uint8_t *bytes, size_t len, uint8_t fill)
{
    size_t n = 0;
    for (size_t i = 0; i < len; i++)
        n += bytes[i] != fill;
    return n;
}

struct answer {
    uint32_t number;
    int64_t value, action;
    size_t changed; /* bytes that must keep their values and did not */
};

/* The entry, with a mode by its bits. */
static uint32_t pack_in(unsigned mode, struct run sheet, struct run book, uint8_t *out, size_t room, uint8_t *value,
                        size_t value_len)
{
    return merinovault_pack(sheet.bytes, sheet.len, book.bytes, book.len, mode & STRICT, mode & CONTAINED, out, room, value,
                            value_len);
}

/* Packs into `room` bytes at `out`, after GUARD bytes and before GUARD more, all of them `fill` before the call. */
static struct answer pack(unsigned mode, struct run sheet, struct run book, uint8_t *out, size_t room, uint8_t fill)
{
    uint8_t value[GUARD + MERINOVAULT_VALUE_LEN + GUARD];
    memset(value, fill, sizeof value);
    memset(out - GUARD, fill, GUARD + room + GUARD);
    struct answer a;
    a.number = pack_in(mode, sheet, book, out, room, value + GUARD, MERINOVAULT_VALUE_LEN);
    a.value = number_in(value + GUARD);
    a.action = number_in(value + GUARD + HALF);
    a.changed = changed(value, GUARD, fill) + changed(value + GUARD + MERINOVAULT_VALUE_LEN, GUARD, fill);
    size_t written = a.number == MERINOVAULT_DONE ? (size_t)a.value : 0;
    if (written > room)
        stop("a Done length is more than the room");
    a.changed += changed(out - GUARD, GUARD, fill) + changed(out + written, room - written + GUARD, fill);
    return a;
}

/* Stepping by the words of documents 01 and 02. Its action number is always 0. */
static struct answer stepped(const uint8_t *block, size_t len)
{
    size_t at = 0, steps = 0;
    bool ended = false; /* whether the last step was an End */
    while (at < len) {
        size_t left = len - at, size = 1;
        uint8_t opcode = block[at];
        if (opcode >= 0x80)
            size = left < 3 ? SIZE_MAX : 3 + (size_t)block[at + 1] + 256 * (size_t)block[at + 2];
        if (size > left)
            return (struct answer){MERINOVAULT_UNCLEAN, (int64_t)at, 0, 0};
        at += size;
        steps++;
        ended = opcode == 0;
    }
    return ended ? (struct answer){MERINOVAULT_DONE, (int64_t)steps, 0, 0}
                 : (struct answer){MERINOVAULT_UNCLEAN, (int64_t)len, 0, 0};
}

/* Steps through a block by the entry too; it must end where memory ends. */
static void step(const uint8_t *block, size_t len, size_t line)
{
    uint8_t value[GUARD + MERINOVAULT_VALUE_LEN + GUARD];
    memset(value, 0xA5, sizeof value);
    uint32_t number = merinovault_step(block, len, value + GUARD, MERINOVAULT_VALUE_LEN);
    struct answer due = stepped(block, len);
    if (number != due.number || !holds(value + GUARD, due.value, due.action))
        fault(line, "stepping tells something else");
    if (changed(value, GUARD, 0xA5) + changed(value + GUARD + MERINOVAULT_VALUE_LEN, GUARD, 0xA5) != 0)
        fault(line, "stepping changed a byte beside the value");
}

/* Steps through the block and through every shorter beginning of a short one; each is put where memory ends. */
static void step_all(const uint8_t *block, size_t len, uint8_t *end, size_t line)
{
    for (size_t n = len <= 64 ? 0 : len; n <= len; n++) {
        memcpy(end - n, block, n);
        step(end - n, n, line);
    }
}

/* Steps through every block of up to 4 of these bytes: End, opcodes on both sides of 0x80, lengths that fit and that do not. A
 * fault is told as of line 0. */
static void step_short(uint8_t *end)
{
    static const uint8_t bytes[] = {0x00, 0x01, 0x02, 0x17, 0x7F, 0x80, 0xFF};
    for (size_t len = 0, blocks = 1; len <= 4; len++, blocks *= sizeof bytes)
        for (size_t n = 0; n < blocks; n++) {
            for (size_t i = 1, rest = n; i <= len; i++, rest /= sizeof bytes)
                *(end - i) = bytes[rest % sizeof bytes];
            step(end - len, len, 0);
        }
}

/* A value slice that has not 16 bytes, and runs without a byte, in one mode. */
static void edges(unsigned mode)
{
    static const uint8_t first[12] = {0, 0, 0, 0, 4, 0, 0, 0, 1, 0, 0x41, 0x31};
    static const uint8_t third[12] = {0, 0, 0, 0, 4, 0, 0, 0, 3, 0, 0x41, 0x31};
    const struct run empty = {first, sizeof first}, of_edition_3 = {third, sizeof third};
    const uint8_t one[1] = {0};
    uint8_t out[4], value[2 * MERINOVAULT_VALUE_LEN];
    memset(out, 0xA5, sizeof out);
    memset(value, 0xA5, sizeof value);
    for (size_t n = 0; n <= sizeof value; n++)
        if (n != MERINOVAULT_VALUE_LEN) {
            if (pack_in(mode, empty, empty_book, out, sizeof out, value, n) != MERINOVAULT_NO_ROOM ||
                pack_in(mode, no_bytes, empty_book, out, sizeof out, value, n) != MERINOVAULT_NO_ROOM ||
                pack_in(mode, of_edition_3, no_bytes, out, sizeof out, value, n) != MERINOVAULT_NO_ROOM ||
                merinovault_step(one, sizeof one, value, n) != MERINOVAULT_NO_ROOM)
                fault(0, "a value slice of another length than 16 is not answered 11");
        }
    if (pack_in(mode, empty, empty_book, out, sizeof out, NULL, 0) != MERINOVAULT_NO_ROOM ||
        merinovault_step(one, sizeof one, NULL, 0) != MERINOVAULT_NO_ROOM)
        fault(0, "no value slice is not answered 11");
    if (changed(out, sizeof out, 0xA5) + changed(value, sizeof value, 0xA5) != 0)
        fault(0, "a byte changed beside a value slice of another length than 16");
    if (pack_in(mode, no_bytes, no_bytes, out, sizeof out, value, MERINOVAULT_VALUE_LEN) != MERINOVAULT_BAD_TRAILER ||
        !holds(value, 0, 0))
        fault(0, "the empty sheet is not answered 2 with 0 and 0");
    if (pack_in(mode, of_edition_3, no_bytes, out, sizeof out, value, MERINOVAULT_VALUE_LEN) != MERINOVAULT_BAD_BOOK ||
        !holds(value, 0, 0))
        fault(0, "a book without a byte is not answered 18 with 0 and 0");
    if (pack_in(mode, empty, no_bytes, NULL, 0, value, MERINOVAULT_VALUE_LEN) != MERINOVAULT_NO_ROOM || !holds(value, 1, 0))
        fault(0, "an empty output is not answered 11 with 1 and 0");
    if (pack_in(mode, of_edition_3, empty_book, NULL, 0, value, MERINOVAULT_VALUE_LEN) != MERINOVAULT_NO_ROOM ||
        !holds(value, 1, 0))
        fault(0, "an empty output is not answered 11 with 1 and 0 in edition 3");
    if (merinovault_step(NULL, 0, value, MERINOVAULT_VALUE_LEN) != MERINOVAULT_UNCLEAN || !holds(value, 0, 0))
        fault(0, "the empty block is not answered 13 with 0 and 0");
    if (changed(out, sizeof out, 0xA5) != 0)
        fault(0, "a refusal changed the output");
}

/* Reads `len` bytes; false at the stream's end, before the first of them. */
static bool take(uint8_t *bytes, size_t len)
{
    size_t n = fread(bytes, 1, len, stdin);
    if (n != 0 && n != len)
        stop("the stream is cut short");
    return n == len;
}

static size_t u32_at(const uint8_t *b)
{
    return (size_t)b[0] | (size_t)b[1] << 8 | (size_t)b[2] << 16 | (size_t)b[3] << 24;
}

/* Reads a pattern, runs of a u32 length, a u16 length and that many bytes, which fill the run again and again, and unrolls it. */
static size_t unroll(size_t len, uint8_t *bytes)
{
    static uint8_t pattern[SPACE];
    if (len > SPACE || (len > 0 && !take(pattern, len)))
        stop("a pattern is cut short, or has more than 4 MiB");
    size_t at = 0;
    for (size_t p = 0; p < len;) {
        if (len - p < 6)
            stop("a pattern is cut short");
        size_t run = u32_at(pattern + p);
        size_t n = (size_t)pattern[p + 4] | (size_t)pattern[p + 5] << 8;
        p += 6;
        if (n == 0 || len - p < n || SPACE - at < run)
            stop("a pattern that gives no bytes");
        for (size_t i = 0; i < run; i++)
            bytes[at++] = pattern[p + i % n];
        p += n;
    }
    return at;
}

/* What the records are unrolled into, and the ends of what is lent to the entries. */
struct space {
    uint8_t *sheet, *book, *block, *sheet_end, *book_end, *out_end, *block_end;
};

/* Whether the trailer of a sheet says edition 3, which alone looks at the book. */
static bool is_of_edition_3(struct run sheet)
{
    return sheet.len >= 8 && sheet.bytes[sheet.len - 4] == 3 && sheet.bytes[sheet.len - 3] == 0;
}

/* Whether packing the sheet of a record with its book gives what its head says, and its block; steps through the sheet and the
 * block too. */
static bool agrees(const uint8_t *head, const struct space *space, size_t line)
{
    size_t room = u32_at(head + 12), n = unroll(u32_at(head), space->sheet), k = unroll(u32_at(head + 4), space->book),
           m = unroll(u32_at(head + 8), space->block);
    unsigned mode = head[16];
    if (room > SPACE || mode >= MODES || head[17] >= NUMBERS)
        stop("a record with a room of more than 4 MiB, or with a mode or an answer that is none");
    struct run sheet = {memcpy(space->sheet_end - n, space->sheet, n), n}, book = {memcpy(space->book_end - k, space->book, k), k};
    uint8_t *out = space->out_end - GUARD - room;

    /* A byte that is written with what it holds already shows in the other of two fills, and a book that is looked at where it
     * must not be shows in the call without one. */
    struct answer first = pack(mode, sheet, is_of_edition_3(sheet) ? book : no_bytes, out, room, 0x5A);
    struct answer a = pack(mode, sheet, book, out, room, 0xA5);
    if (first.number != a.number || first.value != a.value || first.action != a.action)
        fault(line, "a second call tells something else");
    if (first.changed + a.changed != 0)
        fault(line, "a byte changed that must keep its value");
    if (memcmp(sheet.bytes, space->sheet, n) != 0 || memcmp(book.bytes, space->book, k) != 0)
        fault(line, "the sheet or the book changed");

    size_t written = a.number == MERINOVAULT_DONE ? (size_t)a.value : 0;
    bool same = a.number == head[17] && a.value == number_in(head + 18) && a.action == (int64_t)u32_at(head + 26) && written == m &&
                memcmp(out, space->block, m) == 0;
    step(sheet.bytes, n, line);
    if (a.number == MERINOVAULT_DONE)
        step_all(out, written, space->block_end, line);
    return same;
}

int main(int argc, char **argv)
{
    if (argc > 1)
        stop("usage: driver < LIST");
    (void)argv;
    struct space space = {malloc(SPACE),     malloc(SPACE),     malloc(SPACE),
                          memory_end(SPACE), memory_end(SPACE), memory_end(GUARD + SPACE + GUARD),
                          memory_end(SPACE)};
    if (space.sheet == NULL || space.book == NULL || space.block == NULL)
        stop("no memory");
    for (unsigned mode = 0; mode < MODES; mode++)
        edges(mode);
    step_short(space.block_end);

    uint8_t head[HEAD];
    size_t counts[NUMBERS] = {0}, differ = 0, first_to_differ = 0;
    for (size_t line = 1; take(head, HEAD); line++) {
        bool same = agrees(head, &space, line);
        counts[head[17]]++;
        differ += !same;
        if (!same && first_to_differ == 0)
            first_to_differ = line;
    }
    for (size_t number = 0; number < NUMBERS; number++)
        if (counts[number] != 0)
            printf("%zu %zu\n", number, counts[number]);
    printf("differ %zu, first %zu\n", differ, first_to_differ);
    free(space.sheet);
    free(space.book);
    free(space.block);
    return status;
}
