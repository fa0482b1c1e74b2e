/*
 * merinovault.h: packs a sheet of ActionScript 2 actions into the block of bytes that a player reads, and steps through a block.
 * Link libmerinovault.a, which tools/native-lib.sh proves and builds; docs/LINKING.md tells how.
 *
 * Each function returns its answer's number and fills the 16 bytes of value: first the answer's value, then its action number,
 * each a little-endian signed 64-bit number of 8 bytes. If value_len is not 16, so if it is 8 too, the function returns
 * MERINOVAULT_NO_ROOM before everything else and writes nothing at all.
 *
 * What the caller owes. Nothing tests it, and the proofs count on it:
 *  - A pointer and the length after it are one run of bytes, at most PTRDIFF_MAX long. All of it may be read, and all of out and
 *    value written, until the call returns.
 *  - out and value share no byte with any other run of the call.
 *  - While the call runs, nothing else writes to sheet, book or block, and nothing else reads or writes out or value.
 *  - A run of length 0 is never read or written; its pointer may be NULL. No run needs an alignment.
 *  - strict and contained are true or false, as every bool is. If one was made to hold another byte by writing to its memory, the
 *    call is undefined.
 *  - The thread has stack enough. No proof bounds it; a call of merinovault_pack took up to 87 KiB (docs/LINKING.md).
 *
 * The functions keep nothing between calls and allocate nothing, so several threads may call at once. They always return.
 */
#ifndef MERINOVAULT_H
#define MERINOVAULT_H

#include <stdbool.h>
#include <stddef.h>
#include <stdint.h>

#ifdef __cplusplus
extern "C" {
#endif

/* The length that value must have: 8 bytes of the answer's value, then 8 of its action number. */
#define MERINOVAULT_VALUE_LEN 16u

/* The answers' numbers, and the value of each. A place counts bytes from 0, the first byte of the sheet or block. */
#define MERINOVAULT_DONE 0u                  /* length of the block written; of stepping: the number of all steps */
#define MERINOVAULT_SHEET_TOO_LONG 1u        /* length of the sheet, over 1,048,576 */
#define MERINOVAULT_BAD_TRAILER 2u           /* 0 */
#define MERINOVAULT_CUT_SHORT 3u             /* place of a field that would reach into the trailer */
#define MERINOVAULT_UNKNOWN_CODE 4u          /* place of an opcode or of a pushed value's kind that is not listed */
#define MERINOVAULT_BAD_FIELD 5u             /* place of a field outside its range or order; of the first NUL in a string */
#define MERINOVAULT_TOO_DEEP 6u              /* place of the first byte of a body at depth 17 */
#define MERINOVAULT_LEFT_OVER 7u             /* place of the first byte between the main body and the trailer */
#define MERINOVAULT_ACTION_LEN_OVERFLOW 8u   /* length of an action's payload, over 65,535 */
#define MERINOVAULT_BLOCK_LEN_OVERFLOW 9u    /* length of a body, over 65,535 */
#define MERINOVAULT_JUMP_OFFSET_OVERFLOW 10u /* signed distance of a branch, outside -32,768 to 32,767 */
#define MERINOVAULT_NO_ROOM 11u              /* length that the block needs, more than out_len */
#define MERINOVAULT_INPUT_FULL 12u           /* 65,536; of the block program, and returned by no function here */
#define MERINOVAULT_UNCLEAN 13u              /* place of an opcode whose step passes the end, or block_len; of stepping alone */
#define MERINOVAULT_NEVER_RECORDED 14u       /* place in the block of a branch's operand; of strict mode alone */
#define MERINOVAULT_STRAY_BRANCH 15u         /* place in the block of a branch's operand; of contained mode alone */
#define MERINOVAULT_BAD_BOOK 18u             /* 0; of sheets of edition 3 alone */

/*
 * The action number of each answer. Actions count from 0 in sheet order through all bodies; an action comes before those in its
 * bodies.
 *
 *   CUT_SHORT, UNKNOWN_CODE, BAD_FIELD     the action being read. Where an opcode is missing, or the field is one of a body's label
 *                                          entries or counts, the number that the next action would have had
 *   TOO_DEEP, BLOCK_LEN_OVERFLOW           the action that owns the body
 *   LEFT_OVER                              how many actions were read
 *   ACTION_LEN_OVERFLOW                    the action whose payload it is
 *   JUMP_OFFSET_OVERFLOW, NEVER_RECORDED,
 *   STRAY_BRANCH                           the branch
 *   every other answer                     0
 */

/*
 * A book is lent beside the sheet and holds words that sheets share. It is bytes that are passed over; then entries, each a u16
 * length and that many bytes, none of them 00; then a trailer of 8 bytes: u32 distance back from the trailer's first byte to the
 * first entry, u16 number of entries, bytes 42 31. Numbers are little-endian. The entries fill the space from there to the trailer
 * exactly.
 *
 * Without a book, lend the empty one, which has no entry:
 *
 *   merinovault_pack(sheet, sheet_len, merinovault_empty_book, sizeof merinovault_empty_book, ...
 *
 * Only a sheet of edition 3 looks at the book. For one of edition 1 or 2 any bytes will do, also none: NULL and length 0.
 */
static const uint8_t merinovault_empty_book[8] = {0x00, 0x00, 0x00, 0x00, 0x00, 0x00, 0x42, 0x31};

/*
 * Packs sheet into the front of out: 0 to 11, 14, 15 or 18. Bytes of out past a Done length keep their values, and on any other
 * answer all do. With out_len 0, NO_ROOM tells the length that a good sheet needs. For editions 1 and 2 it is never more than
 * 3 x sheet_len. For edition 3 it can be more than 4 GiB, since a few bytes of the sheet can name a long entry.
 *
 * The trailer of a sheet tells its edition, 1, 2 or 3; any other is BAD_TRAILER. Label numbers are 0 to 1,023 in edition 1 and 0
 * to 4,095 in editions 2 and 3, and any other is BAD_FIELD. In edition 3 a string may be an entry of the book. All else is the
 * same in all three.
 *
 * In a sheet of edition 3 a string length of 65,535 is followed by a u16 entry number, from 0, in place of bytes. The string is
 * packed as if the entry's bytes stood in the sheet. An entry number at or past the number of entries is BAD_FIELD, at its place. A
 * book that is not well formed is BAD_BOOK, also if no string names an entry: after SHEET_TOO_LONG and BAD_TRAILER, and before what
 * else is wrong with the sheet. In editions 1 and 2 a string length of 65,535 is a length like others.
 *
 * In plain mode, strict and contained false, a branch (If or Jump) whose label no body records has distance 0, so it goes on with
 * what stands after it. In strict mode it is refused: NEVER_RECORDED, with the byte position in the block at which its operand
 * would begin. In contained mode, strict or not, a branch is refused whose label is last recorded in another function body:
 * STRAY_BRANCH, with the same position. The main body is one; bodies of With and Try belong to the function around them. All else
 * is as in plain mode, the bytes of a block too.
 */
uint32_t merinovault_pack(const uint8_t *sheet, size_t sheet_len, const uint8_t *book, size_t book_len, bool strict, bool contained,
                          uint8_t *out, size_t out_len, uint8_t *value, size_t value_len);

/*
 * Steps through block to its last byte. A step is one byte for an opcode under 0x80; else it is 3 bytes and as many more as the
 * two bytes after the opcode say, little-endian, so it goes straight into bodies.
 *
 * DONE if the last step is an End, byte 00, with the number of all steps; an End may stand in the middle too, with a branch
 * past it. Otherwise UNCLEAN: with the place of an opcode whose step passes the end, or whose two length bytes are not all
 * there; with block_len if the last step is no End; with 0 if the block is empty. The action number is always 0. A value_len
 * other than 16 gives NO_ROOM.
 *
 * Every block that merinovault_pack writes is DONE here, in each mode and edition: its steps are the sheet's actions, in sheet
 * order through all bodies, and then the End, and each of its branches lands where a step begins. So UNCLEAN tells that these
 * bytes are not the whole of such a block, as it was written.
 */
uint32_t merinovault_step(const uint8_t *block, size_t block_len, uint8_t *value, size_t value_len);

#ifdef __cplusplus
}
#endif

#endif
