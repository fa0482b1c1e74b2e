/* example.c: packs small sheets, one of them with a book, steps through blocks, and shows refusals. */
#include <inttypes.h>
#include <stdio.h>

#include "merinovault.h"

/* The number that fills 8 bytes: those of the answer's value, or of its action number behind it. */
static int64_t number_in(const uint8_t bytes[8])
{
    uint64_t bits = 0;
    for (size_t i = 8; i > 0; i--)
        bits = bits << 8 | bytes[i - 1];
    return (int64_t)bits;
}

/* Whether a refusal with this number names an action. */
static bool names_action(uint32_t number)
{
    return (number >= MERINOVAULT_CUT_SHORT && number <= MERINOVAULT_JUMP_OFFSET_OVERFLOW) ||
           number == MERINOVAULT_NEVER_RECORDED || number == MERINOVAULT_STRAY_BRANCH;
}

/* Steps through the block and prints the answer: 0 with the number of steps, or 13 with a place. */
static void show_steps(const uint8_t *block, size_t block_len)
{
    uint8_t value[MERINOVAULT_VALUE_LEN];
    uint32_t number = merinovault_step(block, block_len, value, sizeof value);
    printf("stepped: answer %" PRIu32 ", value %" PRId64 "\n", number, number_in(value));
}

/* Packs the sheet with the book and prints the block with its steps, or the answer that refused it. */
static void show_with(const uint8_t *book, size_t book_len, const uint8_t *sheet, size_t sheet_len, bool strict, bool contained)
{
    uint8_t block[64], value[MERINOVAULT_VALUE_LEN];
    uint32_t number =
        merinovault_pack(sheet, sheet_len, book, book_len, strict, contained, block, sizeof block, value, sizeof value);
    if (number != MERINOVAULT_DONE) {
        printf("refused: answer %" PRIu32 ", value %" PRId64, number, number_in(value));
        if (names_action(number))
            printf(", action %" PRId64, number_in(value + 8));
        printf("\n");
        return;
    }
    size_t len = (size_t)number_in(value);
    printf("packed %zu bytes:", len);
    for (size_t i = 0; i < len; i++)
        printf(" %02X", block[i]);
    printf("\n");
    show_steps(block, len);
}

/* The same without a book. */
static void show(const uint8_t *sheet, size_t sheet_len, bool strict, bool contained)
{
    show_with(merinovault_empty_book, sizeof merinovault_empty_book, sheet, sheet_len, strict, contained);
}

int main(void)
{
    uint8_t sheet[] = {
        0x01, 0x00,             /* one label entry: */
        0x00, 0x00, 0x00, 0x00, /* label 0 stands before action 0 */
        0x01, 0x00,             /* one action: */
        0x99, 0x00, 0x00,       /* Jump to label 0 */
        0x0B, 0x00, 0x00, 0x00, /* trailer: the main body begins 11 bytes before it, */
        0x01, 0x00, 0x41, 0x31, /* edition 1, and the mark */
    };
    show(sheet, sizeof sheet, false, false);
    sheet[4] = 2; /* label 0 past the body's end, which is no record */
    show(sheet, sizeof sheet, false, false);
    show(sheet, sizeof sheet, true, false); /* NeverRecorded: the operand of action 0, at byte 3 of the block */
    sheet[8] = 0x98;                        /* no opcode: UnknownCode at byte 8 of the sheet, action 0 */
    show(sheet, sizeof sheet, true, false);

    uint8_t form[] = {
        0x01, 0x00,             /* one label entry: */
        0x00, 0x04, 0x00, 0x00, /* label 1,024 stands before action 0 */
        0x01, 0x00,             /* one action: */
        0x99, 0x00, 0x04,       /* Jump to label 1,024 */
        0x0B, 0x00, 0x00, 0x00, /* trailer: the main body begins 11 bytes before it, */
        0x02, 0x00, 0x41, 0x31, /* edition 2, which has label numbers up to 4,095, and the mark */
    };
    show(form, sizeof form, false, false);
    form[15] = 1; /* edition 1: BadField at byte 2 of the sheet, since its label numbers are up to 1,023 */
    show(form, sizeof form, false, false);
    form[15] = 4; /* no edition: BadTrailer */
    show(form, sizeof form, false, false);

    uint8_t book[] = {
        0x03, 0x00, 0x79, 0x65, 0x73, /* entry 0, of 3 bytes: "yes" */
        0x02, 0x00, 0x6E, 0x6F,       /* entry 1, of 2 bytes: "no" */
        0x09, 0x00, 0x00, 0x00,       /* trailer: the first entry begins 9 bytes before it, */
        0x02, 0x00, 0x42, 0x31,       /* 2 entries, and the mark */
    };
    uint8_t words[] = {
        0x00, 0x00,                   /* no label entry */
        0x01, 0x00,                   /* one action: */
        0x96, 0x02, 0x00,             /* Push of two values: */
        0x00, 0x02, 0x00, 0x6F, 0x6B, /* a string of 2 bytes, "ok", */
        0x00, 0xFF, 0xFF, 0x01, 0x00, /* and a string that is entry 1 of the book */
        0x11, 0x00, 0x00, 0x00,       /* trailer: the main body begins 17 bytes before it, */
        0x03, 0x00, 0x41, 0x31,       /* edition 3, and the mark */
    };
    show_with(book, sizeof book, words, sizeof words, false, false);
    show(words, sizeof words, false, false); /* the empty book has no entry 1: BadField at byte 15 of the sheet, action 0 */
    book[13] = 3;                            /* the book has not 3 entries: BadBook */
    show_with(book, sizeof book, words, sizeof words, false, false);
    words[21] = 2; /* edition 2 does not look at the book; there 65,535 is a length: CutShort at byte 15, action 0 */
    show_with(book, sizeof book, words, sizeof words, false, false);

    uint8_t into[] = {
        0x00, 0x00,                         /* no label entry */
        0x02, 0x00,                         /* two actions: */
        0x9B, 0x01, 0x00, 0x66, 0x00, 0x00, /* DefineFunction f, without parameters; its body: */
        0x01, 0x00, 0x00, 0x00, 0x00, 0x00, /* one label entry, label 0 before action 0, */
        0x01, 0x00, 0x06,                   /* and one action, Play */
        0x99, 0x00, 0x00,                   /* Jump to label 0 */
        0x16, 0x00, 0x00, 0x00, 0x01, 0x00, 0x41, 0x31,
    };
    /* Counted through all bodies, DefineFunction is action 0, Play 1 and Jump 2. */
    show(into, sizeof into, true, false);
    show(into, sizeof into, true, true); /* StrayBranch: action 2, the Jump, leaves the main body */
    into[18] = 0x98;                     /* no opcode in Play's place: UnknownCode at byte 18 of the sheet, action 1 */
    show(into, sizeof into, true, true);

    const uint8_t block[] = {
        0x96, 0x02, 0x00, 0x04, 0x01, /* Push register 1 */
        0x9D, 0x02, 0x00, 0x01, 0x00, /* If, past the End that follows it */
        0x00,                         /* End */
        0x06,                         /* Play */
        0x00,                         /* End, the last step */
    };
    show_steps(block, sizeof block);     /* clean, 5 steps: an End may stand in the middle */
    show_steps(block, sizeof block - 1); /* Unclean: the last step is Play, so the value is the block's length */
    show_steps(block, 4);                /* Unclean: Push, at byte 0, passes the end */
    return 0;
}
