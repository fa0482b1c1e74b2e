//! Sheets, and packing into an output whose every byte is looked at.
#![allow(dead_code)]
use merinovault::{Mode, Refusal, pack, pack_with_book};

/// By the bits of a mode in the list of crates/replay: bit 0 is strict, bit 1 contained.
pub const MODES: [Mode; 4] = [
    Mode::PLAIN,
    Mode::STRICT,
    Mode::CONTAINED,
    Mode::STRICT_CONTAINED,
];

pub const POP: &[u8] = &[0x17];
pub const PLAY: &[u8] = &[0x06];
pub const STOP: &[u8] = &[0x07];
pub const CALL: &[u8] = &[0x9E];

pub fn u16(n: usize) -> [u8; 2] {
    u16::try_from(n).expect("a u16").to_le_bytes()
}

pub fn string(letters: usize) -> Vec<u8> {
    [&u16(letters)[..], &vec![b'a'; letters]].concat()
}

/// A body of these actions; a label entry is a number and an action index.
pub fn body(labels: &[(usize, usize)], actions: &[&[u8]]) -> Vec<u8> {
    let entries: Vec<u8> = labels
        .iter()
        .flat_map(|&(label, index)| [u16(label), u16(index)].concat())
        .collect();
    [
        &u16(labels.len())[..],
        &entries,
        &u16(actions.len()),
        &actions.concat(),
    ]
    .concat()
}

pub fn u32(n: usize) -> [u8; 4] {
    u32::try_from(n).expect("a u32").to_le_bytes()
}

/// A main body, with its note and its trailer, which has this edition.
pub fn sheet_in(edition: usize, note: &[u8], main: &[u8]) -> Vec<u8> {
    let distance = u32(main.len());
    [note, main, &distance, &u16(edition), &[0x41, 0x31]].concat()
}

/// A string of a sheet of edition 3 that is this entry of the book.
pub fn named(entry: usize) -> Vec<u8> {
    [[0xFF, 0xFF], u16(entry)].concat()
}

/// The entries of a book, one after another.
pub fn entries(words: &[&[u8]]) -> Vec<u8> {
    let entry = |word: &&[u8]| [&u16(word.len())[..], word].concat();
    words.iter().flat_map(entry).collect()
}

/// A book: bytes that are passed over, entries, and the trailer with this number of them.
pub fn book_of(note: &[u8], entries: &[u8], count: usize) -> Vec<u8> {
    let distance = u32(entries.len());
    [note, entries, &distance, &u16(count), &[0x42, 0x31]].concat()
}

/// The book of these words.
pub fn book(words: &[&[u8]]) -> Vec<u8> {
    book_of(&[], &entries(words), words.len())
}

/// The same in edition 1.
pub fn sheet_with_note(note: &[u8], main: &[u8]) -> Vec<u8> {
    sheet_in(1, note, main)
}

pub fn sheet(main: &[u8]) -> Vec<u8> {
    sheet_with_note(&[], main)
}

pub fn jump(label: usize) -> Vec<u8> {
    [&[0x99][..], &u16(label)].concat()
}

pub fn with(inside: &[u8]) -> Vec<u8> {
    [&[0x94], inside].concat()
}

/// DefineFunction, whose body begins 9 bytes behind it in the block.
pub fn function(inside: &[u8]) -> Vec<u8> {
    [&[0x9B, 1, 0, b'f', 0, 0], inside].concat()
}

/// DefineFunction2, whose body begins 12 bytes behind it.
pub fn function2(inside: &[u8]) -> Vec<u8> {
    [&[0x8E, 1, 0, b'f', 0, 0, 0, 0, 0], inside].concat()
}

/// Try with three bodies, of which the first begins 12 bytes behind it.
pub fn attempt(first: &[u8], catch: &[u8], last: &[u8]) -> Vec<u8> {
    [&[0x8F, 3, 1, 0, b'e'], first, catch, last].concat()
}

pub fn set_target(letters: usize) -> Vec<u8> {
    [&[0x8B][..], &string(letters)].concat()
}

/// Jump to label 0, which stands past the body's end and so has no record: P7 of document 01.
pub fn p7() -> Vec<u8> {
    body(&[(0, 2)], &[&jump(0)])
}

/// A main body and its block: those of P1 to P12 of document 01 that the mode takes. Strict mode takes all but P7.
pub fn sums(mode: Mode) -> Vec<(Vec<u8>, Vec<u8>)> {
    let mut sums = all_sums();
    sums.retain(|(main, _)| !mode.strict || *main != p7());
    sums
}

fn all_sums() -> Vec<(Vec<u8>, Vec<u8>)> {
    let push = |value: &[u8]| [&[0x96, 1, 0], value].concat();
    let one = |action: &[u8]| body(&[], &[action]);
    let function2 = [
        &[0x8E, 1, 0, b'f', 1, 0, 1, 1, 0, b'x', 2, 1, 1][..],
        &body(&[], &[]),
    ]
    .concat();
    let attempt = [&[0x8F, 2][..], &one(PLAY), &one(STOP)].concat();
    let inner = with(&body(&[(0, 0)], &[PLAY]));
    vec![
        (body(&[], &[]), vec![0]),
        (one(CALL), vec![0x9E, 0, 0, 0]),
        (one(&push(&[8, 255, 0])), vec![0x96, 2, 0, 8, 0xFF, 0]),
        (one(&push(&[8, 0, 1])), vec![0x96, 3, 0, 9, 0, 1, 0]),
        (
            one(&push(&[6, 0, 0, 0, 0, 0, 0, 0xF0, 0x3F])),
            vec![0x96, 9, 0, 6, 0, 0, 0xF0, 0x3F, 0, 0, 0, 0, 0],
        ),
        (
            body(&[(0, 0)], &[&jump(0)]),
            vec![0x99, 2, 0, 0xFB, 0xFF, 0],
        ),
        (p7(), vec![0x99, 2, 0, 0, 0, 0]),
        (one(&with(&one(POP))), vec![0x94, 2, 0, 1, 0, 0x17, 0]),
        (
            one(&function2),
            vec![0x8E, 0x0C, 0, 0x66, 0, 1, 0, 2, 1, 1, 1, 0x78, 0, 0, 0, 0],
        ),
        (
            one(&attempt),
            vec![0x8F, 8, 0, 2, 1, 0, 0, 0, 1, 0, 0, 6, 7, 0],
        ),
        (one(&[0x9A, 1, 0, 7]), vec![0x9A, 1, 0, 0x83, 0]),
        (
            body(&[(0, 0)], &[&jump(0), &inner]),
            vec![0x99, 2, 0, 5, 0, 0x94, 2, 0, 1, 0, 6, 0],
        ),
    ]
}

/// More than the blocks of these tests need.
pub const ROOM: usize = 200_000;

/// The refusal of a packing, which is given its room, with number, value and action number held to the documents'.
fn refused_by(
    packing: impl Fn(usize) -> Result<Vec<u8>, Refusal>,
    number: u32,
    value: i64,
    action: u64,
) -> Refusal {
    let refusal = packing(ROOM).expect_err("a refusal");
    // One that names no action has action number 0.
    let named = refusal.action().unwrap_or(0);
    assert_eq!(
        (refusal.number(), refusal.value(), named),
        (number, value, action),
        "{refusal:?}"
    );
    // What is wrong with a sheet comes before the room.
    assert_eq!(packing(0), Err(refusal));
    refusal
}

/// The refusal in this mode.
pub fn refused_in(mode: Mode, sheet: &[u8], number: u32, value: i64, action: u64) -> Refusal {
    refused_by(|room| packed(sheet, mode, room), number, value, action)
}

/// The refusal, which is the same in every mode.
pub fn refused(sheet: &[u8], number: u32, value: i64, action: u64) -> Refusal {
    let refusals = MODES.map(|mode| refused_in(mode, sheet, number, value, action));
    assert_eq!(refusals, [refusals[0]; 4]);
    refusals[0]
}

/// The refusal with this book, which is the same in every mode.
pub fn refused_with(book: &[u8], sheet: &[u8], number: u32, value: i64, action: u64) -> Refusal {
    let refusals = MODES.map(|mode| {
        let packing = |room| packed_with(book, sheet, mode, room);
        refused_by(packing, number, value, action)
    });
    assert_eq!(refusals, [refusals[0]; 4]);
    refusals[0]
}

/// The block with this book, which is the same in every mode.
pub fn taken_with(book: &[u8], sheet: &[u8]) -> Vec<u8> {
    let [block, others @ ..] =
        MODES.map(|mode| packed_with(book, sheet, mode, ROOM).expect("a block"));
    assert!(others.iter().all(|other| *other == block));
    block
}

/// Packs without a book, into an output of this room, and looks at every byte (`looked_at`).
pub fn packed(sheet: &[u8], mode: Mode, room: usize) -> Result<Vec<u8>, Refusal> {
    looked_at(room, |out| pack(sheet, mode, out))
}

/// The same with a book.
pub fn packed_with(book: &[u8], sheet: &[u8], mode: Mode, room: usize) -> Result<Vec<u8>, Refusal> {
    looked_at(room, |out| pack_with_book(sheet, book, mode, out))
}

/// Packs into an output of this room, twice, over two fills. Fails if a byte changed that must keep its value: past a Done
/// length, on a refusal any, and around the output.
fn looked_at(
    room: usize,
    packing: impl Fn(&mut [u8]) -> Result<usize, Refusal>,
) -> Result<Vec<u8>, Refusal> {
    const AROUND: usize = 64;
    let once = |fill: u8| {
        let mut space = vec![fill; AROUND + room + AROUND];
        let answer = packing(&mut space[AROUND..AROUND + room]);
        let written = answer.unwrap_or(0);
        assert!(written <= room, "a Done length within the room");
        let block = space[AROUND..AROUND + written].to_vec();
        let kept = space[..AROUND].iter().chain(&space[AROUND + written..]);
        assert!(
            kept.into_iter().all(|&byte| byte == fill),
            "a byte changed that must keep its value"
        );
        answer.map(|_| block)
    };
    let answer = once(0xA5);
    assert_eq!(once(0x5A), answer, "the output's bytes change no answer");
    answer
}
