//! Packs sheets of ActionScript 2 actions into the blocks of bytes that a player reads, and steps through blocks.
//!
//! The work is done by the proved archive `libmerinovault.a`; this crate only calls it. Answers have the names, numbers, values and
//! action numbers of documents 01 and 02.
//!
//! ```
//! use merinovault::{Mode, Refusal, pack, step};
//!
//! // Label 0 before action 0; one action, Jump to label 0; the trailer.
//! let mut sheet = *b"\x01\0\0\0\0\0\x01\0\x99\0\0\x0B\0\0\0\x01\0A1";
//! let mut out = [0; 64];
//! let length = pack(&sheet, Mode::PLAIN, &mut out)?;
//! assert_eq!(out[..length], [0x99, 2, 0, 0xFB, 0xFF, 0]);
//! assert_eq!(step(&out[..length]), Ok(2));
//!
//! // Label 0 past the body's end, which is no record: the Jump goes on with what stands after it, or is refused.
//! sheet[4] = 2;
//! assert_eq!(pack(&sheet, Mode::PLAIN, &mut out), Ok(6));
//! assert_eq!(pack(&sheet, Mode::STRICT, &mut out), Err(Refusal::NeverRecorded { operand: 3, action: 0 }));
//! # Ok::<(), Refusal>(())
//! ```
#![deny(unsafe_code, missing_docs)]

pub mod raw;
mod refusal;

pub use refusal::{Refusal, Unclean};

/// The length of the value slice that the entries fill: 8 bytes of the value, then 8 of the action number.
pub const VALUE_LEN: usize = 16;

/// The book without an entry, which [`pack`] lends: distance 0, no entry, the mark 42 31.
pub const EMPTY_BOOK: [u8; 8] = [0, 0, 0, 0, 0, 0, 0x42, 0x31];

const DONE: u32 = 0;

/// How branches are judged. What a mode does not refuse is as in plain mode, the bytes of a block too. More fields may come, so a
/// mode begins as one of the constants.
#[derive(Clone, Copy, Debug, Default, PartialEq, Eq, Hash)]
#[non_exhaustive]
pub struct Mode {
    /// Whether a branch whose label no body records is refused: [`Refusal::NeverRecorded`].
    pub strict: bool,
    /// Whether a branch is refused whose label is last recorded in another function body: [`Refusal::StrayBranch`]. The main body
    /// is one; bodies of With and Try belong to the function around them.
    pub contained: bool,
}

impl Mode {
    /// Neither is refused. A branch whose label no body records has distance 0, so it goes on with what stands after it. This is
    /// the default.
    pub const PLAIN: Self = Self {
        strict: false,
        contained: false,
    };

    /// Strict alone.
    pub const STRICT: Self = Self {
        strict: true,
        contained: false,
    };

    /// Contained alone: a label that no body records is as in plain mode.
    pub const CONTAINED: Self = Self {
        strict: false,
        contained: true,
    };

    /// Strict and contained.
    pub const STRICT_CONTAINED: Self = Self {
        strict: true,
        contained: true,
    };
}

/// Packs a sheet into the front of `out` and returns the length of the block. No book is lent: this is [`pack_with_book`] with the
/// [`EMPTY_BOOK`].
///
/// Bytes of `out` past that length keep their values; on a refusal all do. A block of edition 1 or 2 is never longer than three
/// times the sheet.
///
/// The sheet's trailer tells its edition, 1, 2 or 3. Label numbers are 0 to 1,023 in edition 1 and 0 to 4,095 in editions 2 and 3.
/// In edition 3 a string may name an entry of a book, which [`pack_with_book`] takes. All else is the same in all three.
///
/// ```
/// use merinovault::{Mode, Refusal, pack};
///
/// // Label 4,095 before action 0; one action, Jump to label 4,095; the trailer, of edition 2.
/// let mut sheet = *b"\x01\0\xFF\x0F\0\0\x01\0\x99\xFF\x0F\x0B\0\0\0\x02\0A1";
/// assert_eq!(pack(&sheet, Mode::PLAIN, &mut [0; 64]), Ok(6));
/// // In edition 1 the label's number is out of range, and there is no edition 4.
/// sheet[15] = 1;
/// assert_eq!(pack(&sheet, Mode::PLAIN, &mut [0; 64]), Err(Refusal::BadField { place: 2, action: 0 }));
/// sheet[15] = 4;
/// assert_eq!(pack(&sheet, Mode::PLAIN, &mut [0; 64]), Err(Refusal::BadTrailer));
/// ```
pub fn pack(sheet: &[u8], mode: Mode, out: &mut [u8]) -> Result<usize, Refusal> {
    pack_with_book(sheet, &EMPTY_BOOK, mode, out)
}

/// Packs a sheet whose strings may name entries of a book; all else is as for [`pack`].
///
/// A book is bytes that are passed over; then entries, each a u16 length and that many bytes, none of them zero; then a trailer of
/// 8 bytes: u32 distance back from the trailer's first byte to the first entry, u16 number of entries, bytes 42 31. Numbers are
/// little-endian. The entries fill the space from there to the trailer exactly.
///
/// In a sheet of edition 3 a string length of 65,535 is followed by a u16 entry number, from 0, in place of bytes. The string is
/// packed as if the entry's bytes stood in the sheet. A block can then be far longer than three times the sheet; with an empty
/// `out`, [`Refusal::NoRoom`] tells the length that it needs. A book that is not well formed is [`Refusal::BadBook`], also if no
/// string names it. In editions 1 and 2 the length 65,535 is a length, and the book may hold any bytes, also none.
///
/// ```
/// use merinovault::{Mode, Refusal, pack, pack_with_book};
///
/// // Two entries, "yes" and "no"; the trailer: they begin 9 bytes before it, and are 2.
/// let book = *b"\x03\0yes\x02\0no\x09\0\0\0\x02\0B1";
/// // No label; one action, SetTarget of entry 1; the trailer, of edition 3.
/// let mut sheet = *b"\0\0\x01\0\x8B\xFF\xFF\x01\0\x09\0\0\0\x03\0A1";
/// let mut out = [0; 64];
/// let length = pack_with_book(&sheet, &book, Mode::PLAIN, &mut out)?;
/// assert_eq!(out[..length], *b"\x8B\x03\0no\0\0");
///
/// // An entry number that the book does not have is refused at its place; the empty book has none.
/// let refused = Err(Refusal::BadField { place: 7, action: 0 });
/// assert_eq!(pack(&sheet, Mode::PLAIN, &mut out), refused);
/// sheet[7] = 2;
/// assert_eq!(pack_with_book(&sheet, &book, Mode::PLAIN, &mut out), refused);
/// // Without its last byte the book is none.
/// assert_eq!(pack_with_book(&sheet, &book[..16], Mode::PLAIN, &mut out), Err(Refusal::BadBook));
/// # Ok::<(), Refusal>(())
/// ```
pub fn pack_with_book(
    sheet: &[u8],
    book: &[u8],
    mode: Mode,
    out: &mut [u8],
) -> Result<usize, Refusal> {
    let mut value = [0; VALUE_LEN];
    let number = raw::pack(sheet, book, mode.strict, mode.contained, out, &mut value);
    let (value, action) = told(value);
    match number {
        DONE => Ok(length(value)),
        _ => Err(Refusal::new(number, value, action)),
    }
}

/// Steps through a block to its last byte, and returns the number of all steps if the last is an End, byte 00.
///
/// A step is one byte for an opcode under 0x80; else it is 3 bytes and as many more as the two bytes after the opcode say,
/// little-endian, so it goes straight into bodies. An End may stand in the middle too, with a branch past it.
///
/// Every block that [`pack`] writes is clean, in each mode and edition: its steps are the sheet's actions, in sheet order through
/// all bodies, and then the End, and each of its branches lands where a step begins. So [`Unclean`] tells that these bytes are not
/// the whole of such a block, as it was written.
///
/// ```
/// use merinovault::{Unclean, step};
///
/// // If, past the End that follows it; End; Play; End.
/// let block = [0x9D, 2, 0, 1, 0, 0, 6, 0];
/// assert_eq!(step(&block), Ok(4));
/// // Here the last step is Play, and here the step of If passes the end.
/// assert_eq!(step(&block[..7]), Err(Unclean { place: 7 }));
/// assert_eq!(step(&block[..4]), Err(Unclean { place: 0 }));
/// ```
pub fn step(block: &[u8]) -> Result<usize, Unclean> {
    let mut value = [0; VALUE_LEN];
    let number = raw::step(block, &mut value);
    let value = length(told(value).0);
    match number {
        DONE => Ok(value),
        Unclean::NUMBER => Err(Unclean { place: value }),
        _ => unreachable!("stepping answers 0 or 13, not {number}"),
    }
}

/// The value and the action number that fill a value slice.
fn told(slice: [u8; VALUE_LEN]) -> (i64, u64) {
    let (value, action) = slice.split_at(VALUE_LEN / 2);
    let number = |bytes: &[u8]| i64::from_le_bytes(bytes.try_into().expect("8 bytes"));
    let action = u64::try_from(number(action)).expect("an action number is not negative");
    (number(value), action)
}

/// A value that counts bytes or steps.
fn length(value: i64) -> usize {
    usize::try_from(value).expect("a length or a place is not negative")
}
