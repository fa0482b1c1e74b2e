//! The whole: a sheet, the book, the mode and the output's room to an answer.

use crate::answer::{Answer, Mode, Refusal};
use crate::branches::Walk;
use crate::sheet::{self, Measured};
use crate::source::encoder::entry::{self, Overflow};

/// How many bytes the strings of a sheet may have in all for the encoder to be asked. In edition 3 they can have 8 GiB and more.
const HELD: usize = 1 << 26;

/// Packs a sheet: 1 to 7 and 18 by our reader, 8 to 10 and the block by the encoder, 14 and 15 by our walk, 11 by the room. The
/// reader and the walk tell which action it is. The encoder gets the strings that a book's entries stand for.
///
/// The encoder takes strings of UTF-8 only, measures them and copies them. A sheet with others is packed twice, with
/// the letter y and with the letter z for each of their bytes: the places where the two blocks differ are theirs, and
/// they are put back there in order. No Rust stands behind those bytes, as document 01 says.
pub fn pack(sheet: &[u8], book: &[u8], mode: Mode, room: usize) -> Answer {
    if sheet::cut(sheet)?.1.has_book() {
        let measured = sheet::measure(sheet, book)?;
        if measured.total > HELD {
            return Err(unheld(&measured, mode, room));
        }
    }
    let with_y = sheet::read(sheet, book, b'y')?;
    let mut block = judged(&with_y, mode)?;
    if !with_y.foreign.is_empty() {
        let marked = encode(&sheet::read(sheet, book, b'z')?).expect("a letter changes no length");
        put_back(&mut block, &marked, &with_y.foreign);
    }
    if block.len() <= room {
        Ok(block)
    } else {
        Err(Refusal::NoRoom(block.len()))
    }
}

/// The refusal where the encoder cannot hold the strings, and so is not asked: by our walk alone, over their lengths.
fn unheld(sheet: &Measured, mode: Mode, room: usize) -> Refusal {
    let walk = Walk::over(&sheet.actions, digits);
    if let Err(refusal) = walk.judge(mode) {
        return refusal;
    }
    assert!(walk.wrote() > room, "room for a block that is not held");
    Refusal::NoRoom(walk.wrote())
}

/// How many actions a sheet that reads whole has in all bodies, by our walk.
pub fn actions(sheet: &[u8], book: &[u8]) -> Result<usize, Refusal> {
    let measured = sheet::measure(sheet, book)?;
    Ok(Walk::over(&measured.actions, digits).actions())
}

/// A length that stands for a string.
fn digits(text: &str) -> usize {
    text.parse().expect("a length")
}

/// The encoder's block of a sheet that reads whole, or its overflow.
pub fn encode(sheet: &sheet::Whole) -> Result<Vec<u8>, Overflow> {
    entry::encode(&sheet.actions)
}

/// The encoder's block; or its overflow, of the walk's action; or 14 or 15, if the mode refuses a branch that does not come behind
/// the one that the encoder refused. The walk is first held against the encoder, so that what a mode refuses, and which action it
/// is, rest on a walk that agrees with it.
fn judged(sheet: &sheet::Whole, mode: Mode) -> Answer {
    let encoded = encode(sheet);
    let walk = Walk::over(&sheet.actions, str::len);
    let found = walk.judge(Mode::PLAIN);
    assert_eq!(
        found.map_err(|refusal| (refusal.number(), refusal.value())),
        encoded.as_ref().map(|_| ()).map_err(number_and_value)
    );
    if let Ok(block) = &encoded {
        walk.assert_wrote(block);
    }
    walk.judge(mode)?;
    Ok(encoded.expect("plain mode takes what another mode takes"))
}

/// Document 01's number and value of an overflow.
fn number_and_value(overflow: &Overflow) -> (u8, i64) {
    match *overflow {
        Overflow::ActionLen(n) => (8, n as i64),
        Overflow::BlockLen(n) => (9, n as i64),
        Overflow::JumpOffset(n) => (10, n as i64),
    }
}

/// Puts the bytes back where the two blocks differ.
fn put_back(block: &mut [u8], marked: &[u8], foreign: &[u8]) {
    assert_eq!(block.len(), marked.len());
    let places: Vec<&mut u8> = block
        .iter_mut()
        .zip(marked)
        .filter_map(|(place, mark)| (place != mark).then_some(place))
        .collect();
    assert_eq!(places.len(), foreign.len());
    for (place, byte) in places.into_iter().zip(foreign) {
        *place = *byte;
    }
}

#[cfg(test)]
mod named_tests;
#[cfg(test)]
mod tests;
