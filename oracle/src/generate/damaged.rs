//! Damaged copies of a sheet: under another edition, cut at every byte, bytes changed, inserted, removed; and such copies of a
//! book.

use super::random::Random;
use super::write::{book_of, sheet_in};
use crate::book;
use crate::sheet::{TRAILER, cut};

/// Each damaged copy of a sheet. Where bytes go in or out, once as it comes and once with a trailer that fits.
pub fn damaged(sheet: &[u8], random: &mut Random, give: &mut dyn FnMut(Vec<u8>)) {
    let (start, edition) = cut(sheet).expect("a trailer");
    let end = sheet.len() - TRAILER;
    // 1 to 3 too, so that a label number can pass the edition's bound, and no longer pass it, and an entry be no entry.
    for other in (0..=5).filter(|other| *other != edition.number()) {
        give(sheet_in(other, &sheet[..start], &sheet[start..end]));
    }
    at_every_byte(sheet, random, give);
    // The sheet's note, this main body, and a trailer that fits.
    let refitted = |main: &[u8]| sheet_in(edition.number(), &sheet[..start], main);
    for at in start..end {
        give(refitted(&sheet[start..at]));
        give(refitted(&[&sheet[start..at], &sheet[at + 1..end]].concat()));
        give(refitted(
            &[&sheet[start..at], &[random.u8()], &sheet[at..end]].concat(),
        ));
    }
    give(refitted(&[&sheet[start..end], &[random.u8()]].concat()));
}

/// Each damaged copy of a book that is well formed. Where bytes go out of the entries, once as it comes and once with a trailer
/// that fits; and with a trailer that counts one entry less or more, or points one byte further or less far.
pub fn damaged_book(book: &[u8], random: &mut Random, give: &mut dyn FnMut(Vec<u8>)) {
    at_every_byte(book, random, give);
    let (front, trailer) = book.split_at(book.len() - book::TRAILER);
    let distance = u32::from_le_bytes([trailer[0], trailer[1], trailer[2], trailer[3]]);
    let count = u16::from_le_bytes([trailer[4], trailer[5]]);
    let start = front.len() - distance as usize;
    for at in start..front.len() {
        let removed = [&front[..at], &front[at + 1..]].concat();
        give(book_of(&removed, distance - 1, count));
        give(book_of(&front[..at], (at - start) as u32, count));
    }
    for count in [count.wrapping_sub(1), count + 1, count + 256] {
        give(book_of(front, distance, count));
    }
    for distance in [distance.wrapping_sub(1), distance + 1, distance + 65_536] {
        give(book_of(front, distance, count));
    }
}

/// Cut at every byte; and each byte changed, removed, and with another before it.
fn at_every_byte(bytes: &[u8], random: &mut Random, give: &mut dyn FnMut(Vec<u8>)) {
    for at in 0..bytes.len() {
        give(bytes[..at].to_vec());
        for byte in [bytes[at] ^ 1 << random.below(8), random.u8(), 0] {
            let mut changed = bytes.to_vec();
            changed[at] = byte;
            give(changed);
        }
        let mut removed = bytes.to_vec();
        removed.remove(at);
        give(removed);
        let mut inserted = bytes.to_vec();
        inserted.insert(at, random.u8());
        give(inserted);
    }
}
