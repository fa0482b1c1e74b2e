//! The oracle's reader of word books, written from document 02's item 8: the entries that strings of an edition 3 sheet may name.

use crate::answer::Refusal;

pub const TRAILER: usize = 8;

/// A book without an entry; the one that the block program lends.
pub const EMPTY: [u8; TRAILER] = [0, 0, 0, 0, 0, 0, 0x42, 0x31];

/// The entries of a book, or 18. What stands before the first of them is passed over.
pub fn entries(book: &[u8]) -> Result<Vec<&[u8]>, Refusal> {
    well_formed(book).ok_or(Refusal::BadBook)
}

/// The entries, as many as the trailer counts, if they end where it begins and none has a NUL.
fn well_formed(book: &[u8]) -> Option<Vec<&[u8]>> {
    let (front, trailer) = book.split_last_chunk::<TRAILER>()?;
    let [d0, d1, d2, d3, c0, c1, 0x42, 0x31] = *trailer else {
        return None;
    };
    let distance = u32::from_le_bytes([d0, d1, d2, d3]) as usize;
    let count = u16::from_le_bytes([c0, c1]);
    let mut rest = &front[front.len().checked_sub(distance)?..];
    let mut entries = Vec::with_capacity(usize::from(count));
    for _ in 0..count {
        let (length, behind) = rest.split_first_chunk()?;
        let length = usize::from(u16::from_le_bytes(*length));
        let (entry, behind) = behind.split_at_checked(length)?;
        if entry.contains(&0) {
            return None;
        }
        entries.push(entry);
        rest = behind;
    }
    rest.is_empty().then_some(entries)
}

#[cfg(test)]
mod tests;
