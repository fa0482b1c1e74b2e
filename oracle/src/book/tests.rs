use super::*;
use crate::generate::write::{book, book_of};

/// The entries of a book that is well formed.
fn told(book: &[u8]) -> Option<Vec<Vec<u8>>> {
    let entries = entries(book).ok()?;
    Some(entries.into_iter().map(<[u8]>::to_vec).collect())
}

fn texts(texts: &[&str]) -> Vec<Vec<u8>> {
    texts.iter().map(|text| text.as_bytes().to_vec()).collect()
}

/// Document 02's bytes: an empty book, one of one entry, one of two of which one is empty.
#[test]
fn books_worked_by_hand() {
    assert_eq!(told(b"\0\0\0\0\0\0B1"), Some(vec![]));
    assert_eq!(told(b"\x02\0hi\x04\0\0\0\x01\0B1"), Some(texts(&["hi"])));
    let two = b"\0\0\x01\0a\x05\0\0\0\x02\0B1";
    assert_eq!(told(two), Some(texts(&["", "a"])));
    // as the writer of the generator writes them
    assert_eq!(EMPTY[..], book(&[], &[]));
    assert_eq!(two[..], book(&[], &texts(&["", "a"])));
}

/// What stands before the entries is passed over, whatever it is: zeros, another book, bytes that look like entries.
#[test]
fn a_note_is_passed_over() {
    let entries = texts(&["a", "", "b\u{e9}"]);
    let bare = book(&[], &entries);
    for note in [&[0][..], b"note", &[0xFF; 70_000], &bare, &[1, 0, b'x']] {
        assert_eq!(told(&book(note, &entries)), Some(entries.clone()));
        assert_eq!(told(&book(note, &[])), Some(vec![]));
    }
}

#[test]
fn too_short_or_without_its_mark() {
    for length in 0..8 {
        assert_eq!(told(&EMPTY[8 - length..]), None);
        assert_eq!(told(&EMPTY[..length]), None);
    }
    for (at, byte) in [(6, 0x41), (6, 0x31), (7, 0x32), (7, 0x42), (6, 0)] {
        let mut other = EMPTY;
        other[at] = byte;
        assert_eq!(told(&other), None);
    }
}

/// Cut at every byte, with the trailer that the whole has and with one that fits.
#[test]
fn cut_at_every_byte() {
    let whole = book(&[], &texts(&["ab", "", "c"]));
    let front = &whole[..whole.len() - 8];
    for at in 0..front.len() {
        assert_eq!(told(&[&front[..at], &whole[front.len()..]].concat()), None);
        assert_eq!(told(&book_of(&front[..at], at as u32, 3)), None);
        assert_eq!(told(&whole[..at]), None);
    }
    assert_eq!(told(&book_of(front, front.len() as u32, 3)), told(&whole));
}

/// A NUL at every place of an entry, in each entry; in the note it is passed over.
#[test]
fn no_entry_has_a_nul() {
    let nul = |entries: &[&str]| told(&book(b"\0", &texts(entries)));
    assert!(nul(&["abc", "d"]).is_some());
    for entry in ["\0bc", "a\0c", "ab\0", "\0", "\0\0"] {
        assert_eq!(nul(&[entry]), None);
        assert_eq!(nul(&[entry, "d"]), None);
        assert_eq!(nul(&["abc", entry]), None);
    }
}

/// The distance: too far, beyond 16 bits, and not at an entry's first byte.
#[test]
fn distances() {
    // the note reads as an entry too
    let front = b"\0\0\x01\0a\x01\0b";
    assert_eq!(told(&book_of(front, 8, 3)), Some(texts(&["", "a", "b"])));
    assert_eq!(told(&book_of(front, 6, 2)), Some(texts(&["a", "b"])));
    assert_eq!(told(&book_of(front, 3, 1)), Some(texts(&["b"])));
    assert_eq!(told(&book_of(front, 0, 0)), Some(vec![]));
    for (distance, count) in [(9, 3), (8, 2), (8, 4), (6, 1), (6, 3), (3, 0), (0, 1)] {
        assert_eq!(told(&book_of(front, distance, count)), None);
    }
    for distance in [65_536, 65_536 + 8, 1 << 31, u32::MAX, u32::MAX - 7] {
        assert_eq!(told(&book_of(front, distance, 3)), None);
    }
    for (distance, count) in [(1, 1), (2, 1), (4, 1), (5, 1), (7, 2)] {
        assert_eq!(told(&book_of(front, distance, count)), None);
    }
}

/// The entries fill the space: a count that is too small leaves bytes, one that is too large finds none.
#[test]
fn counts() {
    for count in [0, 1, 2, 255, 256, 257, 4_096, 65_534, 65_535] {
        let entries = vec![vec![]; usize::from(count)];
        let front = book(&[], &entries);
        let front = &front[..front.len() - 8];
        assert_eq!(
            told(&book_of(front, 2 * u32::from(count), count)),
            Some(entries)
        );
        for other in [count.wrapping_sub(1), count.wrapping_add(1), count ^ 256] {
            assert_eq!(told(&book_of(front, 2 * u32::from(count), other)), None);
        }
    }
}

/// In a book 65,535 is a length like others, and a book may be longer than a sheet.
#[test]
fn lengths() {
    for length in [65_534, 65_535] {
        let entries = vec![vec![b'a'; length], vec![], vec![b'b'; length]];
        assert_eq!(told(&book(b"note", &entries)), Some(entries));
    }
    let entries = vec![vec![0xFF; 65_535]; 40];
    assert_eq!(told(&book(&[], &entries)), Some(entries));
}
