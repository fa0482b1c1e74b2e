//! A seeded generator of sheets, by families, each of all editions; a sheet comes with a book and a room for its block, and in
//! plain mode.

pub mod books;
pub mod write;

mod damaged;
mod distances;
mod limits;
mod mixed;
mod random;
mod small;

use crate::answer::Mode;
use crate::book;
use crate::pack::pack;
use crate::sheet::{Edition, cut};
use crate::stream::Question;
use books::Give;
use random::Random;

/// Room for any block of editions 1 and 2: at most three times a sheet's length.
pub const AMPLE: u32 = 1 << 22;

#[derive(Clone, Copy, Debug, Eq, PartialEq)]
pub enum Family {
    /// `count` random sheets.
    Mixed,
    /// `count` random small sheets, and all damaged copies of each and, in edition 3, of its book.
    Damaged,
    /// Sizes, counts, labels, editions, depths and lengths at their limits; and the same with all strings named.
    Limits,
    /// Branches at both edges.
    Distances,
    /// Small sheets without a gap.
    Small,
    /// Small books without a gap, and books at their limits.
    Books,
}

impl Family {
    pub const ALL: [Family; 6] = [
        Family::Mixed,
        Family::Damaged,
        Family::Limits,
        Family::Distances,
        Family::Small,
        Family::Books,
    ];

    pub fn name(self) -> &'static str {
        match self {
            Family::Mixed => "mixed",
            Family::Damaged => "damaged",
            Family::Limits => "limits",
            Family::Distances => "distances",
            Family::Small => "small",
            Family::Books => "books",
        }
    }
}

/// Gives the questions of a family. `count` is for mixed and damaged; the others have a number of their own.
pub fn questions(family: Family, seed: u64, count: usize, give: &mut dyn FnMut(Question)) {
    let mut rooms = Random::new(!seed);
    let mut random = Random::new(seed);
    let give = &mut |sheet: Vec<u8>, book: Vec<u8>| {
        let room = room_for(&sheet, &book, &mut rooms);
        let mode = Mode::PLAIN;
        give(Question {
            sheet,
            book,
            room,
            mode,
        });
    };
    match family {
        Family::Mixed => {
            for _ in 0..count {
                let actions = random.pick(&[2, 6, 15, 60, 300]);
                let (sheet, book) = mixed::random_sheet(&mut random, actions);
                give(sheet, book);
            }
        }
        Family::Damaged => {
            for _ in 0..count {
                let actions = random.pick(&[1, 3, 6]);
                let (sheet, book) = mixed::random_sheet(&mut random, actions);
                all_damaged(sheet, book, &mut random, give);
            }
        }
        Family::Limits => limits::limits(&mut |sheet| {
            if let Some((sheet, book)) = books::all_named(&sheet) {
                give(sheet, book);
            }
            with_any_book(sheet, &mut random, give);
        }),
        Family::Distances => {
            distances::distances(&mut |sheet| with_any_book(sheet, &mut random, give))
        }
        Family::Small => small::small(&mut |sheet| with_any_book(sheet, &mut random, give)),
        Family::Books => books::books(give),
    }
}

/// A sheet that names no entry, or none that there is, with some book.
fn with_any_book(sheet: Vec<u8>, random: &mut Random, give: Give) {
    let edition = cut(&sheet).map_or(Edition::One, |(_, edition)| edition);
    let book = books::any_book(edition, random);
    give(sheet, book);
}

/// A sheet, its damaged copies, and in edition 3 with damaged copies of its book.
fn all_damaged(sheet: Vec<u8>, book: Vec<u8>, random: &mut Random, give: Give) {
    damaged::damaged(&sheet, random, &mut |damaged| give(damaged, book.clone()));
    let (_, edition) = cut(&sheet).expect("a trailer");
    if edition.has_book() && book::entries(&book).is_ok() {
        damaged::damaged_book(&book, random, &mut |damaged| give(sheet.clone(), damaged));
    }
    give(sheet, book);
}

/// Exact, one less, one more, none or ample.
fn room_for(sheet: &[u8], book: &[u8], random: &mut Random) -> u32 {
    let needed = match pack(sheet, book, Mode::PLAIN, AMPLE as usize) {
        Ok(block) => block.len() as u32,
        Err(_) => 1 + random.below(64) as u32,
    };
    match random.below(8) {
        0 => 0,
        1 => needed - 1,
        2 => needed + 1,
        3 => AMPLE,
        _ => needed,
    }
}

#[cfg(test)]
mod tests {
    use super::*;
    use crate::answer::{action, number};
    use crate::sheet::measure;
    use std::collections::BTreeSet;
    use std::ops::Range;

    /// What a family meets.
    #[derive(Default)]
    struct Met {
        /// Numbers, in each of the modes.
        numbers: BTreeSet<[u8; 4]>,
        /// Numbers that came with an action other than the first.
        later: BTreeSet<u8>,
        /// Whether sheets of each edition read whole.
        editions: [bool; 3],
        /// Whether a sheet of edition 2 or 3 does that would be 5 in edition 1.
        beyond_edition_1: bool,
        /// Whether a sheet of edition 3 does that names an entry.
        named: bool,
    }

    fn met(family: Family) -> Met {
        let mut met = Met::default();
        // Distances are many and long: a fourth of them tell.
        let step = if family == Family::Distances { 4 } else { 1 };
        let mut asked = 0;
        questions(family, 1, 40, &mut |question| {
            asked += 1;
            if asked % step != 0 {
                return;
            }
            let (mut sheet, book) = (question.sheet, question.book);
            let answers = Mode::ALL.map(|mode| pack(&sheet, &book, mode, question.room as usize));
            met.numbers.insert(answers.each_ref().map(number));
            let later = answers.iter().filter(|answer| action(answer) > 0);
            met.later.extend(later.map(number));
            let (Ok((_, edition)), Ok(whole)) = (cut(&sheet), measure(&sheet, &book)) else {
                return;
            };
            let is_name = |place: &Range<usize>| sheet[place.start..].starts_with(&[0xFF; 2]);
            met.named |= edition.has_book() && whole.places.iter().any(is_name);
            met.editions[usize::from(edition.number() - 1)] = true;
            let at = sheet.len() - 4;
            sheet[at..at + 2].copy_from_slice(&Edition::One.number().to_le_bytes());
            let in_edition_1 = measure(&sheet, &book).err();
            met.beyond_edition_1 |= in_edition_1.is_some_and(|refusal| refusal.number() == 5);
        });
        met
    }

    /// What each family is made to meet: in all modes; in plain mode, where strict mode answers 14; there, where contained mode
    /// answers 15. And sheets of all editions, with label numbers that edition 1 does not have, and strings that are entries; and
    /// every answer that gives an action, also with one that is not the first.
    #[test]
    fn families_meet_their_answers() {
        type Due = &'static [u8];
        let due: [(Family, Due, Due, Due); 6] = [
            (Family::Mixed, &[0, 11, 18], &[0, 11], &[0, 11]),
            (
                Family::Damaged,
                &[0, 2, 3, 4, 5, 7, 11, 18],
                &[0, 11],
                &[0, 11],
            ),
            (
                Family::Limits,
                &[0, 1, 2, 3, 5, 6, 7, 8, 9, 10, 11, 18],
                &[0, 11],
                &[0, 10],
            ),
            (
                Family::Distances,
                &[0, 10, 11, 18],
                &[0, 10, 11],
                &[0, 10, 11],
            ),
            (
                Family::Small,
                &[0, 2, 3, 4, 5, 7, 11, 18],
                &[0, 11],
                &[0, 11],
            ),
            (
                Family::Books,
                &[0, 1, 2, 3, 4, 5, 6, 7, 8, 9, 10, 11, 18],
                &[0, 11],
                &[11],
            ),
        ];
        for (family, same, unrecorded, stray) in due {
            let met = met(family);
            let numbers = met.numbers;
            let meets = |mode: usize, plain: u8, number: u8| {
                let mut all = numbers.iter();
                all.any(|numbers| (numbers[0], numbers[mode]) == (plain, number))
            };
            for n in same {
                assert!(numbers.contains(&[*n; 4]), "{family:?} {n}: {numbers:?}");
            }
            for n in unrecorded {
                assert!(meets(1, *n, 14), "{family:?} {n} and 14: {numbers:?}");
            }
            for n in stray {
                assert!(meets(2, *n, 15), "{family:?} {n} and 15: {numbers:?}");
            }
            let later = same.iter().filter(|n| (3..=10).contains(*n));
            for n in later.chain(&[14, 15]) {
                assert!(met.later.contains(n), "{family:?} {n}: {:?}", met.later);
            }
            assert_eq!(met.editions, [true; 3], "{family:?}");
            assert!(met.beyond_edition_1, "{family:?}");
            let has_names = !matches!(family, Family::Distances | Family::Small);
            assert_eq!(met.named, has_names, "{family:?}");
        }
    }

    #[test]
    fn a_seed_gives_the_same_sheets_again() {
        let all = |seed| {
            let mut bytes = vec![];
            questions(Family::Mixed, seed, 50, &mut |q| {
                q.write(&mut bytes).expect("a Vec takes all")
            });
            bytes
        };
        assert_eq!(all(5), all(5));
        assert_ne!(all(5), all(6));
    }
}
