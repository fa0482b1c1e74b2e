//! Books: which are well formed, what a string gets from one, and what depends on it.
mod common;
use common::*;
use merinovault::{EMPTY_BOOK, Mode, Refusal, pack, pack_with_book};

const WORDS: [&[u8]; 4] = [b"postcode", b"accept", b"reject", b""];

/// A main body of SetTarget with this string.
fn target(string: &[u8]) -> Vec<u8> {
    body(&[], &[&[&[0x8B], string].concat()])
}

/// A sheet of edition 3 whose one string names this entry.
fn naming(entry: usize) -> Vec<u8> {
    sheet_in(3, &[], &target(&named(entry)))
}

/// The block of SetTarget with these bytes.
fn target_block(bytes: &[u8]) -> Vec<u8> {
    [&[0x8B][..], &u16(bytes.len() + 1), bytes, &[0, 0]].concat()
}

/// A main body with a string in each place that has one, given how to write the string of a word.
fn every_place(word: impl Fn(usize) -> Vec<u8>) -> Vec<u8> {
    let [a, b, c, d] = [word(0), word(1), word(2), word(3)];
    let inside = body(&[], &[PLAY]);
    body(
        &[],
        &[
            &[&[0x83][..], &a, &b].concat(),
            &[&[0x8B][..], &c].concat(),
            &[&[0x8C][..], &d].concat(),
            &[&[0x88, 3, 0][..], &b, &a, &b].concat(),
            &[
                &[0x8E][..],
                &a,
                &[2, 0, 1],
                &b,
                &[2],
                &c,
                &[3, 0, 0],
                &inside,
            ]
            .concat(),
            &[&[0x8F, 1][..], &c, &inside, &inside].concat(),
            &[&[0x9B][..], &d, &[2, 0], &c, &a, &inside].concat(),
            &[&[0x96, 3, 0, 0][..], &a, &[2, 0], &d].concat(),
        ],
    )
}

/// A string that stands in the sheet.
fn standing(bytes: &[u8]) -> Vec<u8> {
    [&u16(bytes.len())[..], bytes].concat()
}

#[test]
fn a_string_is_packed_as_if_it_stood_in_the_sheet() {
    let book = book(&WORDS);
    let plain = every_place(|word| standing(WORDS[word]));
    let block = taken_with(&[], &sheet_in(2, &[], &plain));
    assert_eq!(taken_with(&book, &sheet_in(3, &[], &plain)), block);
    assert_eq!(taken_with(&EMPTY_BOOK, &sheet_in(3, &[], &plain)), block);
    let all = every_place(named);
    assert_eq!(taken_with(&book, &sheet_in(3, b"a note", &all)), block);
    // some of the words from the book
    for from_book in 0..16 {
        let mixed = every_place(|word| match from_book >> word & 1 {
            0 => standing(WORDS[word]),
            _ => named(word),
        });
        assert_eq!(taken_with(&book, &sheet_in(3, &[], &mixed)), block);
    }
}

#[test]
fn good_books() {
    let words = entries(&WORDS);
    // bytes before the entries are passed over, also those of an entry that is none, or of a book
    for note in [
        &[][..],
        b"a note",
        &[0; 9],
        &[0xFF; 3],
        &EMPTY_BOOK,
        &book(&[b"other"]),
    ] {
        let book = book_of(note, &words, WORDS.len());
        for (entry, word) in WORDS.iter().enumerate() {
            assert_eq!(taken_with(&book, &naming(entry)), target_block(word));
        }
        // no entry at all
        let none = book_of(note, &[], 0);
        assert_eq!(
            taken_with(&none, &sheet_in(3, &[], &target(&[0, 0]))).len(),
            5
        );
        refused_with(&none, &naming(0), 5, 7, 0);
    }
    assert_eq!(book(&[]), EMPTY_BOOK);
    // bytes outside UTF-8, and one that is a trailer's
    let odd = [&[0xFF, 0xFE, 1][..], b"B1"];
    assert_eq!(taken_with(&book(&odd), &naming(0)), target_block(odd[0]));
    assert_eq!(taken_with(&book(&odd), &naming(1)), target_block(odd[1]));
}

#[test]
fn in_a_book_65535_is_a_length() {
    let (long, longest) = (vec![b'a'; 65_534], vec![b'b'; 65_535]);
    let book = book(&[&longest, &long, b"c"]);
    assert!(taken_with(&book, &naming(1)) == target_block(&long));
    assert_eq!(taken_with(&book, &naming(2)), target_block(b"c"));
    // it is read, and too long for any payload
    refused_with(&book, &naming(0), 8, 65_536, 0);
}

#[test]
fn a_book_has_up_to_65535_entries() {
    let words: Vec<[u8; 2]> = (0..65_535)
        .map(|n| [1 + (n % 255) as u8, 1 + (n / 255 % 255) as u8])
        .collect();
    let all: Vec<&[u8]> = words.iter().map(|word| &word[..]).collect();
    let book = book(&all);
    for entry in [0, 1, 255, 256, 32_768, 65_534] {
        let block = packed_with(&book, &naming(entry), Mode::PLAIN, ROOM);
        assert_eq!(block, Ok(target_block(&words[entry])));
    }
    let refused = Err(Refusal::BadField {
        place: 7,
        action: 0,
    });
    assert_eq!(
        packed_with(&book, &naming(65_535), Mode::PLAIN, ROOM),
        refused
    );
}

/// Books that are not well formed.
fn bad_books() -> Vec<Vec<u8>> {
    let words = entries(&WORDS);
    let good = book_of(b"a note", &words, 4);
    let trailer = good.len() - 8;
    let edited = |at: usize, byte: u8| {
        let mut book = good.clone();
        book[at] = byte;
        book
    };
    let distance = good[trailer];
    let mut bad = vec![
        vec![],
        EMPTY_BOOK[1..].to_vec(),
        b"no book at all".to_vec(),
        // a sheet; the mark's bytes; a byte behind it
        sheet(&body(&[], &[])),
        edited(trailer + 6, 0x41),
        edited(trailer + 7, 0x32),
        [&good[..], &[0]].concat(),
        // a distance past the first byte, and others that are not the entries'
        edited(trailer, (trailer + 1) as u8),
        edited(trailer + 1, 1),
        edited(trailer + 2, 1),
        edited(trailer + 3, 0x80),
        edited(trailer, distance - 1),
        edited(trailer, distance + 1),
        edited(trailer, 0),
        // one entry too many, one too few, none, 256 more
        edited(trailer + 4, 5),
        edited(trailer + 4, 3),
        edited(trailer + 4, 0),
        edited(trailer + 5, 1),
        // lengths: of the first entry, of the last, which is empty, and one byte of a length
        edited(6, 7),
        edited(6, 9),
        edited(7, 1),
        edited(trailer - 2, 1),
        book_of(&[], &[words.clone(), vec![0]].concat(), 5),
        // a distance of 0 with an entry, and the other way round
        book_of(b"\0\0", &[], 1),
        book_of(&[], &[0, 0], 0),
    ];
    // a NUL, first, in the middle and last, in an entry that is named and in one that is not
    bad.extend([8, 11, 15, 18, 20, 23].map(|at| edited(at, 0)));
    bad
}

#[test]
fn a_bad_book_is_refused_in_edition_3_alone() {
    for (main, block) in [
        (body(&[], &[]), vec![0]),
        (target(&standing(b"x")), target_block(b"x")),
    ] {
        for bad in bad_books() {
            // no string names the book
            let third = sheet_in(3, b"a note", &main);
            let refusal = refused_with(&bad, &third, 18, 0, 0);
            assert_eq!(refusal, Refusal::BadBook);
            assert_eq!(refusal.action(), None);
            for edition in [1, 2] {
                let sheet = sheet_in(edition, b"a note", &main);
                assert_eq!(taken_with(&bad, &sheet), block);
            }
        }
    }
    for bad in bad_books() {
        assert_eq!(refused_with(&bad, &naming(0), 18, 0, 0), Refusal::BadBook);
    }
}

#[test]
fn a_bad_book_comes_after_1_and_2_and_before_the_rest() {
    let third = |main: &[u8]| sheet_in(3, &[], main);
    let long = sheet_in(3, &vec![b'n'; 1_048_576], &body(&[], &[]));
    let mut no_trailer = third(&body(&[], &[]));
    no_trailer[4] = 5;
    let first = jump(0);
    let far = [&[&first[..]][..], &[POP; 32_768]].concat();
    let over = [&[CALL][..], &[POP; 65_533]].concat();
    let faulty = [
        // 3, 4, 5, 6 and 7
        vec![],
        body(&[], &[&[0x98]]),
        body(&[(4096, 0)], &[]),
        [0, 0, 1, 0, 0x94].repeat(16),
        [&body(&[], &[])[..], &[0]].concat(),
        // 8, 9, 10, and 14 in strict mode
        body(
            &[],
            &[&[&[0x88, 2, 0][..], &string(65_534), &[0, 0]].concat()],
        ),
        body(&[], &[&with(&body(&[], &over))]),
        body(&[(0, far.len())], &far),
        p7(),
    ];
    for bad in [&[][..], b"no book", &EMPTY_BOOK[..7]] {
        refused_with(bad, &long, 1, long.len() as i64, 0);
        refused_with(bad, &no_trailer, 2, 0, 0);
        for main in &faulty {
            refused_with(bad, &third(main), 18, 0, 0);
            // with a book they are what they are
            assert_ne!(packed(&third(main), Mode::STRICT, 0), Err(Refusal::BadBook));
        }
    }
}

#[test]
fn an_entry_number_past_the_count_is_a_bad_field() {
    let book = book(&WORDS);
    for entry in [4, 5, 255, 256, 65_535] {
        let refusal = refused_with(&book, &naming(entry), 5, 7, 0);
        assert_eq!(
            refusal,
            Refusal::BadField {
                place: 7,
                action: 0
            }
        );
    }
    // a place counts the note too; With 0 { Pop 1, SetTarget 2 }, and the second string of a GetUrl
    let set_target = [&[0x8B][..], &named(4)].concat();
    let inside = body(&[], &[&with(&body(&[], &[POP, &set_target]))]);
    refused_with(&book, &sheet_in(3, b"a note", &inside), 5, 19, 2);
    let get_url = [&[0x83][..], &named(3), &named(4)].concat();
    refused_with(
        &book,
        &sheet_in(3, &[], &body(&[], &[POP, &get_url])),
        5,
        12,
        1,
    );
    // before what stands behind it, and after what stands before
    let two = body(&[], &[&set_target, &[0x98]]);
    refused_with(&book, &sheet_in(3, &[], &two), 5, 7, 0);
    let two = body(&[], &[&[0x98], &set_target]);
    refused_with(&book, &sheet_in(3, &[], &two), 4, 4, 0);
}

#[test]
fn an_entry_number_that_is_cut_is_cut_short() {
    let book = book(&WORDS);
    let cut = |bytes: &[u8]| {
        let main = [&[0, 0, 2, 0, 0x17, 0x8B][..], bytes].concat();
        sheet_in(3, &[], &main)
    };
    // the length, and the entry number behind it
    assert_eq!(
        refused_with(&book, &cut(&[0xFF]), 3, 6, 1).name(),
        "CutShort"
    );
    for bytes in [&[0xFF, 0xFF][..], &[0xFF, 0xFF, 0], &[0xFF, 0xFF, 9]] {
        let refusal = refused_with(&book, &cut(bytes), 3, 8, 1);
        assert_eq!(
            refusal,
            Refusal::CutShort {
                place: 8,
                action: 1
            }
        );
    }
    // other lengths are lengths
    refused_with(&book, &cut(&[0xFE, 0xFF, 0, 0]), 3, 8, 1);
    refused_with(&book, &cut(&[0xFF, 0xFE, 0, 0]), 3, 8, 1);
}

#[test]
fn in_editions_1_and_2_a_length_of_65535_is_a_length() {
    let book = book(&WORDS);
    let letters = target(&string(65_535));
    for edition in [1, 2] {
        let of = |main: &[u8]| sheet_in(edition, &[], main);
        refused_with(&book, &of(&target(&named(0))), 3, 7, 0);
        refused_with(&book, &of(&letters), 8, 65_536, 0);
    }
    // in edition 3 the first letters are an entry number
    refused_with(&book, &sheet_in(3, &[], &letters), 5, 7, 0);
}

#[test]
fn editions_1_and_2_do_not_look_at_the_book() {
    for mode in MODES {
        for (main, block) in sums(mode) {
            for edition in [1, 2] {
                let sheet = sheet_in(edition, b"a note", &main);
                for book in [vec![], vec![0], book(&WORDS), sheet.clone()] {
                    let answer = packed_with(&book, &sheet, mode, ROOM);
                    assert_eq!(answer, Ok(block.clone()));
                }
            }
        }
    }
}

#[test]
fn only_entries_that_are_named_change_an_answer() {
    let sheet = sheet_in(3, &[], &target(&named(2)));
    let block = target_block(b"reject");
    let others: [[&[u8]; 4]; 4] = [
        WORDS,
        [b"", b"", b"reject", b""],
        [b"reject", b"x", b"reject", &[b'y'; 1000]],
        [b"postcode", b"accept", b"reject", b"reject"],
    ];
    for words in others {
        for note in [&b""[..], b"a note"] {
            let book = book_of(note, &entries(&words), 4);
            assert_eq!(taken_with(&book, &sheet), block);
            // too little room, and a fault behind a string that names an entry
            for mode in MODES {
                let needed = block.len();
                let answer = packed_with(&book, &sheet, mode, needed - 1);
                assert_eq!(answer, Err(Refusal::NoRoom { needed }));
            }
            let set_target = [&[0x8B][..], &named(2)].concat();
            let faulty = sheet_in(3, &[], &body(&[], &[&set_target, &[0x98]]));
            refused_with(&book, &faulty, 4, 9, 1);
        }
    }
    // the named entry, and the number of entries
    let other = book(&[b"postcode", b"accept", b"refuse", b""]);
    assert_eq!(taken_with(&other, &sheet), target_block(b"refuse"));
    refused_with(&book(&WORDS[..2]), &sheet, 5, 7, 0);
}

#[test]
fn without_a_book_the_empty_one_is_lent() {
    assert_eq!(EMPTY_BOOK, [0, 0, 0, 0, 0, 0, 0x42, 0x31]);
    let mut mains: Vec<Vec<u8>> = sums(Mode::PLAIN)
        .into_iter()
        .map(|(main, _)| main)
        .collect();
    mains.extend([
        vec![],
        target(&named(0)),
        target(&string(65_535)),
        every_place(named),
    ]);
    for main in &mains {
        for edition in 0..5 {
            let sheet = sheet_in(edition, &[], main);
            for mode in MODES {
                for room in [0, 5, ROOM] {
                    let (mut one, mut other) = (vec![0xA5; room], vec![0xA5; room]);
                    let answer = pack(&sheet, mode, &mut one);
                    assert_eq!(
                        pack_with_book(&sheet, &EMPTY_BOOK, mode, &mut other),
                        answer
                    );
                    assert!(one == other);
                }
            }
        }
    }
    refused(&naming(0), 5, 7, 0);
}

#[test]
fn a_payload_can_come_to_more_than_4_gib() {
    let longest = book(&[&[b'a'; 65_535]]);
    let answer = |action: &[u8]| {
        let sheet = sheet_in(3, &[], &body(&[], &[action]));
        pack_with_book(&sheet, &longest, Mode::PLAIN, &mut [])
    };
    let too_long = |length| Err(Refusal::ActionLenOverflow { length, action: 0 });
    // as many strings as a list takes, in ConstantPool and as parameters of DefineFunction2
    let pool = [&[0x88, 0xFF, 0xFF][..], &named(0).repeat(65_535)].concat();
    assert_eq!(answer(&pool), too_long(2 + 65_535 * 65_536));
    let parameters = [&[1][..], &named(0)].concat().repeat(65_535);
    let function = [&[0x8E][..], &named(0), &[0xFF, 0xFF], &parameters, &[0; 7]].concat();
    assert_eq!(answer(&function), too_long(65_535 + 8 + 65_535 * 65_537));
}

#[test]
fn a_block_can_come_to_more_than_4_gib() {
    // Try of as many bytes as there can be: its name and its three bodies, each a SetTarget.
    let book = book(&[&[b'n'; 65_527], &[b't'; 65_531]]);
    let inside = target(&named(1));
    let attempt = [&[0x8F, 3][..], &named(0), &inside, &inside, &inside].concat();
    let main = body(&[], &vec![&attempt[..]; 31_774]);
    let sheet = sheet_in(3, &[], &main);
    assert_eq!(sheet.len(), 1_048_554);
    let answer = pack_with_book(&sheet, &book, Mode::PLAIN, &mut []);
    assert_eq!(
        answer,
        Err(Refusal::NoRoom {
            needed: 8_329_331_683
        })
    );
}

#[test]
fn a_book_may_stand_in_the_sheet() {
    let book = book(&WORDS);
    let sheet = sheet_in(3, &book, &target(&named(1)));
    let lent = &sheet[..book.len()];
    assert_eq!(taken_with(lent, &sheet), target_block(b"accept"));
}

#[test]
fn several_threads_share_a_book() {
    let book = book(&WORDS);
    std::thread::scope(|scope| {
        for (entry, word) in WORDS.iter().enumerate() {
            let book = &book;
            scope.spawn(move || {
                for _ in 0..200 {
                    let mut out = [0; 16];
                    let answer = pack_with_book(&naming(entry), book, Mode::PLAIN, &mut out);
                    let block = target_block(word);
                    assert_eq!(answer, Ok(block.len()));
                    assert_eq!(out[..block.len()], block);
                }
            });
        }
    });
}

/// docs/LINKING.md: so much stack is enough for a call, with a book too.
#[test]
fn a_thread_with_128_kib_packs_the_deepest_sheet_with_a_book() {
    let words = every_place(|word| standing(WORDS[word]));
    let length = taken_with(&[], &sheet_in(2, &[], &words)).len();
    // The bodies of its functions and of its Try are at depth 16.
    let deepest = (1..15).fold(every_place(named), |inside, _| body(&[], &[&with(&inside)]));
    for mode in MODES {
        let (book, sheet) = (book(&WORDS), sheet_in(3, &[], &deepest));
        let call = move || pack_with_book(&sheet, &book, mode, &mut [0; 500]);
        let thread = std::thread::Builder::new().stack_size(128 * 1024);
        let answer = thread.spawn(call).expect("a thread").join();
        assert_eq!(answer.expect("an answer"), Ok(14 * 5 + length));
    }
}
