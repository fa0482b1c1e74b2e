//! Document 02's item 8: sheets of edition 3 and the word book.

use super::*;
use crate::answer::{Fault, action, number, value};
use crate::book::EMPTY;
use crate::generate::books::longest_block;
use crate::generate::write::{
    Body, Catch, book, book_of, branch, call, counted, define_function, jump, named, pop,
    set_target, sheet_in, string, try_, with,
};

const AMPLE: usize = 1 << 22;

/// The book of most tests.
fn three() -> Vec<u8> {
    book(b"n", &[b"ab".to_vec(), vec![], b"\xFFx".to_vec()])
}

fn sheet_3(main: &Body) -> Vec<u8> {
    sheet_in(3, &[], &main.bytes())
}

/// SetTarget of a string that is already bytes.
fn target(string: &[u8]) -> Vec<u8> {
    [&[0x8B], string].concat()
}

/// Number, value and action number, which must be the same in every mode.
fn told(sheet: &[u8], book: &[u8]) -> (u8, i64, usize) {
    let told = all_told(sheet, book);
    assert_eq!(told, [told[0]; 4]);
    told[0]
}

fn all_told(sheet: &[u8], book: &[u8]) -> [(u8, i64, usize); 4] {
    Mode::ALL.map(|mode| {
        let answer = pack(sheet, book, mode, AMPLE);
        (number(&answer), value(&answer), action(&answer))
    })
}

fn block(sheet: &[u8], book: &[u8]) -> Vec<u8> {
    pack(sheet, book, Mode::PLAIN, AMPLE).expect("a block")
}

/// A named string and a spelt one give the same bytes, worked by hand.
#[test]
fn entries_are_strings() {
    let main = Body::new()
        .action(target(&named(0)))
        .action(target(&string(b"ab")))
        .action(target(&named(1)))
        .action(target(&named(2)));
    let due = b"\x8B\x03\0ab\0\x8B\x03\0ab\0\x8B\x01\0\0\x8B\x03\0\xFFx\0\0";
    assert_eq!(block(&sheet_3(&main), &three()), due);
    for mode in Mode::ALL {
        let room = due.len();
        let answer = |room| pack(&sheet_3(&main), &three(), mode, room);
        assert_eq!(answer(room), Ok(due.to_vec()));
        assert_eq!(answer(room - 1), Err(Refusal::NoRoom(room)));
    }
}

/// In each place of a string: the block is that of the spelt string.
#[test]
fn in_every_place() {
    let body = [0, 0, 1, 0, 0x17];
    let action = |s: &[u8]| {
        let functions = [&[0x9B], s, &[1, 0], s, &body].concat();
        let functions_2 = [&[0x8E], s, &[1, 0, 7], s, &[2, 1, 1], &body].concat();
        [
            [&[0x83], s, s].concat(),
            [&[0x88, 2, 0], s, s].concat(),
            [&[0x8C], s].concat(),
            functions,
            functions_2,
            [&[0x8F, 3], s, &body, &body, &body].concat(),
            [&[0x96, 3, 0, 0], s, &[2, 0], s].concat(),
        ]
    };
    let main = |s: &[u8]| action(s).into_iter().fold(Body::new(), Body::action);
    for (entry, text) in [(0, &b"ab"[..]), (1, b""), (2, b"\xFFx")] {
        let spelt = sheet_in(2, &[], &main(&string(text)).bytes());
        let due = block(&spelt, &EMPTY);
        assert_eq!(block(&sheet_3(&main(&string(text))), &EMPTY), due);
        assert_eq!(block(&sheet_3(&main(&named(entry))), &three()), due);
    }
}

/// At or past the count it is 5 at the number; cut it is 3 there. The number stands two bytes behind the string's length.
#[test]
fn entry_numbers() {
    let main = |entry| Body::new().action(pop()).action(target(&named(entry)));
    assert_eq!(told(&sheet_3(&main(2)), &three()), (0, 8, 0));
    for entry in [3, 4, 256, 65_535] {
        assert_eq!(told(&sheet_3(&main(entry)), &three()), (5, 8, 1));
    }
    for entry in [0, 1, 65_535] {
        assert_eq!(told(&sheet_3(&main(entry)), &EMPTY), (5, 8, 1));
    }
    let whole = main(0).bytes();
    for (missing, due) in [
        (1, (3, 8, 1)),
        (2, (3, 8, 1)),
        (3, (3, 6, 1)),
        (4, (3, 6, 1)),
    ] {
        let cut = &whole[..whole.len() - missing];
        assert_eq!(told(&sheet_in(3, &[], cut), &three()), due);
        // the count has no part in it
        assert_eq!(told(&sheet_in(3, &[], cut), &EMPTY), due);
        let (number, place, action) = due;
        assert_eq!(
            told(&sheet_in(3, b"note", cut), &three()),
            (number, place + 4, action)
        );
    }
    // behind the number the sheet goes on
    let behind = Body::new().action(target(&named(0))).action(vec![0x01]);
    assert_eq!(told(&sheet_3(&behind), &three()), (4, 9, 1));
    let left = [main(0).bytes(), b"ab".to_vec()].concat();
    assert_eq!(told(&sheet_in(3, &[], &left), &three()), (7, 10, 2));
    // of a list, inside a body, the third string is at fault
    let pool = [vec![0x88], counted(&[named(0), string(b"c"), named(3)])].concat();
    let inner = Body::new().action(pop()).action(pool);
    let main = Body::new().action(with(&inner));
    assert_eq!(
        told(&sheet_3(&main), &three()),
        (5, 5 + 4 + 1 + 3 + 4 + 3 + 2, 2)
    );
}

/// In editions 1 and 2 a length of 65,535 is plain; in edition 3 one of 65,534 is.
#[test]
fn the_length_that_names() {
    let spelt = |n: usize| Body::new().action(set_target(&vec![1; n])).bytes();
    for edition in [1, 2] {
        let sheet = sheet_in(edition, &[], &spelt(65_535));
        assert_eq!(told(&sheet, &three()), (8, 65_536, 0));
        let cut = sheet_in(edition, &[], &spelt(65_535)[..65_541]);
        assert_eq!(told(&cut, &three()), (3, 7, 0));
        let named = sheet_in(edition, &[], &Body::new().action(target(&named(0))).bytes());
        assert_eq!(told(&named, &three()), (3, 7, 0));
    }
    for edition in [1, 2, 3] {
        let sheet = sheet_in(edition, &[], &spelt(65_534));
        assert_eq!(told(&sheet, &three()), (0, 65_539, 0));
    }
    // entry 257, and 65,533 bytes that are left over
    let entries = vec![b"e".to_vec(); 258];
    let sheet = sheet_in(3, &[], &spelt(65_535));
    assert_eq!(told(&sheet, &book(&[], &entries)), (7, 9, 1));
    assert_eq!(told(&sheet, &book(&[], &entries[1..])), (5, 7, 0));
}

/// An entry of 65,535 bytes is a string like others: too long for a payload, and taken by none.
#[test]
fn the_longest_entry() {
    let entries = [65_535, 65_534, 65_533].map(|n| vec![b'a'; n]);
    let book = book(&[], &entries);
    let main = |entry| Body::new().action(pop()).action(target(&named(entry)));
    assert_eq!(told(&sheet_3(&main(0)), &book), (8, 65_536, 1));
    assert_eq!(told(&sheet_3(&main(1)), &book), (0, 65_540, 0));
    let pushes = |entry| {
        let value = [vec![0], named(entry)].concat();
        Body::new().action([vec![0x96], counted(&[value])].concat())
    };
    assert_eq!(told(&sheet_3(&pushes(1)), &book), (8, 65_536, 0));
    assert_eq!(told(&sheet_3(&pushes(2)), &book), (0, 65_539, 0));
    assert_eq!(
        told(&sheet_3(&Body::new().action(with(&main(1)))), &book),
        (9, 65_539, 0)
    );
}

/// The first, the last and others of as many entries as there may be.
#[test]
fn the_largest_count() {
    let entries: Vec<Vec<u8>> = (0..65_535).map(|n| format!("{n}").into_bytes()).collect();
    let book = book(&[], &entries);
    for entry in [0, 1, 4_095, 4_096, 32_767, 32_768, 65_533, 65_534] {
        let main = Body::new().action(target(&named(entry)));
        let due = Body::new().action(set_target(format!("{entry}").as_bytes()));
        assert_eq!(block(&sheet_3(&main), &book), block(&sheet_3(&due), &EMPTY));
    }
    let main = Body::new().action(target(&named(65_535)));
    assert_eq!(told(&sheet_3(&main), &book), (5, 7, 0));
}

/// Bad in each way, and named by no string.
fn bad_books() -> Vec<Vec<u8>> {
    vec![
        vec![],
        EMPTY[1..].to_vec(),
        b"\0\0\0\0\0\0A1".to_vec(),
        b"\0\0\0\0\0\0B2".to_vec(),
        book_of(&[], 1, 0),
        book_of(&[], 1, 1),
        book_of(&[], u32::MAX, 0),
        book_of(&[0], 1, 1),
        book_of(&[2, 0, b'a'], 3, 1),
        book_of(&[1, 0, 0], 3, 1),
        book_of(&[1, 0, b'a', 0], 4, 1),
        book_of(&[1, 0, b'a'], 3, 0),
        book_of(&[1, 0, b'a'], 3, 2),
        book_of(&[1, 0, b'a'], 0, 1),
    ]
}

/// 18 in edition 3, whether or not a string names an entry; in editions 1 and 2 the book is not looked at.
#[test]
fn bad_books_are_refused_in_edition_3_alone() {
    let unnamed = Body::new().action(set_target(b"x")).bytes();
    let named = Body::new().action(target(&named(0))).bytes();
    for bad in bad_books() {
        assert_eq!(told(&sheet_in(3, &[], &unnamed), &bad), (18, 0, 0));
        assert_eq!(told(&sheet_in(3, &[], &named), &bad), (18, 0, 0));
        for edition in [1, 2] {
            assert_eq!(told(&sheet_in(edition, &[], &unnamed), &bad), (0, 6, 0));
        }
    }
}

/// Behind 1 and 2, before 3 to 7 and what comes later.
#[test]
fn the_order_of_18() {
    let deep = (0..16).fold(Body::new(), |body, _| Body::new().action(with(&body)));
    let far = Body::new().label(0, 0).times(40_000, pop()).action(jump(0));
    let wide = Body::new().times(65_533, pop()).action(call());
    let mains = [
        (vec![], (3, 0, 0)),
        (Body::new().action(vec![0x01]).bytes(), (4, 4, 0)),
        (Body::new().label(4_096, 0).bytes(), (5, 2, 0)),
        (Body::new().action(target(&named(3))).bytes(), (5, 7, 0)),
        (deep.bytes(), (6, 80, 15)),
        ([Body::new().bytes(), vec![0]].concat(), (7, 4, 0)),
        (Body::new().action(with(&wide)).bytes(), (9, 65_536, 0)),
        (far.bytes(), (10, -40_005, 40_000)),
    ];
    for (main, due) in mains {
        assert_eq!(told(&sheet_in(3, &[], &main), &three()), due);
        for bad in bad_books() {
            assert_eq!(told(&sheet_in(3, &[], &main), &bad), (18, 0, 0));
            // no such edition, D too far, another mark
            assert_eq!(told(&sheet_in(4, &[], &main), &bad), (2, 0, 0));
            let mut sheet = sheet_in(3, &[], &main);
            sheet[main.len() + 3] = 1;
            assert_eq!(told(&sheet, &bad), (2, 0, 0));
            let mut sheet = sheet_in(3, &[], &main);
            sheet.pop();
            assert_eq!(told(&sheet, &bad), (2, 0, 0));
        }
    }
    let too_long = sheet_in(3, &vec![0; 1_048_577 - 8 - 4], &Body::new().bytes());
    assert_eq!(told(&too_long, &[]), (1, 1_048_577, 0));
    assert_eq!(told(&too_long[1..], &[]), (18, 0, 0));
    assert_eq!(told(&too_long[1..], &EMPTY), (0, 1, 0));
}

/// What an answer depends on: not on the note, nor on entries that are not named.
#[test]
fn other_entries_change_nothing() {
    let main = Body::new()
        .action(target(&named(1)))
        .action(branch(0x9D, 7));
    let due = all_told(&sheet_3(&main), &book(&[], &[b"a".to_vec(), b"b".to_vec()]));
    assert_eq!(
        due.map(|(number, value, _)| (number, value))[..2],
        [(0, 11), (14, 8)]
    );
    for (note, first) in [
        (&b"note"[..], &b""[..]),
        (&[0], b"another"),
        (b"\0\0B1", &[0xFF; 65_535]),
    ] {
        let book = book(note, &[first.to_vec(), b"b".to_vec()]);
        assert_eq!(all_told(&sheet_3(&main), &book), due);
    }
}

/// Blocks that the encoder is not asked for, since memory does not hold them: their lengths by hand.
#[test]
fn blocks_that_are_not_held() {
    let entries = [65_534, 65_531, 65_530, 65_527].map(|n| vec![b'a'; n]);
    let book = book(&[], &entries);
    let told = |main: &Body| told(&sheet_3(main), &book);
    let longest = target(&named(0));
    assert_eq!(
        told(&Body::new().times(65_535, longest.clone())),
        (11, 4_295_032_831, 0)
    );
    // a Try of four times 65,535 bytes and three
    let inner = Body::new().action(target(&named(1)));
    let spelt = try_(&inner, Some(Catch::Name(b"", &inner)), Some(&inner));
    let attempt = [&spelt[..2], &named(3), &spelt[4..]].concat();
    assert_eq!(told(&Body::new().action(attempt.clone())), (0, 262_144, 0));
    assert_eq!(
        told(&Body::new().times(31_774, attempt.clone())),
        (11, 8_329_331_683, 0)
    );
    // the most: 25,746 of them behind 39,789 SetTargets
    let most = (39_789 * 65_538 + 25_746 * 262_143 + 1, longest_block());
    assert_eq!(sheet_3(&most.1).len(), 1_048_575);
    assert_eq!(told(&most.1), (11, most.0, 0));

    // refused far behind: a payload, a body, a branch
    let filled = || Body::new().times(65_000, longest.clone());
    let far = 65_000 * 65_538;
    let too_long = set_target(&[b'a'; 65_534]);
    assert_eq!(
        told(&filled().action(with(&Body::new().action(too_long)))),
        (9, 65_538, 65_000)
    );
    assert_eq!(
        told(&filled().action([&[0x83][..], &named(0), &named(1)].concat())),
        (8, 131_067, 65_000)
    );
    assert_eq!(
        told(&filled().label(0, 0).action(jump(0))),
        (10, -far - 5, 65_000)
    );
    let forward = Body::new()
        .label(0, 65_001)
        .action(jump(0))
        .times(65_000, longest.clone());
    assert_eq!(told(&forward), (10, far, 0));
    let [plain, strict, ..] = all_told(&sheet_3(&filled().action(jump(0))), &book);
    assert_eq!((plain, strict), ((11, far + 6, 0), (14, far + 3, 65_000)));
    let records = define_function(b"f", &[], &Body::new().label(0, 0));
    let stray = filled().action(records).action(jump(0));
    let [_, strict, contained, _] = all_told(&sheet_3(&stray), &book);
    assert_eq!((strict.0, contained), (11, (15, far + 12, 65_001)));
}

/// The walk over lengths tells what the walk over strings tells, where the encoder holds the block.
#[test]
fn lengths_stand_for_strings() {
    use crate::generate::{Family, questions};
    let mut compared = 0;
    questions(Family::Mixed, 7, 500, &mut |question| {
        let (sheet, book) = (&question.sheet, &question.book);
        let Ok(measured) = sheet::measure(sheet, book) else {
            return;
        };
        let whole = sheet::read(sheet, book, b'y').ok().expect("the same");
        let by_lengths = Walk::over(&measured.actions, digits);
        let by_strings = Walk::over(&whole.actions, str::len);
        assert_eq!(by_lengths.wrote(), by_strings.wrote());
        for mode in Mode::ALL {
            assert_eq!(by_lengths.judge(mode), by_strings.judge(mode));
        }
        compared += 1;
    });
    assert!(compared > 400);
}

/// Reading tells the same fault either way.
#[test]
fn faults_of_an_action_that_is_read_twice() {
    let main = Body::new().action(pop()).action(target(&named(9)));
    let due = Refusal::Reading(Fault::BadField, 8, 1);
    let (sheet, book) = (sheet_3(&main), three());
    assert_eq!(sheet::read(&sheet, &book, b'y').err(), Some(due));
    assert_eq!(sheet::measure(&sheet, &book).err(), Some(due));
}
