use super::*;
use crate::answer::{Fault, action, number, value};
use crate::book::EMPTY;
use crate::generate::books::all_named;
use crate::generate::write::{
    Body, Catch, branch, call, define_function, define_function_2, jump, pop, set_target, sheet,
    sheet_in, try_, with,
};
use crate::sheet::Edition;
use crate::steps;

const AMPLE: usize = 1 << 22;

fn hex(text: &str) -> Vec<u8> {
    text.split_whitespace()
        .map(|byte| u8::from_str_radix(byte, 16).expect("two digits"))
        .collect()
}

/// With an empty book.
fn pack(sheet: &[u8], mode: Mode, room: usize) -> Answer {
    super::pack(sheet, &EMPTY, mode, room)
}

/// Number, value and action number of the answer in each mode.
fn told_of(sheet: &[u8], book: &[u8]) -> [(u8, i64, usize); 4] {
    Mode::ALL.map(|mode| {
        let answer = super::pack(sheet, book, mode, AMPLE);
        (number(&answer), value(&answer), action(&answer))
    })
}

/// The answer in each mode to a main body in an edition.
fn answers_in(edition: u16, main: &[u8]) -> [(u8, i64); 4] {
    let told = told_of(&sheet_in(edition, &[], main), &EMPTY);
    told.map(|(number, value, _)| (number, value))
}

/// The answer in each mode to a main body whose label numbers are small: they are the same in every edition.
fn answers_to(main: &Body) -> [(u8, i64); 4] {
    all_told(&main.bytes()).map(|(number, value, _)| (number, value))
}

/// The answer in every mode, which must be the same.
fn answer_to(main: &Body) -> (u8, i64) {
    let answers = answers_to(main);
    assert_eq!(answers, [answers[0]; 4]);
    answers[0]
}

/// The answer in strict mode, contained or not, of a main body whose answer in the other modes is Done.
fn strict_answer_to(main: &Body) -> (u8, i64) {
    let [plain, strict, contained, both] = answers_to(main);
    assert_eq!((plain.0, contained, both), (0, plain, strict));
    strict
}

/// The answer in contained mode, strict or not, of a main body whose answer in the other modes is Done.
fn contained_answer_to(main: &Body) -> (u8, i64) {
    let [plain, strict, contained, both] = answers_to(main);
    assert_eq!((plain.0, strict, both), (0, plain, contained));
    contained
}

/// Its label is never recorded.
const P7: &str = "01 00 00 00 02 00 01 00 99 00 00";

/// Document 01, P1 to P12: main body and block, which is the same in every edition.
#[test]
fn sums_worked_by_hand() {
    let sums = [
        ("00 00 00 00", "00"),
        ("00 00 01 00 9E", "9E 00 00 00"),
        ("00 00 01 00 96 01 00 08 FF 00", "96 02 00 08 FF 00"),
        ("00 00 01 00 96 01 00 08 00 01", "96 03 00 09 00 01 00"),
        (
            "00 00 01 00 96 01 00 06 00 00 00 00 00 00 F0 3F",
            "96 09 00 06 00 00 F0 3F 00 00 00 00 00",
        ),
        ("01 00 00 00 00 00 01 00 99 00 00", "99 02 00 FB FF 00"),
        (P7, "99 02 00 00 00 00"),
        ("00 00 01 00 94 00 00 01 00 17", "94 02 00 01 00 17 00"),
        (
            "00 00 01 00 8E 01 00 66 01 00 01 01 00 78 02 01 01 00 00 00 00",
            "8E 0C 00 66 00 01 00 02 01 01 01 78 00 00 00 00",
        ),
        (
            "00 00 01 00 8F 02 00 00 01 00 06 00 00 01 00 07",
            "8F 08 00 02 01 00 00 00 01 00 00 06 07 00",
        ),
        ("00 00 01 00 9A 01 00 07", "9A 01 00 83 00"),
        (
            "01 00 00 00 00 00 02 00 99 00 00 94 01 00 00 00 00 00 01 00 06",
            "99 02 00 05 00 94 02 00 01 00 06 00",
        ),
    ];
    for (main, block) in sums {
        let (block, room) = (hex(block), hex(block).len());
        for edition in [1, 2, 3] {
            let sheet = sheet_in(edition, &[], &hex(main));
            for mode in Mode::ALL {
                if mode.strict && main == P7 {
                    assert_eq!(pack(&sheet, mode, room), Err(Refusal::NeverRecorded(3, 0)));
                    continue;
                }
                assert_eq!(pack(&sheet, mode, room), Ok(block.clone()));
                assert_eq!(pack(&sheet, mode, room - 1), Err(Refusal::NoRoom(room)));
            }
        }
    }
}

/// P1, P8, P10 and P12 of document 01, and an owner in a body behind an empty one.
#[test]
fn actions_of_all_bodies_count() {
    let counts = [
        ("00 00 00 00", 0),
        ("00 00 01 00 94 00 00 01 00 17", 2),
        ("00 00 01 00 8F 02 00 00 01 00 06 00 00 01 00 07", 3),
        (
            "01 00 00 00 00 00 02 00 99 00 00 94 01 00 00 00 00 00 01 00 06",
            3,
        ),
        (
            "00 00 02 00 94 00 00 00 00 94 00 00 01 00 94 00 00 01 00 17",
            4,
        ),
    ];
    for (main, count) in counts {
        for edition in [1, 2, 3] {
            let sheet = sheet_in(edition, &[], &hex(main));
            assert_eq!(actions(&sheet, &EMPTY), Ok(count), "{main}");
            let block = pack(&sheet, Mode::PLAIN, AMPLE).expect("a block");
            assert_eq!(steps::step(&block), Ok(count + 1), "{main}");
        }
    }
    assert_eq!(actions(&[], &EMPTY), Err(Refusal::BadTrailer));
}

/// Document 01, "Run": each limit, and one beyond.
#[test]
fn sums_that_are_run() {
    let target = |n| Body::new().action(set_target(&vec![b'a'; n]));
    assert_eq!(answer_to(&target(65_534)), (0, 65_539));
    assert_eq!(answer_to(&target(65_535)), (8, 65_536));

    let pops = Body::new().times(65_535, pop());
    assert_eq!(answer_to(&Body::new().action(with(&pops))), (0, 65_541));
    let longer = Body::new().action(call()).times(65_533, pop());
    assert_eq!(answer_to(&Body::new().action(with(&longer))), (9, 65_536));

    let over = |n: u16| Body::new().label(0, n + 1).action(jump(0)).times(n, pop());
    assert_eq!(answer_to(&over(32_767)), (0, 32_773));
    assert_eq!(answer_to(&over(32_768)), (10, 32_768));

    let back = |n: u16| Body::new().label(0, 0).times(n, pop()).action(jump(0));
    assert_eq!(answer_to(&back(32_763)), (0, 32_769));
    assert_eq!(answer_to(&back(32_764)), (10, -32_769));
}

/// Document 02, item 1: the operand's position of the first branch without a record.
#[test]
fn branches_never_recorded() {
    let unentered = Body::new().action(pop()).action(branch(0x9D, 1_023));
    assert_eq!(strict_answer_to(&unentered), (14, 4));
    let behind_another = Body::new().label(0, 0).action(jump(0)).action(jump(1));
    assert_eq!(strict_answer_to(&behind_another), (14, 8));

    let inner = Body::new().action(branch(0x9D, 0));
    let in_with = Body::new().action(with(&inner)).action(jump(1));
    assert_eq!(strict_answer_to(&in_with), (14, 8));
    let in_function = Body::new().action(define_function(b"f", &[b"xy"], &inner));
    assert_eq!(strict_answer_to(&in_function), (14, 15));
    let in_catch = try_(&Body::new(), Some(Catch::Name(b"e", &inner)), Some(&inner));
    assert_eq!(strict_answer_to(&Body::new().action(in_catch)), (14, 15));
}

/// A record anywhere in the block will do.
#[test]
fn branches_recorded_somewhere() {
    let right_behind = Body::new().label(0, 1).action(jump(0));
    assert_eq!(answer_to(&right_behind), (0, 6));
    let records = Body::new().label(0, 0);
    let later = Body::new().action(jump(0)).action(with(&records));
    assert_eq!(answer_to(&later), (0, 11));
    let past_the_count = Body::new().label(0, 1);
    assert_eq!(
        answer_to(&later.clone().action(with(&past_the_count))),
        (0, 16)
    );
    assert_eq!(answer_to(&later.label(0, 3)), (0, 11));
}

/// 8 and 9, then 10 and 14 by writing order, then 11.
#[test]
fn never_recorded_among_the_answers() {
    let lost = Body::new().action(jump(1));
    let too_long = set_target(&[b'a'; 65_535]);
    assert_eq!(answer_to(&lost.clone().action(too_long)), (8, 65_536));
    let too_wide = with(&Body::new().action(call()).times(65_533, pop()));
    assert_eq!(answer_to(&lost.clone().action(too_wide)), (9, 65_536));

    let far = Body::new().label(0, 40_001).action(jump(0));
    let far = far.times(40_000, pop()).action(jump(1));
    assert_eq!(answer_to(&far), (10, 40_000));
    let lost_first = lost.label(0, 40_002).action(jump(0)).times(40_000, pop());
    let (far, lost) = ((10, 40_000), (14, 3));
    assert_eq!(answers_to(&lost_first), [far, lost, far, lost]);

    let sheet = sheet(&[], &hex(P7));
    assert_eq!(pack(&sheet, Mode::PLAIN, 0), Err(Refusal::NoRoom(6)));
    assert_eq!(
        pack(&sheet, Mode::STRICT, 0),
        Err(Refusal::NeverRecorded(3, 0))
    );
}

/// The function f with this body, which begins 9 bytes behind it.
fn function(body: &Body) -> Vec<u8> {
    define_function(b"f", &[], body)
}

/// Document 02, item 9: the operand's position of the first branch whose label's last record is in another function body.
#[test]
fn branches_that_leave_their_function() {
    let records = Body::new().label(0, 0).action(pop());
    let branches = Body::new().action(branch(0x9D, 0));
    let into = Body::new().action(function(&records)).action(jump(0));
    assert_eq!(contained_answer_to(&into), (15, 13));
    let out = Body::new().label(0, 0).action(function(&branches));
    assert_eq!(contained_answer_to(&out), (15, 12));
    let function_2 = |body| define_function_2(b"f", &[], 0, 0, body);
    let into = Body::new().action(function_2(&records)).action(jump(0));
    assert_eq!(contained_answer_to(&into), (15, 16));
    let out = Body::new().label(0, 0).action(function_2(&branches));
    assert_eq!(contained_answer_to(&out), (15, 15));

    let from_one_to_another = Body::new().action(function(&records));
    let from_one_to_another = from_one_to_another.action(function(&branches));
    assert_eq!(contained_answer_to(&from_one_to_another), (15, 22));
    let outer = records.clone().action(function(&branches));
    let from_inside = Body::new().action(function(&outer));
    assert_eq!(contained_answer_to(&from_inside), (15, 22));
    let outer = branches.clone().action(function(&records));
    let to_inside = Body::new().action(function(&outer));
    assert_eq!(contained_answer_to(&to_inside), (15, 12));

    // At the end of a function stands what follows it: the position is the same.
    let at_end = Body::new().label(0, 1).action(pop());
    let from_behind = Body::new().action(function(&at_end)).action(jump(0));
    assert_eq!(contained_answer_to(&from_behind), (15, 13));
    let recorded_later = Body::new().label(0, 0).action(jump(0));
    let recorded_later = recorded_later.action(function(&records));
    assert_eq!(contained_answer_to(&recorded_later), (15, 3));
}

/// With and Try bodies belong to the function around them; and the last record counts.
#[test]
fn branches_that_stay_in_their_function() {
    let records = Body::new().label(0, 0).action(pop());
    let branches = Body::new().action(branch(0x9D, 0));
    let with_and_try = |first: &Body, second: &Body| {
        let catch = Some(Catch::Name(b"e", second));
        let main = Body::new().action(with(first));
        main.action(try_(second, catch, Some(second)))
            .action(with(second))
    };
    for main in [
        with_and_try(&records, &branches),
        with_and_try(&branches, &records),
    ] {
        assert_eq!(answer_to(&main).0, 0);
        assert_eq!(answer_to(&Body::new().action(function(&main))).0, 0);
    }
    let behind = Body::new().label(0, 1).action(function(&records));
    assert_eq!(answer_to(&behind.action(jump(0))), (0, 16));
    let recorded_again = records.clone().action(jump(0));
    let recorded_again = Body::new().label(0, 0).action(function(&recorded_again));
    assert_eq!(answer_to(&recorded_again), (0, 16));
}

/// 8 and 9, then 10, 14 and 15 by writing order, for one branch 15 before 10, then 11.
#[test]
fn stray_among_the_answers() {
    let records = Body::new().action(function(&Body::new().label(0, 0)));
    let stray = records.clone().action(jump(0));
    let too_long = set_target(&[b'a'; 65_535]);
    assert_eq!(answer_to(&stray.clone().action(too_long)), (8, 65_536));
    let too_wide = with(&Body::new().action(call()).times(65_533, pop()));
    assert_eq!(answer_to(&stray.clone().action(too_wide)), (9, 65_536));

    let (done, lost, left) = ((0, 20), (14, 17), (15, 12));
    let lost_behind = stray.clone().action(jump(1));
    assert_eq!(answers_to(&lost_behind), [done, lost, left, left]);
    let (done, lost, left) = ((0, 25), (14, 3), (15, 22));
    let lost_first = Body::new().action(jump(1)).action(with(&stray));
    assert_eq!(answers_to(&lost_first), [done, lost, left, lost]);

    let (far, left) = ((10, -40_005), (15, 40_012));
    let far_and_stray = records.times(40_000, pop()).action(jump(0));
    assert_eq!(answers_to(&far_and_stray), [far, far, left, left]);
    let (far, left) = ((10, -40_019), (15, 12));
    let far_behind = stray.clone().label(1, 0).times(40_000, pop());
    let far_behind = far_behind.action(jump(1));
    assert_eq!(answers_to(&far_behind), [far, far, left, left]);
    let far_first = Body::new().label(1, 0).times(40_000, pop());
    let far_first = far_first.action(jump(1)).action(with(&stray));
    assert_eq!(answer_to(&far_first), (10, -40_005));

    let sheet = sheet(&[], &stray.bytes());
    assert_eq!(pack(&sheet, Mode::STRICT, 0), Err(Refusal::NoRoom(15)));
    assert_eq!(
        pack(&sheet, Mode::CONTAINED, 0),
        Err(Refusal::StrayBranch(12, 1))
    );
}

/// Document 02, items 6 and 8: what the trailer's number is, and what its label numbers may be.
#[test]
fn editions_and_their_bounds() {
    let edition = Edition::from_number;
    assert_eq!([1, 2, 3].map(edition), Edition::ALL.map(Some));
    for other in [0, 4, 5, 0x0100, 0x0101, 0x0102, 0x0200, u16::MAX] {
        assert_eq!(edition(other), None);
    }
    let last = Edition::ALL.map(|edition| (edition.number(), edition.labels() - 1));
    assert_eq!(last, [(1, 1_023), (2, 4_095), (3, 4_095)]);
}

/// Main bodies, and their answers in edition 1 and in editions 2 and 3, in plain mode.
#[test]
fn label_numbers_by_the_edition() {
    let cases = [
        // branches to 1,023, 1,024, 4,095, 4,096 and 65,535
        ("00 00 01 00 99 FF 03", (0, 6), (0, 6)),
        ("00 00 01 00 99 00 04", (5, 5), (0, 6)),
        ("00 00 01 00 9D FF 0F", (5, 5), (0, 6)),
        ("00 00 01 00 99 00 10", (5, 5), (5, 5)),
        ("00 00 01 00 9D FF FF", (5, 5), (5, 5)),
        // entries of 1,023, 1,024, 4,095 and 4,096, without an action
        ("01 00 FF 03 00 00 00 00", (0, 1), (0, 1)),
        ("01 00 00 04 00 00 00 00", (5, 2), (0, 1)),
        ("01 00 FF 0F 00 00 00 00", (5, 2), (0, 1)),
        ("01 00 00 10 00 00 00 00", (5, 2), (5, 2)),
        // two entries: 1,023 and 1,024; 4,095 and 4,096; 1,024 twice; 1,025 and 1,024
        ("02 00 FF 03 00 00 00 04 00 00 00 00", (5, 6), (0, 1)),
        ("02 00 FF 0F 00 00 00 10 00 00 00 00", (5, 2), (5, 6)),
        ("02 00 00 04 00 00 00 04 00 00 00 00", (5, 2), (5, 6)),
        ("02 00 01 04 00 00 00 04 00 00 00 00", (5, 2), (5, 6)),
        // an entry and a branch
        ("01 00 FF 0F 00 00 01 00 99 FF 0F", (5, 2), (0, 6)),
        ("01 00 FF 0F 00 00 01 00 99 00 10", (5, 2), (5, 9)),
        // a branch and an entry inside a With
        ("00 00 01 00 94 00 00 01 00 99 00 04", (5, 10), (0, 11)),
        ("00 00 01 00 94 00 00 01 00 99 00 10", (5, 10), (5, 10)),
        ("00 00 01 00 94 01 00 00 04 00 00 00 00", (5, 7), (0, 6)),
        // the first fault met: a field that is cut, before its value and behind it; a code; bytes left over
        ("01 00 FF", (3, 2), (3, 2)),
        ("01 00 FF 0F", (5, 2), (3, 4)),
        ("00 00 01 00 99 FF", (3, 5), (3, 5)),
        ("00 00 02 00 99 00 04", (5, 5), (3, 7)),
        ("00 00 02 00 01 99 00 04", (4, 4), (4, 4)),
        ("00 00 02 00 99 00 04 01", (5, 5), (4, 7)),
        ("00 00 01 00 99 00 04 00", (5, 5), (7, 7)),
    ];
    for (main, one, two) in cases {
        assert_eq!(answers_in(1, &hex(main))[0], one, "{main}");
        assert_eq!(answers_in(2, &hex(main))[0], two, "{main}");
        assert_eq!(answers_in(3, &hex(main))[0], two, "{main}");
    }
    let noted = sheet_in(2, b"note", &hex("00 00 01 00 99 00 10"));
    assert_eq!(
        pack(&noted, Mode::PLAIN, 0),
        Err(Refusal::Reading(Fault::BadField, 9, 0))
    );
}

/// 2 for any other edition, before what is wrong with the main body and behind 1; in edition 2 the rest of the trailer counts
/// as before.
#[test]
fn other_editions_are_refused() {
    let p6 = "01 00 00 00 00 00 01 00 99 00 00";
    for main in [p6, "00 00 01 00 99 00 04", "00 00 01 00 99 00 10", "FF"] {
        for edition in [0, 4, 5, 0x00FF, 0x0100, 0x0101, 0x0102, 0x0200, u16::MAX] {
            assert_eq!(answers_in(edition, &hex(main)), [(2, 0); 4]);
        }
    }
    let too_long = vec![0; 1_048_577 - 8 - 11];
    for edition in [2, 3, 4] {
        let sheet = sheet_in(edition, &too_long, &hex(p6));
        let answer = pack(&sheet, Mode::PLAIN, AMPLE);
        assert_eq!(answer, Err(Refusal::SheetTooLong(1_048_577)));
    }
    let good = sheet_in(2, &[], &hex(p6));
    assert_eq!(
        pack(&good, Mode::PLAIN, AMPLE).map(|block| block.len()),
        Ok(6)
    );
    // D one over; another mark; a byte gone
    for (place, byte) in [(11, 12), (17, 0x42), (18, 0x32)] {
        let mut bad = good.clone();
        bad[place] = byte;
        assert_eq!(pack(&bad, Mode::PLAIN, AMPLE), Err(Refusal::BadTrailer));
    }
    assert_eq!(
        pack(&good[12..], Mode::PLAIN, AMPLE),
        Err(Refusal::BadTrailer)
    );
}

/// Blocks of editions 2 and 3, worked by hand. Labels that have the same low bits are different labels.
#[test]
fn blocks_of_labels_from_1024_on() {
    let jumps = |labels: [u16; 4]| labels.into_iter().map(jump).fold(Body::new(), Body::action);
    let alike = jumps([0, 1_024, 2_048, 3_072]);
    let falling = alike.label(0, 3).label(1_024, 2).label(2_048, 1);
    let ends = jumps([255, 1_023, 2_047, 4_095]).label(255, 4);
    let inner = Body::new().label(4_095, 0).action(vec![0x06]);
    let cases = [
        (
            Body::new().label(4_095, 0).action(jump(4_095)),
            "99 02 00 FB FF 00",
        ),
        (
            Body::new().label(1_024, 1).action(branch(0x9D, 1_024)),
            "9D 02 00 00 00 00",
        ),
        (
            falling.label(3_072, 0),
            "99 02 00 0A 00 99 02 00 00 00 99 02 00 F6 FF 99 02 00 EC FF 00",
        ),
        (
            ends.label(1_023, 0).label(2_047, 1).label(4_095, 2),
            "99 02 00 0F 00 99 02 00 F6 FF 99 02 00 F6 FF 99 02 00 F6 FF 00",
        ),
        // P12 with label 4,095
        (
            Body::new()
                .label(4_095, 0)
                .action(jump(4_095))
                .action(with(&inner)),
            "99 02 00 05 00 94 02 00 01 00 06 00",
        ),
    ];
    for (main, block) in cases {
        let (block, room) = (hex(block), hex(block).len());
        for edition in [2, 3] {
            let sheet = sheet_in(edition, &[], &main.bytes());
            for mode in Mode::ALL {
                assert_eq!(pack(&sheet, mode, room), Ok(block.clone()));
                assert_eq!(pack(&sheet, mode, room - 1), Err(Refusal::NoRoom(room)));
            }
        }
        let one = answers_in(1, &main.bytes());
        assert_eq!(one.map(|(number, _)| number), [5; 4]);
    }
}

/// 10, 14 and 15 for labels from 1,024 on, in editions 2 and 3.
#[test]
fn branches_of_labels_from_1024_on() {
    let answers = |main: Body| {
        let [two, three] = [2, 3].map(|edition| answers_in(edition, &main.bytes()));
        assert_eq!(two, three);
        two
    };
    let far = |label: u16, pops: u16| {
        let main = Body::new().label(label, pops + 1).action(jump(label));
        answers(main.times(pops, pop()))
    };
    assert_eq!(far(4_095, 32_767), [(0, 32_773); 4]);
    assert_eq!(far(4_095, 32_768), [(10, 32_768); 4]);
    let back = |label: u16, pops: u16| {
        let main = Body::new().label(label, 0).times(pops, pop());
        answers(main.action(jump(label)))
    };
    assert_eq!(back(1_024, 32_763), [(0, 32_769); 4]);
    assert_eq!(back(1_024, 32_764), [(10, -32_769); 4]);

    // no entry; an entry past the count; records of other labels, which end in the same bits
    let (done, lost) = ((0, 6), (14, 3));
    for main in [
        Body::new().action(jump(1_024)),
        Body::new().label(4_095, 2).action(jump(4_095)),
        Body::new().label(0, 0).action(jump(1_024)),
        Body::new().label(1_024, 0).action(jump(0)),
        Body::new().label(1_023, 0).action(jump(4_095)),
        Body::new()
            .label(2_048, 0)
            .label(3_072, 0)
            .action(jump(1_024)),
    ] {
        assert_eq!(answers(main), [done, lost, done, lost]);
    }

    // into a function; main's label and the function's, which end in the same bits
    let records = function(&Body::new().label(1_024, 0).action(pop()));
    let (done, left) = ((0, 16), (15, 13));
    let into = Body::new().action(records.clone()).action(jump(1_024));
    assert_eq!(answers(into), [done, done, left, left]);
    let stays = Body::new().label(0, 0).action(records).action(jump(0));
    assert_eq!(answers(stays), [done; 4]);
}

/// As many entries as editions 2 and 3 have label numbers, and one more.
#[test]
fn entries_of_every_label() {
    let entries = |count: u16| (0..count).fold(Body::new(), |body, n| body.label(n, n % 4));
    let jumps = |body: Body| body.action(jump(0)).action(jump(1_023)).action(jump(4_095));
    let answers = |edition, count| answers_in(edition, &jumps(entries(count)).bytes());
    // a label number stands at 2 and each fourth byte behind it
    assert_eq!(answers(1, 4_096), [(5, 4_098); 4]);
    assert_eq!(answers(1, 1_025), [(5, 4_098); 4]);
    // behind 1,024 entries and two jumps, 4,095 is refused in edition 1
    assert_eq!(answers(1, 1_024), [(5, 4_107); 4]);
    let (done, lost) = ((0, 16), (14, 13));
    for edition in [2, 3] {
        assert_eq!(answers(edition, 1_024), [done, lost, done, lost]);
        assert_eq!(answers(edition, 4_095), [done, lost, done, lost]);
        assert_eq!(answers(edition, 4_096), [done; 4]);
        assert_eq!(answers(edition, 4_097), [(5, 16_386); 4]);
    }
    let block = pack(
        &sheet_in(2, &[], &jumps(entries(4_096)).bytes()),
        Mode::PLAIN,
        16,
    );
    // 0 before action 0, 1,023 and 4,095 before action 3
    let due = "99 02 00 FB FF 99 02 00 05 00 99 02 00 00 00 00";
    assert_eq!(block, Ok(hex(due)));
}

/// The reader's table against the source's opcodes: what a lone byte packs to.
#[test]
fn a_bare_opcode_is_written_as_it_was_read() {
    let mut listed = 0;
    for opcode in 0..=255 {
        match pack(&sheet(&[], &[0, 0, 1, 0, opcode]), Mode::PLAIN, AMPLE) {
            Ok(block) if opcode < 0x80 => assert_eq!(block, [opcode, 0]),
            Ok(block) => assert_eq!(block, [opcode, 0, 0, 0]),
            Err(Refusal::Reading(Fault::UnknownCode, 4, 0)) => continue,
            Err(refusal) => {
                // With alone has no field before its body.
                let action = usize::from(opcode == 0x94);
                assert_eq!(refusal, Refusal::Reading(Fault::CutShort, 5, action));
            }
        }
        listed += 1;
    }
    assert_eq!(listed, 100);
}

/// Places of faults where document 01 might be read two ways.
#[test]
fn faults_and_their_places() {
    let cases = [
        ("01 00 00 04", 5, 2),
        ("02 00 03 00 00 00 03 00 01 00 00 00", 5, 6),
        ("00 00 01 00 8B 05 00 61 62", 3, 7),
        ("00 00 01 00 8B 05 00 00 62", 3, 7),
        ("00 00 01 00 8B 03 00 61 00 00", 5, 8),
        ("00 00 01 00 8B 00 00", 0, 5),
        ("00 00 01 00 99 00 04", 5, 5),
        ("00 00 01 00 8F 04", 5, 5),
        ("00 00 01 00 8F 08", 5, 5),
        ("00 00 01 00 96 01 00 01", 4, 7),
        ("00 00 01 00 96 01 00 09", 4, 7),
        ("00 00 01 00 96 01 00 05 02", 5, 8),
        ("00 00 01 00 01", 4, 4),
        ("00 00 01 00 00", 0, 2),
        ("00 00 00 00 00", 7, 4),
        ("00 00 00", 3, 2),
        ("", 3, 0),
    ];
    for (main, number_due, value_due) in cases {
        let answer = pack(&sheet(&[], &hex(main)), Mode::PLAIN, AMPLE);
        assert_eq!(
            (number(&answer), value(&answer)),
            (number_due, value_due),
            "{main}"
        );
    }
    let noted = sheet(b"note", &hex("00 00 01 00 01"));
    assert_eq!(
        pack(&noted, Mode::PLAIN, 0),
        Err(Refusal::Reading(Fault::UnknownCode, 8, 0))
    );
}

#[test]
fn strings_outside_utf8_pass_through() {
    let main = Body::new()
        .action(set_target(b"yz"))
        .action(set_target(&[0xFF, b'y', b'z']))
        .action(set_target("\u{e9}".as_bytes()))
        .action(set_target(&[0x80]));
    let block = "8B 03 00 79 7A 00 8B 04 00 FF 79 7A 00 8B 03 00 C3 A9 00 8B 02 00 80 00 00";
    let sheet = sheet(&[], &main.bytes());
    assert_eq!(pack(&sheet, Mode::PLAIN, AMPLE), Ok(hex(block)));
}

/// Number, value and action number of the answer in each mode to a main body, which are the same in every edition. If the main body
/// reads whole, all its strings are named in edition 3; else none is.
fn all_told(main: &[u8]) -> [(u8, i64, usize); 4] {
    let [one, two] = [1, 2].map(|edition| told_of(&sheet_in(edition, &[], main), &EMPTY));
    assert_eq!(one, two);
    let (sheet, book) =
        all_named(&sheet(&[], main)).unwrap_or_else(|| (sheet_in(3, &[], main), EMPTY.to_vec()));
    assert_eq!(one, told_of(&sheet, &book));
    one
}

/// The same, which must be the same in every mode.
fn told(main: &[u8]) -> (u8, i64, usize) {
    let told = all_told(main);
    assert_eq!(told, [told[0]; 4]);
    told[0]
}

/// What stands before a body, from its owner's opcode on, and how many actions that is: With, both functions, and each body of a
/// Try, the later ones behind others. No body of the owner comes behind it.
const BEFORE_A_BODY: [(&str, usize); 8] = [
    ("94", 1),
    ("9B 01 00 66 01 00 01 00 78", 1),
    ("8E 00 00 00 00 02 00 00", 1),
    ("8F 00", 1),
    ("8F 01 01 00 65 00 00 01 00 17", 2),
    ("8F 05 03 00 00 00 00", 1),
    ("8F 02 00 00 02 00 17 17", 3),
    // Try of a With of a Pop, catch of a Pop
    ("8F 07 03 00 00 01 00 94 00 00 01 00 17 00 00 01 00 17", 4),
];

/// Document 02, item 7: which action a fault of reading gives, in a body and behind it.
#[test]
fn faults_and_their_actions() {
    // A body, its second action if there is one, and what stands behind it in main; the place and the number, both from the body's
    // start on.
    let cases = [
        // the count of entries, a label, its index, the order of labels, the count of actions: the next action's
        ("", 3, 0, 0),
        ("01", 3, 0, 0),
        ("01 00", 3, 2, 0),
        ("01 00 FF FF", 5, 2, 0),
        ("01 00 00 00 00", 3, 4, 0),
        ("02 00 05 00 00 00 05 00 00 00", 5, 6, 0),
        ("00 00", 3, 2, 0),
        ("01 00 05 00 00 00 01", 3, 6, 0),
        // an opcode that is missing and one that is unknown, first and second
        ("00 00 01 00", 3, 4, 0),
        ("00 00 01 00 01", 4, 4, 0),
        ("00 00 02 00 17", 3, 5, 1),
        ("00 00 02 00 17 01", 4, 5, 1),
        // fields, counts and items inside an action: its own
        ("00 00 02 00 17 99 FF", 3, 6, 1),
        ("00 00 02 00 17 9D FF FF", 5, 6, 1),
        ("00 00 02 00 17 8F 04", 5, 6, 1),
        ("00 00 02 00 17 88 02", 3, 6, 1),
        ("00 00 02 00 17 88 02 00 00 00", 3, 10, 1),
        ("00 00 02 00 17 8B 02 00 61 00", 5, 9, 1),
        ("00 00 02 00 17 96 02 00 02 01", 4, 9, 1),
        ("00 00 02 00 17 9B 00 00 01", 3, 8, 1),
        ("00 00 02 00 17 8E 00 00 00 00 00 00 02", 5, 11, 1),
        // behind the body, whose actions count: an opcode, a field, and what is left over
        ("00 00 00 00", 3, 4, 0),
        ("00 00 02 00 17 17", 3, 6, 2),
        ("00 00 02 00 17 17 01", 4, 6, 2),
        ("00 00 02 00 17 17 99 FF FF", 5, 7, 2),
        ("00 00 01 00 94 00 00 01 00 17 99 FF FF", 5, 11, 2),
        ("00 00 00 00 17 00", 7, 5, 1),
        ("00 00 02 00 17 17 17 17", 7, 7, 3),
    ];
    for (before, actions) in BEFORE_A_BODY {
        // as action 1 of main's three
        let front = [hex("00 00 03 00 17"), hex(before)].concat();
        for (rest, number, place, next) in cases {
            let main = [&front[..], &hex(rest)].concat();
            let due = (number, (front.len() + place) as i64, 1 + actions + next);
            assert_eq!(told(&main), due, "{before} | {rest}");
        }
    }
}

/// In main nothing comes before the first action, and a missing main body is a missing count.
#[test]
fn faults_of_the_main_body_and_their_actions() {
    let cases = [
        ("", 3, 0, 0),
        ("01 00 FF FF", 5, 2, 0),
        ("00 00", 3, 2, 0),
        ("00 00 02 00", 3, 4, 0),
        ("00 00 02 00 17", 3, 5, 1),
        ("00 00 02 00 17 01", 4, 5, 1),
        ("00 00 02 00 01 17", 4, 4, 0),
        ("00 00 00 00 17", 7, 4, 0),
        ("00 00 02 00 17 17 17", 7, 6, 2),
    ];
    for (main, number, place, action) in cases {
        assert_eq!(told(&hex(main)), (number, place, action), "{main}");
    }
}

/// A body that is too deep gives its owner, whether or not a byte of it is there.
#[test]
fn too_deep_and_its_owner() {
    let withs = |front: &str| hex(front).repeat(16);
    assert_eq!(told(&withs("00 00 01 00 94")), (6, 80, 15));
    let with_body = [withs("00 00 01 00 94"), hex("00 00 00 00")].concat();
    assert_eq!(told(&with_body), (6, 80, 15));
    // a Pop before each; Withs and Pops in a body before the last
    assert_eq!(told(&withs("00 00 02 00 17 94")), (6, 96, 31));
    let last = [
        hex("00 00 01 00 94").repeat(15),
        hex("00 00 02 00 9B 00 00 00 00"),
    ]
    .concat();
    assert_eq!(told(&last), (6, 75 + 9, 15));
    let beside = hex("00 00 02 00 94 00 00 02 00 17 17 94");
    let beside = [beside, hex("00 00 01 00 94").repeat(15)].concat();
    assert_eq!(told(&beside), (6, 12 + 75, 18));
    // of a Try's bodies the first is too deep, with a catch too
    for (owner, length) in [
        ("8F 00", 2),
        ("8F 07 00", 3),
        ("8E 00 00 00 00 00 00 00", 8),
    ] {
        let main = [hex("00 00 01 00 94").repeat(15), hex("00 00 02 00 17")].concat();
        let main = [main, hex(owner)].concat();
        assert_eq!(told(&main), (6, 80 + length, 16), "{owner}");
    }
}

/// An owner of a body, and how many actions it has before that body, itself counted. The others of a Try's bodies have a Pop each.
type Owner = fn(&Body) -> Vec<u8>;

fn owners() -> [(Owner, usize); 6] {
    fn other() -> Body {
        Body::new().action(pop())
    }
    [
        (with, 1),
        (|body| define_function(b"f", &[b"x"], body), 1),
        (|body| define_function_2(b"f", &[], 0, 0, body), 1),
        (|body| try_(body, None, None), 1),
        (
            |body| try_(&other(), Some(Catch::Register(3, body)), None),
            2,
        ),
        (
            |body| try_(&other(), Some(Catch::Name(b"e", &other())), Some(body)),
            3,
        ),
    ]
}

/// 8 gives the action whose payload it is.
#[test]
fn long_payloads_and_their_actions() {
    let long = || set_target(&[b'a'; 65_535]);
    let short = Body::new().times(2, pop());
    let holds = Body::new().action(pop()).action(long());
    let told = |main: Body| told(&main.bytes());
    let behind_pop = || Body::new().action(pop());
    assert_eq!(told(Body::new().action(long())), (8, 65_536, 0));
    assert_eq!(told(behind_pop().action(long())), (8, 65_536, 1));
    let first = behind_pop().action(long()).action(long());
    assert_eq!(told(first), (8, 65_536, 1));
    for (owner, before) in owners() {
        let behind = behind_pop().action(owner(&short)).action(long());
        assert_eq!(told(behind), (8, 65_536, 1 + before + 2));
        let inside = behind_pop().action(owner(&holds)).action(long());
        assert_eq!(told(inside), (8, 65_536, 1 + before + 1));
    }
    // a payload is tested before its bodies
    let name = [b'a'; 65_535];
    let function = define_function(&name, &[], &holds);
    assert_eq!(told(behind_pop().action(function)), (8, 65_540, 1));
    let function = define_function_2(&name, &[], 0, 0, &holds);
    assert_eq!(told(behind_pop().action(function)), (8, 65_543, 1));
    let attempt = try_(&holds, Some(Catch::Name(&name, &holds)), Some(&holds));
    assert_eq!(told(behind_pop().action(attempt)), (8, 65_543, 1));
}

/// 9 gives the action that owns the body.
#[test]
fn long_bodies_and_their_owners() {
    // 65,536 bytes
    let wide = Body::new().action(call()).times(65_533, pop());
    let actions = usize::from(wide.count());
    let told = |main: Body| told(&main.bytes());
    let behind_pop = || Body::new().action(pop());
    for (owner, before) in owners() {
        assert_eq!(told(Body::new().action(owner(&wide))), (9, 65_536, 0));
        let behind = behind_pop().action(with(&behind_pop()));
        let behind = behind.action(owner(&wide));
        assert_eq!(told(behind.action(pop())), (9, 65_536, 3));
        // of two bodies, one in the other, the inner one
        let inner = behind_pop().action(owner(&wide));
        assert_eq!(told(behind_pop().action(with(&inner))), (9, 65_536, 3));
        let inner = behind_pop().action(with(&wide));
        let outer = behind_pop().action(owner(&inner));
        assert_eq!(told(outer), (9, 65_536, 1 + before + 1));
        // a body that is too long by the body inside it
        let inner = Body::new().times(65_530, pop());
        let outer = behind_pop().action(with(&inner));
        let outer = behind_pop().action(owner(&outer)).action(owner(&wide));
        assert_eq!(told(outer), (9, 65_536, 1));
    }
    // behind a body that is just short enough
    let full = Body::new().times(65_535, pop());
    let behind = behind_pop().action(with(&full)).action(with(&wide));
    assert_eq!(told(behind), (9, 65_536, 65_537));

    // Try's are tested after all three, and after what stands in them
    let longer = wide.clone().action(pop());
    let attempt = try_(&wide, Some(Catch::Name(b"e", &longer)), Some(&longer));
    assert_eq!(told(behind_pop().action(attempt)), (9, 65_536, 1));
    let holds_body = behind_pop().action(with(&longer));
    let attempt = try_(&wide, Some(Catch::Name(b"e", &holds_body)), Some(&longer));
    let due = (9, 65_537, 2 + actions + 1);
    assert_eq!(told(behind_pop().action(attempt)), due);
    let holds_payload = behind_pop().action(set_target(&[b'a'; 65_535]));
    let attempt = try_(
        &wide,
        Some(Catch::Name(b"e", &holds_payload)),
        Some(&longer),
    );
    let due = (8, 65_536, 2 + actions + 1);
    assert_eq!(told(behind_pop().action(attempt)), due);
}

/// 10, 14 and 15 give the branch.
#[test]
fn branches_and_their_actions() {
    let told = |main: Body| all_told(&main.bytes()).map(|(number, _, action)| (number, action));
    // main begins with an If, which every mode takes; then the owner, of a body with two actions; then others
    let main = || Body::new().label(0, 0).action(branch(0x9D, 0));
    let pops = Body::new().times(2, pop());
    let far = with(&Body::new().times(40_000, pop()));
    let done = (0, 0);
    for (owner, before) in owners() {
        let (inner, behind) = (1 + before + 1, 1 + before + 2);
        let branches = Body::new().action(pop()).action(jump(1));

        let lost = main().action(owner(&branches)).action(jump(2));
        let refused = (14, inner);
        assert_eq!(told(lost), [done, refused, done, refused]);
        let lost = main().action(owner(&pops)).action(jump(2));
        let refused = (14, behind);
        assert_eq!(told(lost), [done, refused, done, refused]);

        let over = main().label(1, 3).action(owner(&branches));
        assert_eq!(told(over.action(far.clone()))[0], (10, inner));
        let over = main().label(1, 4).action(owner(&pops)).action(jump(1));
        assert_eq!(told(over.action(far.clone())), [(10, behind); 4]);

        // out of a function that stands second in the body, and into it
        let out = Body::new().action(jump(0));
        let out = Body::new().action(pop()).action(function(&out));
        let refused = (15, inner + 1);
        let stray = main().action(owner(&out));
        assert_eq!(told(stray), [done, done, refused, refused]);
        let records = Body::new().label(1, 0).times(2, pop());
        let records = Body::new().action(pop()).action(function(&records));
        let refused = (15, behind + 2);
        let stray = main().action(owner(&records)).action(jump(1));
        assert_eq!(told(stray), [done, done, refused, refused]);
    }
}

/// Done and the refusals that are of no action.
#[test]
fn answers_without_an_action() {
    let main = Body::new().action(with(&Body::new().times(3, pop())));
    let main = main.action(jump(0)).label(0, 2).bytes();
    assert_eq!(told(&main), (0, 14, 0));
    let good = sheet(&[], &main);
    assert_eq!(action(&pack(&good, Mode::PLAIN, 13)), 0);
    assert_eq!(action(&pack(&good[1..], Mode::PLAIN, AMPLE)), 0);
    let too_long = sheet(&vec![0; 1_048_577], &main);
    assert_eq!(action(&pack(&too_long, Mode::PLAIN, AMPLE)), 0);
    assert_eq!(Refusal::InputFull(65_536).action(), 0);
}
