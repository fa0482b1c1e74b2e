//! Every answer, through the safe functions. Each packing looks at the bytes that must keep their values (`packed`).
mod common;
use common::*;
use merinovault::{Mode, Refusal, Unclean, pack, step};

/// The block in plain mode.
fn taken_plain(sheet: &[u8]) -> Vec<u8> {
    packed(sheet, Mode::PLAIN, ROOM).expect("a block")
}

/// The block, which is the same in every mode.
fn taken(sheet: &[u8]) -> Vec<u8> {
    let block = taken_plain(sheet);
    for mode in MODES {
        assert_eq!(packed(sheet, mode, ROOM), Ok(block.clone()));
    }
    block
}

#[test]
fn done_gives_the_block_and_keeps_the_rest() {
    for mode in MODES {
        for (main, block) in sums(mode) {
            for spare in [0, 1, 100] {
                let room = block.len() + spare;
                assert_eq!(packed(&sheet(&main), mode, room), Ok(block.clone()));
            }
            let noted = sheet_with_note(b"a note", &main);
            assert_eq!(packed(&noted, mode, ROOM), Ok(block));
        }
    }
}

#[test]
fn plain_is_the_default() {
    assert_eq!(Mode::default(), Mode::PLAIN);
    let flags = MODES.map(|mode| (mode.strict, mode.contained));
    assert_eq!(
        flags,
        [(false, false), (true, false), (false, true), (true, true)]
    );
}

#[test]
fn sheet_too_long() {
    let (main, block) = &sums(Mode::PLAIN)[5];
    let of = |length: usize| sheet_with_note(&vec![b'n'; length - 8 - main.len()], main);
    assert_eq!(taken(&of(1_048_576)), *block);
    assert_eq!(
        refused(&of(1_048_577), 1, 1_048_577, 0),
        Refusal::SheetTooLong { length: 1_048_577 }
    );
}

#[test]
fn bad_trailer() {
    let good = sheet(&body(&[], &[]));
    let edited = |at: usize, byte: u8| {
        let mut sheet = good.clone();
        sheet[at] = byte;
        sheet
    };
    // no sheet, under 8 bytes, another mark, a distance past the sheet's first byte
    for sheet in [
        vec![],
        good[5..].to_vec(),
        edited(10, 0x42),
        edited(11, 0),
        edited(4, 5),
    ] {
        assert_eq!(refused(&sheet, 2, 0, 0), Refusal::BadTrailer);
    }
    // editions 0 and 4, and others that have the bytes of 1, 2 or 3
    for edition in [0, 4, 5, 255, 256, 257, 258, 259, 512, 768, 65_535] {
        for main in [body(&[], &[]), body(&[(4095, 0)], &[&jump(4095)])] {
            let sheet = sheet_in(edition, b"a note", &main);
            assert_eq!(refused(&sheet, 2, 0, 0), Refusal::BadTrailer);
        }
    }
}

#[test]
fn cut_short() {
    let cut = |place, action| Refusal::CutShort { place, action };
    assert_eq!(refused(&sheet(&[]), 3, 0, 0), cut(0, 0));
    let main = [&[0, 0, 2, 0, 0x17, 0x8B][..], &string(5)[..4]].concat();
    assert_eq!(refused(&sheet(&main), 3, 8, 1), cut(8, 1));
    // a place counts the note too
    let noted = sheet_with_note(&[0; 10], &main);
    assert_eq!(refused(&noted, 3, 18, 1), cut(18, 1));
}

#[test]
fn unknown_code() {
    assert_eq!(
        refused(&sheet(&body(&[], &[POP, &[0x98]])), 4, 5, 1),
        Refusal::UnknownCode {
            place: 5,
            action: 1
        }
    );
    assert_eq!(
        refused(&sheet(&body(&[], &[&[0x96, 1, 0, 9]])), 4, 7, 0),
        Refusal::UnknownCode {
            place: 7,
            action: 0
        }
    );
}

#[test]
fn bad_field() {
    assert_eq!(
        refused(&sheet(&body(&[(1024, 0)], &[])), 5, 2, 0),
        Refusal::BadField {
            place: 2,
            action: 0
        }
    );
    assert_eq!(
        refused(&sheet(&body(&[(3, 0), (3, 0)], &[])), 5, 6, 0),
        Refusal::BadField {
            place: 6,
            action: 0
        }
    );
    let nul = [0x8B, 3, 0, b'a', 0, 0];
    assert_eq!(
        refused(&sheet(&body(&[], &[POP, &nul])), 5, 9, 1),
        Refusal::BadField {
            place: 9,
            action: 1
        }
    );
}

#[test]
fn label_numbers_go_by_the_edition() {
    for (edition, last) in [(1, 1023), (2, 4095), (3, 4095)] {
        let of = |main: &[u8]| sheet_in(edition, &[], main);
        let to_itself = |label| of(&body(&[(label, 0)], &[&jump(label)]));
        for label in [0, 1023, last] {
            assert_eq!(taken(&to_itself(label)), [0x99, 2, 0, 0xFB, 0xFF, 0]);
        }
        for label in [last + 1, last + 2, 65_535] {
            // an entry and a branch, alone and behind one that is taken
            refused(&to_itself(label), 5, 2, 0);
            refused(&of(&body(&[(last, 0), (label, 0)], &[])), 5, 6, 0);
            refused(&of(&body(&[], &[&jump(label)])), 5, 5, 0);
            let inside = with(&body(&[(label, 0)], &[]));
            refused(&of(&body(&[(last, 0)], &[&jump(last), &inside])), 5, 14, 2);
        }
    }
    // no number from 1,024 on is one of edition 1
    for label in [1024, 2048, 4095] {
        let main = body(&[(label, 0)], &[&jump(label)]);
        refused(&sheet_in(1, &[], &main), 5, 2, 0);
        taken(&sheet_in(2, &[], &main));
        taken(&sheet_in(3, &[], &main));
    }
}

#[test]
fn small_label_numbers_give_the_same_block_in_every_edition() {
    for mode in MODES {
        for (main, block) in sums(mode) {
            for edition in [1, 2, 3] {
                for note in [&b""[..], b"a note"] {
                    let sheet = sheet_in(edition, note, &main);
                    assert_eq!(packed(&sheet, mode, ROOM), Ok(block.clone()));
                }
            }
        }
    }
}

#[test]
fn every_label_of_edition_2_is_its_own() {
    let entries: Vec<(usize, usize)> = (0..4096).map(|label| (label, label)).collect();
    let jumps: Vec<Vec<u8>> = (0..4096).map(jump).collect();
    let actions: Vec<&[u8]> = jumps.iter().map(Vec::as_slice).collect();
    // each to itself
    let block = taken(&sheet_in(2, &[], &body(&entries, &actions)));
    let due = [[0x99, 2, 0, 0xFB, 0xFF].repeat(4096), vec![0]].concat();
    assert!(block == due, "another block");
    // without the entry of one, only the jump to that one changes
    for lost in [0, 1023, 1024, 2048, 4095] {
        let mut others = entries.clone();
        others.remove(lost);
        let sheet = sheet_in(2, &[], &body(&others, &actions));
        let operand = 5 * lost + 3;
        let mut due = due.clone();
        due[operand..operand + 2].fill(0);
        assert!(taken_plain(&sheet) == due, "another block");
        let action = lost as u64;
        let refusal = refused_in(Mode::STRICT, &sheet, 14, operand as i64, action);
        assert_eq!(refusal, Refusal::NeverRecorded { operand, action });
    }
    // as many in edition 1
    refused(&sheet(&body(&entries, &actions)), 5, 4098, 0);
}

#[test]
fn too_deep() {
    let nested =
        |depth: usize| (1..depth).fold(body(&[], &[]), |inside, _| body(&[], &[&with(&inside)]));
    assert_eq!(taken(&sheet(&nested(16))).len(), 15 * 5 + 1);
    assert_eq!(
        refused(&sheet(&nested(17)), 6, 80, 15),
        Refusal::TooDeep {
            place: 80,
            action: 15
        }
    );
}

#[test]
fn left_over() {
    let main = [&body(&[], &[POP])[..], &[0xFF]].concat();
    assert_eq!(
        refused(&sheet(&main), 7, 5, 1),
        Refusal::LeftOver {
            place: 5,
            action: 1
        }
    );
}

#[test]
fn action_len_overflow() {
    let of = |letters| sheet(&body(&[], &[&set_target(letters)]));
    assert_eq!(taken(&of(65_534)).len(), 65_539);
    assert_eq!(
        refused(&of(65_535), 8, 65_536, 0),
        Refusal::ActionLenOverflow {
            length: 65_536,
            action: 0
        }
    );
}

#[test]
fn block_len_overflow() {
    let of = |actions: &[&[u8]]| sheet(&body(&[], &[&with(&body(&[], actions))]));
    assert_eq!(taken(&of(&[POP; 65_535])).len(), 65_541);
    let over = [&[CALL][..], &[POP; 65_533]].concat();
    assert_eq!(
        refused(&of(&over), 9, 65_536, 0),
        Refusal::BlockLenOverflow {
            length: 65_536,
            action: 0
        }
    );
}

#[test]
fn jump_offset_overflow() {
    let jump = jump(0);
    let forward = |pops: usize| {
        sheet(&body(
            &[(0, pops + 1)],
            &[&[&jump[..]][..], &vec![POP; pops]].concat(),
        ))
    };
    let back = |pops: usize| sheet(&body(&[(0, 0)], &[&vec![POP; pops][..], &[&jump]].concat()));
    assert_eq!(taken(&forward(32_767))[..5], [0x99, 2, 0, 0xFF, 0x7F]);
    assert_eq!(
        refused(&forward(32_768), 10, 32_768, 0),
        Refusal::JumpOffsetOverflow {
            distance: 32_768,
            action: 0
        }
    );
    assert_eq!(taken(&back(32_763))[32_763..], [0x99, 2, 0, 0x00, 0x80, 0]);
    assert_eq!(
        refused(&back(32_764), 10, -32_769, 32_764),
        Refusal::JumpOffsetOverflow {
            distance: -32_769,
            action: 32_764
        }
    );
}

#[test]
fn no_room() {
    for mode in MODES {
        for (main, block) in sums(mode) {
            let needed = block.len();
            for room in 0..needed {
                let refusal = packed(&sheet(&main), mode, room).expect_err("a refusal");
                assert_eq!(refusal, Refusal::NoRoom { needed });
                assert_eq!((refusal.number(), refusal.value()), (11, needed as i64));
                assert_eq!(refusal.action(), None);
            }
        }
    }
}

/// The modes with a flag refuse the sheet of this main body so, the others take it.
fn refused_where(flag: fn(Mode) -> bool, main: &[u8], number: u32, refusal: Refusal) {
    let action = refusal.action().expect("an action");
    // The position is the block's: a note does not move it.
    for sheet in [sheet(main), sheet_with_note(b"a note", main)] {
        let block = taken_plain(&sheet);
        for mode in MODES {
            if flag(mode) {
                let told = refused_in(mode, &sheet, number, refusal.value(), action);
                assert_eq!(told, refusal);
            } else {
                assert_eq!(packed(&sheet, mode, ROOM), Ok(block.clone()));
            }
        }
    }
}

/// Strict mode refuses the sheet of this main body at this operand, of this action. Plain mode takes it and gives that branch
/// distance 0.
fn never_recorded(main: &[u8], operand: usize, action: u64) {
    let refusal = Refusal::NeverRecorded { operand, action };
    refused_where(|mode| mode.strict, main, 14, refusal);
    assert_eq!(taken_plain(&sheet(main))[operand..operand + 2], [0, 0]);
}

/// Contained mode refuses the sheet of this main body at this operand, of this action.
fn stray(main: &[u8], operand: usize, action: u64) {
    let refusal = Refusal::StrayBranch { operand, action };
    refused_where(|mode| mode.contained, main, 15, refusal);
}

#[test]
fn never_recorded_branches() {
    never_recorded(&p7(), 3, 0);
    // Jump and If, without an entry; of two branches the first, behind one that has its record
    never_recorded(&body(&[], &[&jump(0)]), 3, 0);
    never_recorded(&body(&[(1, 0)], &[CALL, &[0x9D, 0, 0]]), 6, 1);
    never_recorded(&body(&[(5, 0)], &[&jump(5), &jump(6), &jump(7)]), 8, 1);
    // in a body, which also has the only entry, past its end
    let inside = body(&[(3, 2)], &[&jump(3)]);
    never_recorded(&body(&[], &[POP, &with(&inside)]), 9, 2);
    // in the last body of a Try
    let (empty, last) = (body(&[], &[]), body(&[], &[&jump(1023)]));
    let main = body(&[(1022, 0)], &[&attempt(&empty, &empty, &last)]);
    never_recorded(&main, 15, 1);
}

#[test]
fn recorded_branches_are_taken_in_every_mode() {
    // right behind the branch, which has distance 0 as well
    let behind = body(&[(0, 1)], &[&jump(0)]);
    assert_eq!(taken(&sheet(&behind)), [0x99, 2, 0, 0, 0, 0]);
    // in another body, though this one's entry is past its end
    let inside = with(&body(&[(0, 1)], &[PLAY]));
    let elsewhere = body(&[(0, 3)], &[&jump(0), &inside]);
    assert_eq!(
        taken(&sheet(&elsewhere)),
        [0x99, 2, 0, 6, 0, 0x94, 2, 0, 1, 0, 6, 0]
    );
    // an entry past its body's end takes nothing from a record made before
    let past = with(&body(&[(0, 2)], &[PLAY]));
    let before = body(&[(0, 0)], &[&jump(0), &past]);
    assert_eq!(taken(&sheet(&before))[..5], [0x99, 2, 0, 0xFB, 0xFF]);
}

#[test]
fn the_first_branch_decides_between_10_and_14() {
    let pops = vec![POP; 32_768];
    let (far, lost) = (jump(0), jump(1));
    let of = |first: &[u8], second: &[u8]| {
        let actions = [&[first, second][..], &pops].concat();
        sheet(&body(&[(0, actions.len())], &actions))
    };
    refused(&of(&far, &lost), 10, 32_773, 0);
    refused_in(Mode::STRICT, &of(&lost, &far), 14, 3, 0);
    refused_in(Mode::PLAIN, &of(&lost, &far), 10, 32_768, 1);
}

#[test]
fn stray_branches() {
    let records = body(&[(0, 0)], &[PLAY]);
    let branches = body(&[], &[&[0x9D, 0, 0]]);
    // into a function of either kind, and out of one
    stray(&body(&[], &[&function(&records), &jump(0)]), 13, 2);
    stray(&body(&[], &[&function2(&records), &jump(0)]), 16, 2);
    stray(&body(&[(0, 0)], &[&function(&branches)]), 12, 1);
    stray(&body(&[(0, 0)], &[&function2(&branches)]), 15, 1);
    // from one to another, and to the one around it
    let two = [&function(&branches)[..], &function(&records)];
    stray(&body(&[], &two), 12, 1);
    let outer = body(&[(0, 0)], &[&function(&branches)]);
    stray(&body(&[], &[&function(&outer)]), 21, 2);
    // to its end, which is also where the branch stands
    let at_end = body(&[(0, 1)], &[PLAY]);
    stray(&body(&[], &[&function(&at_end), &jump(0)]), 13, 2);
    // in a With that records the label too, but before the function does
    let with_record = with(&body(&[(0, 0)], &[&jump(0)]));
    stray(&body(&[], &[&with_record, &function(&records)]), 8, 1);
}

#[test]
fn branches_in_one_function_are_taken_in_every_mode() {
    let records = body(&[(0, 0)], &[PLAY]);
    let branches = body(&[], &[&jump(0)]);
    let inside = body(
        &[],
        &[
            &with(&records),
            &attempt(&branches, &branches, &branches),
            &with(&branches),
        ],
    );
    taken(&sheet(&inside));
    taken(&sheet(&body(&[], &[&function(&inside)])));
    // a record in a function, and behind it one where the branch stands
    let last = body(&[(0, 1)], &[&function(&records), &jump(0)]);
    assert_eq!(taken(&sheet(&last))[10..], [0x99, 2, 0, 0xFB, 0xFF, 0]);
}

#[test]
fn the_first_branch_decides_between_14_and_15() {
    let (records, lost, stray) = (function(&body(&[(0, 0)], &[])), jump(1), jump(0));
    let lost_first = sheet(&body(&[], &[&records, &lost, &stray]));
    refused_in(Mode::STRICT, &lost_first, 14, 12, 1);
    refused_in(Mode::CONTAINED, &lost_first, 15, 17, 2);
    refused_in(Mode::STRICT_CONTAINED, &lost_first, 14, 12, 1);
    let stray_first = sheet(&body(&[], &[&records, &stray, &lost]));
    refused_in(Mode::STRICT, &stray_first, 14, 17, 2);
    refused_in(Mode::CONTAINED, &stray_first, 15, 12, 1);
    refused_in(Mode::STRICT_CONTAINED, &stray_first, 15, 12, 1);
}

#[test]
fn one_branch_is_15_before_10() {
    let (records, jump) = (function(&body(&[(0, 0)], &[])), jump(0));
    let actions = [&[&records[..]][..], &[POP; 32_768], &[&jump]].concat();
    let both = sheet(&body(&[], &actions));
    for mode in MODES {
        let (number, value) = match mode.contained {
            true => (15, 32_780),
            false => (10, -32_773),
        };
        refused_in(mode, &both, number, value, 32_769);
    }
}

#[test]
fn lengths_come_before_branches() {
    let over = with(&body(&[], &[&[CALL][..], &[POP; 65_533]].concat()));
    let records = function(&body(&[(0, 0)], &[]));
    for first in [POP, &records] {
        let jump = jump(0);
        let of = |last: &[u8]| sheet(&body(&[], &[first, &jump, last]));
        refused(&of(&set_target(65_535)), 8, 65_536, 2);
        refused(&of(&over), 9, 65_536, 2);
    }
}

#[test]
fn stepping() {
    for (main, _) in sums(Mode::PLAIN) {
        assert!(step(&taken_plain(&sheet(&main))).is_ok());
    }
    // If, to the action past an End
    let past = body(&[(0, 2)], &[&[0x9D, 0, 0], &[0], PLAY]);
    assert_eq!(step(&taken(&sheet(&past))), Ok(4));
    // an End alone; an End in the middle; opcodes that are not listed; straight into a body
    let clean: [(&[u8], usize); 6] = [
        (&[0], 1),
        (&[0, 0], 2),
        (&[0x9E, 0, 0, 0, 0x17, 0], 4),
        (&[1, 0], 2),
        (&[0x80, 0, 0, 0], 2),
        (&[0x99, 2, 0, 5, 0, 0x94, 2, 0, 1, 0, 6, 0], 4),
    ];
    for (block, steps) in clean {
        assert_eq!(step(block), Ok(steps));
    }
    // no step; a last step that is no End, also where the last byte is 00; a step past the end; length bytes that are not there
    let unclean: [(&[u8], usize); 9] = [
        (&[], 0),
        (&[0x17], 1),
        (&[0x17, 0x17], 2),
        (&[0, 0x17], 2),
        (&[0x80, 1, 0, 0], 4),
        (&[0x96, 5, 0, 1], 0),
        (&[0x17, 0x9E, 1, 0], 1),
        (&[0x17, 0x9E, 0], 1),
        (&[0, 0x80], 1),
    ];
    for (block, place) in unclean {
        let found = step(block).expect_err("unclean");
        assert_eq!(found, Unclean { place });
        assert_eq!((found.number(), found.value()), (13, place as i64));
    }
}

#[test]
fn several_threads_pack_at_once() {
    std::thread::scope(|scope| {
        for mode in MODES.repeat(2) {
            scope.spawn(move || {
                for _ in 0..200 {
                    for (main, block) in sums(mode) {
                        let mut out = [0; 16];
                        assert_eq!(pack(&sheet(&main), mode, &mut out), Ok(block.len()));
                        assert_eq!(out[..block.len()], block);
                    }
                }
            });
        }
    });
}

/// docs/LINKING.md: so many KiB of stack are enough for a call, by the edition, in each mode.
#[test]
fn a_small_thread_packs_the_deepest_sheet() {
    for (edition, label, kib) in [(1, 1023, 64), (2, 4095, 128), (3, 4095, 128)] {
        let innermost = body(&[(label, 0)], &[&jump(label)]);
        let deepest = (1..16).fold(innermost, |inside, _| body(&[], &[&with(&inside)]));
        for mode in MODES {
            let sheet = sheet_in(edition, &[], &deepest);
            let call = move || pack(&sheet, mode, &mut [0; 100]);
            let thread = std::thread::Builder::new().stack_size(kib * 1024);
            let answer = thread.spawn(call).expect("a thread").join();
            assert_eq!(answer.expect("an answer"), Ok(15 * 5 + 5 + 1));
        }
    }
}
