//! Which action a refusal names. In the comments each action has its number behind it: `With 0 { Pop 1 }, Play 2`.
mod common;
use common::*;
use merinovault::Mode;

/// A label entry whose number is out of range in every edition.
const BAD: (usize, usize) = (4096, 0);

/// A body of one Pop, in 5 bytes.
fn one() -> Vec<u8> {
    body(&[], &[POP])
}

/// A body of a With with one Play, in 10 bytes.
fn nested() -> Vec<u8> {
    body(&[], &[&with(&body(&[], &[PLAY]))])
}

/// A body of 65,534 actions whose length in the block is 65,536, one too many.
fn over() -> Vec<u8> {
    body(&[], &[&[CALL][..], &[POP; 65_533]].concat())
}

/// The sheet of this main body is refused so. A note before it moves the place, and neither it nor the edition the action.
fn at(main: &[u8], number: u32, place: i64, action: u64) {
    refused(&sheet(main), number, place, action);
    for edition in [2, 3] {
        let noted = sheet_in(edition, &[0x17; 10], main);
        refused(&noted, number, place + 10, action);
    }
}

#[test]
fn a_bodys_front_names_the_next_action() {
    // the main body's front: its number of entries, a label number, an index, a label number out of range and out of order, its
    // number of actions
    at(&[], 3, 0, 0);
    at(&[1, 0, 5], 3, 2, 0);
    at(&[1, 0, 5, 0], 3, 4, 0);
    at(&body(&[BAD], &[POP]), 5, 2, 0);
    at(&body(&[(3, 0), (3, 0)], &[POP]), 5, 6, 0);
    at(&[0, 0, 1], 3, 2, 0);
    // With 0 { the same
    let in_with = |inside: &[u8]| [&[0, 0, 1, 0][..], &with(inside)].concat();
    at(&in_with(&[]), 3, 5, 1);
    at(&in_with(&[1, 0, 5]), 3, 7, 1);
    at(&in_with(&[1, 0, 5, 0]), 3, 9, 1);
    at(&in_with(&body(&[BAD], &[POP])), 5, 7, 1);
    at(&in_with(&body(&[(3, 0), (3, 0)], &[POP])), 5, 11, 1);
    at(&in_with(&[0, 0, 1]), 3, 7, 1);
    // a function 0 { an entry
    let bad = body(&[BAD], &[]);
    at(&body(&[], &[&function(&bad)]), 5, 12, 1);
    at(&body(&[], &[&function2(&bad)]), 5, 15, 1);
    // With 0 { Pop 1 }, With 2 { an entry
    at(&body(&[], &[&with(&one()), &with(&bad)]), 5, 13, 3);
}

#[test]
fn the_front_of_a_trys_later_body_names_the_next_action() {
    let bad = body(&[BAD], &[]);
    // Call 0, Try 1 { Pop 2, Play 3 } { an entry
    let two = body(&[], &[POP, PLAY]);
    at(&body(&[], &[CALL, &attempt(&two, &bad, &two)]), 5, 18, 4);
    // Try 0 { Pop 1 } { With 2 { Play 3 } } { an entry, the number of entries, the number of actions
    let in_finally = |last: &[u8]| [&[0, 0, 1, 0][..], &attempt(&one(), &nested(), last)].concat();
    at(&in_finally(&bad), 5, 26, 4);
    at(&in_finally(&[]), 3, 24, 4);
    at(&in_finally(&[0, 0, 7]), 3, 26, 4);
}

#[test]
fn a_missing_opcode_names_the_next_action() {
    at(&[0, 0, 1, 0], 3, 4, 0);
    at(&[0, 0, 2, 0, 0x17], 3, 5, 1);
    // With 0 { missing
    at(&[0, 0, 1, 0, 0x94, 0, 0, 1, 0], 3, 9, 1);
    // With 0 { Pop 1, missing, and With 0 { Pop 1 }, missing
    at(&[0, 0, 1, 0, 0x94, 0, 0, 2, 0, 0x17], 3, 10, 2);
    at(&[0, 0, 2, 0, 0x94, 0, 0, 1, 0, 0x17], 3, 10, 2);
    // Try 0 { Pop 1 } { Pop 2 } { missing, and Try 0 { Pop 1 } { Pop 2 } { Pop 3 }, missing
    let inside = attempt(&one(), &one(), &[0, 0, 1, 0]);
    at(&[&[0, 0, 1, 0][..], &inside].concat(), 3, 23, 3);
    let behind = attempt(&one(), &one(), &one());
    at(&[&[0, 0, 2, 0][..], &behind].concat(), 3, 24, 4);
}

#[test]
fn a_field_names_its_action() {
    // Pop 0, and an action 1 with a field that is cut short: a string's bytes, its length, three counts, a catch name
    let second = |action: &[u8]| [&[0, 0, 2, 0, 0x17][..], action].concat();
    at(&second(&[0x8B, 5, 0, b'a']), 3, 8, 1);
    at(&second(&[0x8B, 5]), 3, 6, 1);
    at(&second(&[0x88]), 3, 6, 1);
    at(&second(&[0x96]), 3, 6, 1);
    at(&second(&[0x9B, 1, 0, b'f']), 3, 9, 1);
    at(&second(&[0x8F, 1, 3, 0, b'e']), 3, 9, 1);
    // a NUL, a shape, bit 9 of the flags
    at(&second(&[0x8B, 2, 0, b'a', 0]), 5, 9, 1);
    at(&second(&[0x8F, 4]), 5, 6, 1);
    at(&second(&[0x8E, 1, 0, b'f', 0, 0, 0, 0, 2]), 5, 12, 1);
}

#[test]
fn a_field_in_or_behind_a_body_names_its_action() {
    // With 0 { Pop 1, Push 2 of another kind
    let push = [0x96, 1, 0, 9];
    at(&body(&[], &[&with(&body(&[], &[POP, &push]))]), 4, 13, 2);
    // a function 0 { Pop 1, another opcode 2
    let unknown = &[0x98][..];
    at(
        &body(&[], &[&function(&body(&[], &[POP, unknown]))]),
        4,
        15,
        2,
    );
    // With 0 { With 1 { Push 2 of a boolean 2
    let push = body(&[], &[&[0x96, 1, 0, 5, 2]]);
    let inside = body(&[], &[&with(&push)]);
    at(&body(&[], &[&with(&inside)]), 5, 18, 2);
    // With 0 { Pop 1 }, ConstantPool 2 without a count
    at(
        &[&[0, 0, 2, 0][..], &with(&one()), &[0x88]].concat(),
        3,
        11,
        2,
    );
    // Try 0 { Pop 1 } { Jump 2 to a label out of range
    let far = body(&[], &[&jump(4096)]);
    at(&body(&[], &[&attempt(&one(), &far, &one())]), 5, 19, 2);
    // Try 0 { Pop 1 } { Pop 2 } { Pop 3 }, another opcode 4
    let all = attempt(&one(), &one(), &one());
    at(&body(&[], &[&all, unknown]), 4, 24, 4);
}

#[test]
fn too_deep_names_the_owner() {
    // With 0 { With 1 { .. With 15, whose body is not there
    at(&[0, 0, 1, 0, 0x94].repeat(16), 6, 80, 15);
    // Pop 0, With 1 { Pop 2, With 3 { .. Pop 30, With 31
    at(&[0, 0, 2, 0, 0x17, 0x94].repeat(16), 6, 96, 31);
    // With 0 { }, With 1 { With 2 { }, With 3 { .. With 29 { With 30
    let level = [0, 0, 2, 0, 0x94, 0, 0, 0, 0, 0x94];
    at(&level.repeat(16), 6, 155, 30);
    // fifteen Withs, and in them a function 15 or a Try 15
    let withs = [&[0, 0, 1, 0, 0x94].repeat(15)[..], &[0, 0, 1, 0]].concat();
    at(&[&withs[..], &function(&[])].concat(), 6, 85, 15);
    at(&[&withs[..], &function2(&[])].concat(), 6, 88, 15);
    at(&[&withs[..], &attempt(&[], &[], &[])].concat(), 6, 84, 15);
}

#[test]
fn left_over_gives_how_many_actions_were_read() {
    at(&[&body(&[], &[])[..], &[0]].concat(), 7, 4, 0);
    // With 0 { Pop 1, With 2 { Play 3 } }, Try 4 { Pop 5 } { Pop 6 } { With 7 { Play 8 } }, Pop 9
    let inner = body(&[], &[POP, &with(&body(&[], &[PLAY]))]);
    let attempt = attempt(&one(), &one(), &nested());
    let main = body(&[], &[&with(&inner), &attempt, POP]);
    at(&[&main[..], &[0x17]].concat(), 7, 42, 10);
    at(&[&main[..], &[0x94, 0, 0]].concat(), 7, 42, 10);
}

#[test]
fn a_long_payload_names_its_action() {
    let long = set_target(65_535);
    let of = |actions: &[&[u8]]| sheet(&body(&[], actions));
    // Pop 0, With 1 { Pop 2 }, SetTarget 3
    refused(&of(&[POP, &with(&one()), &long]), 8, 65_536, 3);
    // With 0 { Pop 1, SetTarget 2 }, and With's body is too long by that
    let inside = body(&[], &[POP, &long]);
    refused(&of(&[&with(&inside)]), 8, 65_536, 2);
    // a function 0 with a long name { SetTarget 1 }
    let inside = body(&[], &[&long]);
    let named = [&[0x9B][..], &string(65_535), &[0, 0], &inside].concat();
    refused(&of(&[&named]), 8, 65_540, 0);
    // Try 0 { 65,534 actions, too long } { SetTarget 65,535 }: the Try's bodies are tested after all of them are written
    let catch = body(&[], &[&long]);
    refused(&of(&[&attempt(&over(), &catch, &one())]), 8, 65_536, 65_535);
}

#[test]
fn a_long_body_names_its_owner() {
    let of = |actions: &[&[u8]]| sheet(&body(&[], actions));
    // Pop 0, With 1 { Pop 2 }, and a With or function 3
    for owner in [with(&over()), function(&over()), function2(&over())] {
        refused(&of(&[POP, &with(&one()), &owner]), 9, 65_536, 3);
    }
    // With 0 { Pop 1, With 2 { too long } }
    let inside = body(&[], &[POP, &with(&over())]);
    refused(&of(&[&with(&inside)]), 9, 65_536, 2);
    // With 0 { With 1 { 65,533 Pops } }, of which the outer body alone is too long
    let inside = body(&[], &[&with(&body(&[], &[POP; 65_533]))]);
    refused(&of(&[&with(&inside)]), 9, 65_538, 0);
}

#[test]
fn a_long_body_of_a_try_names_the_try() {
    let of = |actions: &[&[u8]]| sheet(&body(&[], actions));
    let (one, over) = (one(), over());
    // Pop 0, Try 1 with a body that is too long
    for bodies in [
        [&over, &one, &one],
        [&one, &over, &one],
        [&one, &one, &over],
    ] {
        let [first, catch, last] = bodies;
        refused(&of(&[POP, &attempt(first, catch, last)]), 9, 65_536, 1);
    }
    // Try 0 { Pop 1 } { Pop 2 } { With 3 { too long } }
    let inside = body(&[], &[&with(&over)]);
    refused(&of(&[&attempt(&one, &one, &inside)]), 9, 65_536, 3);
    // Try 0 { 65,534 actions, too long } { With 65,535 { longer } }: With's body closes first
    let longer = body(&[], &[&[CALL][..], &[POP; 65_534]].concat());
    let inside = body(&[], &[&with(&longer)]);
    refused(&of(&[&attempt(&over, &inside, &one)]), 9, 65_537, 65_535);
    // Try 0 with two that are too long: the first of them
    refused(&of(&[&attempt(&over, &one, &longer)]), 9, 65_536, 0);
    refused(&of(&[&attempt(&one, &longer, &over)]), 9, 65_537, 0);
}

#[test]
fn a_branch_that_goes_too_far_is_named() {
    // The label stands behind these actions and the Pops.
    let forward = |actions: &[&[u8]]| {
        let all = [actions, &[POP; 32_768]].concat();
        sheet(&body(&[(0, all.len()), (1, 1)], &all))
    };
    let branch = body(&[], &[&jump(0)]);
    // With 0 { Jump 1 }
    refused(&forward(&[&with(&branch)]), 10, 32_768, 1);
    // Try 0 { Pop 1 } { Pop 2 } { Jump 3 }
    let attempt = attempt(&one(), &one(), &branch);
    refused(&forward(&[&attempt]), 10, 32_768, 3);
    // Jump 0 to what stands behind it, With 1 { Jump 2 }, Jump 3: 2 and 3 go too far
    let jumps = [&jump(1)[..], &with(&branch), &jump(0)];
    refused(&forward(&jumps), 10, 32_773, 2);
    // With 0 { Pop 1 }, Pops 2 to 32,765, Jump 32,766 back to the start
    let (first, last) = (with(&one()), jump(0));
    let back = [&[&first[..]][..], &[POP; 32_764], &[&last]].concat();
    let back = sheet(&body(&[(0, 0)], &back));
    refused(&back, 10, -32_775, 32_766);
}

#[test]
fn a_branch_that_a_mode_refuses_is_named() {
    let of = |labels: &[(usize, usize)], actions: &[&[u8]]| sheet(&body(labels, actions));
    let branch = &[0x9D, 0, 0][..];
    // a function 0 { Pop 1, With 2 { If 3 } }
    let inside = body(&[], &[POP, &with(&body(&[], &[branch]))]);
    let lost = of(&[], &[&function(&inside)]);
    refused_in(Mode::STRICT, &lost, 14, 18, 3);
    // Try 0 { Pop 1 } { Pop 2 } { Pop 3 }, If 4
    let attempt = attempt(&one(), &one(), &one());
    refused_in(Mode::STRICT, &of(&[], &[&attempt, branch]), 14, 18, 4);
    // With 0 { Pop 1 }, a function 2 { Play 3, labelled }, With 4 { If 5 }
    let records = function(&body(&[(0, 0)], &[PLAY]));
    let inside = with(&body(&[], &[branch]));
    let stray = of(&[], &[&with(&one()), &records, &inside]);
    refused_in(Mode::CONTAINED, &stray, 15, 24, 5);
    // With 0, labelled { a function 1 { Pop 2, If 3 } }
    let inside = body(&[], &[&function(&body(&[], &[POP, branch]))]);
    let stray = of(&[(0, 0)], &[&with(&inside)]);
    refused_in(Mode::CONTAINED, &stray, 15, 18, 3);
}

#[test]
fn other_refusals_name_none() {
    let long = refused(&vec![0x17; 1_048_577], 1, 1_048_577, 0);
    assert_eq!(long.action(), None);
    assert_eq!(refused(&[], 2, 0, 0).action(), None);
    // With 0 { Pop 1 } in no room
    let main = body(&[], &[&with(&one())]);
    for mode in MODES {
        let refusal = packed(&sheet(&main), mode, 6).expect_err("a refusal");
        assert_eq!((refusal.number(), refusal.action()), (11, None));
    }
}
