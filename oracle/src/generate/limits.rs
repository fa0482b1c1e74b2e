//! Every limit, met and passed by one.

use super::write::{
    Body, Catch, branch, call, define_function, define_function_2, jump, pop, push, set_target,
    sheet, sheet_in, string, strings, try_, with,
};
use crate::sheet::{Edition, LONGEST_SHEET, TRAILER};

pub fn limits(give: &mut dyn FnMut(Vec<u8>)) {
    let mut give_main = |main: Body| give(sheet(&[], &main.bytes()));
    payloads(&mut give_main);
    bodies(&mut give_main);
    orders(&mut give_main);
    labels(give);
    editions(give);
    counts(give);
    depths(give);
    lengths(give);
    refused_by_mode(give);
    numbered(give);
}

/// An action whose payload has this length.
type Payload = fn(usize) -> Vec<u8>;

const PAYLOADS: &[Payload] = &[
    |n| set_target(&text(n - 1)),
    |n| [vec![0x8C], string(&text(n - 1))].concat(),
    |n| [vec![0x83], string(&text(n - 2)), string(b"")].concat(),
    |n| [vec![0x83], string(b"abc"), string(&text(n - 5))].concat(),
    // one string; two; empty ones as many as there may be
    |n| [vec![0x88], strings(&[&text(n - 3)])].concat(),
    |n| [vec![0x88], strings(&[&text(30_000), &text(n - 30_004)])].concat(),
    |n| {
        let empty = vec![&b""[..]; 65_000];
        let last = text(n - 65_003);
        [vec![0x88], strings(&[&empty[..], &[&last]].concat())].concat()
    },
    |n| define_function(&text(n - 5), &[], &Body::new()),
    |n| define_function(b"", &[&text(n - 9), b"ab"], &Body::new()),
    |n| define_function_2(&text(n - 8), &[], 0, 0, &Body::new()),
    |n| define_function_2(b"f", &[(1, &text(n - 13)), (2, b"")], 3, 511, &Body::new()),
    |n| {
        let body = Body::new().action(pop());
        try_(&Body::new(), Some(Catch::Name(&text(n - 8), &body)), None)
    },
    // a string; nulls with a string; doubles with a boolean and constants of both widths
    |n| push(&[[vec![0], string(&text(n - 2))].concat()]),
    |n| {
        let mut values = vec![vec![2]; 60_000];
        values.push([vec![0], string(&text(n - 60_002))].concat());
        push(&values)
    },
    |n| {
        let mut values = vec![vec![6, 1, 2, 3, 4, 5, 6, 7, 8]; n / 9 - 1];
        values.extend([vec![5, 1], vec![8, 255, 0], vec![8, 0, 1]]);
        values.extend(vec![vec![3]; n % 9 + 2]);
        push(&values)
    },
];

/// Payloads of 65,535, and one to either side; after a Pop, and inside a body.
fn payloads(give: &mut dyn FnMut(Body)) {
    for payload in PAYLOADS {
        for n in 65_534..=65_536 {
            give(Body::new().action(payload(n)));
            let inner = Body::new().action(pop()).action(payload(n));
            give(Body::new().action(with(&inner)));
        }
    }
    give(Body::new().action(push(&vec![vec![2]; 65_535])));
    give(Body::new().action([vec![0x88], strings(&vec![&b""[..]; 65_535])].concat()));
}

/// A main body in which a body stands at one of the places where one can.
pub type Owner = fn(&Body) -> Vec<u8>;

pub const OWNERS: &[Owner] = &[
    with,
    |body| define_function(b"f", &[b"x", b"y"], body),
    |body| define_function_2(b"", &[(1, b"x")], 2, 0x1FF, body),
    |body| try_(body, None, None),
    |body| try_(body, Some(Catch::Register(7, &Body::new())), None),
    |body| try_(&Body::new(), Some(Catch::Register(7, body)), None),
    |body| {
        try_(
            &Body::new(),
            Some(Catch::Name(b"e", body)),
            Some(&Body::new()),
        )
    },
    |body| try_(&Body::new(), None, Some(body)),
    |body| {
        let other = Body::new().action(pop());
        try_(&other, Some(Catch::Name(b"", &other)), Some(body))
    },
];

/// A body that is written with this length: Pops, or Pops and a Call, or one long string.
fn bodies_of(length: u32) -> Vec<Body> {
    let pops = |n: u32| Body::new().times(n as u16, pop());
    let mut all = vec![
        pops(length - 3).action(call()),
        Body::new()
            .action(set_target(&text(length as usize - 54)))
            .times(50, pop()),
    ];
    if length < 65_536 {
        all.push(pops(length));
    }
    all
}

/// Bodies of 65,535, and one to either side; and the same with a body inside.
fn bodies(give: &mut dyn FnMut(Body)) {
    for owner in OWNERS {
        for length in 65_534..=65_536 {
            for body in bodies_of(length) {
                give(Body::new().action(owner(&body)));
            }
            let inner = Body::new().action(with(&bodies_of(length - 5)[0]));
            give(Body::new().action(owner(&inner)));
        }
    }
    // The main body's length is never tested.
    for length in 65_534..=65_537 {
        give(bodies_of(length)[0].clone());
    }
    give(Body::new().times(10, set_target(&text(65_534))));
}

/// Which of two refusals is met first.
fn orders(give: &mut dyn FnMut(Body)) {
    let of = |n| Body::new().action(pop()).action(set_target(&text(n)));
    let (long, longer) = (of(65_532), of(65_533));
    let bad_payload = Body::new().action(set_target(&text(65_535)));
    let bad_jump = |body: Body| body.label(0, 0).times(33_000, pop()).action(jump(0));
    for (try_body, catch, finally) in [
        (&long, &longer, &long),
        (&Body::new(), &longer, &long),
        (&long, &bad_payload, &long),
        (&long, &long, &bad_payload),
        (&bad_payload, &long, &long),
    ] {
        let action = try_(try_body, Some(Catch::Name(b"e", catch)), Some(finally));
        give(Body::new().action(action.clone()));
        give(bad_jump(Body::new().action(action)));
    }
    give(
        Body::new()
            .action(with(&long))
            .action(set_target(&text(65_535))),
    );
    give(
        Body::new()
            .action(set_target(&text(65_535)))
            .action(with(&long)),
    );
    give(Body::new().action(with(&Body::new().action(with(&longer)))));
    give(bad_jump(Body::new()).action(with(&long)));
    give(bad_jump(Body::new()).action(set_target(&text(65_535))));
}

/// In each edition: as many label entries as any edition allows, one less and one more, and numbers at all bounds.
fn labels(give: &mut dyn FnMut(Vec<u8>)) {
    for edition in Edition::ALL {
        let give = &mut |main: Body| give(sheet_in(edition.number(), &[], &main.bytes()));
        for bound in BOUNDS {
            for count in bound - 1..=bound + 1 {
                entries(count, bound, give);
            }
        }
        for number in numbers() {
            give(Body::new().label(number, 0).action(pop()));
            give(
                Body::new()
                    .label(0, 1)
                    .label(number, 0)
                    .action(jump(number)),
            );
            for opcode in [0x99, 0x9D] {
                let main = Body::new().label(edition.labels() - 1, 1).action(pop());
                give(main.action(branch(opcode, number)));
            }
            let inner = Body::new().label(number, 1).action(branch(0x9D, number));
            for owner in OWNERS {
                give(Body::new().action(owner(&inner)));
            }
        }
    }
}

/// So many label entries, and branches to labels up to the bound, in one body and in two.
fn entries(count: u16, bound: u16, give: &mut dyn FnMut(Body)) {
    let indices: [fn(u16) -> u16; 5] = [|_| 0, |_| 3, |_| 4, |n| n, |n| n % 5];
    for index in indices {
        let all = (0..count).fold(Body::new(), |body, n| body.label(n, index(n)));
        give(
            all.clone()
                .action(jump(0))
                .action(branch(0x9D, bound - 1))
                .action(jump(bound / 2)),
        );
        let inner = all.clone().action(jump(5));
        give(
            all.action(with(&inner))
                .action(jump(bound - 1))
                .action(jump(bound - 2)),
        );
    }
}

/// What label numbers are under: in edition 1, and in the others.
pub const BOUNDS: [u16; 2] = [Edition::One.labels(), Edition::Two.labels()];

/// Label numbers at the bounds, and at the ends of a u16.
fn numbers() -> Vec<u16> {
    let at_bounds = BOUNDS.into_iter().flat_map(|n| n - 2..=n + 1);
    [0].into_iter().chain(at_bounds).chain([u16::MAX]).collect()
}

/// All editions, and others near them or with their bytes.
const EDITIONS: [u16; 15] = [
    0, 1, 2, 3, 4, 5, 0x00FF, 0x0100, 0x0101, 0x0102, 0x0103, 0x0201, 0x0300, 0x8001, 0xFFFF,
];

/// The same sheets under each edition: no label, the first, one that edition 2 adds, one that none has, and a cut body.
fn editions(give: &mut dyn FnMut(Vec<u8>)) {
    let last = Edition::Two.labels() - 1;
    let to_label = |n| Body::new().label(n, 0).action(jump(n)).bytes();
    let to_labels = [0, last, last + 1].map(to_label);
    for edition in EDITIONS {
        for main in [Body::new().bytes(), vec![0xFF]].iter().chain(&to_labels) {
            give(sheet_in(edition, &[], main));
            give(sheet_in(edition, b"note", main));
        }
    }
}

/// 65,535 actions, with their last byte missing, and with a byte too many; counts that nothing stands behind.
fn counts(give: &mut dyn FnMut(Vec<u8>)) {
    for action in [pop(), call(), jump(0), with(&Body::new())] {
        let main = Body::new().label(0, 65_535).times(65_535, action).bytes();
        give(sheet(b"note", &main));
        give(sheet(&[], &main[..main.len() - 1]));
        give(sheet(&[], &[&main[..], &[0x17]].concat()));
    }
    for front in [&[0, 0, 1, 0, 0x96][..], &[0, 0, 1, 0, 0x88], &[0, 0], &[]] {
        give(sheet(&[], &[front, &[0xFF, 0xFF]].concat()));
    }
}

/// Depth 15 to 18 by each kind of body, with nothing in the deepest, and with the last label of each edition.
fn depths(give: &mut dyn FnMut(Vec<u8>)) {
    let nested = |depth, owner: &Owner, deepest| {
        (1..depth).fold(deepest, |body, _| Body::new().action(owner(&body)))
    };
    for owner in OWNERS {
        for depth in 15..=18 {
            let main = nested(depth, owner, Body::new());
            give(sheet(&[1, 2, 3], &main.bytes()));
            for edition in Edition::ALL {
                let last = edition.labels() - 1;
                let deepest = Body::new().label(last, 1).action(jump(last));
                let main = nested(depth, owner, deepest);
                give(sheet_in(edition.number(), &[1, 2, 3], &main.bytes()));
            }
        }
    }
    // Cut just before and after the deepest body's first byte.
    for depth in 15..=18 {
        let main = (1..depth).fold(Body::new(), |body, _| Body::new().action(with(&body)));
        let main = main.bytes();
        for missing in 3..=5 {
            give(sheet(&[], &main[..main.len() - missing]));
        }
    }
}

/// Sheets of 1,048,576 bytes and one to either side: by the note, by the main body, by the deepest body.
fn lengths(give: &mut dyn FnMut(Vec<u8>)) {
    for length in LONGEST_SHEET - 1..=LONGEST_SHEET + 2 {
        let before_trailer = length - TRAILER;
        for edition in Edition::ALL {
            let last = edition.labels() - 1;
            let short = Body::new().label(last, 0).action(jump(last)).bytes();
            let note = vec![0x5A; before_trailer - short.len()];
            give(sheet_in(edition.number(), &note, &short));
        }

        let long = |by: usize| {
            Body::new()
                .times(15, set_target(&text(65_534)))
                .action(set_target(&text(by)))
        };
        let missing = before_trailer - long(0).bytes().len();
        give(sheet(&[], &long(missing).bytes()));

        let withs = |last: u16| {
            let full = Body::new().times(65_535, pop());
            let last = Body::new().times(last, pop());
            Body::new().times(15, with(&full)).action(with(&last))
        };
        let missing = before_trailer - withs(0).bytes().len();
        give(sheet(&[], &withs(missing as u16).bytes()));
    }
    give(vec![0; LONGEST_SHEET]);
    give(vec![0; LONGEST_SHEET + 1]);
    give(vec![0; 4 * LONGEST_SHEET]);
}

/// A branch that has no record, and one whose record is in a function, before and behind the longest payload, one that is too long
/// and a body that is; and far behind.
fn refused_by_mode(give: &mut dyn FnMut(Vec<u8>)) {
    let longest = set_target(&text(65_534));
    let too_long = set_target(&text(65_535));
    let in_body = with(&Body::new().action(longest.clone()));
    for edition in Edition::ALL {
        let last = edition.labels() - 1;
        let mut give = |main: Body| give(sheet_in(edition.number(), &[], &main.bytes()));
        let records = define_function(b"f", &[], &Body::new().label(last, 0));
        for main in [Body::new(), Body::new().action(records)] {
            for action in [&longest, &too_long, &in_body] {
                give(main.clone().action(jump(last)).action(action.clone()));
                give(main.clone().action(action.clone()).action(jump(last)));
            }
            give(main.times(15, longest.clone()).action(jump(last)));
        }
    }
}

/// 6, 8 and 9 at an action that is not the first: each kind of owner behind a body and inside one, with a payload that is too long
/// in its body and behind it, with a body that is too long by what stands in it, and as the last of Withs that go too deep.
fn numbered(give: &mut dyn FnMut(Vec<u8>)) {
    let pops = |n| Body::new().times(n, pop());
    let too_long = set_target(&text(65_535));
    for owner in OWNERS {
        let behind = |body: &Body| pops(1).action(with(&pops(2))).action(owner(body));
        let mut give_both = |main: Body| {
            give(sheet(&[], &main.bytes()));
            give(sheet(&[], &pops(1).action(with(&main)).bytes()));
        };
        give_both(behind(&pops(2)).action(too_long.clone()));
        give_both(behind(&pops(1).action(too_long.clone())));
        give_both(behind(&pops(65_533).action(call())));
        give_both(behind(&pops(1).action(with(&pops(65_530)))));
        let deep = (1..16).fold(pops(1).action(owner(&pops(1))), |body, _| {
            pops(2).action(with(&body))
        });
        give(sheet(b"note", &deep.bytes()));
    }
}

fn text(length: usize) -> Vec<u8> {
    vec![b'a'; length]
}
