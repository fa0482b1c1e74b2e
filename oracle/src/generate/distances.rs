//! Branches whose distance comes to both edges, within one body and through bodies, in every edition.

use super::write::{
    Body, Catch, branch, define_function, define_function_2, jump, pop, sheet_in, try_, with,
};
use crate::sheet::Edition;

/// A main body with n Pops between a branch and its label. Its label numbers are the LABELS that begin with k.
type Shape = fn(u16, u16) -> Body;

/// All of edition 1; of the others the last ones.
const LABELS: u16 = Edition::One.labels();

/// Forward, up to 32,767.
const FORWARD: &[Shape] = &[
    |n, k| Body::new().label(k, n + 1).action(jump(k)).times(n, pop()),
    |n, k| {
        Body::new()
            .label(k + 7, n + 1)
            .action(branch(0x9D, k + 7))
            .times(n, pop())
    },
    // out of a With, of a function
    |n, k| {
        let inner = Body::new().action(jump(k));
        Body::new()
            .label(k, n + 1)
            .action(with(&inner))
            .times(n, pop())
    },
    |n, k| {
        let inner = Body::new().action(jump(k));
        let function = define_function(b"f", &[b"x"], &inner);
        Body::new().label(k, n + 1).action(function).times(n, pop())
    },
    // over a body, and into one
    |n, k| {
        let inner = Body::new().times(n, pop());
        Body::new().label(k, 2).action(jump(k)).action(with(&inner))
    },
    |n, k| {
        let inner = Body::new().label(k, n).times(n, pop());
        let function = define_function_2(b"", &[(1, b"x")], 2, 1, &inner);
        Body::new().action(jump(k)).action(function)
    },
    // from try over catch to finally
    |n, k| {
        let (from, to) = (Body::new().action(jump(k + 3)), Body::new().label(k + 3, 0));
        let over = Body::new().times(n, pop());
        Body::new().action(try_(&from, Some(Catch::Name(b"e", &over)), Some(&to)))
    },
    // the later record wins: a near label is recorded again, far away
    |n, k| {
        let near = Body::new().label(k, 0);
        let from = Body::new().action(jump(k)).action(with(&near));
        from.label(k, n + 2).times(n, pop())
    },
    // and the other way round: a record far away, then a near one
    |n, k| {
        let far = Body::new().label(k, 0);
        let near = Body::new().label(k, 0).action(jump(k));
        Body::new()
            .action(with(&far))
            .times(n, pop())
            .action(with(&near))
    },
    // two that go too far: the first in writing order is told
    |n, k| {
        let main = Body::new()
            .label(k + 1, n + 2)
            .action(jump(k + 1))
            .action(branch(0x9D, k + 1));
        main.times(n, pop())
    },
    // never recorded: 0, however far
    |n, k| Body::new().label(k, n + 2).action(jump(k)).times(n, pop()),
];

/// Backward, down to -32,768.
const BACKWARD: &[Shape] = &[
    |n, k| Body::new().label(k, 0).times(n, pop()).action(jump(k)),
    |n, k| {
        Body::new()
            .label(k + LABELS - 1, 0)
            .times(n, pop())
            .action(branch(0x9D, k + LABELS - 1))
    },
    // into a body, and out of one
    |n, k| {
        let inner = Body::new().label(k, 0);
        Body::new()
            .action(with(&inner))
            .times(n, pop())
            .action(jump(k))
    },
    |n, k| {
        let inner = Body::new().action(jump(k));
        Body::new().label(k, 0).times(n, pop()).action(with(&inner))
    },
    // over a body
    |n, k| {
        let inner = Body::new().times(n, pop());
        Body::new().label(k, 0).action(with(&inner)).action(jump(k))
    },
    // from finally over catch to try
    |n, k| {
        let (to, from) = (Body::new().label(k + 5, 0), Body::new().action(jump(k + 5)));
        let over = Body::new().times(n, pop());
        Body::new().action(try_(&to, Some(Catch::Register(1, &over)), Some(&from)))
    },
];

/// One branch that comes to an edge, and one that has no record, in both orders.
const UNRECORDED: &[Shape] = &[
    |n, k| {
        let main = Body::new().label(k, n + 2).action(branch(0x9D, k + 9));
        main.action(jump(k)).times(n, pop())
    },
    |n, k| {
        let main = Body::new().label(k, n + 1).action(branch(0x9D, k));
        main.times(n, pop()).action(jump(k + 9))
    },
    |n, k| {
        let main = Body::new().label(k, 0).action(jump(k + 9));
        main.times(n, pop()).action(jump(k))
    },
    |n, k| {
        let main = Body::new().label(k, 0).times(n, pop());
        main.action(jump(k)).action(jump(k + 9))
    },
    // both inside a body, with an entry past the count
    |n, k| {
        let inner = Body::new()
            .label(k + 9, 3)
            .action(jump(k + 9))
            .action(jump(k));
        Body::new()
            .label(k, n + 1)
            .action(with(&inner))
            .times(n, pop())
    },
    |n, k| {
        let inner = Body::new()
            .label(k + 9, 3)
            .action(jump(k))
            .action(jump(k + 9));
        Body::new()
            .label(k, n + 1)
            .action(with(&inner))
            .times(n, pop())
    },
    // one inside a body, the other behind it
    |n, k| {
        let inner = Body::new().action(branch(0x9D, k + 9));
        let main = Body::new().label(k, n + 2).action(with(&inner));
        main.action(jump(k)).times(n, pop())
    },
    |n, k| {
        let inner = Body::new().action(jump(k));
        let function = define_function(b"f", &[], &inner);
        let main = Body::new().label(k, n + 2).action(function);
        main.action(jump(k + 9)).times(n, pop())
    },
];

/// One branch that comes to an edge, and one to label k + 9, which leaves its function body, in both orders.
const STRAY: &[Shape] = &[
    |n, k| {
        let main = Body::new().label(k, n + 3).action(records(k + 9));
        main.action(jump(k + 9)).action(jump(k)).times(n, pop())
    },
    |n, k| {
        let main = Body::new().label(k, n + 1).action(jump(k));
        main.times(n, pop())
            .action(jump(k + 9))
            .action(records(k + 9))
    },
    |n, k| {
        let main = Body::new().label(k, 0).action(records(k + 9));
        let main = main.action(branch(0x9D, k + 9)).times(n, pop());
        main.action(jump(k))
    },
    |n, k| {
        let main = Body::new().label(k, 0).times(n, pop()).action(jump(k));
        main.action(branch(0x9D, k + 9)).action(records(k + 9))
    },
    // both inside a function
    |n, k| {
        let inner = Body::new().label(k, n + 2).action(jump(k + 9));
        let inner = inner.action(jump(k)).times(n, pop());
        let function = define_function_2(b"f", &[], 1, 0, &inner);
        Body::new().label(k + 9, 0).action(function)
    },
    |n, k| {
        let inner = Body::new().label(k, n + 1).action(jump(k));
        let inner = inner.times(n, pop()).action(jump(k + 9));
        Body::new()
            .label(k + 9, 1)
            .action(define_function(b"f", &[], &inner))
    },
];

/// A function that records a label.
fn records(label: u16) -> Vec<u8> {
    define_function(b"f", &[], &Body::new().label(label, 0))
}

pub fn distances(give: &mut dyn FnMut(Vec<u8>)) {
    for (shapes, edge) in [
        (FORWARD, 32_767),
        (BACKWARD, 32_768),
        (UNRECORDED, 32_767),
        (STRAY, 32_767),
    ] {
        for shape in shapes {
            // What a shape adds to its Pops is under 28 bytes.
            for n in edge - 28..=edge + 2 {
                for edition in Edition::ALL {
                    let main = shape(n, edition.labels() - LABELS);
                    give(sheet_in(edition.number(), &[], &main.bytes()));
                }
            }
        }
    }
}
