//! Families of small sheets, each without a gap.

use super::limits::{BOUNDS, OWNERS};
use super::write::{Body, branch, jump, pop, sheet, sheet_in, with};
use crate::sheet::{Edition, TRAILER};
use std::ops::RangeInclusive;

pub fn small(give: &mut dyn FnMut(Vec<u8>)) {
    every_code(give);
    every_trailer(give);
    every_label(give);
    every_body(give);
    every_record(give);
}

/// Every opcode, push kind, Try shape, flag byte and flags word, with too few, enough and too many zero bytes after it, in every
/// edition.
fn every_code(give: &mut dyn FnMut(Vec<u8>)) {
    let fronts: &[&[u8]] = &[
        &[],
        &[0x96, 1, 0],
        &[0x8F],
        &[0x96, 1, 0, 5],
        &[0x9A],
        &[0x9A, 1],
        &[0x9F, 1, 0],
        &[0x9F, 0, 0],
        &[0x8E, 0, 0, 0, 0, 9],
        &[0x8E, 0, 0, 0, 0, 9, 0],
    ];
    for front in fronts {
        for code in 0..=255 {
            for tail in 0..=13 {
                let main = [&[0, 0, 1, 0], *front, &[code], &vec![0; tail]].concat();
                for edition in Edition::ALL {
                    give(sheet_in(edition.number(), &[], &main));
                }
            }
        }
    }
}

/// In each edition, without a label and with one that edition 1 does not have: every distance that a short sheet can have and
/// some beyond; every byte in every place of the trailer; every length under a trailer's.
fn every_trailer(give: &mut dyn FnMut(Vec<u8>)) {
    let bare = Body::new().action(pop()).bytes();
    let labelled = Body::new().label(Edition::One.labels(), 0).action(pop());
    for main in [&bare, &labelled.bytes()] {
        for edition in Edition::ALL {
            let good = sheet_in(edition.number(), &[0; 6], main);
            let end = good.len() - TRAILER;
            for distance in 0..=end as u8 + 9 {
                let mut other = good.clone();
                other[end] = distance;
                give(other);
            }
            for at in end..good.len() {
                for byte in 0..=255 {
                    let mut other = good.clone();
                    other[at] = byte;
                    give(other);
                }
            }
            for start in 0..=good.len() {
                give(good[start..].to_vec());
            }
        }
    }
}

/// Every place of two labels in a body and of one in a body inside it, with branches before, inside and after; in every edition,
/// with numbers at all bounds, and with two that a table of edition 1's length would take for one.
fn every_label(give: &mut dyn FnMut(Vec<u8>)) {
    let mut numbers = vec![(0, 1), (1, 1), (1, 0)];
    for bound in BOUNDS {
        numbers.extend([(0, bound - 1), (0, bound), (bound - 1, bound)]);
    }
    for (first, second) in numbers {
        for outer in 0..=4 {
            for other in 0..=4 {
                for inner in 0..=3 {
                    let within = Body::new().label(first, inner);
                    let within = within.action(jump(second)).action(jump(first));
                    let main = Body::new().label(first, outer).label(second, other);
                    let main = main.action(jump(first)).action(with(&within));
                    let main = main.action(jump(second)).bytes();
                    for edition in Edition::ALL {
                        give(sheet_in(edition.number(), &[], &main));
                    }
                }
            }
        }
    }
}

/// Every run of up to six bytes out of a few that matter, and of up to four out of some that make label numbers on both sides of
/// the editions' bounds: as a main body, and as its actions for each small count.
fn every_body(give: &mut dyn FnMut(Vec<u8>)) {
    every_run([0x00, 0x01, 0x17, 0x94, 0x99, 0x9E], 6, &mut |main| {
        give(sheet(&[], main))
    });
    every_run([0x00, 0x01, 0x03, 0x04, 0x0F, 0x10, 0x99], 4, &mut |main| {
        for edition in Edition::ALL {
            give(sheet_in(edition.number(), &[], main));
        }
    });
}

fn every_run<const N: usize>(bytes: [u8; N], longest: usize, give: &mut dyn FnMut(&[u8])) {
    let fronts: [&[u8]; 5] = [
        &[],
        &[0, 0, 0, 0],
        &[0, 0, 1, 0],
        &[0, 0, 2, 0],
        &[0, 0, 3, 0],
    ];
    let mut runs = vec![vec![]];
    for _ in 0..=longest {
        for run in &runs {
            for front in fronts {
                give(&[front, run].concat());
            }
        }
        runs = runs
            .iter()
            .flat_map(|run| bytes.map(|byte| [&run[..], &[byte]].concat()))
            .collect();
    }
}

/// Two labels in a main body and in a body inside, of each kind, with branches in both: recorded in both, in one, right behind
/// a branch, and nowhere. Once with the first labels of edition 1, once with the first and the last that edition 2 adds.
fn every_record(give: &mut dyn FnMut(Vec<u8>)) {
    let added = (Edition::One.labels(), Edition::Two.labels() - 1);
    let first_labels = (Edition::One, (0, 1));
    for (edition, (first, second)) in [first_labels, (Edition::Two, added), (Edition::Three, added)]
    {
        for owner in OWNERS {
            for (inner, other_inner) in pairs(0..=3, &[2, 3]) {
                for (outer, other_outer) in pairs(0..=4, &[1, 3, 4]) {
                    let within = Body::new().label(first, inner).label(second, other_inner);
                    let within = within.action(branch(0x9D, first)).action(jump(second));
                    let main = Body::new().label(first, outer).label(second, other_outer);
                    let main = main.action(jump(first)).action(owner(&within));
                    let main = main.action(branch(0x9D, second));
                    give(sheet_in(edition.number(), &[], &main.bytes()));
                }
            }
        }
    }
}

fn pairs(firsts: RangeInclusive<u16>, seconds: &[u16]) -> impl Iterator<Item = (u16, u16)> {
    firsts.flat_map(|first| seconds.iter().map(move |second| (first, *second)))
}
