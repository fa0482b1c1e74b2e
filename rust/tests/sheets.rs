//! The list of crates/replay, packed from Rust: number, value, action number and block are what the oracle answered, and each block
//! is clean.
mod common;
use common::{MODES, packed_with};
use merinovault::step;
use std::fs;
use std::path::Path;

/// Bytes of the list that were not taken yet.
struct List<'a>(&'a [u8]);

impl<'a> List<'a> {
    fn bytes(&mut self, n: usize) -> &'a [u8] {
        let (taken, rest) = self.0.split_at(n);
        self.0 = rest;
        taken
    }

    fn array<const N: usize>(&mut self) -> [u8; N] {
        self.bytes(N).try_into().expect("as many bytes")
    }

    fn u32(&mut self) -> usize {
        u32::from_le_bytes(self.array()) as usize
    }

    fn u16(&mut self) -> usize {
        usize::from(u16::from_le_bytes(self.array()))
    }
}

/// What a pattern of runs stands for: a run's length, and the bytes that fill it again and again.
fn unrolled(pattern: &[u8]) -> Vec<u8> {
    let mut list = List(pattern);
    let mut bytes = vec![];
    while !list.0.is_empty() {
        let (run, n) = (list.u32(), list.u16());
        bytes.extend(list.bytes(n).iter().cycle().take(run));
    }
    bytes
}

#[test]
fn answers_are_the_oracles() {
    let file = Path::new(env!("CARGO_MANIFEST_DIR")).with_file_name("crates/replay/stdin");
    let records = fs::read(file).expect("crates/replay/stdin");
    let mut list = List(&records);
    let (mut record, mut by_mode) = (0, MODES.map(|_| 0));
    let mut blocks_by_edition = [0, 0, 0];
    while !list.0.is_empty() {
        record += 1;
        let (sheet, book, block, room) = (list.u32(), list.u32(), list.u32(), list.u32());
        let [bits, number] = list.array();
        let bits = usize::from(bits);
        by_mode[bits] += 1;
        let value = i64::from_le_bytes(list.array());
        let action = list.u32() as u64;
        let [sheet, book, block] = [sheet, book, block].map(|n| unrolled(list.bytes(n)));
        match packed_with(&book, &sheet, MODES[bits], room) {
            Ok(made) => {
                let done = (0, made.len() as i64, 0);
                assert_eq!((number, value, action), done, "record {record}");
                assert!(made == block, "record {record}: another block");
                assert!(step(&made).is_ok(), "record {record}: not clean");
                let edition = usize::from(sheet[sheet.len() - 4]);
                blocks_by_edition[edition - 1] += 1;
            }
            Err(refusal) => {
                // One that names no action has action number 0.
                let named = refusal.action().unwrap_or(0);
                let told = (refusal.number(), refusal.value(), named);
                let due = (u32::from(number), value, action);
                assert_eq!(told, due, "record {record}");
            }
        }
    }
    assert!(record > 3_000, "{record} records");
    assert_eq!(by_mode, MODES.map(|_| record / MODES.len()));
    let [one, two, three] = blocks_by_edition;
    assert!(
        one > 1_000 && two > 1_000 && three > 100,
        "{one}, {two} and {three} blocks"
    );
}
