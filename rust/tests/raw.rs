//! The entries as they are: the value slice, and slices without a byte.
mod common;
use common::*;
use merinovault::{EMPTY_BOOK, Mode, VALUE_LEN, raw};

fn pack(sheet: &[u8], mode: Mode, out: &mut [u8], value: &mut [u8]) -> u32 {
    pack_with(&EMPTY_BOOK, sheet, mode, out, value)
}

fn pack_with(book: &[u8], sheet: &[u8], mode: Mode, out: &mut [u8], value: &mut [u8]) -> u32 {
    raw::pack(sheet, book, mode.strict, mode.contained, out, value)
}

/// A value slice that holds these: the value comes first.
fn filled(value: i64, action: i64) -> [u8; VALUE_LEN] {
    let both = [value.to_le_bytes(), action.to_le_bytes()].concat();
    both.try_into().expect("16 bytes")
}

#[test]
fn another_value_length_is_11_and_nothing_is_written() {
    for length in [0, 1, 7, 8, 9, 15, 17, 24, 32] {
        for fill in [0xA5, 0x5A] {
            let mut value = vec![fill; length];
            let mut out = [fill; 16];
            for mode in MODES {
                for (main, _) in sums(Mode::PLAIN) {
                    assert_eq!(pack(&sheet(&main), mode, &mut out, &mut value), 11);
                }
                // before what is wrong with the sheet or the book
                assert_eq!(pack(&[], mode, &mut out, &mut value), 11);
                let third = sheet_in(3, &[], &body(&[], &[]));
                assert_eq!(pack_with(&[], &third, mode, &mut out, &mut value), 11);
            }
            assert_eq!(raw::step(&[0], &mut value), 11);
            assert_eq!(raw::step(&[], &mut value), 11);
            assert!(value.iter().chain(&out).all(|&byte| byte == fill));
        }
    }
}

#[test]
fn value_and_action_number_are_little_endian() {
    assert_eq!(VALUE_LEN, 16);
    let mut value = [0xA5; 16];
    let jump = jump(0);
    let far = sheet(&body(
        &[(0, 0)],
        &[&vec![POP; 32_764][..], &[&jump]].concat(),
    ));
    assert_eq!(pack(&far, Mode::PLAIN, &mut [], &mut value), 10);
    assert_eq!(value[..8], [0xFF, 0x7F, 0xFF, 0xFF, 0xFF, 0xFF, 0xFF, 0xFF]);
    assert_eq!(value[8..], [0xFC, 0x7F, 0, 0, 0, 0, 0, 0]);
    let calls = body(&[], &[CALL; 200]);
    assert_eq!(pack(&sheet(&calls), Mode::PLAIN, &mut [], &mut value), 11);
    assert_eq!(value[..8], [0x59, 0x02, 0, 0, 0, 0, 0, 0]);
    assert_eq!(value[8..], [0; 8]);
    let lost = body(&[], &[&[CALL; 200][..], &[&jump]].concat());
    assert_eq!(pack(&sheet(&lost), Mode::STRICT, &mut [], &mut value), 14);
    assert_eq!(value[..8], [0x5B, 0x02, 0, 0, 0, 0, 0, 0]);
    assert_eq!(value[8..], [200, 0, 0, 0, 0, 0, 0, 0]);
    let records = function(&body(&[(0, 0)], &[]));
    let stray = body(&[], &[&[CALL; 200][..], &[&records, &jump]].concat());
    assert_eq!(
        pack(&sheet(&stray), Mode::CONTAINED, &mut [], &mut value),
        15
    );
    assert_eq!(value[..8], [0x64, 0x02, 0, 0, 0, 0, 0, 0]);
    assert_eq!(value[8..], [201, 0, 0, 0, 0, 0, 0, 0]);
    // two Withs of 40,000 Pops, and behind them action 80,002 with an opcode that is not listed, at byte 80,014
    let pops = with(&body(&[], &[POP; 40_000]));
    let unknown = sheet(&body(&[], &[&pops, &pops, &[0x98]]));
    assert_eq!(pack(&unknown, Mode::PLAIN, &mut [], &mut value), 4);
    assert_eq!(value[..8], [0x8E, 0x38, 0x01, 0, 0, 0, 0, 0]);
    assert_eq!(value[8..], [0x82, 0x38, 0x01, 0, 0, 0, 0, 0]);
}

#[test]
fn answers_without_an_action_give_0() {
    let main = body(&[], &[&with(&body(&[], &[POP]))]);
    let packing = |sheet: &[u8], mode, out: &mut [u8]| {
        let mut value = [0xA5; VALUE_LEN];
        (pack(sheet, mode, out, &mut value), value)
    };
    let stepping = |block: &[u8]| {
        let mut value = [0xA5; VALUE_LEN];
        (raw::step(block, &mut value), value)
    };
    for mode in MODES {
        assert_eq!(packing(&sheet(&main), mode, &mut [0; 7]), (0, filled(7, 0)));
        assert_eq!(
            packing(&sheet(&main), mode, &mut [0; 6]),
            (11, filled(7, 0))
        );
        let long = sheet_with_note(&[0; 1_048_576], &main);
        let length = long.len() as i64;
        assert_eq!(packing(&long, mode, &mut [0; 7]), (1, filled(length, 0)));
        assert_eq!(packing(&main, mode, &mut [0; 7]), (2, filled(0, 0)));
        let mut value = [0xA5; VALUE_LEN];
        let third = sheet_in(3, &[], &main);
        let number = pack_with(b"no book", &third, mode, &mut [0; 7], &mut value);
        assert_eq!((number, value), (18, filled(0, 0)));
    }
    assert_eq!(stepping(&[0x17, 0x17, 0]), (0, filled(3, 0)));
    assert_eq!(stepping(&[0x17, 0x17]), (13, filled(2, 0)));
    assert_eq!(stepping(&[0x17, 0x17, 0x80]), (13, filled(2, 0)));
}

#[test]
fn empty_slices() {
    let empty = sheet(&body(&[], &[]));
    for mode in MODES {
        let packing = |sheet: &[u8]| {
            let mut value = [0xA5; VALUE_LEN];
            (pack(sheet, mode, &mut [], &mut value), value)
        };
        assert_eq!(packing(&[]), (2, filled(0, 0)));
        assert_eq!(packing(&empty), (11, filled(1, 0)));
        assert_eq!(pack(&[], mode, &mut [], &mut []), 11);
        // a book without a byte, in each edition
        for (edition, answer) in [
            (1, (11, filled(1, 0))),
            (2, (11, filled(1, 0))),
            (3, (18, filled(0, 0))),
        ] {
            let empty = sheet_in(edition, &[], &body(&[], &[]));
            let mut value = [0xA5; VALUE_LEN];
            let number = pack_with(&[], &empty, mode, &mut [], &mut value);
            assert_eq!((number, value), answer);
        }
    }
    let mut value = [0xA5; VALUE_LEN];
    assert_eq!((raw::step(&[], &mut value), value), (13, filled(0, 0)));
    assert_eq!(raw::step(&[], &mut []), 11);
}

#[test]
fn only_the_sixteen_bytes_of_the_value_slice_change() {
    let empty = sheet(&body(&[], &[]));
    // Packing in each mode, then stepping.
    for mode in MODES.into_iter().map(Some).chain([None]) {
        let mut bytes = [0xA5; 48];
        let value = &mut bytes[16..32];
        let number = match mode {
            Some(mode) => pack(&empty, mode, &mut [0; 4], value),
            None => raw::step(&[0], value),
        };
        assert_eq!(number, 0);
        assert_eq!(bytes[16..32], filled(1, 0));
        assert!(
            bytes[..16]
                .iter()
                .chain(&bytes[32..])
                .all(|&byte| byte == 0xA5)
        );
    }
}
