//! What a refusal says to the author of a screen.
use merinovault::{Refusal, Unclean};
use std::error::Error;

#[test]
fn refusals() {
    let texts = [
        (
            Refusal::SheetTooLong { length: 1_048_577 },
            "the sheet has 1048577 bytes; at most 1048576 are taken",
        ),
        (
            Refusal::BadTrailer,
            "the sheet's last 8 bytes are no trailer: the distance back to the main body, edition 1, 2 or 3 and the mark 41 31",
        ),
        (
            Refusal::CutShort {
                place: 17,
                action: 2,
            },
            "at action 2, byte 17 of the sheet: the field that begins here would reach into the trailer",
        ),
        (
            Refusal::UnknownCode {
                place: 17,
                action: 2,
            },
            "at action 2, byte 17 of the sheet: no action or pushed value has this code",
        ),
        (
            Refusal::BadField {
                place: 17,
                action: 2,
            },
            "at action 2, byte 17 of the sheet: this field is outside its range or order, names no entry of the book, or is a zero byte in a string",
        ),
        (
            Refusal::TooDeep {
                place: 80,
                action: 15,
            },
            "action 15, byte 80 of the sheet: the body that begins here is at depth 17; the main body is at depth 1, and 16 is the deepest",
        ),
        (
            Refusal::LeftOver {
                place: 17,
                action: 2,
            },
            "after 2 actions, byte 17 of the sheet: the main body is over, and this byte is not yet the trailer",
        ),
        (
            Refusal::LeftOver {
                place: 5,
                action: 1,
            },
            "after 1 action, byte 5 of the sheet: the main body is over, and this byte is not yet the trailer",
        ),
        (
            Refusal::LeftOver {
                place: 4,
                action: 0,
            },
            "after 0 actions, byte 4 of the sheet: the main body is over, and this byte is not yet the trailer",
        ),
        (
            Refusal::ActionLenOverflow {
                length: 65_536,
                action: 3,
            },
            "action 3: its payload is 65536 bytes long; at most 65535 can be written",
        ),
        (
            Refusal::BlockLenOverflow {
                length: 65_536,
                action: 4,
            },
            "action 4: its body is 65536 bytes long; at most 65535 can be written",
        ),
        (
            Refusal::JumpOffsetOverflow {
                distance: 32_768,
                action: 7,
            },
            "action 7: the label is 32768 bytes forward from the branch; a branch reaches at most 32767 bytes forward and 32768 back",
        ),
        (
            Refusal::JumpOffsetOverflow {
                distance: -32_769,
                action: 32_764,
            },
            "action 32764: the label is 32769 bytes back from the branch; a branch reaches at most 32767 bytes forward and 32768 back",
        ),
        (
            Refusal::NoRoom { needed: 6 },
            "the block needs 6 bytes, more than the output has",
        ),
        (
            Refusal::NeverRecorded {
                operand: 15,
                action: 2,
            },
            "action 2, operand at byte 15 of the block: no body records the label of this branch",
        ),
        (
            Refusal::StrayBranch {
                operand: 15,
                action: 2,
            },
            "action 2, operand at byte 15 of the block: this branch goes to a label in another function body",
        ),
        (
            Refusal::BadBook,
            "the book is not well formed: its last 8 bytes must be the distance back to its first entry, the number of entries and the mark 42 31, and the entries, each a length and that many bytes, none of them zero, must fill that distance exactly",
        ),
    ];
    for (refusal, text) in texts {
        let error: &dyn Error = &refusal;
        assert_eq!(error.to_string(), text);
        // A name is the one that the enum has.
        assert_eq!(
            format!("{refusal:?}").split(' ').next(),
            Some(refusal.name())
        );
    }
}

#[test]
fn actions() {
    let (place, length, distance, operand) = (17, 65_536, 32_768, 15);
    for action in [0, 1, 80_002] {
        let named = [
            Refusal::CutShort { place, action },
            Refusal::UnknownCode { place, action },
            Refusal::BadField { place, action },
            Refusal::TooDeep { place, action },
            Refusal::LeftOver { place, action },
            Refusal::ActionLenOverflow { length, action },
            Refusal::BlockLenOverflow { length, action },
            Refusal::JumpOffsetOverflow { distance, action },
            Refusal::NeverRecorded { operand, action },
            Refusal::StrayBranch { operand, action },
        ];
        for refusal in named {
            assert_eq!(refusal.action(), Some(action), "{refusal:?}");
        }
    }
    let others = [
        Refusal::SheetTooLong { length },
        Refusal::BadTrailer,
        Refusal::BadBook,
        Refusal::NoRoom { needed: 6 },
    ];
    for refusal in others {
        assert_eq!(refusal.action(), None, "{refusal:?}");
    }
}

#[test]
fn unclean() {
    let unclean = Unclean { place: 3 };
    assert_eq!(unclean.name(), "Unclean");
    let error: &dyn Error = &unclean;
    assert_eq!(
        error.to_string(),
        "byte 3 of the block: the step that begins here passes the end, or the block ends here without an End as its last step"
    );
}
