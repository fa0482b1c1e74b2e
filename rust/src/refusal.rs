//! What stands in the place of a block or of a count of steps.
use crate::length;
use std::error::Error;
use std::fmt;

/// Why a sheet was not packed: answers 1 to 11 of document 01, and 14, 15 and 18 of document 02. A place counts bytes from 0, the
/// sheet's first. The number of an action is counted from 0 in sheet order through all bodies; an action comes before those in its
/// bodies.
#[derive(Clone, Copy, Debug, PartialEq, Eq, Hash)]
#[non_exhaustive]
pub enum Refusal {
    /// 1: the sheet has over 1,048,576 bytes.
    SheetTooLong {
        /// The sheet's length.
        length: usize,
    },
    /// 2: under 8 bytes, an edition that is not 1, 2 or 3, a wrong mark, or a main body that would begin before the sheet.
    BadTrailer,
    /// 3: a field would reach into the trailer.
    CutShort {
        /// Where the field begins.
        place: usize,
        /// The number of the action being read, counted from 0 in sheet order through all bodies. Where the field is an opcode, or
        /// one of a body's label entries or counts, it is the number that the next action would have had.
        action: u64,
    },
    /// 4: an opcode, or a pushed value's kind, is not listed.
    UnknownCode {
        /// Where it stands.
        place: usize,
        /// The number of the action whose opcode or pushed value it is, counted from 0 in sheet order through all bodies.
        action: u64,
    },
    /// 5: a field is outside its range or order, or a string holds a zero byte. The edition tells the range of label numbers, the
    /// book that of entry numbers.
    BadField {
        /// Where the field begins; of a string, where its first zero byte stands.
        place: usize,
        /// The number of the action being read, counted from 0 in sheet order through all bodies. Where the field is one of a
        /// body's label entries, it is the number that the next action would have had.
        action: u64,
    },
    /// 6: a body is at depth 17; the main body is at depth 1.
    TooDeep {
        /// Where the body begins.
        place: usize,
        /// The number of the action that owns the body, counted from 0 in sheet order through all bodies.
        action: u64,
    },
    /// 7: bytes stand between the main body and the trailer.
    LeftOver {
        /// Where the first of them stands.
        place: usize,
        /// How many actions were read, in all bodies: the number that the next action would have had.
        action: u64,
    },
    /// 8: an action's payload is over 65,535 bytes.
    ActionLenOverflow {
        /// The payload's length.
        length: usize,
        /// The number of the action whose payload it is, counted from 0 in sheet order through all bodies.
        action: u64,
    },
    /// 9: a body is over 65,535 bytes.
    BlockLenOverflow {
        /// The body's length.
        length: usize,
        /// The number of the action that owns the body, counted from 0 in sheet order through all bodies.
        action: u64,
    },
    /// 10: a branch's label is further than 32,767 bytes forward or 32,768 back.
    JumpOffsetOverflow {
        /// From the end of the branch to its label; negative is back.
        distance: i64,
        /// The number of the branch among the actions, counted from 0 in sheet order through all bodies.
        action: u64,
    },
    /// 11: the block is longer than the output.
    NoRoom {
        /// The length that the block needs.
        needed: usize,
    },
    /// 14: no body records a branch's label. Only strict mode refuses this.
    NeverRecorded {
        /// The byte position in the block at which the branch's operand would begin.
        operand: usize,
        /// The number of the branch among the actions, counted from 0 in sheet order through all bodies.
        action: u64,
    },
    /// 15: a branch's label is last recorded in another function body. Only contained mode refuses this.
    StrayBranch {
        /// The byte position in the block at which the branch's operand would begin.
        operand: usize,
        /// The number of the branch among the actions, counted from 0 in sheet order through all bodies.
        action: u64,
    },
    /// 18: the book that was lent is not well formed. Only a sheet of edition 3 is refused for this, also if no string names the
    /// book. [`pack_with_book`](crate::pack_with_book) tells what a book is.
    BadBook,
}

use Refusal::*;

impl Refusal {
    /// The refusal with this number, value and action number. The entry is proved to return no other number.
    pub(crate) fn new(number: u32, value: i64, action: u64) -> Self {
        match number {
            1 => SheetTooLong {
                length: length(value),
            },
            2 => BadTrailer,
            3 => CutShort {
                place: length(value),
                action,
            },
            4 => UnknownCode {
                place: length(value),
                action,
            },
            5 => BadField {
                place: length(value),
                action,
            },
            6 => TooDeep {
                place: length(value),
                action,
            },
            7 => LeftOver {
                place: length(value),
                action,
            },
            8 => ActionLenOverflow {
                length: length(value),
                action,
            },
            9 => BlockLenOverflow {
                length: length(value),
                action,
            },
            10 => JumpOffsetOverflow {
                distance: value,
                action,
            },
            11 => NoRoom {
                needed: length(value),
            },
            14 => NeverRecorded {
                operand: length(value),
                action,
            },
            15 => StrayBranch {
                operand: length(value),
                action,
            },
            18 => BadBook,
            _ => unreachable!("packing answers 0 to 11, 14, 15 or 18, not {number}"),
        }
    }

    /// The answer's name, as `NoRoom`.
    pub fn name(&self) -> &'static str {
        match self {
            SheetTooLong { .. } => "SheetTooLong",
            BadTrailer => "BadTrailer",
            CutShort { .. } => "CutShort",
            UnknownCode { .. } => "UnknownCode",
            BadField { .. } => "BadField",
            TooDeep { .. } => "TooDeep",
            LeftOver { .. } => "LeftOver",
            ActionLenOverflow { .. } => "ActionLenOverflow",
            BlockLenOverflow { .. } => "BlockLenOverflow",
            JumpOffsetOverflow { .. } => "JumpOffsetOverflow",
            NoRoom { .. } => "NoRoom",
            NeverRecorded { .. } => "NeverRecorded",
            StrayBranch { .. } => "StrayBranch",
            BadBook => "BadBook",
        }
    }

    /// The answer's number.
    pub fn number(&self) -> u32 {
        match self {
            SheetTooLong { .. } => 1,
            BadTrailer => 2,
            CutShort { .. } => 3,
            UnknownCode { .. } => 4,
            BadField { .. } => 5,
            TooDeep { .. } => 6,
            LeftOver { .. } => 7,
            ActionLenOverflow { .. } => 8,
            BlockLenOverflow { .. } => 9,
            JumpOffsetOverflow { .. } => 10,
            NoRoom { .. } => 11,
            NeverRecorded { .. } => 14,
            StrayBranch { .. } => 15,
            BadBook => 18,
        }
    }

    /// The answer's value.
    pub fn value(&self) -> i64 {
        match *self {
            BadTrailer | BadBook => 0,
            CutShort { place, .. }
            | UnknownCode { place, .. }
            | BadField { place, .. }
            | TooDeep { place, .. }
            | LeftOver { place, .. } => place as i64,
            SheetTooLong { length }
            | ActionLenOverflow { length, .. }
            | BlockLenOverflow { length, .. } => length as i64,
            JumpOffsetOverflow { distance, .. } => distance,
            NoRoom { needed } => needed as i64,
            NeverRecorded { operand, .. } | StrayBranch { operand, .. } => operand as i64,
        }
    }

    /// The number of the action that the refusal names, counted from 0 in sheet order through all bodies; each case tells which
    /// action it is. `SheetTooLong`, `BadTrailer`, `BadBook` and `NoRoom` name none: there the entry's action number is 0.
    pub fn action(&self) -> Option<u64> {
        match *self {
            SheetTooLong { .. } | BadTrailer | BadBook | NoRoom { .. } => None,
            CutShort { action, .. }
            | UnknownCode { action, .. }
            | BadField { action, .. }
            | TooDeep { action, .. }
            | LeftOver { action, .. }
            | ActionLenOverflow { action, .. }
            | BlockLenOverflow { action, .. }
            | JumpOffsetOverflow { action, .. }
            | NeverRecorded { action, .. }
            | StrayBranch { action, .. } => Some(action),
        }
    }
}

impl fmt::Display for Refusal {
    fn fmt(&self, f: &mut fmt::Formatter<'_>) -> fmt::Result {
        match *self {
            SheetTooLong { length } => {
                write!(f, "the sheet has {length} bytes; at most 1048576 are taken")
            }
            BadTrailer => write!(
                f,
                "the sheet's last 8 bytes are no trailer: the distance back to the main body, edition 1, 2 or 3 and the mark 41 31"
            ),
            // "At" is true of the action being read and of the one that would have come next.
            CutShort { place, action } => write!(
                f,
                "at action {action}, byte {place} of the sheet: the field that begins here would reach into the trailer"
            ),
            UnknownCode { place, action } => write!(
                f,
                "at action {action}, byte {place} of the sheet: no action or pushed value has this code"
            ),
            BadField { place, action } => write!(
                f,
                "at action {action}, byte {place} of the sheet: this field is outside its range or order, names no entry of the book, or is a zero byte in a string"
            ),
            TooDeep { place, action } => write!(
                f,
                "action {action}, byte {place} of the sheet: the body that begins here is at depth 17; the main body is at depth 1, and 16 is the deepest"
            ),
            LeftOver { place, action } => write!(
                f,
                "after {action} action{}, byte {place} of the sheet: the main body is over, and this byte is not yet the trailer",
                if action == 1 { "" } else { "s" }
            ),
            ActionLenOverflow { length, action } => write!(
                f,
                "action {action}: its payload is {length} bytes long; at most 65535 can be written"
            ),
            BlockLenOverflow { length, action } => write!(
                f,
                "action {action}: its body is {length} bytes long; at most 65535 can be written"
            ),
            JumpOffsetOverflow { distance, action } => write!(
                f,
                "action {action}: the label is {} bytes {} from the branch; a branch reaches at most 32767 bytes forward and 32768 back",
                distance.unsigned_abs(),
                if distance < 0 { "back" } else { "forward" }
            ),
            NoRoom { needed } => write!(
                f,
                "the block needs {needed} bytes, more than the output has"
            ),
            NeverRecorded { operand, action } => write!(
                f,
                "action {action}, operand at byte {operand} of the block: no body records the label of this branch"
            ),
            StrayBranch { operand, action } => write!(
                f,
                "action {action}, operand at byte {operand} of the block: this branch goes to a label in another function body"
            ),
            BadBook => write!(
                f,
                "the book is not well formed: its last 8 bytes must be the distance back to its first entry, the number of entries and the mark 42 31, and the entries, each a length and that many bytes, none of them zero, must fill that distance exactly"
            ),
        }
    }
}

impl Error for Refusal {}

/// A block that is not stepped cleanly to an End as its last step: answer 13, by the rule of document 02.
#[derive(Clone, Copy, Debug, PartialEq, Eq, Hash)]
pub struct Unclean {
    /// The place of an opcode whose step passes the end, or whose two length bytes are not all there; the block's length if its
    /// last step is no End; 0 if the block is empty.
    pub place: usize,
}

impl Unclean {
    pub(crate) const NUMBER: u32 = 13;

    /// The answer's number.
    pub fn number(&self) -> u32 {
        Self::NUMBER
    }

    /// The answer's name.
    pub fn name(&self) -> &'static str {
        "Unclean"
    }

    /// The answer's value.
    pub fn value(&self) -> i64 {
        self.place as i64
    }
}

impl fmt::Display for Unclean {
    fn fmt(&self, f: &mut fmt::Formatter<'_>) -> fmt::Result {
        write!(
            f,
            "byte {} of the block: the step that begins here passes the end, or the block ends here without an End as its last step",
            self.place
        )
    }
}

impl Error for Unclean {}
