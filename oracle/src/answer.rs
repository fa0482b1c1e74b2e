//! The answers of documents 01 and 02: number, value and action number of each; and the modes in which a sheet is packed.

/// Document 02's modes of packing.
#[derive(Clone, Copy, Debug, Eq, PartialEq)]
pub struct Mode {
    /// A branch whose label has no record is refused.
    pub strict: bool,
    /// A branch whose label's last record is in another function body is refused.
    pub contained: bool,
}

impl Mode {
    pub const PLAIN: Mode = Mode::of(0);
    pub const STRICT: Mode = Mode::of(1);
    pub const CONTAINED: Mode = Mode::of(2);
    pub const STRICT_CONTAINED: Mode = Mode::of(3);

    /// All modes, by their bytes.
    pub const ALL: [Mode; 4] = [
        Mode::PLAIN,
        Mode::STRICT,
        Mode::CONTAINED,
        Mode::STRICT_CONTAINED,
    ];

    /// Bit 0 is strict, bit 1 contained.
    const fn of(byte: u8) -> Mode {
        Mode {
            strict: byte & 1 != 0,
            contained: byte & 2 != 0,
        }
    }

    /// The mode of a byte, unless it has a further bit.
    pub fn from_byte(byte: u8) -> Option<Mode> {
        Mode::ALL.get(usize::from(byte)).copied()
    }

    pub fn byte(self) -> u8 {
        u8::from(self.strict) | u8::from(self.contained) << 1
    }
}

/// 3 to 7: what reading can meet, each at a place.
#[derive(Clone, Copy, Debug, Eq, PartialEq)]
pub enum Fault {
    CutShort,
    UnknownCode,
    BadField,
    TooDeep,
    LeftOver,
}

/// 1 to 12, 14, 15 and 18, with what their values are made of; behind that, in 3 to 10, 14 and 15, the action's number.
#[derive(Clone, Copy, Debug, Eq, PartialEq)]
pub enum Refusal {
    SheetTooLong(usize),
    BadTrailer,
    Reading(Fault, usize, usize),
    ActionLenOverflow(usize, usize),
    BlockLenOverflow(usize, usize),
    JumpOffsetOverflow(isize, usize),
    NoRoom(usize),
    InputFull(usize),
    NeverRecorded(usize, usize),
    StrayBranch(usize, usize),
    BadBook,
}

/// Done with the block, or a refusal.
pub type Answer = Result<Vec<u8>, Refusal>;

impl Refusal {
    pub fn number(self) -> u8 {
        match self {
            Refusal::SheetTooLong(_) => 1,
            Refusal::BadTrailer => 2,
            Refusal::Reading(Fault::CutShort, ..) => 3,
            Refusal::Reading(Fault::UnknownCode, ..) => 4,
            Refusal::Reading(Fault::BadField, ..) => 5,
            Refusal::Reading(Fault::TooDeep, ..) => 6,
            Refusal::Reading(Fault::LeftOver, ..) => 7,
            Refusal::ActionLenOverflow(..) => 8,
            Refusal::BlockLenOverflow(..) => 9,
            Refusal::JumpOffsetOverflow(..) => 10,
            Refusal::NoRoom(_) => 11,
            Refusal::InputFull(_) => 12,
            Refusal::NeverRecorded(..) => 14,
            Refusal::StrayBranch(..) => 15,
            Refusal::BadBook => 18,
        }
    }

    pub fn value(self) -> i64 {
        match self {
            Refusal::BadTrailer | Refusal::BadBook => 0,
            Refusal::JumpOffsetOverflow(distance, _) => distance as i64,
            Refusal::SheetTooLong(n)
            | Refusal::Reading(_, n, _)
            | Refusal::ActionLenOverflow(n, _)
            | Refusal::BlockLenOverflow(n, _)
            | Refusal::NoRoom(n)
            | Refusal::InputFull(n)
            | Refusal::NeverRecorded(n, _)
            | Refusal::StrayBranch(n, _) => n as i64,
        }
    }

    /// The number of the action, counted from 0 in sheet order through all bodies.
    pub fn action(self) -> usize {
        match self {
            Refusal::SheetTooLong(_)
            | Refusal::BadTrailer
            | Refusal::NoRoom(_)
            | Refusal::InputFull(_)
            | Refusal::BadBook => 0,
            Refusal::Reading(_, _, action)
            | Refusal::ActionLenOverflow(_, action)
            | Refusal::BlockLenOverflow(_, action)
            | Refusal::JumpOffsetOverflow(_, action)
            | Refusal::NeverRecorded(_, action)
            | Refusal::StrayBranch(_, action) => action,
        }
    }
}

/// The answer's number; 0 is Done.
pub fn number(answer: &Answer) -> u8 {
    answer.as_ref().map_or_else(|r| r.number(), |_| 0)
}

/// The answer's value; Done's is the block's length.
pub fn value(answer: &Answer) -> i64 {
    match answer {
        Ok(block) => block.len() as i64,
        Err(refusal) => refusal.value(),
    }
}

/// The answer's action number; Done's is 0.
pub fn action(answer: &Answer) -> usize {
    answer.as_ref().map_or_else(|r| r.action(), |_| 0)
}
