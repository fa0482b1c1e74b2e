//! The oracle's reader of sheets, written from documents 01 and 02: answers 1 to 7 and 18, or the source's tree of actions.

use crate::answer::{Fault, Refusal};
use crate::book;
use crate::internal::as2_pcode::{Action, Actions, CatchTarget, FunctionParam, PushValue};
use std::ops::Range;

pub const LONGEST_SHEET: usize = 1_048_576;
pub const DEEPEST: u32 = 16;
pub const TRAILER: usize = 8;
/// The length of a string that is an entry of the book, where the edition has one.
pub const NAMED: u16 = u16::MAX;

/// The editions that a trailer may name. They differ in the label numbers that a sheet may name and in whether a string may be an
/// entry of the book, and in nothing else.
#[derive(Clone, Copy, Debug, Eq, PartialEq)]
pub enum Edition {
    One,
    Two,
    Three,
}

impl Edition {
    pub const ALL: [Edition; 3] = [Edition::One, Edition::Two, Edition::Three];

    /// The edition of a trailer's number, unless there is none.
    pub fn from_number(number: u16) -> Option<Edition> {
        Edition::ALL
            .into_iter()
            .find(|edition| edition.number() == number)
    }

    pub const fn number(self) -> u16 {
        match self {
            Edition::One => 1,
            Edition::Two => 2,
            Edition::Three => 3,
        }
    }

    /// Label numbers are under this.
    pub const fn labels(self) -> u16 {
        match self {
            Edition::One => 1_024,
            Edition::Two | Edition::Three => 4_096,
        }
    }

    /// Whether a string may be an entry of the book. No other edition looks at the book.
    pub const fn has_book(self) -> bool {
        matches!(self, Edition::Three)
    }
}

/// A sheet that reads whole.
pub struct Whole {
    pub actions: Actions,
    /// The bytes of all strings outside UTF-8, in sheet order. In `actions` a letter stands for each of them.
    pub foreign: Vec<u8>,
}

/// A sheet that reads whole, with the lengths of its strings in place of them: a book can make more of a sheet's strings than
/// memory holds.
pub struct Measured {
    /// The decimal digits of its length stand for each string.
    pub actions: Actions,
    /// Where each string stands in the sheet, in order: its length with its bytes or its entry number.
    pub places: Vec<Range<usize>>,
    /// How many bytes all strings have.
    pub total: usize,
}

/// Reads a sheet. The source's strings are UTF-8; `letter`, an ASCII letter, stands for each byte of any other.
pub fn read(sheet: &[u8], book: &[u8], letter: u8) -> Result<Whole, Refusal> {
    let (actions, reader) = read_as(Text::Spelt(char::from(letter)), sheet, book)?;
    Ok(Whole {
        actions,
        foreign: reader.foreign,
    })
}

/// Reads a sheet and keeps of its strings their lengths.
pub fn measure(sheet: &[u8], book: &[u8]) -> Result<Measured, Refusal> {
    let (actions, reader) = read_as(Text::Measured, sheet, book)?;
    Ok(Measured {
        actions,
        places: reader.places,
        total: reader.total,
    })
}

/// 1 and 2, then 18, then 3 to 7, or the tree.
fn read_as<'a>(text: Text, sheet: &'a [u8], book: &'a [u8]) -> Read<(Actions, Reader<'a>)> {
    let (at, edition) = cut(sheet)?;
    let mut reader = Reader {
        bytes: &sheet[..sheet.len() - TRAILER],
        at,
        edition,
        entries: match edition.has_book() {
            true => Some(book::entries(book)?),
            false => None,
        },
        text,
        foreign: Vec::new(),
        places: Vec::new(),
        total: 0,
        begun: 0,
        now: 0,
    };
    let actions = reader.body(1)?;
    if reader.at < reader.bytes.len() {
        reader.now = reader.begun;
        return Err(reader.fault(Fault::LeftOver, reader.at));
    }
    Ok((actions, reader))
}

/// 1 and 2, or the place of the main body's first byte and the edition.
pub fn cut(sheet: &[u8]) -> Result<(usize, Edition), Refusal> {
    if sheet.len() > LONGEST_SHEET {
        return Err(Refusal::SheetTooLong(sheet.len()));
    }
    let Some((front, trailer)) = sheet.split_last_chunk::<TRAILER>() else {
        return Err(Refusal::BadTrailer);
    };
    let [d0, d1, d2, d3, e0, e1, 0x41, 0x31] = *trailer else {
        return Err(Refusal::BadTrailer);
    };
    let distance = u32::from_le_bytes([d0, d1, d2, d3]) as usize;
    let start = front.len().checked_sub(distance);
    let edition = Edition::from_number(u16::from_le_bytes([e0, e1]));
    start.zip(edition).ok_or(Refusal::BadTrailer)
}

/// How a string stands in the tree.
#[derive(Clone, Copy)]
enum Text {
    /// As it is; outside UTF-8 the letter stands for each byte.
    Spelt(char),
    /// As the decimal digits of its length.
    Measured,
}

/// Stands at a place before the trailer. Each method reads one thing and moves on, or gives the first fault met.
struct Reader<'a> {
    /// The sheet without its trailer.
    bytes: &'a [u8],
    at: usize,
    edition: Edition,
    /// The book's, in an edition that has one.
    entries: Option<Vec<&'a [u8]>>,
    text: Text,
    foreign: Vec<u8>,
    places: Vec<Range<usize>>,
    total: usize,
    /// How many actions have begun, in all bodies: the opcode of each is read.
    begun: usize,
    /// The number of the action that a fault gives here.
    now: usize,
}

type Read<T> = Result<T, Refusal>;

impl<'a> Reader<'a> {
    fn fault(&self, fault: Fault, place: usize) -> Refusal {
        Refusal::Reading(fault, place, self.now)
    }

    fn field<const N: usize>(&mut self) -> Read<[u8; N]> {
        match self.bytes[self.at..].first_chunk::<N>() {
            Some(field) => {
                self.at += N;
                Ok(*field)
            }
            None => Err(self.fault(Fault::CutShort, self.at)),
        }
    }

    fn u8(&mut self) -> Read<u8> {
        Ok(u8::from_le_bytes(self.field()?))
    }

    fn u16(&mut self) -> Read<u16> {
        Ok(u16::from_le_bytes(self.field()?))
    }

    /// A field that must pass a test; the fault is at the field's first byte.
    fn tested<T: Copy>(
        &mut self,
        field: fn(&mut Self) -> Read<T>,
        within: impl FnOnce(T) -> bool,
    ) -> Read<T> {
        let place = self.at;
        let value = field(self)?;
        if within(value) {
            Ok(value)
        } else {
            Err(self.fault(Fault::BadField, place))
        }
    }

    fn flag(&mut self) -> Read<bool> {
        Ok(self.tested(Self::u8, |n| n <= 1)? == 1)
    }

    fn string(&mut self) -> Read<String> {
        let start = self.at;
        let length = self.u16()?;
        let bytes = match self.entries {
            Some(_) if length == NAMED => self.entry()?,
            _ => self.spelt(usize::from(length))?,
        };
        Ok(match self.text {
            Text::Spelt(letter) => self.utf8(bytes, letter),
            Text::Measured => {
                self.places.push(start..self.at);
                self.total += bytes.len();
                bytes.len().to_string()
            }
        })
    }

    /// The bytes of a string behind its length.
    fn spelt(&mut self, length: usize) -> Read<&'a [u8]> {
        let Some(bytes) = self.bytes[self.at..].get(..length) else {
            return Err(self.fault(Fault::CutShort, self.at));
        };
        if let Some(nul) = bytes.iter().position(|&b| b == 0) {
            return Err(self.fault(Fault::BadField, self.at + nul));
        }
        self.at += length;
        Ok(bytes)
    }

    /// The entry of a u16 number, which stands in place of a string's bytes and is under the book's count.
    fn entry(&mut self) -> Read<&'a [u8]> {
        let count = self.entries.as_ref().map_or(0, Vec::len);
        let number = self.tested(Self::u16, |number| usize::from(number) < count)?;
        Ok(self.entries.as_ref().expect("an entry")[usize::from(number)])
    }

    fn utf8(&mut self, bytes: &[u8], letter: char) -> String {
        match str::from_utf8(bytes) {
            Ok(string) => string.to_owned(),
            Err(_) => {
                self.foreign.extend_from_slice(bytes);
                letter.to_string().repeat(bytes.len())
            }
        }
    }

    /// A u16 count, then as many.
    fn counted<T>(&mut self, one: fn(&mut Self) -> Read<T>) -> Read<Vec<T>> {
        let count = self.u16()?;
        (0..count).map(|_| one(self)).collect()
    }

    /// A label number: `least` or over, and under the edition's bound.
    fn label(&mut self, least: u16) -> Read<u16> {
        let labels = self.edition.labels();
        self.tested(Self::u16, |label| least <= label && label < labels)
    }

    /// A branch's label: any number that the edition allows.
    fn branch(&mut self) -> Read<String> {
        Ok(name(self.label(0)?))
    }

    /// A body that is too deep gives its owner, which is still being read: of a Try's bodies it is the first. A fault in entries or
    /// counts gives the action that would come next.
    fn body(&mut self, depth: u32) -> Read<Actions> {
        if depth > DEEPEST {
            return Err(self.fault(Fault::TooDeep, self.at));
        }
        self.now = self.begun;
        let mut body = Actions::empty();
        let mut least = 0;
        for _ in 0..self.u16()? {
            let label = self.label(least)?;
            let index = self.u16()?;
            body.label_positions.insert(name(label), usize::from(index));
            least = label + 1;
        }
        for _ in 0..self.u16()? {
            let action = self.action(depth)?;
            body.push(action);
        }
        Ok(body)
    }

    /// An action of a body at this depth. It has its number from before its opcode, which may be missing.
    fn action(&mut self, depth: u32) -> Read<Action> {
        self.now = self.begun;
        let place = self.at;
        let opcode = self.u8()?;
        self.begun += 1;
        Ok(match opcode {
            0x81 => Action::GotoFrame(self.u16()?),
            0x83 => Action::GetUrl {
                url: self.string()?,
                target: self.string()?,
            },
            0x87 => Action::StoreRegister(self.u8()?),
            0x88 => Action::ConstantPool(self.counted(Self::string)?),
            0x8A => Action::WaitForFrame {
                frame: self.u16()?,
                skip_count: self.u8()?,
            },
            0x8B => Action::SetTarget(self.string()?),
            0x8C => Action::GotoLabel(self.string()?),
            0x8D => Action::WaitForFrame2 {
                skip_count: self.u8()?,
            },
            0x8E => self.define_function_2(depth)?,
            0x8F => self.try_(depth)?,
            0x94 => Action::With(self.body(depth + 1)?),
            0x96 => Action::Push(self.counted(Self::push_value)?),
            0x99 => Action::Jump(self.branch()?),
            0x9A => Action::GetUrl2 {
                load_variables: self.flag()?,
                load_target: self.flag()?,
                method: self.u8()?,
            },
            0x9B => Action::DefineFunction {
                name: self.string()?,
                params: self.counted(Self::string)?,
                actions: self.body(depth + 1)?,
            },
            0x9D => Action::If(self.branch()?),
            0x9F => Action::GotoFrame2 {
                scene_bias: self.u16()?,
                play: self.flag()?,
            },
            _ => bare(opcode).ok_or(self.fault(Fault::UnknownCode, place))?,
        })
    }

    fn define_function_2(&mut self, depth: u32) -> Read<Action> {
        let name = self.string()?;
        let params = self.counted(|reader| {
            Ok(FunctionParam {
                register: reader.u8()?,
                name: reader.string()?,
            })
        })?;
        let register_count = self.u8()?;
        let flags = self.tested(Self::u16, |flags| flags >> 9 == 0)?;
        let has = |bit: u32| flags >> bit & 1 == 1;
        Ok(Action::DefineFunction2 {
            name,
            params,
            actions: self.body(depth + 1)?,
            register_count,
            preload_this: has(0),
            suppress_this: has(1),
            preload_arguments: has(2),
            suppress_arguments: has(3),
            preload_super: has(4),
            suppress_super: has(5),
            preload_root: has(6),
            preload_parent: has(7),
            preload_global: has(8),
        })
    }

    fn try_(&mut self, depth: u32) -> Read<Action> {
        let (catch, finally, register) = (1, 2, 4);
        let shape = self.tested(Self::u8, |shape| {
            shape <= 7 && (shape & register == 0 || shape & catch != 0)
        })?;
        let target = match (shape & catch != 0, shape & register != 0) {
            (false, _) => None,
            (true, false) => Some(CatchTarget::Variable(self.string()?)),
            (true, true) => Some(CatchTarget::Register(self.u8()?)),
        };
        Ok(Action::Try {
            try_body: self.body(depth + 1)?,
            catch_body: match target {
                Some(target) => Some((target, self.body(depth + 1)?)),
                None => None,
            },
            finally_body: match shape & finally {
                0 => None,
                _ => Some(self.body(depth + 1)?),
            },
        })
    }

    fn push_value(&mut self) -> Read<PushValue> {
        let place = self.at;
        Ok(match self.u8()? {
            0 => PushValue::String(self.string()?),
            2 => PushValue::Null,
            3 => PushValue::Undefined,
            4 => PushValue::Register(self.u8()?),
            5 => PushValue::from(self.flag()?),
            6 => PushValue::Float(f64::from_bits(u64::from_le_bytes(self.field()?))),
            7 => PushValue::Integer(i32::from_le_bytes(self.field()?)),
            8 => PushValue::Constant(self.u16()?),
            _ => return Err(self.fault(Fault::UnknownCode, place)),
        })
    }
}

/// A label's name in the source's maps, which are keyed by text.
fn name(label: u16) -> String {
    label.to_string()
}

/// The actions that are their opcode alone.
fn bare(opcode: u8) -> Option<Action> {
    Some(match opcode {
        0x00 => Action::End,
        0x04 => Action::NextFrame,
        0x05 => Action::PrevFrame,
        0x06 => Action::Play,
        0x07 => Action::Stop,
        0x08 => Action::ToggleQuality,
        0x09 => Action::StopSounds,
        0x0A => Action::Add,
        0x0B => Action::Subtract,
        0x0C => Action::Multiply,
        0x0D => Action::Divide,
        0x0E => Action::Equals,
        0x0F => Action::Less,
        0x10 => Action::And,
        0x11 => Action::Or,
        0x12 => Action::Not,
        0x13 => Action::StringEquals,
        0x14 => Action::StringLength,
        0x15 => Action::StringExtract,
        0x17 => Action::Pop,
        0x18 => Action::ToInteger,
        0x1C => Action::GetVariable,
        0x1D => Action::SetVariable,
        0x20 => Action::SetTarget2,
        0x21 => Action::StringAdd,
        0x22 => Action::GetProperty,
        0x23 => Action::SetProperty,
        0x24 => Action::CloneSprite,
        0x25 => Action::RemoveSprite,
        0x26 => Action::Trace,
        0x27 => Action::StartDrag,
        0x28 => Action::EndDrag,
        0x29 => Action::StringLess,
        0x2A => Action::Throw,
        0x2B => Action::CastOp,
        0x2C => Action::ImplementsOp,
        0x30 => Action::RandomNumber,
        0x31 => Action::MBStringLength,
        0x32 => Action::CharToAscii,
        0x33 => Action::AsciiToChar,
        0x34 => Action::GetTime,
        0x35 => Action::MBStringExtract,
        0x36 => Action::MBCharToAscii,
        0x37 => Action::MBAsciiToChar,
        0x3A => Action::Delete,
        0x3B => Action::Delete2,
        0x3C => Action::DefineLocal,
        0x3D => Action::CallFunction,
        0x3E => Action::Return,
        0x3F => Action::Modulo,
        0x40 => Action::NewObject,
        0x41 => Action::DefineLocal2,
        0x42 => Action::InitArray,
        0x43 => Action::InitObject,
        0x44 => Action::TypeOf,
        0x45 => Action::TargetPath,
        0x46 => Action::Enumerate,
        0x47 => Action::Add2,
        0x48 => Action::Less2,
        0x49 => Action::Equals2,
        0x4A => Action::ToNumber,
        0x4B => Action::ToString,
        0x4C => Action::PushDuplicate,
        0x4D => Action::StackSwap,
        0x4E => Action::GetMember,
        0x4F => Action::SetMember,
        0x50 => Action::Increment,
        0x51 => Action::Decrement,
        0x52 => Action::CallMethod,
        0x53 => Action::NewMethod,
        0x54 => Action::InstanceOf,
        0x55 => Action::Enumerate2,
        0x60 => Action::BitAnd,
        0x61 => Action::BitOr,
        0x62 => Action::BitXor,
        0x63 => Action::BitLShift,
        0x64 => Action::BitRShift,
        0x65 => Action::BitURShift,
        0x66 => Action::StrictEquals,
        0x67 => Action::Greater,
        0x68 => Action::StringGreater,
        0x69 => Action::Extends,
        0x9E => Action::Call,
        _ => return None,
    })
}
