//! Sheets and answers as streams of records; numbers are little-endian.
//! A question: u32 length, the sheet, u32 length, the book, u32 room, u8 mode (bit 0 is strict, bit 1 contained). An answer: u8
//! number, i64 value, u32 action number, u32 length, the block (empty unless Done).

use crate::answer::{Answer, Mode, action, number, value};
use std::io::{self, Read, Write};

pub struct Question {
    pub sheet: Vec<u8>,
    pub book: Vec<u8>,
    pub room: u32,
    pub mode: Mode,
}

impl Question {
    /// The next question, or none at the stream's end.
    pub fn read(from: &mut impl Read) -> io::Result<Option<Self>> {
        let mut first = [0];
        if from.read(&mut first)? == 0 {
            return Ok(None);
        }
        let mut rest = [0; 3];
        from.read_exact(&mut rest)?;
        let length = u32::from_le_bytes([first[0], rest[0], rest[1], rest[2]]);
        let sheet = read_bytes(length, from)?;
        let book = read_bytes(read_u32(from)?, from)?;
        let room = read_u32(from)?;
        let mut mode = [0];
        from.read_exact(&mut mode)?;
        let mode = Mode::from_byte(mode[0])
            .ok_or_else(|| io::Error::new(io::ErrorKind::InvalidData, "unknown mode"))?;
        Ok(Some(Self {
            sheet,
            book,
            room,
            mode,
        }))
    }

    pub fn write(&self, to: &mut impl Write) -> io::Result<()> {
        to.write_all(&length_of(&self.sheet))?;
        to.write_all(&self.sheet)?;
        to.write_all(&length_of(&self.book))?;
        to.write_all(&self.book)?;
        to.write_all(&self.room.to_le_bytes())?;
        to.write_all(&[self.mode.byte()])
    }
}

fn read_u32(from: &mut impl Read) -> io::Result<u32> {
    let mut bytes = [0; 4];
    from.read_exact(&mut bytes)?;
    Ok(u32::from_le_bytes(bytes))
}

fn read_bytes(length: u32, from: &mut impl Read) -> io::Result<Vec<u8>> {
    let mut bytes = vec![0; length as usize];
    from.read_exact(&mut bytes)?;
    Ok(bytes)
}

pub fn write_answer(answer: &Answer, to: &mut impl Write) -> io::Result<()> {
    let block = answer.as_deref().unwrap_or(&[]);
    to.write_all(&[number(answer)])?;
    to.write_all(&value(answer).to_le_bytes())?;
    to.write_all(&u32_of(action(answer)))?;
    to.write_all(&length_of(block))?;
    to.write_all(block)
}

fn length_of(bytes: &[u8]) -> [u8; 4] {
    u32_of(bytes.len())
}

fn u32_of(n: usize) -> [u8; 4] {
    u32::try_from(n)
        .expect("a record of under 4 GiB")
        .to_le_bytes()
}

#[cfg(test)]
mod tests {
    use super::*;
    use crate::answer::Refusal;

    #[test]
    fn questions_are_read_as_they_were_written() {
        let mut bytes = vec![];
        let asked = [
            (vec![], vec![], 7, Mode::PLAIN),
            (vec![1, 2, 3], vec![5], u32::MAX, Mode::STRICT),
            (vec![4], vec![], 0, Mode::CONTAINED),
            (vec![], vec![6, 7], 1, Mode::STRICT_CONTAINED),
        ];
        for (sheet, book, room, mode) in asked.clone() {
            let question = Question {
                sheet,
                book,
                room,
                mode,
            };
            question.write(&mut bytes).expect("a Vec takes all");
        }
        let mut from = &bytes[..];
        let mut next = || {
            let question = Question::read(&mut from)?;
            io::Result::Ok(question.map(|q| (q.sheet, q.book, q.room, q.mode)))
        };
        for question in asked {
            assert_eq!(next().expect("whole"), Some(question));
        }
        assert_eq!(next().expect("the end"), None);
        assert!(Question::read(&mut &bytes[..12]).is_err());
        bytes[12] = 4;
        assert!(Question::read(&mut &bytes[..]).is_err());
    }

    #[test]
    fn answers_are_number_value_action_and_block() {
        let written = |answer| {
            let mut bytes = vec![];
            write_answer(&answer, &mut bytes).expect("a Vec takes all");
            bytes
        };
        let done = [0, 2, 0, 0, 0, 0, 0, 0, 0, 0, 0, 0, 0, 2, 0, 0, 0, 6, 0];
        assert_eq!(written(Ok(vec![6, 0])), done);
        let far = [
            10, 254, 255, 255, 255, 255, 255, 255, 255, 3, 1, 0, 0, 0, 0, 0, 0,
        ];
        assert_eq!(written(Err(Refusal::JumpOffsetOverflow(-2, 259))), far);
    }
}
