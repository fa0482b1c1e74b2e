//! `oracle` answers one sheet as document 01's block program does, with an empty book; `oracle --strict` in strict mode,
//! `oracle --contained` in contained mode, with both words in both; `oracle stream` answers a stream of questions.

use oracle::answer::{Answer, Mode, Refusal, number, value};
use oracle::book;
use oracle::pack::pack;
use oracle::stream::{Question, write_answer};
use std::io::{self, BufReader, BufWriter, Read, Write};
use std::process::ExitCode;

/// The block program's input, and its output.
const BUFFER: usize = 65_536;

fn main() -> ExitCode {
    let words: Vec<String> = std::env::args().skip(1).collect();
    let words: Vec<&str> = words.iter().map(String::as_str).collect();
    let done = match words[..] {
        [] => one_sheet(Mode::PLAIN),
        ["--strict"] => one_sheet(Mode::STRICT),
        ["--contained"] => one_sheet(Mode::CONTAINED),
        ["--strict", "--contained"] => one_sheet(Mode::STRICT_CONTAINED),
        ["stream"] => all_questions(),
        _ => {
            eprintln!("usage: oracle [--strict] [--contained] < INPUT, or oracle stream < INPUT");
            return ExitCode::from(2);
        }
    };
    match done {
        Ok(()) => ExitCode::SUCCESS,
        Err(e) => {
            eprintln!("oracle: {e}");
            ExitCode::FAILURE
        }
    }
}

fn one_sheet(mode: Mode) -> io::Result<()> {
    let mut sheet = Vec::new();
    io::stdin().take(BUFFER as u64).read_to_end(&mut sheet)?;
    let answer = if sheet.len() == BUFFER {
        Err(Refusal::InputFull(BUFFER))
    } else {
        pack(&sheet, &book::EMPTY, mode, BUFFER)
    };
    io::stdout().write_all(print(&answer).as_bytes())
}

/// Number, space, value, line feed; on Done the block in hex, 16 bytes a line.
fn print(answer: &Answer) -> String {
    let mut text = format!("{} {}\n", number(answer), value(answer));
    for line in answer.as_deref().unwrap_or(&[]).chunks(16) {
        let bytes: Vec<String> = line.iter().map(|b| format!("{b:02X}")).collect();
        text += &bytes.join(" ");
        text += "\n";
    }
    text
}

fn all_questions() -> io::Result<()> {
    let mut questions = BufReader::new(io::stdin().lock());
    let mut answers = BufWriter::new(io::stdout().lock());
    while let Some(question) = Question::read(&mut questions)? {
        let Question {
            sheet, book, mode, ..
        } = &question;
        let answer = pack(sheet, book, *mode, question.room as usize);
        write_answer(&answer, &mut answers)?;
    }
    answers.flush()
}

#[cfg(test)]
mod tests {
    use super::*;

    #[test]
    fn prints_as_the_block_program() {
        let mut sheet = [
            0x01, 0x00, 0x00, 0x00, 0x00, 0x00, 0x01, 0x00, 0x99, 0x00, 0x00, 0x0B, 0x00, 0x00,
            0x00, 0x01, 0x00, 0x41, 0x31,
        ];
        let text = |sheet: &[u8], mode| print(&pack(sheet, &book::EMPTY, mode, BUFFER));
        assert_eq!(text(&sheet, Mode::PLAIN), "0 6\n99 02 00 FB FF 00\n");
        assert_eq!(text(&[], Mode::PLAIN), "2 0\n");
        // P7
        sheet[4] = 2;
        assert_eq!(text(&sheet, Mode::STRICT), "14 3\n");
        assert_eq!(text(&sheet, Mode::CONTAINED), "0 6\n99 02 00 00 00 00\n");
        // the action's number is not printed
        assert_eq!(print(&Err(Refusal::JumpOffsetOverflow(-5, 7))), "10 -5\n");
        let whole_lines = vec![0x0A; 32];
        let line = ["0A"; 16].join(" ");
        assert_eq!(print(&Ok(whole_lines)), format!("0 32\n{line}\n{line}\n"));
    }
}
