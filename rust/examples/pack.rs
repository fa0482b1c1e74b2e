//! Packs a sheet and prints the answer in words: `pack [--strict] [--contained] [--book FILE] FILE`, where - is standard input.
//! `--book` names the file of the book whose entries the sheet's strings name; without it the empty book is lent.
//!
//! Its status is 0 for a block, 1 for a refusal, so that a build stops, and 2 for wrong usage or a file that cannot be read.
mod common;
use common::read;
use merinovault::{EMPTY_BOOK, Mode, Refusal, pack_with_book};
use std::env;
use std::path::PathBuf;
use std::process::ExitCode;

fn main() -> ExitCode {
    let Some((mode, book, file)) = arguments() else {
        eprintln!(
            "usage: pack [--strict] [--contained] [--book FILE] FILE, where - is standard input"
        );
        return ExitCode::from(2);
    };
    let book = match book {
        Some(book) => read(&book),
        None => Some(EMPTY_BOOK.to_vec()),
    };
    let (Some(sheet), Some(book)) = (read(&file), book) else {
        return ExitCode::from(2);
    };
    match packed(&sheet, &book, mode) {
        Ok(block) => {
            println!("Done: a block of {} bytes", block.len());
            print_hex(&block);
            ExitCode::SUCCESS
        }
        Err(refusal) => {
            let (number, name, value) = (refusal.number(), refusal.name(), refusal.value());
            println!("{number} {name}, value {value}: {refusal}");
            ExitCode::from(1)
        }
    }
}

/// The block of a sheet. A call without an output tells how long it is, since with a book it can be far longer than the sheet.
fn packed(sheet: &[u8], book: &[u8], mode: Mode) -> Result<Vec<u8>, Refusal> {
    let mut out = vec![];
    let mut answer = pack_with_book(sheet, book, mode, &mut out);
    if let Err(Refusal::NoRoom { needed }) = answer {
        out = vec![0; needed];
        answer = pack_with_book(sheet, book, mode, &mut out);
    }
    answer.map(|_| out)
}

/// The mode, the book if one is named, and the one file, or nothing if the words are others.
fn arguments() -> Option<(Mode, Option<PathBuf>, PathBuf)> {
    let mut mode = Mode::PLAIN;
    let mut book = None;
    let mut files = vec![];
    let mut words = env::args_os().skip(1);
    while let Some(word) = words.next() {
        match word.to_str() {
            Some("--strict") => mode.strict = true,
            Some("--contained") => mode.contained = true,
            Some("--book") if book.is_none() => book = Some(PathBuf::from(words.next()?)),
            Some(other) if other.starts_with("--") => return None,
            _ => files.push(PathBuf::from(word)),
        }
    }
    let [file] = <[PathBuf; 1]>::try_from(files).ok()?;
    Some((mode, book, file))
}

/// Two upper-case digits a byte, 16 bytes a line.
fn print_hex(block: &[u8]) {
    for line in block.chunks(16) {
        let digits: Vec<String> = line.iter().map(|byte| format!("{byte:02X}")).collect();
        println!("{}", digits.join(" "));
    }
}
