//! Steps through a block and prints the answer in words: `step FILE`, where - is standard input.
//!
//! Its status is 0 for a clean block, 1 for an Unclean one, so that a build stops, and 2 for wrong usage or a file that cannot
//! be read.
mod common;
use common::read;
use merinovault::step;
use std::env;
use std::process::ExitCode;

fn main() -> ExitCode {
    let words: Vec<_> = env::args_os().skip(1).collect();
    let [file] = &words[..] else {
        eprintln!("usage: step FILE, where - is standard input");
        return ExitCode::from(2);
    };
    let Some(block) = read(file.as_ref()) else {
        return ExitCode::from(2);
    };
    match step(&block) {
        Ok(steps) => {
            println!("Done: {steps} steps");
            ExitCode::SUCCESS
        }
        Err(unclean) => {
            let (number, name, value) = (unclean.number(), unclean.name(), unclean.value());
            println!("{number} {name}, value {value}: {unclean}");
            ExitCode::from(1)
        }
    }
}
