//! `generate FAMILY [SEED [COUNT]]` writes a stream of questions for `oracle stream`.

use oracle::generate::{Family, questions};
use std::io::{self, BufWriter, Write};
use std::process::ExitCode;

fn main() -> ExitCode {
    let words: Vec<String> = std::env::args().skip(1).collect();
    let Some((family, seed, count)) = asked(&words) else {
        let families = Family::ALL.map(Family::name).join("|");
        eprintln!("usage: generate {families} [SEED [COUNT]]");
        return ExitCode::from(2);
    };
    match write(family, seed, count) {
        Ok(()) => ExitCode::SUCCESS,
        Err(e) => {
            eprintln!("generate: {e}");
            ExitCode::FAILURE
        }
    }
}

fn asked(words: &[String]) -> Option<(Family, u64, usize)> {
    let (name, numbers) = words.split_first()?;
    let family = Family::ALL.into_iter().find(|f| f.name() == name)?;
    let (seed, count) = match numbers {
        [] => (1, 1_000),
        [seed] => (seed.parse().ok()?, 1_000),
        [seed, count] => (seed.parse().ok()?, count.parse().ok()?),
        _ => return None,
    };
    Some((family, seed, count))
}

fn write(family: Family, seed: u64, count: usize) -> io::Result<()> {
    let mut out = BufWriter::new(io::stdout().lock());
    let mut done = Ok(());
    questions(family, seed, count, &mut |question| {
        if done.is_ok() {
            done = question.write(&mut out);
        }
    });
    done?;
    out.flush()
}
