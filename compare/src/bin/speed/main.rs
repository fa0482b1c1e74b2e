//! Ratios in one run: the packer's C entry against the Rust's reading and encoding, and against its encoding alone; strict and
//! contained mode against plain; and strings that are entries of a book against the same strings spelt.
//! No buffer is cleared between rounds; the Rust grows a new Vec each time, as it does in service.

mod sheets;

use merinovault::{EMPTY_BOOK, Mode, pack_with_book as pack};
use oracle::answer;
use oracle::sheet::Edition;
use sheets::{ENTRIES, NAMES};
use std::hint::black_box;
use std::time::Instant;

/// The modes that are timed against plain: their names, ours and the oracle's.
const OTHERS: [(&str, Mode, answer::Mode); 2] = [
    ("strict", Mode::STRICT, answer::Mode::STRICT),
    ("contained", Mode::CONTAINED, answer::Mode::CONTAINED),
];

/// The least seconds of a call, over batches that each take about a hundredth of a second.
struct Timer {
    batch: u32,
    least: f64,
}

impl Timer {
    fn new(call: &mut dyn FnMut()) -> Timer {
        let start = Instant::now();
        call();
        let once = start.elapsed().as_secs_f64().max(1e-9);
        let batch = (0.01 / once).clamp(1.0, 100_000.0) as u32;
        Timer {
            batch,
            least: f64::INFINITY,
        }
    }

    fn round(&mut self, call: &mut dyn FnMut()) {
        let start = Instant::now();
        for _ in 0..self.batch {
            call();
        }
        self.least = self
            .least
            .min(start.elapsed().as_secs_f64() / f64::from(self.batch));
    }
}

/// Seconds of a call, and the block's length.
struct Times {
    ours: f64,
    /// In the other modes; none where one refuses the sheet.
    others: [Option<f64>; OTHERS.len()],
    both: f64,
    encoding: f64,
    block: usize,
}

/// Times our entry in plain mode and the others, the Rust's reading and encoding, and its encoding alone.
fn time(sheet: &[u8], book: &[u8], rounds: u32) -> Times {
    let mut out = vec![0; 4 * sheet.len() + 64];
    let whole = oracle::sheet::read(sheet, book, b'y').expect("a sheet that reads");
    let block = oracle::pack::encode(&whole).expect("a block");
    let n = pack(sheet, book, Mode::PLAIN, &mut out).expect("a block");
    assert_eq!(&out[..n], &block[..], "the two blocks differ");
    let taken = OTHERS.map(|(_, mode, theirs)| {
        let taken = oracle::pack::pack(sheet, book, theirs, out.len()).is_ok();
        taken.then_some(mode)
    });

    let mut ours = |mode| {
        black_box(pack(black_box(sheet), black_box(book), mode, &mut out).unwrap());
    };
    let mut both = || {
        let whole = oracle::sheet::read(black_box(sheet), black_box(book), b'y').unwrap();
        black_box(oracle::pack::encode(&whole).unwrap());
    };
    let mut encoding = || {
        black_box(oracle::pack::encode(black_box(&whole)).unwrap());
    };
    let mut timers = [
        Timer::new(&mut || ours(Mode::PLAIN)),
        Timer::new(&mut both),
        Timer::new(&mut encoding),
    ];
    let mut others = taken.map(|taken| taken.map(|mode| (mode, Timer::new(&mut || ours(mode)))));
    for _ in 0..rounds {
        timers[0].round(&mut || ours(Mode::PLAIN));
        for (mode, timer) in others.iter_mut().flatten() {
            timer.round(&mut || ours(*mode));
        }
        timers[1].round(&mut both);
        timers[2].round(&mut encoding);
    }
    Times {
        ours: timers[0].least,
        others: others.map(|other| other.map(|(_, timer)| timer.least)),
        both: timers[1].least,
        encoding: timers[2].least,
        block: n,
    }
}

/// A sheet and its book.
type Lent = (Vec<u8>, Vec<u8>);

/// With an empty book.
fn alone(sheet: Vec<u8>) -> Lent {
    (sheet, EMPTY_BOOK.to_vec())
}

/// With a book of as many entries as there can be.
fn with_book(sheet: Vec<u8>) -> Lent {
    (sheet, sheets::book(ENTRIES))
}

/// So many strings, each far from the one before in a book of so many entries.
fn scattered(names: usize, entries: usize) -> Lent {
    let sheet = sheets::named(sheets::SCATTERED, names, entries);
    (sheet, sheets::book(entries))
}

/// The cases, by name; those with a 2 are of edition 2, with a 3 of edition 3.
const CASES: [(&str, fn() -> Lent); 14] = [
    ("screen", || alone(sheets::screen(50))),
    ("recorded", || alone(sheets::screen(500))),
    ("large", || alone(sheets::screen(2_570))),
    ("tiny", || alone(sheets::tiny(Edition::One))),
    ("tiny2", || alone(sheets::tiny(Edition::Two))),
    ("tiny3", || alone(sheets::tiny(Edition::Three))),
    ("strings", || alone(sheets::strings())),
    ("labels", || alone(sheets::labels())),
    ("form2", || alone(sheets::form())),
    ("deep", || alone(sheets::deep())),
    ("book3", || with_book(sheets::tiny(Edition::Three))),
    ("named3", || scattered(NAMES, ENTRIES)),
    ("turn3", || {
        with_book(sheets::named(sheets::IN_TURN, NAMES, ENTRIES))
    }),
    ("spelt2", || alone(sheets::spelt(sheets::SCATTERED))),
];

/// What is timed for each byte: strings that are entries, and the same strings spelt.
const NAMED: [&str; 2] = ["named3", "turn3"];
const SPELT: &str = "spelt2";

fn main() {
    let words: Vec<String> = std::env::args().skip(1).collect();
    let words: Vec<&str> = words.iter().map(String::as_str).collect();
    match words[..] {
        [] => ratios(15),
        ["run", case, side, times] => run(case, side, times.parse().expect("a number of times")),
        [rounds] => ratios(rounds.parse().expect("a number of rounds")),
        _ => panic!("usage: speed [ROUNDS] or speed run CASE ours|both|encoding TIMES"),
    }
}

/// One side of one case so many times, and nothing else: for a profiler or a counter of instructions.
fn run(case: &str, side: &str, times: u32) {
    let (sheet, book) = &made(case);
    let mut out = vec![0; 4 * sheet.len() + 64];
    let whole = oracle::sheet::read(sheet, book, b'y').expect("a sheet that reads");
    for _ in 0..times {
        match side {
            "ours" => drop(black_box(pack(
                black_box(sheet),
                black_box(book),
                Mode::PLAIN,
                &mut out,
            ))),
            "both" => {
                let whole = oracle::sheet::read(black_box(sheet), black_box(book), b'y').unwrap();
                drop(black_box(oracle::pack::encode(&whole)));
            }
            "encoding" => drop(black_box(oracle::pack::encode(black_box(&whole)))),
            _ => panic!("ours, both or encoding"),
        }
    }
}

/// The sheet and the book of a case.
fn made(case: &str) -> Lent {
    let found = CASES.iter().find(|(name, _)| *name == case);
    let (_, made) = found.expect("a case");
    made()
}

fn ratios(rounds: u32) {
    println!("how many times as fast as the Rust's (i) reading and encoding, (ii) encoding alone;");
    println!("and the time of other modes against plain, unless they refuse the sheet");
    let [strict, contained] = OTHERS.map(|(name, ..)| name);
    println!(
        "{:<10} {:>9} {:>9} {:>7} {:>7} {strict:>9} {contained:>9}",
        "case", "sheet", "block", "(i)", "(ii)"
    );
    for (name, made) in CASES {
        let (sheet, book) = made();
        let times = time(&sheet, &book, rounds);
        let [strict, contained] = times.others.map(|other| {
            other.map_or("refused".into(), |other| {
                format!("{:.2}", other / times.ours)
            })
        });
        println!(
            "{:<10} {:>9} {:>9} {:>7.2} {:>7.2} {strict:>9} {contained:>9}",
            name,
            sheet.len(),
            times.block,
            times.both / times.ours,
            times.encoding / times.ours
        );
    }
    println!("\ntime for each byte of the block, against the first");
    let mut first = None;
    for handlers in [70, 140, 450, 1_400, 4_500, 8_000] {
        let times = time(&sheets::screen(handlers), &EMPTY_BOOK, rounds.min(5));
        let each = times.ours / times.block as f64;
        println!(
            "{:>9} {:>7.2}",
            times.block,
            each / *first.get_or_insert(each)
        );
    }
    named_against_spelt(rounds);
}

/// How long a byte of the block takes where strings are entries of a book of 65,535, against the same strings spelt. In `named3`
/// each entry is far from the one before, in `turn3` it is the next one.
fn named_against_spelt(rounds: u32) {
    println!("\ntime for each byte of the block, against the same strings spelt");
    let each = |case: &str| {
        let (sheet, book) = made(case);
        let times = time(&sheet, &book, rounds);
        (times.block, times.ours / times.block as f64)
    };
    let (length, spelt) = each(SPELT);
    println!("{SPELT:<10} {length:>9} {:>7.2}", 1.0);
    for case in NAMED {
        let (length, named) = each(case);
        println!("{case:<10} {length:>9} {:>7.2}", named / spelt);
    }
    println!("\nthe same by the number of strings, and by the number of entries");
    let fewer = [NAMES / 8, NAMES / 4, NAMES / 2, NAMES].map(|names| (names, ENTRIES));
    let smaller = [4_096, 8_192, 16_384, 32_768, ENTRIES].map(|entries| (NAMES, entries));
    for (names, entries) in fewer.into_iter().chain(smaller) {
        let (sheet, book) = scattered(names, entries);
        let times = time(&sheet, &book, rounds);
        let named = times.ours / times.block as f64;
        println!("{names:>9} {entries:>9} {:>7.2}", named / spelt);
    }
}
