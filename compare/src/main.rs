//! `compare [SHEETS]` packs generated sheets of all editions, each with a book, by the C entry and by the oracle, a million unless
//! told otherwise, each in every mode: number, value, action number, block, and every byte that must keep its value. It steps
//! through each sheet and each block by the C entry and by the oracle's plain stepper. A block must be clean, with one step more
//! than its sheet has actions, and each of its branches must land where a step begins. It prints counts by answer and mode, by
//! edition, and the smallest sheet that is answered differently, with its book.

use merinovault::{Mode, VALUE_LEN, raw};
use oracle::answer::{self, Answer, action, number, value};
use oracle::generate::{Family, questions};
use oracle::sheet::{Edition, cut};
use oracle::steps::{self, Stepped};
use oracle::stream::Question;
use std::process::ExitCode;

/// The modes: their names, ours and the oracle's.
const MODES: [(&str, Mode, answer::Mode); 4] = [
    ("plain", Mode::PLAIN, answer::Mode::PLAIN),
    ("strict", Mode::STRICT, answer::Mode::STRICT),
    ("contained", Mode::CONTAINED, answer::Mode::CONTAINED),
    (
        "both",
        Mode::STRICT_CONTAINED,
        answer::Mode::STRICT_CONTAINED,
    ),
];

/// What the output and the value slice hold before a call, and the bytes before and behind the output.
const FRESH: u8 = 0xA5;
const GUARD: usize = 64;

/// Answers have numbers up to 18.
const NUMBERS: usize = 19;

/// The first seed of the families that are random; each batch takes the next.
const SEED: u64 = 20_261_115;

#[derive(Default)]
struct Counts {
    sheets: u64,
    /// Sheets whose trailer is good, by its edition.
    editions: [u64; Edition::ALL.len()],
    /// By number, in each of the modes.
    answers: [[u64; MODES.len()]; NUMBERS],
    /// Answers that give an action other than the first.
    later: u64,
    /// Sheets and blocks that were stepped through, and those of them that are clean.
    stepped: u64,
    clean: u64,
    /// Blocks whose steps were tied to their sheets, with the actions of these and the branches that land.
    tied: u64,
    actions: u64,
    branches: u64,
    /// Answers that differ, and blocks that are not clean or not tied to their sheets.
    differences: u64,
    /// The smallest sheet that is answered differently, with its book and its room, and what differs.
    smallest: Option<(Lent, String)>,
    output: Vec<u8>,
}

/// What both sides get, but for the mode.
#[derive(Clone)]
struct Lent {
    sheet: Vec<u8>,
    book: Vec<u8>,
    room: usize,
}

impl Counts {
    /// A room that is far over what the block takes is cut, so that the output can be looked through. A block of another mode is
    /// the same bytes as in plain mode.
    fn compare(&mut self, question: Question) {
        let Question {
            sheet, book, room, ..
        } = question;
        let asked = room as usize;
        let theirs = MODES.map(|(_, _, mode)| oracle::pack::pack(&sheet, &book, mode, asked));
        let most = theirs[0].as_ref().map_or(3 * sheet.len(), Vec::len);
        let room = asked.min(most + GUARD);
        let lent = Lent { sheet, book, room };
        self.sheets += 1;
        if let Ok((_, edition)) = cut(&lent.sheet) {
            self.editions[usize::from(edition.number()) - 1] += 1;
        }
        self.compare_steps(&lent, None);
        for (column, ((name, ours, _), theirs)) in MODES.into_iter().zip(&theirs).enumerate() {
            self.answers[usize::from(number(theirs))][column] += 1;
            self.later += u64::from(action(theirs) > 0);
            if let Some(what) = self.difference(&lent, ours, theirs) {
                self.differs(&lent, format!("{name}: {what}"));
            }
        }
        if let Ok(block) = &theirs[0] {
            self.compare_steps(&lent, Some(block));
            match tie(&lent, block) {
                Ok((actions, branches)) => {
                    self.tied += 1;
                    self.actions += actions as u64;
                    self.branches += branches as u64;
                }
                Err(what) => self.differs(&lent, what),
            }
        }
    }

    /// Steps through a sheet's bytes, or through its block, by the C entry and by the oracle's stepper. A block must be clean.
    fn compare_steps(&mut self, lent: &Lent, block: Option<&[u8]>) {
        let (name, bytes) = block.map_or(("sheet", &lent.sheet[..]), |block| ("block", block));
        let ours = told_by(|value| raw::step(bytes, value));
        let stepped = steps::step(bytes);
        let theirs = told_of_steps(stepped);
        self.stepped += 1;
        self.clean += u64::from(stepped.is_ok());
        if ours != theirs {
            let what = format!("{}, not {}", text(ours), text(theirs));
            self.differs(lent, format!("stepping through the {name}: {what}"));
        } else if block.is_some() && stepped.is_err() {
            let what = format!("stepping through the block: {}, not clean", text(theirs));
            self.differs(lent, what);
        }
    }

    fn differs(&mut self, lent: &Lent, what: String) {
        let size = |lent: &Lent| lent.sheet.len() + lent.book.len();
        self.differences += 1;
        if self
            .smallest
            .as_ref()
            .is_none_or(|(least, _)| size(lent) < size(least))
        {
            self.smallest = Some((lent.clone(), what));
        }
    }

    fn difference(&mut self, lent: &Lent, mode: Mode, theirs: &Answer) -> Option<String> {
        self.output.clear();
        self.output.resize(lent.room + 2 * GUARD, FRESH);
        let out = &mut self.output[GUARD..GUARD + lent.room];
        let Mode {
            strict, contained, ..
        } = mode;
        let ours =
            told_by(|value| raw::pack(&lent.sheet, &lent.book, strict, contained, out, value));
        if ours != told_of(theirs) {
            return Some(format!("{}, not {}", text(ours), text(told_of(theirs))));
        }
        let block = theirs.as_deref().unwrap_or(&[]);
        let (before, rest) = self.output.split_at(GUARD);
        let (front, behind) = rest.split_at(block.len());
        if front != block {
            return Some("another block".to_string());
        }
        let kept = before.iter().chain(behind).all(|b| *b == FRESH);
        (!kept).then(|| "a byte changed that must keep its value".to_string())
    }
}

/// Ties the steps of a block to its sheet: how many actions and how many branches there are, or what is wrong. The C entry's steps
/// are those of the oracle's stepper (`compare_steps`).
fn tie(lent: &Lent, block: &[u8]) -> Result<(usize, usize), String> {
    let actions = oracle::pack::actions(&lent.sheet, &lent.book)
        .map_err(|_| "a block of a sheet that does not read whole".to_string())?;
    let stepped = steps::step(block);
    if stepped != Ok(actions + 1) {
        let what = text(told_of_steps(stepped));
        return Err(format!(
            "stepping through the block: {what}, where the sheet has {actions} actions"
        ));
    }
    let branches = steps::branches(block)
        .map_err(|place| format!("the branch at byte {place} lands where no step begins"))?;
    Ok((actions, branches))
}

/// Number, value and action number of an answer.
type Told = (u32, i64, i64);

/// By a C entry, which returns the number and fills a slice with the other two.
fn told_by(entry: impl FnOnce(&mut [u8]) -> u32) -> Told {
    let mut slice = [FRESH; VALUE_LEN];
    let number = entry(&mut slice);
    let (value, action) = slice.split_at(VALUE_LEN / 2);
    let i64_of = |bytes: &[u8]| i64::from_le_bytes(bytes.try_into().expect("8 bytes"));
    (number, i64_of(value), i64_of(action))
}

/// By the oracle.
fn told_of(answer: &Answer) -> Told {
    let number = u32::from(number(answer));
    (number, value(answer), action(answer) as i64)
}

/// By the oracle's stepper. Stepping is of no action.
fn told_of_steps(stepped: Stepped) -> Told {
    match stepped {
        Ok(steps) => (0, steps as i64, 0),
        Err(place) => (13, place as i64, 0),
    }
}

fn text((number, value, action): Told) -> String {
    format!("{number} {value} of action {action}")
}

fn main() -> ExitCode {
    let words: Vec<String> = std::env::args().skip(1).collect();
    let wanted = match words.first().map(|word| word.parse::<u64>()) {
        None => 1_000_000,
        Some(Ok(n)) => n,
        Some(Err(_)) => {
            eprintln!("usage: compare [SHEETS]");
            return ExitCode::from(2);
        }
    };
    let mut counts = Counts::default();
    for family in [
        Family::Limits,
        Family::Distances,
        Family::Small,
        Family::Books,
    ] {
        run(&mut counts, family, SEED, 0);
    }
    let mut seed = SEED;
    while counts.sheets < wanted {
        run(&mut counts, Family::Mixed, seed, 2_000);
        run(&mut counts, Family::Damaged, seed, 40);
        seed += 1;
    }
    println!("random families: seeds {SEED} to {}", seed - 1);
    print_answers(&counts.answers);
    println!(
        "each sheet was packed in every mode; {} answers give an action other than the first",
        counts.later
    );
    let [one, two, three] = counts.editions;
    println!(
        "{one} sheets have a good trailer of edition 1, {two} of edition 2, {three} of edition 3"
    );
    println!(
        "{} sheets and blocks stepped through, {} of them clean",
        counts.stepped, counts.clean
    );
    println!(
        "{} blocks tied to their sheets: {} actions, a step for each and one more; {} branches, each lands where a step begins",
        counts.tied, counts.actions, counts.branches
    );
    println!(
        "{} sheets, {} differences: answers that differ, or blocks that are not clean or not tied to their sheets",
        counts.sheets, counts.differences
    );
    let Some((Lent { sheet, book, room }, what)) = counts.smallest else {
        return ExitCode::SUCCESS;
    };
    println!("smallest, at room {room}: {what}\n{}", hex(&sheet));
    println!("its book\n{}", hex(&book));
    ExitCode::FAILURE
}

fn hex(bytes: &[u8]) -> String {
    let bytes: Vec<String> = bytes.iter().map(|b| format!("{b:02X}")).collect();
    bytes.join(" ")
}

/// A line for each number that was met.
fn print_answers(answers: &[[u64; MODES.len()]]) {
    let line = |first: &str, rest: [String; MODES.len()]| {
        println!(
            "{first:<8} {}",
            rest.map(|word| format!("{word:>9}")).join(" ")
        );
    };
    line("answer", MODES.map(|(name, ..)| name.to_string()));
    for (number, counts) in answers.iter().enumerate() {
        if counts.iter().any(|count| *count > 0) {
            line(&number.to_string(), counts.map(|count| count.to_string()));
        }
    }
}

fn run(counts: &mut Counts, family: Family, seed: u64, count: usize) {
    let before = counts.sheets;
    questions(family, seed, count, &mut |question| {
        counts.compare(question)
    });
    eprintln!("{:<9} {:>9} sheets", family.name(), counts.sheets - before);
}
