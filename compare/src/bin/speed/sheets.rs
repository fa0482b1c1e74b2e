//! The sheets that are timed, made by rule.

use oracle::sheet::{Edition, LONGEST_SHEET};

/// A sheet of edition 1 without a note.
fn sheet(main: &[u8]) -> Vec<u8> {
    sheet_in(Edition::One, main)
}

/// The same in an edition.
fn sheet_in(edition: Edition, main: &[u8]) -> Vec<u8> {
    let mut bytes = main.to_vec();
    bytes.extend((main.len() as u32).to_le_bytes());
    bytes.extend(edition.number().to_le_bytes());
    bytes.extend([0x41, 0x31]);
    bytes
}

fn word(n: usize) -> [u8; 2] {
    u16::try_from(n).expect("a u16").to_le_bytes()
}

fn string(text: &str) -> Vec<u8> {
    let mut bytes = word(text.len()).to_vec();
    bytes.extend(text.as_bytes());
    bytes
}

/// A body of actions, each already bytes, with label entries (label, index).
fn body(labels: &[(usize, usize)], actions: &[Vec<u8>]) -> Vec<u8> {
    let mut bytes = word(labels.len()).to_vec();
    for (label, index) in labels {
        bytes.extend(word(*label));
        bytes.extend(word(*index));
    }
    bytes.extend(word(actions.len()));
    for action in actions {
        bytes.extend(action);
    }
    bytes
}

fn push(values: &[Vec<u8>]) -> Vec<u8> {
    let mut bytes = vec![0x96];
    bytes.extend(word(values.len()));
    for value in values {
        bytes.extend(value);
    }
    bytes
}

fn text_value(text: &str) -> Vec<u8> {
    [vec![0], string(text)].concat()
}

fn constant(n: usize) -> Vec<u8> {
    [vec![8], word(n).to_vec()].concat()
}

fn integer(n: i32) -> Vec<u8> {
    [vec![7], n.to_le_bytes().to_vec()].concat()
}

fn register(n: u8) -> Vec<u8> {
    vec![4, n]
}

fn branch(opcode: u8, label: usize) -> Vec<u8> {
    [vec![opcode], word(label).to_vec()].concat()
}

/// A handler of a keying desk's screen: a function that tests what was typed and sets members, with a branch either way.
/// Its labels are two numbers of its own; from the 512th on none are left, and it has If to a label that is not met, which strict
/// mode refuses.
fn handler(n: usize) -> Vec<u8> {
    let label = (n * 2).min(1_022);
    let labels = [(label, 12), (label + 1, 15)];
    let actions = vec![
        push(&[register(1), constant(n % 300)]),
        vec![0x4E], // GetMember
        push(&[integer(n as i32)]),
        vec![0x49], // Equals2
        vec![0x12], // Not
        branch(0x9D, label),
        push(&[register(1), constant(n % 40), text_value("postcode")]),
        vec![0x4F], // SetMember
        push(&[integer(1), constant(3)]),
        vec![0x3D], // CallFunction
        vec![0x17], // Pop
        branch(0x99, label + 1),
        push(&[text_value("reject"), register(2), constant(270)]),
        vec![0x52], // CallMethod
        vec![0x17],
        push(&[vec![2], vec![5, 1]]),
        vec![0x3E], // Return
    ];
    let mut bytes = vec![0x8E];
    bytes.extend(string(&format!("onKey{n}")));
    bytes.extend(word(2));
    bytes.extend([vec![1], string("field")].concat());
    bytes.extend([vec![2], string("desk")].concat());
    bytes.push(4);
    bytes.extend(word(0x0029));
    bytes.extend(body(if n < 511 { &labels } else { &[] }, &actions));
    bytes
}

/// A screen of so many handlers, with a constant pool.
pub fn screen(handlers: usize) -> Vec<u8> {
    let mut pool = vec![0x88];
    pool.extend(word(300));
    for i in 0..300 {
        pool.extend(string(&format!("name{i}")));
    }
    let mut actions = vec![pool];
    actions.extend((0..handlers).map(handler));
    sheet(&body(&[], &actions))
}

/// One Jump to itself: P6.
pub fn tiny(edition: Edition) -> Vec<u8> {
    sheet_in(edition, &body(&[(0, 0)], &[branch(0x99, 0)]))
}

/// Long strings.
pub fn strings() -> Vec<u8> {
    let text = "an address as it was read, with a doubtful postcode ".repeat(40);
    let actions: Vec<Vec<u8>> = (0..100)
        .map(|_| push(&[text_value(&text), text_value(&text)]))
        .collect();
    sheet(&body(&[], &actions))
}

/// 14 bodies of 65,000 actions, each with 1,024 entries of distinct indices.
pub fn labels() -> Vec<u8> {
    let pops = vec![vec![0x17]; 65_000];
    let entries: Vec<(usize, usize)> = (0..1_024).map(|i| (i, (i * 61) % 65_000)).collect();
    let inner = [vec![0x94], body(&entries, &pops)].concat();
    sheet(&body(&[], &vec![inner; 14]))
}

/// A generated form in edition 2: one body with as many fields as there are labels, each with a test and a branch over the next
/// action to a label of its own.
pub fn form() -> Vec<u8> {
    let mut entries = vec![];
    let mut actions = vec![];
    for label in 0..usize::from(Edition::Two.labels()) {
        actions.extend([
            push(&[register(1)]),
            branch(0x9D, label),
            vec![0x50], // Increment
        ]);
        entries.push((label, actions.len()));
    }
    sheet_in(Edition::Two, &body(&entries, &actions))
}

/// Bodies to depth 16, and in the innermost some actions.
pub fn deep() -> Vec<u8> {
    let actions: Vec<Vec<u8>> = (0..200).map(|i| push(&[integer(i), constant(7)])).collect();
    let mut main = body(&[(0, 0), (1, 200)], &actions);
    for _ in 1..16 {
        main = body(&[], &[[vec![0x94], main].concat(), branch(0x9D, 1)]);
    }
    sheet(&main)
}

/// How many strings the longest sheet that names entries has, and how many entries the largest book.
pub const NAMES: usize = 200_000;
pub const ENTRIES: usize = 65_535;

/// The text of an entry: 8 to 16 letters and digits.
fn entry(n: usize) -> String {
    format!("{}{n:05}", &"field of a form"[..3 + n % 9])
}

/// A book with so many entries.
pub fn book(count: usize) -> Vec<u8> {
    let entries: Vec<u8> = (0..count).flat_map(|n| string(&entry(n))).collect();
    let mut bytes = entries.clone();
    bytes.extend((entries.len() as u32).to_le_bytes());
    bytes.extend(word(count));
    bytes.extend([0x42, 0x31]);
    bytes
}

/// Strings as values of Push, a thousand each, in a sheet: as many of them as it can hold.
fn pushed(edition: Edition, values: impl Iterator<Item = Vec<u8>>) -> Vec<u8> {
    let mut room = LONGEST_SHEET - 1_000;
    let values: Vec<Vec<u8>> = values
        .take_while(|value| {
            let taken = room >= value.len();
            room = room.saturating_sub(value.len());
            taken
        })
        .collect();
    let pushes: Vec<Vec<u8>> = values.chunks(1_000).map(push).collect();
    sheet_in(edition, &body(&[], &pushes))
}

/// The entry of the n-th string, of so many entries: far from the one before, or the next one.
pub type Order = fn(usize, usize) -> usize;

pub const SCATTERED: Order = |n, entries| n * 40_507 % entries;
pub const IN_TURN: Order = |n, entries| n % entries;

/// A sheet of edition 3 with so many strings, each one of so many entries.
pub fn named(order: Order, names: usize, entries: usize) -> Vec<u8> {
    let value = |n| [&[0, 0xFF, 0xFF][..], &word(order(n, entries))].concat();
    pushed(Edition::Three, (0..names).map(value))
}

/// The strings of the longest such sheet spelt in a sheet of edition 2, as far as it holds them.
pub fn spelt(order: Order) -> Vec<u8> {
    let value = |n| text_value(&entry(order(n, ENTRIES)));
    pushed(Edition::Two, (0..NAMES).map(value))
}
