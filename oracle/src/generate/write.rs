//! Writes sheets and books, right or wrong: nothing is checked here, so that faults can be written too.

use crate::sheet::{Edition, NAMED};

/// A body: label entries as given, and actions that are already bytes.
#[derive(Clone, Default)]
pub struct Body {
    entries: Vec<(u16, u16)>,
    count: u16,
    actions: Vec<u8>,
}

impl Body {
    pub fn new() -> Self {
        Self::default()
    }

    /// A label entry: number and action index.
    pub fn label(mut self, number: u16, index: u16) -> Self {
        self.entries.push((number, index));
        self
    }

    pub fn action(self, action: Vec<u8>) -> Self {
        self.times(1, action)
    }

    /// The same action so many times.
    pub fn times(mut self, n: u16, action: Vec<u8>) -> Self {
        self.count = self.count.checked_add(n).expect("a u16 count of actions");
        self.actions.extend(action.repeat(usize::from(n)));
        self
    }

    pub fn count(&self) -> u16 {
        self.count
    }

    pub fn bytes(&self) -> Vec<u8> {
        let mut bytes = u16_of(self.entries.len()).to_vec();
        for (number, index) in &self.entries {
            bytes.extend(number.to_le_bytes());
            bytes.extend(index.to_le_bytes());
        }
        bytes.extend(self.count.to_le_bytes());
        bytes.extend(&self.actions);
        bytes
    }
}

/// A note, a main body and the trailer that points back to it, in edition 1.
pub fn sheet(note: &[u8], main: &[u8]) -> Vec<u8> {
    sheet_in(Edition::One.number(), note, main)
}

/// The same in an edition, which need not be one of those that there are.
pub fn sheet_in(edition: u16, note: &[u8], main: &[u8]) -> Vec<u8> {
    let distance = u32::try_from(main.len()).expect("a u32 distance");
    [
        note,
        main,
        &distance.to_le_bytes(),
        &edition.to_le_bytes(),
        &[0x41, 0x31],
    ]
    .concat()
}

pub fn string(bytes: &[u8]) -> Vec<u8> {
    [&u16_of(bytes.len()), bytes].concat()
}

/// A string of edition 3 that is an entry of the book.
pub fn named(entry: u16) -> Vec<u8> {
    [NAMED.to_le_bytes(), entry.to_le_bytes()].concat()
}

/// A note, entries and the trailer that points back to the first of them.
pub fn book(note: &[u8], entries: &[Vec<u8>]) -> Vec<u8> {
    let count = u16::try_from(entries.len()).expect("a u16 count");
    let entries: Vec<Vec<u8>> = entries.iter().map(|entry| string(entry)).collect();
    let entries = entries.concat();
    let distance = u32::try_from(entries.len()).expect("a u32 distance");
    book_of(&[note, &entries].concat(), distance, count)
}

/// Any bytes and a trailer.
pub fn book_of(front: &[u8], distance: u32, count: u16) -> Vec<u8> {
    [
        front,
        &distance.to_le_bytes(),
        &count.to_le_bytes(),
        &[0x42, 0x31],
    ]
    .concat()
}

/// A u16 count, then the items.
pub fn counted(items: &[Vec<u8>]) -> Vec<u8> {
    [&u16_of(items.len())[..], &items.concat()].concat()
}

pub fn strings(items: &[&[u8]]) -> Vec<u8> {
    counted(&items.iter().map(|item| string(item)).collect::<Vec<_>>())
}

pub fn pop() -> Vec<u8> {
    vec![0x17]
}

pub fn call() -> Vec<u8> {
    vec![0x9E]
}

pub fn set_target(target: &[u8]) -> Vec<u8> {
    [vec![0x8B], string(target)].concat()
}

pub fn jump(label: u16) -> Vec<u8> {
    branch(0x99, label)
}

/// 99 Jump or 9D If.
pub fn branch(opcode: u8, label: u16) -> Vec<u8> {
    [&[opcode][..], &label.to_le_bytes()].concat()
}

pub fn push(values: &[Vec<u8>]) -> Vec<u8> {
    [vec![0x96], counted(values)].concat()
}

pub fn with(body: &Body) -> Vec<u8> {
    [vec![0x94], body.bytes()].concat()
}

pub fn define_function(name: &[u8], params: &[&[u8]], body: &Body) -> Vec<u8> {
    [vec![0x9B], string(name), strings(params), body.bytes()].concat()
}

/// `params` are registers and names.
pub fn define_function_2(
    name: &[u8],
    params: &[(u8, &[u8])],
    registers: u8,
    flags: u16,
    body: &Body,
) -> Vec<u8> {
    let params: Vec<Vec<u8>> = params
        .iter()
        .map(|(register, name)| [vec![*register], string(name)].concat())
        .collect();
    [
        vec![0x8E],
        string(name),
        counted(&params),
        vec![registers],
        flags.to_le_bytes().to_vec(),
        body.bytes(),
    ]
    .concat()
}

/// A Try's catch: by name or by register, and its body.
pub enum Catch<'a> {
    Name(&'a [u8], &'a Body),
    Register(u8, &'a Body),
}

pub fn try_(body: &Body, catch: Option<Catch>, finally: Option<&Body>) -> Vec<u8> {
    let (shape, target, catch) = match catch {
        None => (0, vec![], None),
        Some(Catch::Name(name, body)) => (1, string(name), Some(body)),
        Some(Catch::Register(register, body)) => (5, vec![register], Some(body)),
    };
    let shape = shape + if finally.is_some() { 2 } else { 0 };
    let bodies = [Some(body), catch, finally];
    let bodies: Vec<u8> = bodies.into_iter().flatten().flat_map(Body::bytes).collect();
    [vec![0x8F, shape], target, bodies].concat()
}

fn u16_of(n: usize) -> [u8; 2] {
    u16::try_from(n).expect("a u16 count").to_le_bytes()
}
