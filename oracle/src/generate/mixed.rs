//! Random sheets of all editions that read whole, but for a depth now and then: all opcodes, nested bodies, labels in odd places;
//! and books, of which those of edition 3 name entries.

use super::books::{any_book, named_at_random};
use super::random::Random;
use super::write::{
    Body, Catch, branch, counted, define_function, define_function_2, push, set_target, sheet_in,
    string, try_, with,
};
use crate::sheet::Edition;

/// Opcodes without fields.
const BARE: &[(u8, u8)] = &[
    (0x00, 0x00),
    (0x04, 0x15),
    (0x17, 0x18),
    (0x1C, 0x1D),
    (0x20, 0x2C),
    (0x30, 0x37),
    (0x3A, 0x55),
    (0x60, 0x69),
    (0x9E, 0x9E),
];

/// Opcodes with fields and without a body, branches aside.
const FLAT: &[u8] = &[
    0x81, 0x83, 0x87, 0x88, 0x8A, 0x8B, 0x8C, 0x8D, 0x96, 0x96, 0x96, 0x96, 0x9A, 0x9F,
];

/// Doubles whose bits an encoder could lose: signed zeros, infinities, quiet and signalling NaNs with payloads.
const DOUBLES: &[u64] = &[
    0,
    1 << 63,
    0x3FF0_0000_0000_0000,
    0x7FF0_0000_0000_0000,
    0xFFF0_0000_0000_0000,
    0x7FF0_0000_0000_0001,
    0xFFF0_0000_DEAD_BEEF,
    0x7FF8_0000_0000_0000,
    0x7FF8_1234_5678_9ABC,
    0xFFFF_FFFF_FFFF_FFFF,
    0x0000_0000_0000_0001,
    0x0123_4567_89AB_CDEF,
];

/// Editions, and the bound of the label numbers in a sheet: the edition's, or in editions 2 and 3 that of edition 1.
const BOUNDS: &[(Edition, u16)] = &[
    (Edition::One, Edition::One.labels()),
    (Edition::One, Edition::One.labels()),
    (Edition::Two, Edition::Two.labels()),
    (Edition::Two, Edition::Two.labels()),
    (Edition::Two, Edition::One.labels()),
    (Edition::Three, Edition::Three.labels()),
    (Edition::Three, Edition::Three.labels()),
    (Edition::Three, Edition::One.labels()),
];

/// A random sheet of about as many actions, in all its bodies, as `actions`, and a book.
pub fn random_sheet(random: &mut Random, actions: usize) -> (Vec<u8>, Vec<u8>) {
    let (edition, bound) = random.pick(BOUNDS);
    let labels = 1 + random.below(5);
    let mut labels: Vec<u16> = (0..labels).map(|_| label_number(random, bound)).collect();
    labels.sort_unstable();
    labels.dedup();
    let deep = if random.once_in(8) {
        13 + random.below(5)
    } else {
        0
    };
    let mut maker = Maker {
        random,
        bound,
        labels,
        left: actions,
        deep,
        reached: 0,
    };
    let main = maker.body(1);
    let note = maker.note();
    let sheet = sheet_in(edition.number(), &note, &main.bytes());
    let named = edition.has_book().then(|| named_at_random(&sheet, random));
    named.flatten().unwrap_or_else(|| {
        let book = any_book(edition, random);
        (sheet, book)
    })
}

/// A label number under the bound: near 0, the last, the first that edition 1 does not have, any.
fn label_number(random: &mut Random, bound: u16) -> u16 {
    match random.below(8) {
        0 | 1 => random.below(3) as u16,
        2 => bound - 1,
        3 => Edition::One.labels().min(bound - 1),
        _ => random.below(usize::from(bound)) as u16,
    }
}

struct Maker<'a> {
    random: &'a mut Random,
    /// The sheet's label numbers are under this.
    bound: u16,
    /// The sheet's label numbers, rising; few, so that bodies share them.
    labels: Vec<u16>,
    /// How many actions may still be made.
    left: usize,
    /// One body of each depth above this one has another inside.
    deep: usize,
    /// The greatest depth of a body so far.
    reached: usize,
}

impl Maker<'_> {
    fn note(&mut self) -> Vec<u8> {
        if self.random.once_in(2) {
            return vec![];
        }
        let length = self.random.below(20);
        (0..length).map(|_| self.random.u8()).collect()
    }

    fn body(&mut self, depth: usize) -> Body {
        let mut body = Body::new();
        let goes_on = depth < self.deep && depth > self.reached;
        self.reached = self.reached.max(depth);
        let most = match depth {
            1 => self.left,
            _ => self.random.below(self.left.min(12) + 1),
        };
        let deepens_at = self.random.below(most + 1);
        for i in 0..=most {
            if goes_on && i == deepens_at {
                body = body.action(self.owner(depth));
            }
            if i < most && self.left > 0 {
                self.left -= 1;
                body = body.action(self.action(depth));
            }
        }
        self.labelled(body)
    }

    /// Gives a body some of the labels: at an action, at the end, or past it.
    fn labelled(&mut self, mut body: Body) -> Body {
        for number in self.labels.clone() {
            if self.random.once_in(2) {
                let index = match self.random.below(8) {
                    0 => body.count(),
                    1 => body.count() + 1,
                    2 => self.random.u16(),
                    _ => self.random.below(usize::from(body.count()) + 1) as u16,
                };
                body = body.label(number, index);
            }
        }
        body
    }

    fn action(&mut self, depth: usize) -> Vec<u8> {
        match self.random.below(10) {
            0..=2 => {
                let (first, last) = self.random.pick(BARE);
                vec![first + self.random.below(usize::from(last - first) + 1) as u8]
            }
            3 | 4 => self.branch(),
            5 | 6 if depth < 16 => self.owner(depth),
            _ => self.flat(),
        }
    }

    /// To one of the labels, or to a number that most likely nobody records.
    fn branch(&mut self) -> Vec<u8> {
        let opcode = self.random.pick(&[0x99, 0x9D]);
        let label = if self.random.once_in(6) {
            label_number(self.random, self.bound)
        } else {
            self.random.pick(&self.labels)
        };
        branch(opcode, label)
    }

    /// An action with bodies, in a body at this depth.
    fn owner(&mut self, depth: usize) -> Vec<u8> {
        match self.random.below(6) {
            0 => with(&self.body(depth + 1)),
            1 => {
                let (name, params) = (self.text(), self.texts());
                let params: Vec<&[u8]> = params.iter().map(Vec::as_slice).collect();
                define_function(&name, &params, &self.body(depth + 1))
            }
            2 => {
                let (name, params) = (self.text(), self.texts());
                let params: Vec<(u8, &[u8])> = params
                    .iter()
                    .map(|param| (self.random.u8(), param.as_slice()))
                    .collect();
                let (registers, flags) = (self.random.u8(), self.random.u16() >> 7);
                define_function_2(&name, &params, registers, flags, &self.body(depth + 1))
            }
            _ => self.try_(depth),
        }
    }

    fn try_(&mut self, depth: usize) -> Vec<u8> {
        let mut bodies = [(); 3].map(|()| self.body(depth + 1));
        bodies.rotate_right(self.random.below(3));
        let name = self.text();
        let catch = match self.random.below(3) {
            0 => None,
            1 => Some(Catch::Name(&name, &bodies[1])),
            _ => Some(Catch::Register(self.random.u8(), &bodies[1])),
        };
        let finally = self.random.once_in(2).then_some(&bodies[2]);
        try_(&bodies[0], catch, finally)
    }

    fn flat(&mut self) -> Vec<u8> {
        let opcode = self.random.pick(FLAT);
        let fields = match opcode {
            0x81 => self.random.u16().to_le_bytes().to_vec(),
            0x87 | 0x8D => vec![self.random.u8()],
            0x8A => vec![self.random.u8(), self.random.u8(), self.random.u8()],
            0x83 => [string(&self.text()), string(&self.text())].concat(),
            0x8B => return set_target(&self.text()),
            0x8C => string(&self.text()),
            0x88 => {
                let strings: Vec<Vec<u8>> = self.texts().iter().map(|text| string(text)).collect();
                counted(&strings)
            }
            0x96 => {
                let values = self.random.below(5);
                let values: Vec<Vec<u8>> = (0..values).map(|_| self.push_value()).collect();
                return push(&values);
            }
            0x9A => vec![self.bit(), self.bit(), self.random.u8()],
            _ => {
                let bias = self.random.u16();
                let bias = self.random.pick(&[0, 1, 255, 256, bias]).to_le_bytes();
                vec![bias[0], bias[1], self.bit()]
            }
        };
        [vec![opcode], fields].concat()
    }

    fn push_value(&mut self) -> Vec<u8> {
        let kind = self.random.pick(&[0, 2, 3, 4, 5, 6, 6, 7, 8, 8]);
        let fields = match kind {
            0 => string(&self.text()),
            4 => vec![self.random.u8()],
            5 => vec![self.bit()],
            6 => {
                let any = self.random.u64();
                let bits = self.random.pick(DOUBLES);
                let bits = if self.random.once_in(3) { any } else { bits };
                bits.to_le_bytes().to_vec()
            }
            7 => {
                let any = self.random.u64() as u32;
                let word = self
                    .random
                    .pick(&[0, 1, 0x7FFF_FFFF, 0x8000_0000, u32::MAX, any]);
                word.to_le_bytes().to_vec()
            }
            8 => {
                let any = self.random.u16();
                let constant = self.random.pick(&[0, 1, 255, 256, 257, u16::MAX, any]);
                constant.to_le_bytes().to_vec()
            }
            _ => vec![],
        };
        [vec![kind], fields].concat()
    }

    fn bit(&mut self) -> u8 {
        self.random.below(2) as u8
    }

    fn texts(&mut self) -> Vec<Vec<u8>> {
        let count = self.random.below(4);
        (0..count).map(|_| self.text()).collect()
    }

    /// Mostly letters; sometimes UTF-8 of several bytes, or bytes outside UTF-8.
    fn text(&mut self) -> Vec<u8> {
        let length = self.random.below(6);
        match self.random.below(8) {
            0 => "\u{e9}\u{4e2d}\u{1f600}".as_bytes().to_vec(),
            1 => (0..length).map(|_| self.random.u8().max(1)).collect(),
            _ => (0..length)
                .map(|_| b'a' + self.random.below(26) as u8)
                .collect(),
        }
    }
}
