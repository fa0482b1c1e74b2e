//! Where branches and label records stand in a block, reckoned from document 01's lengths over the tree of actions, in which
//! function bodies, and which of these lengths is too long first. What a mode refuses is judged by it, since the encoder knows no
//! function around a label and does not tell which branches it left alone; so is which action is refused, which it does not tell.

use crate::answer::{Mode, Refusal};
use crate::internal::as2_pcode::{Action, Actions, CatchTarget, PushValue};
use std::collections::HashMap;

/// An opcode from 80 on and its payload length.
const HEADER: usize = 3;
const OPERAND: usize = 2;
/// Of a payload, and of a body inside an action.
const LONGEST: usize = 65_535;

/// Where a branch's operand or a label's record stands.
#[derive(Clone, Copy, Default)]
struct Spot {
    /// How many bytes are written before it.
    position: usize,
    /// The function body it is in: 0 is the main block, the others are counted as they begin.
    function: usize,
}

/// A branch: its operand, its label, and the number of the action.
struct Branch<'a> {
    operand: Spot,
    label: &'a str,
    action: usize,
}

/// The length of a string by how it stands in the tree.
pub type Length = fn(&str) -> usize;

/// What a walk in writing order has met. That is sheet order too: an action comes before those in its bodies.
pub struct Walk<'a> {
    length: Length,
    /// Where it stands.
    now: Spot,
    /// How many actions have begun, in all bodies.
    actions: usize,
    /// How many function bodies have begun, the main block left out.
    functions: usize,
    /// The first payload or body that is too long.
    too_long: Option<Refusal>,
    branches: Vec<Branch<'a>>,
    /// The last record of each label.
    records: HashMap<&'a str, Spot>,
}

impl<'a> Walk<'a> {
    /// Walks over a main body and the End behind it.
    pub fn over(main: &'a Actions, length: Length) -> Self {
        let mut walk = Self {
            length,
            now: Spot::default(),
            actions: 0,
            functions: 0,
            too_long: None,
            branches: vec![],
            records: HashMap::new(),
        };
        walk.body(main);
        walk.now.position += 1;
        walk
    }

    /// The block's length.
    pub fn wrote(&self) -> usize {
        self.now.position
    }

    /// How many actions there are, in all bodies.
    pub fn actions(&self) -> usize {
        self.actions
    }

    /// The first length that is too long. Then the first branch that is too far; in strict mode, that has no record; in contained
    /// mode, that leaves its function body.
    pub fn judge(&self, mode: Mode) -> Result<(), Refusal> {
        if let Some(refusal) = self.too_long {
            return Err(refusal);
        }
        for branch in &self.branches {
            let (operand, action) = (&branch.operand, branch.action);
            let Some(record) = self.records.get(branch.label) else {
                if mode.strict {
                    return Err(Refusal::NeverRecorded(operand.position, action));
                }
                continue;
            };
            if mode.contained && record.function != operand.function {
                return Err(Refusal::StrayBranch(operand.position, action));
            }
            let distance = distance(operand, record);
            if i16::try_from(distance).is_err() {
                return Err(Refusal::JumpOffsetOverflow(distance, action));
            }
        }
        Ok(())
    }

    /// Holds the walk against a block of the encoder: its length, and where each branch stands with which distance.
    pub fn assert_wrote(&self, block: &[u8]) {
        assert_eq!(self.wrote(), block.len());
        for Branch { operand, label, .. } in &self.branches {
            let record = self.records.get(label);
            let distance = record.map_or(0, |record| distance(operand, record));
            let distance = i16::try_from(distance).expect("a distance that the encoder took");
            let (header, rest) = block[operand.position - HEADER..].split_at(HEADER);
            assert!(
                matches!(header, [0x99 | 0x9D, 2, 0]),
                "no branch {header:?}"
            );
            assert_eq!(rest[..OPERAND], distance.to_le_bytes());
        }
    }

    /// Entries at an index are recorded before its action, those at the count after the last; none beyond it.
    fn body(&mut self, body: &'a Actions) {
        let entries = body.label_positions.iter();
        let mut entries: Vec<(usize, &str)> =
            entries.map(|(label, at)| (*at, &label[..])).collect();
        entries.sort_unstable();
        let mut entries = entries.into_iter().peekable();
        for index in 0..=body.actions.len() {
            while let Some((_, label)) = entries.next_if(|(at, _)| *at == index) {
                self.records.insert(label, self.now);
            }
            if let Some(action) = body.actions.get(index) {
                self.action(action);
            }
        }
    }

    /// A payload is tested before the bodies; bodies, of which only Try has several, after all of them.
    fn action(&mut self, action: &'a Action) {
        let number = self.actions;
        self.actions += 1;
        if let Action::Jump(label) | Action::If(label) = action {
            let mut operand = self.now;
            operand.position += HEADER;
            self.branches.push(Branch {
                operand,
                label,
                action: number,
            });
        }
        let payload = payload(action, self.length);
        self.test(payload.unwrap_or(0), number, Refusal::ActionLenOverflow);
        self.now.position += payload.map_or(1, |length| HEADER + length);
        let around = self.now.function;
        if let Action::DefineFunction { .. } | Action::DefineFunction2 { .. } = action {
            self.functions += 1;
            self.now.function = self.functions;
        }
        let mut lengths = vec![];
        for body in bodies(action) {
            let start = self.now.position;
            self.body(body);
            lengths.push(self.now.position - start);
        }
        for length in lengths {
            self.test(length, number, Refusal::BlockLenOverflow);
        }
        self.now.function = around;
    }

    /// Keeps the first length that is too long, with the action's number.
    fn test(&mut self, length: usize, action: usize, refusal: fn(usize, usize) -> Refusal) {
        if length > LONGEST {
            self.too_long.get_or_insert(refusal(length, action));
        }
    }
}

/// From behind the operand to the record.
fn distance(operand: &Spot, record: &Spot) -> isize {
    record.position as isize - (operand.position + OPERAND) as isize
}

/// The payload's length, bodies excluded; none for an opcode under 80.
fn payload(action: &Action, length: Length) -> Option<usize> {
    Some(match action {
        Action::GetUrl { url, target } => length(url) + length(target) + 2,
        Action::SetTarget(string) | Action::GotoLabel(string) => length(string) + 1,
        Action::ConstantPool(strings) => 2 + sum(strings, |s| length(s) + 1),
        Action::DefineFunction { name, params, .. } => {
            length(name) + 5 + sum(params, |p| length(p) + 1)
        }
        Action::DefineFunction2 { name, params, .. } => {
            length(name) + 8 + sum(params, |p| length(&p.name) + 2)
        }
        Action::Try {
            catch_body: Some((CatchTarget::Variable(name), _)),
            ..
        } => 7 + length(name) + 1,
        Action::Try { .. } => 7 + 1,
        Action::With(_) | Action::Jump(_) | Action::If(_) | Action::GotoFrame(_) => 2,
        Action::WaitForFrame { .. } => 3,
        Action::StoreRegister(_) | Action::WaitForFrame2 { .. } | Action::GetUrl2 { .. } => 1,
        Action::GotoFrame2 { scene_bias: 0, .. } => 1,
        Action::GotoFrame2 { .. } => 3,
        Action::Call => 0,
        Action::Push(values) => sum(values, |value| pushed(value, length)),
        _ => return None,
    })
}

/// The kind byte and what follows it.
fn pushed(value: &PushValue, length: Length) -> usize {
    1 + match value {
        PushValue::String(string) => length(string) + 1,
        PushValue::Null | PushValue::Undefined => 0,
        PushValue::Register(_) | PushValue::False | PushValue::True => 1,
        PushValue::Float(_) => 8,
        PushValue::Integer(_) => 4,
        PushValue::Constant(..256) => 1,
        PushValue::Constant(_) => 2,
    }
}

fn sum<T>(items: &[T], length: impl Fn(&T) -> usize) -> usize {
    items.iter().map(length).sum()
}

/// An action's bodies, in writing order.
fn bodies(action: &Action) -> Vec<&Actions> {
    match action {
        Action::With(body)
        | Action::DefineFunction { actions: body, .. }
        | Action::DefineFunction2 { actions: body, .. } => vec![body],
        Action::Try {
            try_body,
            catch_body,
            finally_body,
        } => {
            let catch_body = catch_body.as_ref().map(|(_, body)| body);
            let bodies = [Some(try_body), catch_body, finally_body.as_ref()];
            bodies.into_iter().flatten().collect()
        }
        _ => vec![],
    }
}
