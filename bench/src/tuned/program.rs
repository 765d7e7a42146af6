//! A decoded table: a flat list of statements, their expressions as operations on slots.
use super::values::{Operator, Type};

pub const MOST_VARIABLES: usize = 32;
pub const MOST_NODES: usize = 512;

/// A slot for each variable, and behind them one for each node: a constant's holds its value, an operator's its last result. So an
/// operand is a slot, whatever it is.
pub type Slots = [i64; MOST_VARIABLES + MOST_NODES];

/// Slots that all hold 0, boxed, so that they are not copied where they are handed on.
pub fn zeros() -> Box<Slots> {
    Box::new([0; MOST_VARIABLES + MOST_NODES])
}

/// An operator of an expression: the slots it reads and writes, and the place of its two operands in the expression's record.
#[derive(Clone, Copy)]
pub struct Operation {
    pub operator: Operator,
    pub left: u16,
    pub right: u16,
    pub into: u16,
    pub place: u16,
}

/// An expression: its operations, as they are evaluated, and the slot that then holds its value.
#[derive(Clone, Copy)]
pub struct Expression {
    pub first: u16,
    pub count: u16,
    pub result: u16,
}

impl Expression {
    /// How many words its record has.
    #[inline(always)]
    pub fn words(&self) -> usize {
        2 * self.count as usize
    }
}

/// A place in the list of mentioned variables.
#[derive(Clone, Copy)]
pub struct Mentions {
    pub first: u16,
    pub count: u8,
}

#[derive(Clone, Copy)]
pub enum Statement {
    Skip,
    Assign { variable: u8, value: Expression },
    Sequence { first: u16, second: u16 },
    If { condition: Expression, then: u16, otherwise: u16, mentions: Mentions },
    Repeat { count: Expression, body: u16, mentions: Mentions },
}

/// A node; one that is part of an expression stands as a skip that nothing runs.
#[derive(Clone, Copy)]
pub struct Node {
    /// The mentioned variables, a bit each.
    pub mask: u32,
    pub statement: Statement,
}

/// An accepted table.
pub struct Program {
    pub variables: usize,
    /// The type of each variable; those behind the last stand for nothing.
    pub kinds: [Type; MOST_VARIABLES],
    pub nodes: Vec<Node>,
    pub operations: Vec<Operation>,
    pub mentioned: Vec<u8>,
    /// The constants in their slots.
    pub slots: Box<Slots>,
}

impl Program {
    pub fn root(&self) -> u16 {
        self.nodes.len() as u16 - 1
    }

    pub fn types(&self) -> &[Type] {
        &self.kinds[..self.variables]
    }

    #[inline(always)]
    pub fn kind(&self, variable: usize) -> &Type {
        &self.kinds[variable % MOST_VARIABLES]
    }

    /// How many words a record has before the root's entry.
    pub fn header(&self) -> usize {
        3 + 2 * self.variables
    }

    #[inline(always)]
    pub fn operations(&self, of: Expression) -> &[Operation] {
        &self.operations[of.first as usize..][..of.count as usize]
    }

    /// The variables of a snapshot, by rising number.
    #[inline(always)]
    pub fn mentioned(&self, of: Mentions) -> &[u8] {
        &self.mentioned[of.first as usize..][..of.count as usize]
    }

    /// The slots before a run: the inputs, if there is one for each variable and it is of its type.
    pub fn start(&self, inputs: &[i64]) -> Option<Box<Slots>> {
        let fit = inputs.len() == self.variables && self.types().iter().zip(inputs).all(|(kind, &word)| kind.holds(word));
        fit.then(|| {
            let mut slots = self.slots.clone();
            slots[..inputs.len()].copy_from_slice(inputs);
            slots
        })
    }
}
