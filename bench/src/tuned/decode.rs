//! The check of a table, and its decoding in the same passes (document 01, "Program table").
use super::answer::Refusal;
use super::program::{zeros, Expression, Mentions, Node, Operation, Program, Statement, MOST_NODES, MOST_VARIABLES};
use super::values::{Operator, NUMBER, TRUTH};

const MARK: [u8; 4] = [0x49, 0x4D, 0x50, 0x54];
const DEEPEST: u8 = 24;

/// What a node is: an expression of a type, or a statement; no node is `Unknown`.
#[derive(Clone, Copy, Default, PartialEq, Eq)]
enum Sort {
    #[default]
    Unknown,
    Number,
    Truth,
    Statement,
}

/// A node's eight bytes.
#[derive(Clone, Copy)]
struct Raw {
    kind: u8,
    tag: u8,
    children: [u16; 3],
}

impl Raw {
    fn used(&self) -> &[u16] {
        let count = match self.kind {
            17 => 1,
            4..=8 | 18 | 20 => 2,
            19 => 3,
            _ => 0,
        };
        &self.children[..count]
    }

    fn constant(&self) -> i64 {
        (self.children[1] as u32 | (self.children[2] as u32) << 16) as i32 as i64
    }

    /// Whether tag and child fields that its kind does not use are zero, and the tag is one that it may have.
    fn fields_right(&self, variables: usize) -> bool {
        let tag_right = match self.kind {
            2 => self.tag <= 1,
            3 | 17 => (self.tag as usize) < variables,
            1 | 4..=8 | 16 | 18..=20 => self.tag == 0,
            _ => false,
        };
        let free = if self.kind == 1 { &self.children[..1] } else { &self.children[self.used().len()..] };
        tag_right && free.iter().all(|&field| field == 0)
    }

    fn sort(&self, types: &[u8]) -> Sort {
        match self.kind {
            1 | 4..=6 => Sort::Number,
            2 | 7 | 8 => Sort::Truth,
            3 => sort_of(types[self.tag as usize]),
            _ => Sort::Statement,
        }
    }

    /// The sorts that its children must have.
    fn wanted(&self, types: &[u8]) -> [Sort; 3] {
        match self.kind {
            17 => [sort_of(types[self.tag as usize]), Sort::Unknown, Sort::Unknown],
            18 => [Sort::Statement, Sort::Statement, Sort::Unknown],
            19 => [Sort::Truth, Sort::Statement, Sort::Statement],
            20 => [Sort::Number, Sort::Statement, Sort::Unknown],
            _ => [Sort::Number, Sort::Number, Sort::Unknown],
        }
    }
}

fn sort_of(kind: u8) -> Sort {
    if kind == 0 {
        Sort::Number
    } else {
        Sort::Truth
    }
}

/// What is known of a node.
#[derive(Clone, Copy, Default)]
struct Known {
    /// The mentioned variables.
    mask: u32,
    /// How many operators it has, if it is an expression.
    operators: u16,
    uses: u16,
    depth: u8,
    sort: Sort,
}

/// A table being decoded.
struct Decoder<'t> {
    types: &'t [u8],
    raw: Vec<Raw>,
    known: Vec<Known>,
    program: Program,
}

/// The program of a table, or its refusal 1 to 5.
pub fn decode(bytes: &[u8]) -> Result<Program, Refusal> {
    let (variables, count) = check_header(bytes)?;
    let types = &bytes[16..16 + variables];
    if types.iter().any(|&kind| kind > 1) {
        return Err(Refusal::Type);
    }
    let mut decoder = Decoder {
        types,
        raw: bytes[16 + variables..].chunks_exact(8).map(raw).collect(),
        known: vec![Known::default(); count],
        program: Program {
            variables,
            kinds: std::array::from_fn(|v| if types.get(v) == Some(&1) { TRUTH } else { NUMBER }),
            nodes: Vec::with_capacity(count),
            operations: Vec::with_capacity(count),
            mentioned: Vec::with_capacity(4 * count),
            slots: zeros(),
        },
    };
    decoder.check_nodes()?;
    decoder.check_depths()?;
    (0..count).for_each(|number| decoder.node(number));
    Ok(decoder.program)
}

fn short(bytes: &[u8], at: usize) -> usize {
    u16::from_le_bytes([bytes[at], bytes[at + 1]]) as usize
}

fn raw(bytes: &[u8]) -> Raw {
    let field = |at| short(bytes, at) as u16;
    Raw { kind: bytes[0], tag: bytes[1], children: [field(2), field(4), field(6)] }
}

/// The numbers of variables and nodes, or refusal 1.
fn check_header(bytes: &[u8]) -> Result<(usize, usize), Refusal> {
    if bytes.len() < 16 || bytes[..4] != MARK {
        return Err(Refusal::Header);
    }
    let (variables, nodes) = (short(bytes, 4), short(bytes, 6));
    let total = 16 + variables + 8 * nodes;
    let right = (1..=MOST_VARIABLES).contains(&variables)
        && (1..=MOST_NODES).contains(&nodes)
        && [short(bytes, 8), short(bytes, 10), short(bytes, 12), short(bytes, 14)] == [16, 16 + variables, total, 0]
        && bytes.len() == total;
    right.then_some((variables, nodes)).ok_or(Refusal::Header)
}

impl Decoder<'_> {
    /// Refusals 3 and 4, all of 3 first; masks and operators come on the way, since children stand below.
    fn check_nodes(&mut self) -> Result<(), Refusal> {
        for (number, node) in self.raw.iter().enumerate() {
            if !node.fields_right(self.types.len()) {
                return Err(Refusal::Node);
            }
            let mut own = Known { sort: node.sort(self.types), operators: matches!(node.kind, 4..=8) as u16, ..Known::default() };
            if matches!(node.kind, 3 | 17) {
                own.mask = 1 << node.tag;
            }
            for (&child, wanted) in node.used().iter().zip(node.wanted(self.types)) {
                // what stands at the node itself and above is not known yet
                let child = self.known.get_mut(child as usize).filter(|child| child.sort == wanted).ok_or(Refusal::Node)?;
                child.uses += 1;
                own.mask |= child.mask;
                own.operators += child.operators;
            }
            self.known[number] = own;
        }
        let (root, others) = self.known.split_last().ok_or(Refusal::Node)?;
        if root.sort != Sort::Statement {
            return Err(Refusal::Node);
        }
        others.iter().all(|node| node.uses == 1).then_some(()).ok_or(Refusal::Use)
    }

    /// Refusal 5.
    fn check_depths(&mut self) -> Result<(), Refusal> {
        for (number, node) in self.raw.iter().enumerate().rev() {
            // the root's is 0 here
            let depth = self.known[number].depth + 1;
            if depth > DEEPEST {
                return Err(Refusal::Depth);
            }
            node.used().iter().for_each(|&child| self.known[child as usize].depth = depth);
        }
        Ok(())
    }

    /// Lay out a node.
    fn node(&mut self, number: usize) {
        let node = self.raw[number];
        let [a, b, c] = node.children;
        let statement = match node.kind {
            17 => Statement::Assign { variable: node.tag, value: self.expression(a) },
            18 => Statement::Sequence { first: a, second: b },
            19 => Statement::If { condition: self.expression(a), then: b, otherwise: c, mentions: self.mentions(number) },
            20 => Statement::Repeat { count: self.expression(a), body: b, mentions: self.mentions(number) },
            _ => Statement::Skip,
        };
        self.program.nodes.push(Node { mask: self.known[number].mask, statement });
    }

    fn mentions(&mut self, number: usize) -> Mentions {
        let (first, mut left) = (self.program.mentioned.len() as u16, self.known[number].mask);
        while left != 0 {
            self.program.mentioned.push(left.trailing_zeros() as u8);
            left &= left - 1;
        }
        Mentions { first, count: self.known[number].mask.count_ones() as u8 }
    }

    fn expression(&mut self, number: u16) -> Expression {
        let first = self.program.operations.len() as u16;
        let result = self.operand(number, 0);
        Expression { first, count: self.program.operations.len() as u16 - first, result }
    }

    /// Lay out an expression whose record begins at a place; gives its slot.
    fn operand(&mut self, number: u16, place: u16) -> u16 {
        let node = self.raw[number as usize];
        let slot = MOST_VARIABLES as u16 + number;
        let operator = match node.kind {
            1 | 2 => {
                self.program.slots[slot as usize] = if node.kind == 1 { node.constant() } else { node.tag as i64 };
                return slot;
            }
            3 => return node.tag as u16,
            4 => Operator::Add,
            5 => Operator::Subtract,
            6 => Operator::Multiply,
            7 => Operator::Greater,
            _ => Operator::Equal,
        };
        let [a, b, _] = node.children;
        let left = self.operand(a, place + 2);
        let right = self.operand(b, place + 2 + 2 * self.known[a as usize].operators);
        self.program.operations.push(Operation { operator, left, right, into: slot, place });
        slot
    }
}
