//! Programs as trees, random ones too, and the tables made of them
//! (document 01, "Program table").

use crate::random::Random;
use crate::table::{children, MARK};
use crate::values::{HIGH, LOW, NUMBER, TRUTH};

/// A node of a tree; its children are places in the tree's list.
#[derive(Clone, Debug)]
pub struct Part {
    pub kind: u8,
    pub tag: u8,
    pub value: i32,
    pub children: Vec<usize>,
}

/// A program as a tree.
#[derive(Clone, Debug)]
pub struct Program {
    pub types: Vec<u8>,
    pub parts: Vec<Part>,
    pub root: usize,
}

impl Program {
    // A program without nodes yet ("Program table").
    pub fn new(types: Vec<u8>) -> Program {
        Program {
            types,
            parts: Vec::new(),
            root: 0,
        }
    }

    // Add a node with its children; gives its place ("Program table").
    pub fn add(&mut self, kind: u8, tag: u8, value: i32, children: &[usize]) -> usize {
        self.parts.push(Part {
            kind,
            tag,
            value,
            children: children.to_vec(),
        });
        self.root = self.parts.len() - 1;
        self.root
    }

    // The nodes children first, left to right (request 9).
    pub fn in_order(&self) -> Vec<usize> {
        let mut order = Vec::new();
        self.visit(self.root, &mut order);
        order
    }

    // The nodes below a place and then itself (request 9).
    fn visit(&self, place: usize, order: &mut Vec<usize>) {
        for &child in &self.parts[place].children {
            self.visit(child, order);
        }
        order.push(place);
    }

    // The nodes in a random order with children before their parents
    // ("Program table", a child's number is below its parent's).
    pub fn in_random_order(&self, random: &mut Random) -> Vec<usize> {
        let left = self.in_order();
        let mut parent = vec![usize::MAX; self.parts.len()];
        let mut waits = vec![0; self.parts.len()];
        for &place in &left {
            waits[place] = self.parts[place].children.len();
            for &child in &self.parts[place].children {
                parent[child] = place;
            }
        }
        let mut ready: Vec<usize> = left.into_iter().filter(|&p| waits[p] == 0).collect();
        let mut order = Vec::new();
        while !ready.is_empty() {
            let chosen = random.below(ready.len());
            let place = ready.swap_remove(chosen);
            order.push(place);
            let above = parent[place];
            if above != usize::MAX {
                waits[above] -= 1;
                if waits[above] == 0 {
                    ready.push(above);
                }
            }
        }
        order
    }

    // The table's bytes with the nodes in an order ("Program table").
    pub fn table(&self, order: &[usize]) -> Vec<u8> {
        let mut number = vec![0u16; self.parts.len()];
        for (at, &place) in order.iter().enumerate() {
            number[place] = at as u16;
        }
        let (variables, nodes) = (self.types.len(), order.len());
        let mut bytes = MARK.to_vec();
        let total = 16 + variables + 8 * nodes;
        for field in [variables, nodes, 16, 16 + variables, total, 0] {
            bytes.extend_from_slice(&(field as u16).to_le_bytes());
        }
        bytes.extend_from_slice(&self.types);
        for &place in order {
            let part = &self.parts[place];
            let numbers: Vec<u16> = part.children.iter().map(|&c| number[c]).collect();
            bytes.extend_from_slice(&node_bytes(part, &numbers));
        }
        bytes
    }
}

// A node's 8 bytes ("Program table").
fn node_bytes(part: &Part, numbers: &[u16]) -> [u8; 8] {
    let mut bytes = [part.kind, part.tag, 0, 0, 0, 0, 0, 0];
    if part.kind == 1 {
        bytes[4..8].copy_from_slice(&part.value.to_le_bytes());
    }
    for place in 0..children(part.kind) {
        bytes[2 + 2 * place..4 + 2 * place].copy_from_slice(&numbers[place].to_le_bytes());
    }
    bytes
}

/// A random program being made.
pub struct Maker<'a> {
    pub random: &'a mut Random,
    pub program: Program,
    /// The variables used most.
    active: Vec<u8>,
}

// The types of a random program ("Program table").
pub fn random_types(random: &mut Random) -> Vec<u8> {
    let count = match random.below(100) {
        0..=9 => 1,
        10..=79 => random.between(2, 6),
        80..=93 => random.between(7, 12),
        94..=96 => 32,
        _ => random.between(13, 31),
    };
    let kind = |random: &mut Random| if random.chance(75) { NUMBER } else { TRUTH };
    (0..count).map(|_| kind(random)).collect()
}

// A random well-typed program of about a number of nodes ("Program table").
pub fn random_program(random: &mut Random, types: Vec<u8>, budget: i64) -> Program {
    let mut active: Vec<u8> = (0..types.len() as u8).collect();
    random.shuffle(&mut active);
    active.truncate(random.between(2, 5) as usize);
    let mut maker = Maker {
        random,
        program: Program::new(types),
        active,
    };
    let root = maker.statement(budget, 1);
    maker.program.root = root;
    maker.program
}

impl Maker<'_> {
    // A random variable of a type, if there is one.
    fn variable(&mut self, kind: u8) -> Option<u8> {
        let types = &self.program.types;
        let right = |v: &u8| types[*v as usize] == kind;
        let all: Vec<u8> = (0..types.len() as u8).filter(right).collect();
        let near: Vec<u8> = self.active.iter().copied().filter(right).collect();
        if !near.is_empty() && self.random.chance(90) {
            Some(self.random.pick(&near))
        } else if !all.is_empty() {
            Some(self.random.pick(&all))
        } else {
            None
        }
    }

    // A random statement at a depth ("Program table", kinds 16 to 20).
    fn statement(&mut self, budget: i64, depth: i64) -> usize {
        if depth >= 16 || budget < 4 {
            return if self.random.chance(10) {
                self.program.add(16, 0, 0, &[])
            } else {
                self.assign(budget - 1, depth)
            };
        }
        match self.random.below(100) {
            0..=11 => self.assign(budget - 1, depth),
            12..=47 => {
                let first = self.random.between(1, budget - 2);
                let a = self.statement(first, depth + 1);
                let b = self.statement(budget - 1 - first, depth + 1);
                self.program.add(18, 0, 0, &[a, b])
            }
            48..=70 => self.choice(budget, depth),
            71..=97 => {
                let a = self.count(budget / 3, depth + 1);
                let b = self.statement(budget - 1 - budget / 4, depth + 1);
                self.program.add(20, 0, 0, &[a, b])
            }
            _ => self.program.add(16, 0, 0, &[]),
        }
    }

    // A random if ("Program table", kind 19).
    fn choice(&mut self, budget: i64, depth: i64) -> usize {
        let a = self.truth(budget / 3, depth + 1);
        let first = self.random.between(1, budget - 2);
        let b = self.statement(first, depth + 1);
        let c = self.statement(budget - 1 - first, depth + 1);
        self.program.add(19, 0, 0, &[a, b, c])
    }

    // A random assign ("Program table", kind 17).
    fn assign(&mut self, budget: i64, depth: i64) -> usize {
        let wanted = if self.random.chance(78) {
            NUMBER
        } else {
            TRUTH
        };
        let variable = match self.variable(wanted) {
            Some(variable) => variable,
            None => self.random.below(self.program.types.len()) as u8,
        };
        let a = if self.program.types[variable as usize] == NUMBER {
            self.number(budget.min(9), depth + 1)
        } else {
            self.truth(budget.min(9), depth + 1)
        };
        self.program.add(17, variable, 0, &[a])
    }

    // A random count of a repeat: mostly a variable, sometimes an expression
    // or a constant, also a huge one ("Program table", kind 20).
    fn count(&mut self, budget: i64, depth: i64) -> usize {
        match self.random.below(100) {
            0..=59 => match self.variable(NUMBER) {
                Some(variable) => self.program.add(3, variable, 0, &[]),
                None => self.number(1, depth),
            },
            60..=69 => {
                let value = self.random.between(0, 3) as i32;
                self.program.add(1, 0, value, &[])
            }
            70..=72 => {
                let value = (HIGH - self.random.between(0, 3)) as i32;
                self.program.add(1, 0, value, &[])
            }
            _ => self.number(budget.clamp(3, 7), depth),
        }
    }

    // A random number expression ("Program table", kinds 1, 3 to 6).
    fn number(&mut self, budget: i64, depth: i64) -> usize {
        if budget >= 3 && depth < 22 && self.random.chance(70) {
            let kind = self.random.pick(&[4, 4, 4, 5, 5, 6]);
            let first = self.random.between(1, budget - 2);
            let a = self.number(first, depth + 1);
            let b = self.number(budget - 1 - first, depth + 1);
            return self.program.add(kind, 0, 0, &[a, b]);
        }
        if self.random.chance(62) {
            if let Some(variable) = self.variable(NUMBER) {
                return self.program.add(3, variable, 0, &[]);
            }
        }
        let value = constant(self.random) as i32;
        self.program.add(1, 0, value, &[])
    }

    // A random truth expression ("Program table", kinds 2, 3, 7, 8).
    fn truth(&mut self, budget: i64, depth: i64) -> usize {
        if depth < 22 && self.random.chance(65) {
            let kind = if self.random.chance(60) { 7 } else { 8 };
            let a = self.number((budget - 1) / 2, depth + 1);
            let b = self.number((budget - 1) / 2, depth + 1);
            return self.program.add(kind, 0, 0, &[a, b]);
        }
        if self.random.chance(85) {
            if let Some(variable) = self.variable(TRUTH) {
                return self.program.add(3, variable, 0, &[]);
            }
        }
        let tag = self.random.below(2) as u8;
        self.program.add(2, tag, 0, &[])
    }
}

// A random number for a constant: mostly small, sometimes at the extremes.
fn constant(random: &mut Random) -> i64 {
    match random.below(100) {
        0..=79 => random.between(-2, 4),
        80..=90 => random.between(-40, 60),
        91..=93 => HIGH - random.between(0, 5),
        94..=95 => LOW + random.between(0, 5),
        96..=97 => random.between(40_000, 70_000),
        _ => random.between(LOW, HIGH),
    }
}

// A random input of a type: mostly small, sometimes at the extremes.
pub fn random_input(random: &mut Random, kind: u8) -> i64 {
    if kind == TRUTH {
        return random.below(2) as i64;
    }
    match random.below(100) {
        0..=84 => random.between(-2, 4),
        85..=91 => random.between(-50, 50),
        92..=95 => HIGH - random.between(0, 6),
        96..=98 => LOW + random.between(0, 6),
        _ => random.between(LOW, HIGH),
    }
}
