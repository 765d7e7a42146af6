//! The program table: its check and its decoded nodes (document 01, "Program table").

use crate::values::{NUMBER, TRUTH};

/// The first four bytes of a table.
pub const MARK: [u8; 4] = [0x49, 0x4D, 0x50, 0x54];
/// The greatest depth of a node.
pub const DEEPEST: u32 = 24;

/// A decoded node.
#[derive(Clone, Debug)]
pub struct Node {
    pub kind: u8,
    pub tag: u8,
    pub a: usize,
    pub b: usize,
    pub c: usize,
    /// The number of a number constant.
    pub value: i64,
    pub depth: u32,
    /// The mentioned variables, a bit each.
    pub mask: u32,
    /// The mentioned variables, by rising number.
    pub mentioned: Vec<u8>,
}

/// An accepted table.
#[derive(Clone, Debug)]
pub struct Table {
    pub variables: usize,
    pub types: Vec<u8>,
    pub nodes: Vec<Node>,
}

/// What a node is: an expression of a type, or a statement.
#[derive(Clone, Copy, PartialEq, Eq, Debug)]
pub enum Sort {
    Number,
    Truth,
    Statement,
    None,
}

// Check a table of any bytes: its refusal 1 to 5, or its nodes ("Refusal numbers").
pub fn check(bytes: &[u8]) -> Result<Table, i64> {
    let (variables, count) = check_header(bytes)?;
    let types = bytes[16..16 + variables].to_vec();
    if types.iter().any(|&kind| kind > TRUTH) {
        return Err(2);
    }
    let mut nodes = Vec::with_capacity(count);
    for number in 0..count {
        let at = 16 + variables + 8 * number;
        nodes.push(decode(&bytes[at..at + 8]));
    }
    let mut table = Table {
        variables,
        types,
        nodes,
    };
    check_nodes(&table, &bytes[16 + variables..])?;
    check_uses(&table)?;
    set_depths(&mut table)?;
    set_mentioned(&mut table);
    Ok(table)
}

// The number of a checked table: 0, or its refusal 1 to 5 ("Refusal numbers").
pub fn number_of(bytes: &[u8]) -> i64 {
    match check(bytes) {
        Ok(_) => 0,
        Err(number) => number,
    }
}

// A u16, little-endian ("Program table").
fn short(bytes: &[u8], at: usize) -> usize {
    bytes[at] as usize + 256 * bytes[at + 1] as usize
}

// The header's tests, refusal 1; gives V and N ("Program table").
fn check_header(bytes: &[u8]) -> Result<(usize, usize), i64> {
    if bytes.len() < 16 || bytes[0..4] != MARK {
        return Err(1);
    }
    let variables = short(bytes, 4);
    let nodes = short(bytes, 6);
    if !(1..=32).contains(&variables) || !(1..=512).contains(&nodes) {
        return Err(1);
    }
    let total = 16 + variables + 8 * nodes;
    let right = short(bytes, 8) == 16
        && short(bytes, 10) == 16 + variables
        && short(bytes, 12) == total
        && short(bytes, 14) == 0
        && bytes.len() == total;
    if right {
        Ok((variables, nodes))
    } else {
        Err(1)
    }
}

// A node from its 8 bytes, not yet tested ("Program table").
fn decode(bytes: &[u8]) -> Node {
    let constant = bytes[0] == 1;
    let value = i32::from_le_bytes([bytes[4], bytes[5], bytes[6], bytes[7]]);
    Node {
        kind: bytes[0],
        tag: bytes[1],
        a: short(bytes, 2),
        b: if constant { 0 } else { short(bytes, 4) },
        c: if constant { 0 } else { short(bytes, 6) },
        value: if constant { value as i64 } else { 0 },
        depth: 0,
        mask: 0,
        mentioned: Vec::new(),
    }
}

// How many of A, B, C a kind uses as children ("Program table", the list of kinds).
pub fn children(kind: u8) -> usize {
    match kind {
        17 => 1,
        4..=8 | 18 | 20 => 2,
        19 => 3,
        _ => 0,
    }
}

// The sort that a type has as an expression ("Program table").
fn sort_of_type(kind: u8) -> Sort {
    if kind == NUMBER {
        Sort::Number
    } else {
        Sort::Truth
    }
}

// The sort of a node by its kind and tag ("Program table", the list of kinds).
pub fn sort(table: &Table, node: &Node) -> Sort {
    match node.kind {
        1 | 4..=6 => Sort::Number,
        2 | 7 | 8 => Sort::Truth,
        3 if (node.tag as usize) < table.variables => sort_of_type(table.types[node.tag as usize]),
        16..=20 => Sort::Statement,
        _ => Sort::None,
    }
}

// Refusal 3 over the whole table ("Refusal numbers").
fn check_nodes(table: &Table, bytes: &[u8]) -> Result<(), i64> {
    for (number, node) in table.nodes.iter().enumerate() {
        let own = &bytes[8 * number..8 * number + 8];
        let right = known(node.kind)
            && tag_right(table, node)
            && unused_zero(node, own)
            && children_right(table, number);
        if !right {
            return Err(3);
        }
    }
    match table.nodes.last() {
        Some(root) if sort(table, root) == Sort::Statement => Ok(()),
        _ => Err(3),
    }
}

// Whether a kind is in the list of kinds ("Program table").
fn known(kind: u8) -> bool {
    matches!(kind, 1..=8 | 16..=20)
}

// Whether a tag is right for its kind; an unused tag is zero ("Program table").
fn tag_right(table: &Table, node: &Node) -> bool {
    match node.kind {
        2 => node.tag <= 1,
        3 | 17 => (node.tag as usize) < table.variables,
        _ => node.tag == 0,
    }
}

// Whether a node's unused child bytes are zero ("Program table").
fn unused_zero(node: &Node, bytes: &[u8]) -> bool {
    if node.kind == 1 {
        return bytes[2] == 0 && bytes[3] == 0;
    }
    let first = 2 + 2 * children(node.kind);
    bytes[first..8].iter().all(|&byte| byte == 0)
}

// Whether a node's children are below it and of the right sort ("Program table").
fn children_right(table: &Table, number: usize) -> bool {
    let node = &table.nodes[number];
    let places = [node.a, node.b, node.c];
    let wanted = match node.kind {
        4..=8 => [Sort::Number, Sort::Number, Sort::None],
        17 => [
            sort_of_type(table.types[node.tag as usize]),
            Sort::None,
            Sort::None,
        ],
        18 => [Sort::Statement, Sort::Statement, Sort::None],
        19 => [Sort::Truth, Sort::Statement, Sort::Statement],
        _ => [Sort::Number, Sort::Statement, Sort::None],
    };
    for place in 0..children(node.kind) {
        let child = places[place];
        if child >= number || sort(table, &table.nodes[child]) != wanted[place] {
            return false;
        }
    }
    true
}

// Refusal 4: every node but the root is used exactly once ("Refusal numbers").
fn check_uses(table: &Table) -> Result<(), i64> {
    let mut uses = vec![0u32; table.nodes.len()];
    for node in &table.nodes {
        let places = [node.a, node.b, node.c];
        for &child in &places[..children(node.kind)] {
            uses[child] += 1;
        }
    }
    uses.pop();
    if uses.iter().all(|&count| count == 1) {
        Ok(())
    } else {
        Err(4)
    }
}

// The depth of each node, the root's 1, and refusal 5 ("Program table").
fn set_depths(table: &mut Table) -> Result<(), i64> {
    let root = table.nodes.len() - 1;
    table.nodes[root].depth = 1;
    for number in (0..=root).rev() {
        let node = &table.nodes[number];
        let (kind, depth) = (node.kind, node.depth);
        let places = [node.a, node.b, node.c];
        if depth > DEEPEST {
            return Err(5);
        }
        for &child in &places[..children(kind)] {
            table.nodes[child].depth = depth + 1;
        }
    }
    Ok(())
}

// The mentioned variables of each node ("Program table", last paragraph).
fn set_mentioned(table: &mut Table) {
    for number in 0..table.nodes.len() {
        let node = &table.nodes[number];
        let places = [node.a, node.b, node.c];
        let mut mask = 0;
        if node.kind == 3 || node.kind == 17 {
            mask |= 1u32 << node.tag;
        }
        for &child in &places[..children(node.kind)] {
            mask |= table.nodes[child].mask;
        }
        let list = (0..32u8).filter(|&v| mask >> v & 1 == 1).collect();
        table.nodes[number].mask = mask;
        table.nodes[number].mentioned = list;
    }
}
