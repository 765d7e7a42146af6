//! Damage to records and tables, for cases that must be refused or answered
//! as document 01 says, and never by chance.

use crate::random::Random;
use crate::table::Table;
use crate::values::{HIGH, LOW};

/// What a word of a left record is (document 01, "The record").
#[derive(Clone, Copy, PartialEq, Eq, Debug)]
pub enum Role {
    Length,
    Limit,
    HeaderSteps,
    Input,
    Output,
    Node,
    Size,
    Steps,
    Condition,
    Before,
    After,
    Count,
    Iteration,
    Operand,
}

/// An entry of a left record: its place, its size, and the entry around it.
#[derive(Clone, Copy, Debug)]
pub struct Entry {
    pub at: usize,
    pub size: usize,
    pub around: Option<usize>,
}

/// The words of a left record by role, and its entries.
pub struct Map<'a> {
    table: &'a Table,
    record: &'a [i64],
    pub roles: Vec<Role>,
    pub entries: Vec<Entry>,
}

// The map of a left record (document 01, "The record").
pub fn map<'a>(table: &'a Table, record: &'a [i64]) -> Map<'a> {
    let mut roles = vec![Role::Length, Role::Limit, Role::HeaderSteps];
    roles.extend(vec![Role::Input; table.variables]);
    roles.extend(vec![Role::Output; table.variables]);
    let mut map = Map {
        table,
        record,
        roles,
        entries: Vec::new(),
    };
    map.entry(table.nodes.len() - 1, None);
    map
}

impl Map<'_> {
    // Add so many words of a role.
    fn add(&mut self, role: Role, words: usize) {
        self.roles.extend(vec![role; words]);
    }

    // Add the words of a statement's entry ("The record").
    fn entry(&mut self, number: usize, around: Option<usize>) {
        let at = self.roles.len();
        let size = self.record[at + 1] as usize;
        let own = Some(self.entries.len());
        self.entries.push(Entry { at, size, around });
        self.roles.extend([Role::Node, Role::Size, Role::Steps]);
        let table = self.table;
        let node = &table.nodes[number];
        match node.kind {
            17 => self.expression(node.a),
            18 => {
                self.entry(node.a, own);
                self.entry(node.b, own);
            }
            19 => {
                let condition = self.record[at + 3];
                self.add(Role::Condition, 1);
                self.add(Role::Before, node.mentioned.len());
                self.add(Role::After, node.mentioned.len());
                self.expression(node.a);
                self.entry(if condition == 1 { node.b } else { node.c }, own);
            }
            20 => {
                self.add(Role::Count, 1);
                self.add(Role::Before, node.mentioned.len());
                self.expression(node.a);
                for _ in 0..self.record[at + 3].max(0) {
                    self.entry(node.b, own);
                    self.add(Role::Iteration, node.mentioned.len());
                }
            }
            _ => {}
        }
    }

    // Add the words of an expression's record ("The record").
    fn expression(&mut self, number: usize) {
        let table = self.table;
        let node = &table.nodes[number];
        if (4..=8).contains(&node.kind) {
            self.add(Role::Operand, 2);
            self.expression(node.a);
            self.expression(node.b);
        }
    }

    // A random word of a role, if there is one.
    fn word_of(&self, random: &mut Random, role: Role) -> Option<usize> {
        let places: Vec<usize> = (0..self.roles.len())
            .filter(|&at| self.roles[at] == role)
            .collect();
        if places.is_empty() {
            None
        } else {
            Some(random.pick(&places))
        }
    }
}

const ROLES: [Role; 14] = [
    Role::Length,
    Role::Limit,
    Role::HeaderSteps,
    Role::Input,
    Role::Output,
    Role::Node,
    Role::Size,
    Role::Steps,
    Role::Condition,
    Role::Before,
    Role::After,
    Role::Count,
    Role::Iteration,
    Role::Operand,
];

// Another word for a word: nearby, small, at the ends of the number range, huge.
pub fn other_word(random: &mut Random, word: i64) -> i64 {
    match random.below(12) {
        0 | 1 => word.wrapping_add(1),
        2 | 3 => word.wrapping_sub(1),
        4 => random.between(-3, 9),
        5 => HIGH - random.between(0, 2),
        6 => LOW + random.between(0, 2),
        7 => random.pick(&[HIGH + 1, LOW - 1, 2, -1]),
        8 => random.pick(&[1 << 32, -(1 << 32), 1 << 40, 1 << 62]),
        9 => random.pick(&[i64::MIN, i64::MAX, i64::MIN + 1, i64::MAX - 1]),
        10 => random.between(LOW, HIGH),
        _ => 0,
    }
}

// Another word for a word of a role.
fn other_of(random: &mut Random, role: Role, word: i64) -> i64 {
    match role {
        Role::Steps | Role::HeaderSteps | Role::Limit if random.chance(50) => {
            random.pick(&[0, 1, 2, 1_000_000, 1_000_001, -1, 50])
        }
        Role::Size if random.chance(60) => word.wrapping_add(random.between(-6, 12)),
        Role::Limit if random.chance(60) => word.wrapping_sub(random.between(1, 4)),
        Role::Condition if random.chance(60) => (word == 0) as i64,
        Role::Operand if random.chance(30) => random.pick(&[HIGH, LOW, 65_536, -65_536, 46_341]),
        Role::Count if random.chance(50) => word.wrapping_add(random.between(-2, 2)),
        _ => other_word(random, word),
    }
}

// Damage a left record in one way, now and then a word of a wanted role.
pub fn damage(random: &mut Random, map: &Map, words: &mut Vec<i64>, wanted: Option<Role>) {
    if let (Some(role), true) = (wanted, random.chance(75)) {
        return one_word(random, map, words, role);
    }
    match random.below(20) {
        0..=9 => {
            let role = random.pick(&ROLES);
            one_word(random, map, words, role)
        }
        10 => cut(random, words),
        11 => another_length(random, words),
        12 => shift_sizes(random, map, words),
        13 => swap_words(random, words),
        14 => swap_entries(random, map, words),
        15 | 16 => grow_entry(random, map, words),
        17 => shrink_entry(random, map, words),
        18 => match random.below(3) {
            0 => copy_word(random, words),
            _ => bare_tail(random, map, words),
        },
        _ => short_end(random, map, words),
    }
}

// Change one word of a role.
fn one_word(random: &mut Random, map: &Map, words: &mut [i64], role: Role) {
    if let Some(at) = map.word_of(random, role) {
        if at < words.len() {
            words[at] = other_of(random, role, words[at]);
        }
    }
}

// Cut the slice off at a random place, now and then with L following.
fn cut(random: &mut Random, words: &mut Vec<i64>) {
    words.truncate(random.below(words.len()));
    if !words.is_empty() && random.chance(50) {
        words[0] = words.len() as i64;
    }
}

// Change L, now and then with words behind it.
fn another_length(random: &mut Random, words: &mut Vec<i64>) {
    for _ in 0..random.below(4) {
        let word = random.between(-2, 5);
        words.push(word);
    }
    let most = words.len() as i64;
    if let Some(first) = words.first_mut() {
        *first = match random.below(4) {
            0 => other_word(random, *first),
            1 => first.wrapping_add(random.between(-4, 4)),
            _ => random.between(0, most),
        };
    }
}

// Two entries in the same entry, if there are such.
fn siblings(random: &mut Random, map: &Map) -> Option<(Entry, Entry)> {
    let first = map.entries[random.below(map.entries.len())];
    let same: Vec<Entry> = map
        .entries
        .iter()
        .copied()
        .filter(|other| other.around == first.around && other.at > first.at)
        .collect();
    if same.is_empty() {
        None
    } else {
        Some((first, random.pick(&same)))
    }
}

// Move words from one sibling's size to the other's, so that they still add up.
fn shift_sizes(random: &mut Random, map: &Map, words: &mut [i64]) {
    let by = random.pick(&[1, -1, 2, -2, 3]);
    if let Some((first, second)) = siblings(random, map) {
        if second.at + 1 < words.len() {
            words[first.at + 1] = words[first.at + 1].wrapping_add(by);
            words[second.at + 1] = words[second.at + 1].wrapping_sub(by);
        }
    }
}

// Swap two words.
fn swap_words(random: &mut Random, words: &mut [i64]) {
    if !words.is_empty() {
        let (first, second) = (random.below(words.len()), random.below(words.len()));
        words.swap(first, second);
    }
}

// Swap two words at the same place of two entries.
fn swap_entries(random: &mut Random, map: &Map, words: &mut [i64]) {
    let first = map.entries[random.below(map.entries.len())];
    let second = map.entries[random.below(map.entries.len())];
    let by = random.below(first.size.min(second.size));
    if first.at + by < words.len() && second.at + by < words.len() {
        words.swap(first.at + by, second.at + by);
    }
}

// Add to the sizes of an entry and all around it, and to L.
fn all_sizes(map: &Map, words: &mut [i64], entry: usize, by: i64) {
    let mut next = Some(entry);
    while let Some(own) = next {
        let at = map.entries[own].at + 1;
        if at < words.len() {
            words[at] = words[at].wrapping_add(by);
        }
        next = map.entries[own].around;
    }
    words[0] = words[0].wrapping_add(by);
}

// Put words in at an entry's end or inside it, all sizes following.
fn grow_entry(random: &mut Random, map: &Map, words: &mut Vec<i64>) {
    let own = random.below(map.entries.len());
    let entry = map.entries[own];
    let by = random.pick(&[1, 1, 2, 3]);
    let inside = random.between(3, entry.size as i64) as usize;
    let at = entry.at
        + if random.chance(60) {
            entry.size
        } else {
            inside
        };
    if at > words.len() {
        return;
    }
    all_sizes(map, words, own, by);
    for _ in 0..by {
        words.insert(at, random.between(-1, 4));
    }
}

// Take a word out of an entry, all sizes following.
fn shrink_entry(random: &mut Random, map: &Map, words: &mut Vec<i64>) {
    let own = random.below(map.entries.len());
    let entry = map.entries[own];
    if entry.size <= 3 {
        return;
    }
    let at = entry.at + random.between(3, entry.size as i64 - 1) as usize;
    if at < words.len() {
        all_sizes(map, words, own, -1);
        words.remove(at);
    }
}

// Damage words only, so that more than one test can fail: values at the ends
// of the range in one entry, a short limit, or a word of any role.
pub fn damage_words(random: &mut Random, map: &Map, words: &mut [i64]) {
    match random.below(6) {
        0..=2 => storm(random, map, words),
        3 => {
            words[1] = random.between(1, words[2].clamp(1, 1000));
            words[2] = words[2].min(words[1]);
        }
        _ => {
            let role = random.pick(&ROLES[5..]);
            one_word(random, map, words, role);
        }
    }
}

// Set some words of one entry, behind its opening, to the ends of the range.
fn storm(random: &mut Random, map: &Map, words: &mut [i64]) {
    let mut entry = map.entries[random.below(map.entries.len())];
    for _ in 0..random.below(12) {
        if map.roles.get(entry.at + 3..entry.at + 7) != Some(&[Role::Operand; 4]) {
            entry = map.entries[random.below(map.entries.len())];
        }
    }
    let end = entry.at + entry.size.min(18);
    let percent = random.pick(&[20, 40, 70]);
    for (at, word) in words.iter_mut().enumerate().take(end).skip(entry.at + 3) {
        let value = !matches!(
            map.roles[at],
            Role::Node | Role::Size | Role::Steps | Role::Condition
        );
        if value && random.chance(percent) {
            *word = match random.below(10) {
                0..=2 => HIGH,
                3 | 4 => HIGH - random.between(1, 3),
                5 => LOW,
                6 => LOW + random.between(1, 3),
                7 => random.pick(&[HIGH + 1, LOW - 1]),
                _ => random.between(-2, 2),
            };
        }
    }
}

// Take the entries of a repeat's tail out, so that its last snapshot stands
// right behind the iterations before.
fn bare_tail(random: &mut Random, map: &Map, words: &mut Vec<i64>) {
    let own = random.below(map.entries.len());
    let entry = map.entries[own];
    let inside: Vec<Entry> = map
        .entries
        .iter()
        .copied()
        .filter(|e| e.around == Some(own))
        .collect();
    let count = map.roles.get(entry.at + 3) == Some(&Role::Count);
    if !count || inside.is_empty() || words.len() < entry.at + entry.size {
        return;
    }
    let from = random.pick(&inside).at;
    let last = inside[inside.len() - 1];
    let to = last.at + last.size;
    words.drain(from..to);
    all_sizes(map, words, own, from as i64 - to as i64);
}

// Copy one word over another.
fn copy_word(random: &mut Random, words: &mut [i64]) {
    if !words.is_empty() {
        let (from, to) = (random.below(words.len()), random.below(words.len()));
        words[to] = words[from];
    }
}

// End the record inside an entry: that entry and all around it end there, and L.
fn short_end(random: &mut Random, map: &Map, words: &mut Vec<i64>) {
    let own = random.below(map.entries.len());
    let entry = map.entries[own];
    let least = if random.chance(70) { 3 } else { 0 };
    let end = entry.at + random.between(least, entry.size as i64) as usize;
    if end > words.len() {
        return;
    }
    words.truncate(end);
    let mut next = Some(own);
    while let Some(place) = next {
        let at = map.entries[place].at;
        if at + 1 < end {
            words[at + 1] = (end - at) as i64;
        }
        next = map.entries[place].around;
    }
    words[0] = end as i64;
}

// Damage a table's bytes in one way (document 01, "Program table").
pub fn damage_table(random: &mut Random, bytes: &mut Vec<u8>) {
    if bytes.len() < 17 {
        return;
    }
    let variables = bytes[4] as usize;
    let nodes = bytes[6] as usize + 256 * bytes[7] as usize;
    match random.below(14) {
        0 => bytes.truncate(random.below(bytes.len())),
        1 => bytes.extend(vec![random.below(2) as u8; random.between(1, 9) as usize]),
        2 | 3 => header_field(random, bytes),
        4 => {
            let at = 16 + random.below(variables).min(bytes.len() - 17);
            bytes[at] = random.pick(&[0, 1, 2, 2, 3, 255]);
        }
        _ if nodes > 0 => {
            let number = random.below(nodes);
            let at = 16 + variables + 8 * number;
            if at + 8 <= bytes.len() {
                node_field(random, &mut bytes[at..at + 8], number);
            }
        }
        _ => {}
    }
}

// Change a field of a table's header.
fn header_field(random: &mut Random, bytes: &mut [u8]) {
    let at = random.below(16);
    if random.chance(50) {
        bytes[at] = bytes[at].wrapping_add(random.pick(&[1, 255, 128, 7]));
        return;
    }
    let at = 4 + 2 * random.below(6);
    let value: u16 = random.pick(&[0, 1, 2, 16, 17, 32, 33, 512, 513, 65_535]);
    bytes[at..at + 2].copy_from_slice(&value.to_le_bytes());
}

// Change a field of a node: kind, tag, child or a single byte.
fn node_field(random: &mut Random, node: &mut [u8], number: usize) {
    let kinds = [
        0, 1, 2, 3, 4, 5, 6, 7, 8, 9, 15, 16, 17, 18, 19, 20, 21, 255,
    ];
    match random.below(5) {
        0 => node[0] = random.pick(&kinds),
        1 => node[1] = random.pick(&[0, 1, 2, 3, 5, 31, 32, 255]),
        2 | 3 => {
            let at = 2 + 2 * random.below(3);
            let child = random.below(number + 2) as u16;
            node[at..at + 2].copy_from_slice(&child.to_le_bytes());
        }
        _ => {
            let at = random.below(8);
            node[at] = node[at].wrapping_add(random.pick(&[1, 255, 128]));
        }
    }
}
