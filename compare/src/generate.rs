//! The generator of cases, the same from a seed on every machine.

use crate::answer::Answer;
use crate::case::Case;
use crate::damage::{damage, damage_table, damage_words, map, Role};
use crate::interpret::answered;
use crate::met::{Met, Site, FEATURES, SITES};
use crate::patch::{patch, patch_watched};
use crate::program::{random_input, random_program, random_types, Program};
use crate::random::Random;
use crate::run::{run, run_watched, Effort};
use crate::sharp::{record, SHARP};
use crate::table::{check, Table};
use crate::tally::{case_number, is_left};
use crate::values::{HIGH, LOW, NUMBER, TRUTH};
use std::collections::VecDeque;

/// The most steps and words that a call of a case may take.
const MOST_EFFORT: Effort = Effort {
    steps: 400,
    words: 1500,
};
/// The most steps and words that a patch of a chain may take: the program
/// `calls` has 4,096 words for old record and changes, and as many of room.
const CHAIN_EFFORT: Effort = Effort {
    steps: 4000,
    words: 4000,
};
/// The most words of a large run's record, and how many of a hundred chains
/// begin with such a run.
const LARGE: usize = 3900;
const LARGE_CHAINS: usize = 3;
/// How often a case is tried before its aim is given up.
const TRIES: usize = 4000;
/// How often a case of the sort `damaged` is tried.
const FEW_TRIES: usize = 40;
/// How many records of the sort `damaged` are tried from one run.
const FROM_ONE_RUN: usize = 16;
/// One case of so many of the sort `damaged` has an aim.
const ONE_AIMED: usize = 4;
/// How many patches a chain has.
pub const LINKS: usize = 20;

/// What a case should be.
#[derive(Clone, Copy, Debug, PartialEq, Eq)]
pub enum Aim {
    Any,
    Number(i64),
    Feature(u32),
    Broken(Site),
    LimitMet,
    /// Two of 8, 9 and 12 in one walk, this one too, so that their order decides.
    Order(i64),
    /// A sharp case, by its place in their list.
    Sharp(usize),
}

/// The groups of cases, by how they are made.
#[derive(Clone, Copy, Debug, PartialEq, Eq)]
enum Group {
    Table,
    Run,
    Left,
    Damaged,
    /// Damaged records, many of one run, so that they are quickly made.
    Quick,
    Chain,
}

/// The sorts of cases: by their calls, and two of patches in great numbers.
#[derive(Clone, Copy, Debug, PartialEq, Eq)]
pub enum Sort {
    Table,
    Run,
    Patch,
    /// Patches of damaged records.
    Damaged,
    /// A run and then patches, each of the record that was left before it.
    Chain,
}

impl Sort {
    /// The sorts of all calls.
    pub const ALL: [Sort; 3] = [Sort::Table, Sort::Run, Sort::Patch];

    // The sort of this name in the case format, if there is one.
    pub fn named(name: &str) -> Option<Sort> {
        match name {
            "table" => Some(Sort::Table),
            "run" => Some(Sort::Run),
            "patch" => Some(Sort::Patch),
            "damaged" => Some(Sort::Damaged),
            "chain" => Some(Sort::Chain),
            _ => None,
        }
    }
}

/// An accepted run and what it is of.
pub struct Session {
    pub bytes: Vec<u8>,
    pub table: Table,
    pub inputs: Vec<i64>,
    pub limit: i64,
    pub record: Vec<i64>,
    pub steps: i64,
}

/// A generator: its source, and the aims of each group in turn.
pub struct Generator {
    pub random: Random,
    sorts: Vec<Sort>,
    deck: Vec<Group>,
    turn: [usize; 6],
    /// The rest of a chain.
    rest: VecDeque<Case>,
    /// The run whose record is damaged, the most words of it, and how often it
    /// was.
    damaged: Option<(Session, usize, usize)>,
}

// So many cases from a seed, with the interpreter's answers.
pub fn generate(seed: u64, count: usize) -> Vec<Case> {
    let mut generator = Generator::new(seed);
    (0..count).map(|_| generator.case()).collect()
}

// Random changes that a list can hold: mostly small, some to far values.
pub fn random_changes(random: &mut Random, table: &Table, inputs: &[i64]) -> Vec<i64> {
    let percent = random.pick(&[8, 20, 40, 80]);
    let mentioned = &table.nodes[table.nodes.len() - 1].mentioned;
    let forced = if mentioned.is_empty() || random.chance(8) {
        usize::MAX
    } else {
        random.pick(mentioned) as usize
    };
    let change = |random: &mut Random, variable: usize| {
        if variable != forced && !random.chance(percent) {
            return 0;
        }
        if table.types[variable] == TRUTH {
            return 1;
        }
        let old = inputs[variable];
        let new = match random.below(100) {
            0..=79 => old + random.pick(&[1, 1, 2, 3, -1, -1, -2, -3, 5]),
            80..=93 => random_input(random, NUMBER),
            94..=95 => HIGH,
            96..=97 => LOW,
            _ => old + random.between(-30, 30),
        };
        new.clamp(LOW, HIGH) - old
    };
    (0..table.variables).map(|v| change(random, v)).collect()
}

// A change list that refusal 11 is for ("Refusal numbers").
fn bad_changes(random: &mut Random, table: &Table, inputs: &[i64]) -> Vec<i64> {
    let mut changes = random_changes(random, table, inputs);
    let variable = random.below(table.variables);
    match random.below(8) {
        0 => changes.push(random.between(-1, 1)),
        1 => changes.truncate(variable),
        _ if table.types[variable] == TRUTH => {
            changes[variable] = random.pick(&[2, -1, 3, i64::MIN, i64::MAX, 1 << 32]);
        }
        2 | 3 => changes[variable] = HIGH - inputs[variable] + random.between(1, 2),
        4 => changes[variable] = LOW - inputs[variable] - random.between(1, 2),
        5 => changes[variable] = random.pick(&[1 << 32, -(1 << 32), 1 << 33]),
        _ => changes[variable] = random.pick(&[i64::MIN, i64::MAX]),
    }
    changes
}

// A random accepted run whose record has at most so many words; mostly not
// far fewer.
pub fn session(random: &mut Random, most: usize) -> Session {
    let least = if random.chance(70) { most / 3 } else { 0 };
    let mut tries = 0;
    loop {
        let types = random_types(random);
        tries += 1;
        if let Some(session) = session_of(random, types, most) {
            if session.record.len() >= least || tries > 200 {
                return session;
            }
        }
    }
}

// A random program with inputs and a limit, whatever its run will answer.
pub fn untried(random: &mut Random) -> Session {
    loop {
        let types = random_types(random);
        let budget = random.between(8, 60);
        let program = random_program(random, types, budget);
        let order = program.in_random_order(random);
        let bytes = program.table(&order);
        if let Ok(table) = check(&bytes) {
            let types = &table.types;
            return Session {
                inputs: types
                    .iter()
                    .map(|&kind| random_input(random, kind))
                    .collect(),
                bytes,
                limit: random.between(1, 60),
                record: Vec::new(),
                steps: 60,
                table,
            };
        }
    }
}

// A random accepted run over some types, unless this try gives none.
pub fn session_of(random: &mut Random, types: Vec<u8>, most: usize) -> Option<Session> {
    let budget = match random.below(100) {
        _ if most == LARGE => random.between(60, 480),
        0..=11 => random.between(1, 8),
        12..=64 => random.between(8, 25),
        _ => random.between(25, 60),
    };
    let program = random_program(random, types, budget);
    let order = if random.chance(50) {
        program.in_order()
    } else {
        program.in_random_order(random)
    };
    let bytes = program.table(&order);
    let table = check(&bytes).ok()?;
    let inputs: Vec<i64> = table
        .types
        .iter()
        .map(|&kind| random_input(random, kind))
        .collect();
    let mut room = vec![0; most];
    let fuel = if most == LARGE { 2000 } else { 300 };
    let steps = run(&bytes, &inputs, fuel, &mut room).steps;
    if steps == 0 {
        return None;
    }
    let limit = limit_for(random, steps);
    let answer = run(&bytes, &inputs, limit, &mut room);
    room.truncate(answer.length as usize);
    Some(Session {
        bytes,
        table,
        inputs,
        limit,
        record: room,
        steps,
    })
}

// A limit for a run of some steps: just enough, a little more, or far more.
fn limit_for(random: &mut Random, steps: i64) -> i64 {
    match random.below(100) {
        0..=14 => steps,
        15..=44 => steps + random.between(1, 8),
        45..=46 => random.pick(&[1_000_000, 999_999]),
        _ => steps + random.between(0, 150),
    }
}

// The most words of a record: mostly 300, sometimes 1,500.
fn most_words(random: &mut Random) -> usize {
    if random.chance(94) {
        random.pick(&[60, 120, 200, 300])
    } else {
        random.pick(&[600, 1000, 1500])
    }
}

// A room for a record of a length.
fn room_for(random: &mut Random, length: usize, aim: Aim) -> usize {
    let small = match aim {
        Aim::Number(10) => 90,
        Aim::Sharp(_) => 0,
        _ => 4,
    };
    if random.chance(small) {
        return match random.below(4) {
            0 => 0,
            1 => random.below(length + 1),
            _ => length.saturating_sub(1),
        };
    }
    match random.below(3) {
        0 | 1 => length,
        _ => length + random.below(12),
    }
}

// A statement wrapped until the deepest node has a depth ("Program table").
pub fn deep(random: &mut Random, depth: usize) -> Vec<u8> {
    let mut program = Program::new(vec![NUMBER, TRUTH]);
    let operators = random.below(depth - 2);
    let mut inner = program.add(3, 0, 0, &[]);
    for _ in 0..operators {
        let other = program.add(1, 0, 1, &[]);
        let both = if random.chance(50) {
            [inner, other]
        } else {
            [other, inner]
        };
        inner = program.add(random.pick(&[4, 5]), 0, 0, &both);
    }
    inner = program.add(17, 0, 0, &[inner]);
    for _ in 0..depth - 2 - operators {
        let side = program.add(16, 0, 0, &[]);
        inner = match random.below(4) {
            0 => program.add(18, 0, 0, &[inner, side]),
            1 => program.add(18, 0, 0, &[side, inner]),
            2 => {
                let condition = program.add(3, 1, 0, &[]);
                program.add(19, 0, 0, &[condition, inner, side])
            }
            _ => {
                program.parts.pop();
                let count = program.add(1, 0, 1, &[]);
                program.add(20, 0, 0, &[count, inner])
            }
        };
    }
    let order = program.in_order();
    program.table(&order)
}

// A small table, not damaged ("Program table").
fn small_table(random: &mut Random) -> Vec<u8> {
    let types = match random.below(20) {
        0 => vec![NUMBER; 32],
        1..=4 => random_types(random),
        _ => vec![random.below(2) as u8; random.between(1, 3) as usize],
    };
    let budget = random.between(1, 14);
    let program = random_program(random, types, budget);
    let order = program.in_random_order(random);
    program.table(&order)
}

// A table that is odd in its whole: a node of no use, an expression as root,
// 33 or no variables, depth 25 ("Program table").
pub fn odd_table(random: &mut Random) -> Vec<u8> {
    let types = vec![NUMBER; random.pick(&[1, 2, 3, 33])];
    let mut program = random_program(random, types, 5);
    let mut order = program.in_order();
    match random.below(4) {
        0 => {
            let stray = program.add(random.pick(&[1, 16]), 0, 0, &[]);
            let place = random.below(order.len());
            order.insert(place, stray);
            program.table(&order)
        }
        1 => {
            let own = program.root;
            let root = program.add(random.pick(&[1, 3]), 0, 0, &[]);
            program.table(&if random.chance(50) {
                vec![root]
            } else {
                vec![own, root]
            })
        }
        2 => {
            order.clear();
            program.table(&order)
        }
        _ => deep(random, 25),
    }
}

// The role of the word that a test of "Broken (12)" reads, if it is one.
fn role_of(site: Site) -> Option<Role> {
    match site {
        Site::HeaderLimit => Some(Role::Limit),
        Site::HeaderSteps => Some(Role::HeaderSteps),
        Site::HeaderInput => Some(Role::Input),
        Site::HeaderOutput | Site::Output => Some(Role::Output),
        Site::EntryNode => Some(Role::Node),
        Site::SizeLow | Site::SizePast | Site::SizeLast | Site::RepeatEnd => Some(Role::Size),
        Site::EntrySteps => Some(Role::Steps),
        Site::Condition => Some(Role::Condition),
        Site::BeforeType | Site::BeforeSum => Some(Role::Before),
        Site::AfterType | Site::AfterSum => Some(Role::After),
        Site::CountType | Site::CountSum | Site::NoneEnd | Site::TailPlace => Some(Role::Count),
        Site::IterationType | Site::IterationSum | Site::TailType => Some(Role::Iteration),
        Site::LeftType | Site::RightType | Site::OldResult => Some(Role::Operand),
        Site::LeftSum | Site::RightSum => Some(Role::Operand),
        _ => None,
    }
}

// The aims of a group, taken in turn.
fn aims(group: Group) -> Vec<Aim> {
    let mut aims = Vec::new();
    let numbers: &[i64] = match group {
        Group::Table => &[0, 1, 2, 3, 4, 5, 1, 2, 3, 4, 5, 3, 0],
        Group::Run => &[
            0, 8, 9, 10, 6, 7, 0, 8, 9, 10, 6, 7, 0, 8, 9, 1, 0, 3, 0, 4, 0, 5, 2,
        ],
        Group::Left => &[8, 9, 10, 11, 0],
        Group::Damaged => &[0, 8, 9, 10, 11, 0, 8, 9, 0, 8, 9, 1, 3, 4, 5, 2],
        Group::Quick => &[0, 8, 9, 10, 11, 0, 8, 9],
        Group::Chain => &[],
    };
    aims.extend(numbers.iter().map(|&number| Aim::Number(number)));
    if group == Group::Left {
        aims.extend(FEATURES.iter().map(|feature| Aim::Feature(feature.0)));
    }
    if matches!(group, Group::Damaged | Group::Quick) {
        aims.extend(SITES.iter().map(|site| Aim::Broken(site.0)));
        aims.extend(vec![Aim::Order(8); 12]);
        aims.extend(vec![Aim::Order(9); 6]);
    }
    if group == Group::Damaged {
        aims.extend((0..SHARP.len()).map(Aim::Sharp));
    }
    let (any, met) = match group {
        Group::Table => (0, 0),
        Group::Run => (4, 3),
        Group::Left => (5, 1),
        Group::Damaged => (5, 0),
        Group::Quick => (aims.len() * (ONE_AIMED - 1), 0),
        Group::Chain => (1, 0),
    };
    aims.extend(vec![Aim::Any; any]);
    aims.extend(vec![Aim::LimitMet; met]);
    aims
}

impl Generator {
    // A generator of cases of all sorts from a seed.
    pub fn new(seed: u64) -> Generator {
        Generator::of(seed, &Sort::ALL)
    }

    // A generator of cases of some sorts from a seed.
    pub fn of(seed: u64, sorts: &[Sort]) -> Generator {
        Generator {
            random: Random::new(seed),
            sorts: sorts.to_vec(),
            deck: Vec::new(),
            turn: [0; 6],
            rest: VecDeque::new(),
            damaged: None,
        }
    }

    // The next case: groups from a mixed deck of a hundred, or as many of them as
    // are of the sorts, aims in turn; a chain is not broken off.
    pub fn case(&mut self) -> Case {
        if let Some(case) = self.rest.pop_front() {
            return case;
        }
        if self.deck.is_empty() {
            for (sort, group, count) in [
                (Sort::Table, Group::Table, 20),
                (Sort::Run, Group::Run, 25),
                (Sort::Patch, Group::Left, 22),
                (Sort::Patch, Group::Damaged, 33),
                (Sort::Damaged, Group::Quick, 2 * LINKS),
                (Sort::Chain, Group::Chain, 2),
            ] {
                if self.sorts.contains(&sort) {
                    self.deck.extend(vec![group; count]);
                }
            }
            self.random.shuffle(&mut self.deck);
        }
        let group = self.deck.pop().unwrap_or(Group::Run);
        let aims = aims(group);
        let turn = &mut self.turn[group as usize];
        let aim = aims[*turn % aims.len()];
        *turn += 1;
        match group {
            Group::Quick => self.quick_case(aim),
            Group::Chain => self.chain_case(),
            _ => self.aimed(group, aim),
        }
    }

    // A case of a group that meets an aim, or at least is of the group.
    fn aimed(&mut self, group: Group, aim: Aim) -> Case {
        let mut other = None;
        for _ in 0..TRIES {
            let made = match group {
                Group::Table => self.table_case(aim),
                Group::Run => self.run_case(aim),
                Group::Left => self.left_case(aim),
                _ => self.damaged_case(aim),
            };
            if let Some((case, met)) = made {
                if meets(&case, &met, aim) {
                    return case;
                }
                if group != Group::Table {
                    other = Some(case);
                }
            }
        }
        match other {
            Some(case) => case,
            None => answered(&Case::Table {
                table: Vec::new(),
                number: 0,
            }),
        }
    }

    // Try a table case ("Program table").
    fn table_case(&mut self, aim: Aim) -> Option<(Case, Met)> {
        let random = &mut self.random;
        let mut table = match random.below(10) {
            0 | 1 if aim == Aim::Number(0) => deep(random, 24),
            0 | 1 => odd_table(random),
            _ => small_table(random),
        };
        if aim == Aim::Number(5) {
            let depth = random.pick(&[24, 25, 25, 26]);
            table = deep(random, depth);
        } else if aim != Aim::Number(0) {
            let times = random.pick(&[0, 1, 1, 1, 2]);
            (0..times).for_each(|_| damage_table(random, &mut table));
        }
        Some((answered(&Case::Table { table, number: 0 }), Met::default()))
    }

    // Try a run case ("Running").
    fn run_case(&mut self, aim: Aim) -> Option<(Case, Met)> {
        let random = &mut self.random;
        let most = most_words(random);
        let whatever = matches!(aim, Aim::Any | Aim::Number(8) | Aim::Number(9));
        let mut made = if whatever && random.chance(60) {
            untried(random)
        } else {
            session(random, most)
        };
        spoil_table(random, &mut made.bytes, aim);
        spoil_call(random, &mut made, aim);
        let mut effort = Effort::default();
        let (limit, mut large) = (made.limit, vec![0; 2000]);
        let answer = run_watched(&made.bytes, &made.inputs, limit, &mut large, &mut effort);
        let length = answer.length;
        if effort.steps > MOST_EFFORT.steps || effort.words > MOST_EFFORT.words {
            return None;
        }
        let wanted = if length == 0 {
            random.below(40)
        } else {
            length as usize
        };
        let room = room_for(random, wanted, aim);
        let case = answered(&Case::Run {
            table: made.bytes,
            limit: made.limit,
            inputs: made.inputs,
            answer: Answer::refused(0),
            words: vec![0; room],
        });
        Some((case, Met::default()))
    }

    // Try a patch case of a left record, at the end of a chain ("Patching").
    fn left_case(&mut self, aim: Aim) -> Option<(Case, Met)> {
        let random = &mut self.random;
        let most = most_words(random);
        let mut made = session(random, most);
        for _ in 0..random.below(4) {
            chain(random, &mut made, most);
        }
        let inputs = made.record[3..3 + made.table.variables].to_vec();
        let bad = aim == Aim::Number(11) || aim == Aim::Any && random.chance(10);
        let changes = if bad {
            bad_changes(random, &made.table, &inputs)
        } else {
            random_changes(random, &made.table, &inputs)
        };
        let mut old = made.record;
        if random.chance(20) {
            for _ in 0..random.below(5) {
                old.push(random.pick(&[0, 1, -1, 5, i64::MIN, i64::MAX]));
            }
        }
        patch_case(random, made.bytes, old, changes, aim, MOST_EFFORT)
    }

    // Try a patch case of a damaged record ("Broken (12)").
    fn damaged_case(&mut self, aim: Aim) -> Option<(Case, Met)> {
        let random = &mut self.random;
        if let Aim::Sharp(place) = aim {
            let (table, old) = record(&SHARP[place])?;
            let changes = SHARP[place].changes.to_vec();
            return patch_case(random, table, old, changes, aim, MOST_EFFORT);
        }
        let most = most_words(random);
        let made = session(random, most);
        damaged_case_of(random, &made, most, aim)
    }

    // A patch case of a damaged record, tried not often; the runs are used for many.
    fn quick_case(&mut self, aim: Aim) -> Case {
        let mut tries = 0;
        loop {
            let wanted = if tries < FEW_TRIES { aim } else { Aim::Any };
            tries += 1;
            let random = &mut self.random;
            let (made, most, used) = self.damaged.get_or_insert_with(|| {
                let most = most_words(random);
                (session(random, most), most, 0)
            });
            let tried = damaged_case_of(random, made, *most, wanted);
            *used += 1;
            if *used == FROM_ONE_RUN {
                self.damaged = None;
            }
            if let Some((case, met)) = tried {
                if meets(&case, &met, wanted) {
                    return case;
                }
            }
        }
    }

    // The first case of a chain, a run; its patches wait ("The record", last
    // paragraph).
    fn chain_case(&mut self) -> Case {
        let random = &mut self.random;
        let most = if random.chance(LARGE_CHAINS) {
            LARGE
        } else {
            most_words(random)
        };
        let made = session(random, most);
        let room = made.record.len() + random.below(12);
        let first = answered(&Case::Run {
            table: made.bytes.clone(),
            limit: made.limit,
            inputs: made.inputs.clone(),
            answer: Answer::refused(0),
            words: vec![0; room],
        });
        let mut old = made.record.clone();
        for _ in 0..LINKS {
            let link = link_case(random, &made, &old);
            if let Some(record) = left(&link) {
                old = record.to_vec();
            }
            self.rest.push_back(link);
        }
        first
    }
}

// The record that a case's call left, if it was accepted.
pub fn left(case: &Case) -> Option<&[i64]> {
    match case {
        Case::Run { answer, words, .. } | Case::Patch { answer, words, .. }
            if answer.number == 0 =>
        {
            words.get(..answer.length as usize)
        }
        _ => None,
    }
}

// A patch of a chain, of the record that the chain has come to.
fn link_case(random: &mut Random, made: &Session, old: &[i64]) -> Case {
    let inputs = &old[3..3 + made.table.variables];
    for _ in 0..FEW_TRIES {
        let changes = if random.chance(4) {
            bad_changes(random, &made.table, inputs)
        } else {
            random_changes(random, &made.table, inputs)
        };
        let (bytes, old) = (made.bytes.clone(), old.to_vec());
        let tried = patch_case(random, bytes, old, changes, Aim::Any, CHAIN_EFFORT);
        if let Some((case, _)) = tried {
            return case;
        }
    }
    answered(&Case::Patch {
        table: made.bytes.clone(),
        old: old.to_vec(),
        changes: vec![0; made.table.variables],
        answer: Answer::refused(0),
        words: vec![0; old.len()],
    })
}

// Try a patch case of a record of a run, damaged ("Broken (12)").
fn damaged_case_of(
    random: &mut Random,
    made: &Session,
    most: usize,
    aim: Aim,
) -> Option<(Case, Met)> {
    let mut changes = random_changes(random, &made.table, &made.inputs);
    if aim == Aim::Number(11) || random.chance(6) {
        changes = bad_changes(random, &made.table, &made.inputs);
    }
    let wanted = match aim {
        Aim::Broken(site) => role_of(site),
        _ => None,
    };
    let mut old = made.record.clone();
    if let Aim::Order(number) = aim {
        old = two_damages(random, made, &changes, number)?;
    } else if aim == Aim::Number(11) && random.chance(20) {
        old.truncate(3 + 2 * made.table.variables + random.below(3));
        old[0] = old.len() as i64;
    } else if wanted.is_none() && random.chance(8) {
        old = session_of(random, made.table.types.clone(), most)?.record;
    } else {
        let map = map(&made.table, &made.record);
        for _ in 0..random.pick(&[1, 1, 1, 2, 3]) {
            damage(random, &map, &mut old, wanted);
        }
    }
    let mut bytes = made.bytes.clone();
    spoil_table(random, &mut bytes, aim);
    if is_left(&bytes, &old) {
        return None;
    }
    patch_case(random, bytes, old, changes, aim, MOST_EFFORT)
}

// Patch a session's record once more, if the patch is accepted ("Patching").
fn chain(random: &mut Random, made: &mut Session, most: usize) {
    let inputs = made.record[3..3 + made.table.variables].to_vec();
    let changes = random_changes(random, &made.table, &inputs);
    let mut room = vec![0; most];
    let answer = patch(&made.bytes, &made.record, &changes, &mut room);
    if answer.number == 0 && answer.steps <= MOST_EFFORT.steps {
        room.truncate(answer.length as usize);
        made.record = room;
    }
}

// A damaged record whose patch meets a wanted number and another of 8, 9 and
// 12: with one changed word as it was, the other comes ("Refusal numbers",
// the order).
fn two_damages(
    random: &mut Random,
    made: &Session,
    changes: &[i64],
    wanted: i64,
) -> Option<Vec<i64>> {
    let map = map(&made.table, &made.record);
    let mut old = made.record.clone();
    for _ in 0..random.between(1, 3) {
        damage_words(random, &map, &mut old);
    }
    if !(1..=2000).contains(&old[1]) {
        return None;
    }
    let number = |words: &[i64]| patch(&made.bytes, words, changes, &mut []).number;
    let first = number(&old);
    for at in (1..old.len()).filter(|&at| at != 2) {
        let word = old[at];
        if word != made.record[at] && matches!(first, 8 | 9 | 12) {
            old[at] = made.record[at];
            let other = number(&old);
            old[at] = word;
            let both = [first, other];
            if other != first && matches!(other, 8 | 9 | 12) && both.contains(&wanted) {
                return Some(old);
            }
        }
    }
    None
}

// Spoil a table where its aim wants it ("Refusal numbers", 1 to 5).
fn spoil_table(random: &mut Random, bytes: &mut Vec<u8>, aim: Aim) {
    if aim == Aim::Number(5) {
        *bytes = deep(random, 25);
    } else if matches!(aim, Aim::Number(1..=4)) {
        damage_table(random, bytes);
    }
}

// Spoil a run's inputs or limit where its aim wants it ("Refusal numbers").
fn spoil_call(random: &mut Random, made: &mut Session, aim: Aim) {
    let six = aim == Aim::Number(6) || random.chance(2);
    let seven = aim == Aim::Number(7) || aim == Aim::Number(6) && random.chance(30);
    if six {
        let variable = random.below(made.inputs.len());
        match random.below(6) {
            0 => made.inputs.push(0),
            1 => made.inputs.truncate(variable),
            2 => made.inputs[variable] = random.pick(&[i64::MIN, i64::MAX]),
            3 => made.inputs[variable] = random.pick(&[2, -1]),
            _ => made.inputs[variable] = random.pick(&[HIGH + 1, LOW - 1]),
        }
    }
    if seven {
        made.limit = random.pick(&[0, -1, 1_000_001, i64::MIN, i64::MAX, -5]);
        return;
    }
    made.limit = match aim {
        Aim::LimitMet => made.steps,
        Aim::Number(9) if random.chance(50) => made.steps - 1,
        Aim::Number(9) => random.between(1, made.steps),
        Aim::Any => random.between(1, 200),
        _ => made.limit,
    };
}

// A patch case with a room, unless it takes too long ("Patching").
fn patch_case(
    random: &mut Random,
    table: Vec<u8>,
    old: Vec<i64>,
    changes: Vec<i64>,
    aim: Aim,
    most: Effort,
) -> Option<(Case, Met)> {
    let mut met = Met::default();
    let mut large = vec![0; most.words + 500];
    let length = patch_watched(&table, &old, &changes, &mut large, &mut met).length;
    if met.effort.steps > most.steps || met.effort.words > most.words {
        return None;
    }
    let wanted = if length == 0 {
        random.below(40)
    } else {
        length as usize
    };
    let room = room_for(random, wanted, aim);
    let case = answered(&Case::Patch {
        table,
        old,
        changes,
        answer: Answer::refused(0),
        words: vec![0; room],
    });
    Some((case, met))
}

// Whether a case meets an aim.
fn meets(case: &Case, met: &Met, aim: Aim) -> bool {
    let number = case_number(case);
    match aim {
        Aim::Any | Aim::Order(_) | Aim::Sharp(_) => true,
        Aim::Number(wanted) => number == wanted,
        Aim::Feature(feature) => number == 0 && met.features & feature != 0,
        Aim::Broken(site) => number == 12 && met.site == Some(site),
        Aim::LimitMet => match case {
            Case::Run { limit, answer, .. } => number == 0 && answer.steps == *limit,
            Case::Patch { old, answer, .. } => number == 0 && answer.steps == old[1],
            Case::Table { .. } => false,
        },
    }
}
