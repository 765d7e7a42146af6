//! The counts of a case file.

use crate::case::Case;
use crate::generate::{left, LINKS};
use crate::met::{Met, FEATURES, SITES};
use crate::patch::patch_watched;
use crate::run::run;
use crate::table::check;

/// The kinds of case that are counted apart.
pub const KINDS: [&str; 5] = [
    "tables accepted",
    "tables refused",
    "runs",
    "patches of left records",
    "patches of damaged records",
];

/// The counts of a case file.
#[derive(Clone, Debug)]
pub struct Tally {
    /// By kind, and by number in each kind.
    pub numbers: [[usize; 13]; 5],
    /// Accepted patches by feature.
    pub features: [usize; 12],
    /// Patches refused with 12 by the test that found it.
    pub sites: [usize; 34],
    /// Accepted runs and patches with steps equal to the limit.
    pub limit_met: usize,
    /// Accepted runs and patches whose record fills the room.
    pub room_filled: usize,
    /// Runs and patches refused with 10.
    pub room_small: usize,
    /// Chains: an accepted run and right behind it 20 patches, each of the
    /// record that the last accepted call of the chain left.
    pub chains: usize,
}

/// The chain that a file's last cases are of, or begin.
struct Chain<'a> {
    table: &'a [u8],
    record: &'a [i64],
    links: usize,
}

// Whether an old record is one that an accepted call left: the record that a
// run leaves on the inputs and limit it names ("The record", last paragraph).
pub fn is_left(table: &[u8], old: &[i64]) -> bool {
    let Ok(checked) = check(table) else {
        return false;
    };
    let variables = checked.variables;
    let least = 3 + 2 * variables;
    if old.len() < least || old[0] < least as i64 || old[0] > old.len() as i64 {
        return false;
    }
    let length = old[0] as usize;
    let mut room = vec![0; length];
    let answer = run(table, &old[3..3 + variables], old[1], &mut room);
    answer.number == 0 && room == old[..length]
}

// The kind of a case, a place in the list of kinds.
pub fn kind_of(case: &Case) -> usize {
    match case {
        Case::Table { number: 0, .. } => 0,
        Case::Table { .. } => 1,
        Case::Run { .. } => 2,
        Case::Patch { table, old, .. } if is_left(table, old) => 3,
        Case::Patch { .. } => 4,
    }
}

// The number of a case.
pub fn case_number(case: &Case) -> i64 {
    match case {
        Case::Table { number, .. } => *number,
        Case::Run { answer, .. } | Case::Patch { answer, .. } => answer.number,
    }
}

// The counts of cases.
pub fn tally(cases: &[Case]) -> Tally {
    let mut tally = Tally {
        numbers: [[0; 13]; 5],
        features: [0; 12],
        sites: [0; 34],
        limit_met: 0,
        room_filled: 0,
        room_small: 0,
        chains: chains(cases),
    };
    for case in cases {
        tally.add(case);
    }
    tally
}

// How many chains there are ("The record", last paragraph).
fn chains(cases: &[Case]) -> usize {
    let mut whole = 0;
    let mut open: Option<Chain> = None;
    for case in cases {
        open = continued(open, case);
        if open.as_ref().is_some_and(|chain| chain.links == LINKS) {
            whole += 1;
            open = None;
        }
    }
    whole
}

// The chain that cases are of with one more, if they are of one.
fn continued<'a>(open: Option<Chain<'a>>, case: &'a Case) -> Option<Chain<'a>> {
    match case {
        Case::Table { .. } => None,
        Case::Run { table, .. } => Some(Chain {
            table,
            record: left(case)?,
            links: 0,
        }),
        Case::Patch { table, old, .. } => {
            let mut chain = open?;
            if chain.table != table || chain.record != old {
                return None;
            }
            chain.record = left(case).unwrap_or(chain.record);
            chain.links += 1;
            Some(chain)
        }
    }
}

impl Tally {
    // Count one case.
    fn add(&mut self, case: &Case) {
        let number = case_number(case);
        self.numbers[kind_of(case)][number.clamp(0, 12) as usize] += 1;
        if number == 10 {
            self.room_small += 1;
        }
        match case {
            Case::Table { .. } => {}
            Case::Run {
                limit,
                answer,
                words,
                ..
            } => {
                if number == 0 {
                    self.limit_met += (answer.steps == *limit) as usize;
                    self.room_filled += (answer.length == words.len() as i64) as usize;
                }
            }
            Case::Patch {
                table,
                old,
                changes,
                answer,
                words,
            } => {
                if number == 0 {
                    self.limit_met += (old.get(1) == Some(&answer.steps)) as usize;
                    self.room_filled += (answer.length == words.len() as i64) as usize;
                }
                self.add_met(table, old, changes, words.len(), number);
            }
        }
    }

    // Count what a patch met.
    fn add_met(&mut self, table: &[u8], old: &[i64], changes: &[i64], room: usize, number: i64) {
        let mut met = Met::default();
        patch_watched(table, old, changes, &mut vec![0; room], &mut met);
        for (place, feature) in FEATURES.iter().enumerate() {
            if number == 0 && met.features & feature.0 != 0 {
                self.features[place] += 1;
            }
        }
        if let (12, Some(site)) = (number, met.site) {
            self.sites[site as usize] += 1;
        }
    }

    // How many cases of a kind there are.
    pub fn of_kind(&self, kind: usize) -> usize {
        self.numbers[kind].iter().sum()
    }

    // How often a number is given over all.
    pub fn of_number(&self, number: usize) -> usize {
        self.numbers.iter().map(|kind| kind[number]).sum()
    }

    // The counts as a table of text.
    pub fn text(&self) -> String {
        let mut text = String::from("kind of case                   all");
        for number in 0..13 {
            text.push_str(&format!("{number:>5}"));
        }
        text.push('\n');
        for (kind, name) in KINDS.iter().enumerate() {
            text.push_str(&format!("{name:<28}{:>6}", self.of_kind(kind)));
            for count in self.numbers[kind] {
                text.push_str(&format!("{count:>5}"));
            }
            text.push('\n');
        }
        text.push_str("\nfeatures of accepted patches\n");
        for (count, feature) in self.features.iter().zip(FEATURES) {
            text.push_str(&format!("  {:<40}{count:>6}\n", feature.1));
        }
        text.push_str("\nruns and patches\n");
        for (name, count) in self.others() {
            text.push_str(&format!("  {name:<40}{count:>6}\n"));
        }
        let chains = format!("chains of a run and {LINKS} patches");
        text.push_str(&format!("  {chains:<40}{:>6}\n", self.chains));
        text.push_str("\ntests that found a record broken (12)\n");
        for (count, site) in self.sites.iter().zip(SITES) {
            text.push_str(&format!("  {:<40}{count:>6}\n", site.1));
        }
        text
    }

    // The counts of limits and rooms.
    fn others(&self) -> [(&'static str, usize); 3] {
        [
            ("limit met (accepted, steps = limit)", self.limit_met),
            ("room filled (accepted, length = room)", self.room_filled),
            ("room too small (10)", self.room_small),
        ]
    }

    // What is missing for an agreement.
    pub fn missing(&self) -> Vec<String> {
        let mut missing = Vec::new();
        let mut need = |name: String, count: usize, least: usize| {
            if count < least {
                missing.push(format!("{name}: {count}, {least} needed"));
            }
        };
        for (kind, least) in [(2, 150), (3, 150), (4, 250), (1, 100)] {
            need(KINDS[kind].to_string(), self.of_kind(kind), least);
        }
        for number in 1..13 {
            need(
                format!("refusal number {number}"),
                self.of_number(number),
                8,
            );
        }
        for (count, feature) in self.features.iter().zip(FEATURES) {
            need(feature.1.to_string(), *count, 8);
        }
        for (name, count) in self.others() {
            need(name.to_string(), count, 8);
        }
        missing
    }

    // The patches in a line.
    pub fn patches(&self) -> String {
        let (whole, damaged) = (self.of_kind(3), self.of_kind(4));
        let (all, chains) = (whole + damaged, self.chains);
        format!("{all} patches, {damaged} of damaged records, {chains} chains of {LINKS}")
    }

    // What is missing for so many patches: half of damaged records, with every
    // test of "Broken (12)" met, and the others in chains for the most part.
    pub fn missing_patches(&self, least: usize) -> Vec<String> {
        let mut missing = Vec::new();
        let mut need = |name: &str, count: usize, least: usize| {
            if count < least {
                missing.push(format!("{name}: {count}, {least} needed"));
            }
        };
        let damaged = self.of_kind(4);
        need("patches", self.of_kind(3) + damaged, least);
        need(KINDS[4], damaged, least.div_ceil(2));
        need("chains", self.chains, least / (3 * LINKS));
        for (count, site) in self.sites.iter().zip(SITES) {
            need(site.1, *count, 1);
        }
        missing
    }
}
