//! The patch (document 01, "Patching").

use crate::answer::Answer;
use crate::met::*;
use crate::output::Output;
use crate::run::{Effort, Runner};
use crate::table::{check, Node, Table};
use crate::values::{in_type, is_number, minus, operate, plus, MOST_STEPS, NUMBER, TRUTH};

/// A patch under way. Places are places of the old record.
struct Walker<'t, 'o, 'r> {
    /// The new record, and the store that fresh parts start from.
    runner: Runner<'t, 'r>,
    /// The old record, cut at its L.
    old: &'o [i64],
    /// The changes so far, and a bit for each that is not zero.
    changes: [i64; 32],
    changed: u32,
    walked: i64,
    reused: i64,
    fresh: i64,
    /// Walked iterations around the place.
    loops: u32,
    met: Met,
}

// Patch an old record with changes into a room ("Patching").
pub fn patch(table: &[u8], old: &[i64], changes: &[i64], room: &mut [i64]) -> Answer {
    let mut met = Met::default();
    patch_watched(table, old, changes, room, &mut met)
}

// The same patch, which also tells what it met ("Patching").
pub fn patch_watched(
    table: &[u8],
    old: &[i64],
    changes: &[i64],
    room: &mut [i64],
    met: &mut Met,
) -> Answer {
    match attempt(table, old, changes, room, met) {
        Ok(answer) => answer,
        Err(number) => {
            room.fill(0);
            Answer::refused(number)
        }
    }
}

// The patch's tests in turn: 1 to 5, the header's 12, 11, the walk, the
// outputs' 12, then 10 ("Refusal numbers", the order).
fn attempt(
    table: &[u8],
    old: &[i64],
    changes: &[i64],
    room: &mut [i64],
    met: &mut Met,
) -> Result<Answer, i64> {
    let table = check(table)?;
    let old = check_header(&table, old).map_err(|site| met.broken(site))?;
    let inputs = new_inputs(&table, old, changes).ok_or(11)?;
    let mut walker = walker(&table, old, changes, room);
    let header = walker.runner.out.leave(3 + 2 * table.variables);
    let root = table.nodes.len() - 1;
    let ended = walker.entry(root, 3 + 2 * table.variables, old.len(), true);
    walker.met.effort = Effort {
        steps: walker.runner.steps,
        words: walker.runner.out.at(),
    };
    let answer = match ended {
        Ok(_) => walker.finish(header, &inputs),
        Err(number) => Err(number),
    };
    *met = walker.met;
    answer
}

// The header's tests of "Broken (12)"; gives the old record, cut at its L.
fn check_header<'o>(table: &Table, old: &'o [i64]) -> Result<&'o [i64], Site> {
    let variables = table.variables;
    let least = 3 + 2 * variables;
    if old.len() < least {
        return Err(Site::SliceShort);
    }
    if old[0] < least as i64 {
        return Err(Site::LengthShort);
    }
    if old[0] > old.len() as i64 {
        return Err(Site::LengthBeyond);
    }
    if !(1..=MOST_STEPS).contains(&old[1]) {
        return Err(Site::HeaderLimit);
    }
    if !(1..=old[1]).contains(&old[2]) {
        return Err(Site::HeaderSteps);
    }
    for variable in 0..variables {
        if !in_type(old[3 + variable], table.types[variable]) {
            return Err(Site::HeaderInput);
        }
    }
    for variable in 0..variables {
        if !in_type(old[3 + variables + variable], table.types[variable]) {
            return Err(Site::HeaderOutput);
        }
    }
    Ok(&old[..old[0] as usize])
}

// The new inputs, unless refusal 11 ("Refusal numbers").
fn new_inputs(table: &Table, old: &[i64], changes: &[i64]) -> Option<[i64; 32]> {
    if changes.len() != table.variables {
        return None;
    }
    let mut inputs = [0; 32];
    for (variable, &change) in changes.iter().enumerate() {
        let input = old[3 + variable];
        inputs[variable] = if table.types[variable] == NUMBER {
            input.checked_add(change).filter(|&sum| is_number(sum))?
        } else if in_type(change, TRUTH) {
            input ^ change
        } else {
            return None;
        };
    }
    Some(inputs)
}

// A walker at the start of a patch ("Patching").
fn walker<'t, 'o, 'r>(
    table: &'t Table,
    old: &'o [i64],
    changes: &[i64],
    room: &'r mut [i64],
) -> Walker<'t, 'o, 'r> {
    let mut walker = Walker {
        runner: Runner {
            table,
            out: Output::new(room),
            limit: old[1],
            steps: 0,
            store: [0; 32],
        },
        old,
        changes: [0; 32],
        changed: 0,
        walked: 0,
        reused: 0,
        fresh: 0,
        loops: 0,
        met: Met::default(),
    };
    for (variable, &change) in changes.iter().enumerate() {
        walker.set_change(variable, change);
    }
    walker
}

impl<'t, 'o, 'r> Walker<'t, 'o, 'r> {
    // Set one variable's change ("Patching").
    #[inline]
    fn set_change(&mut self, variable: usize, change: i64) {
        self.changes[variable] = change;
        if change == 0 {
            self.changed &= !(1 << variable);
        } else {
            self.changed |= 1 << variable;
        }
    }

    // The word at a place, if it lies before the end of the entry being read
    // ("Broken (12)", parts that do not fit).
    #[inline]
    fn word(&mut self, at: usize, end: usize) -> Result<i64, i64> {
        if at < end {
            Ok(self.old[at])
        } else {
            Err(self.met.broken(Site::NoFit))
        }
    }

    // The opening tests of an entry met; gives its end and its steps word
    // ("Broken (12)", an entry met).
    fn meet(
        &mut self,
        number: usize,
        at: usize,
        end: usize,
        last: bool,
    ) -> Result<(usize, i64), i64> {
        let left = end - at;
        if left < 3 {
            return Err(self.met.broken(Site::EntryShort));
        }
        let size = self.old[at + 1];
        let steps = self.old[at + 2];
        if self.old[at] != number as i64 {
            Err(self.met.broken(Site::EntryNode))
        } else if size < 3 {
            Err(self.met.broken(Site::SizeLow))
        } else if size > left as i64 {
            Err(self.met.broken(Site::SizePast))
        } else if last && size != left as i64 {
            Err(self.met.broken(Site::SizeLast))
        } else if !(1..=MOST_STEPS).contains(&steps) {
            Err(self.met.broken(Site::EntrySteps))
        } else {
            Ok((at + size as usize, steps))
        }
    }

    // Patch the entry of a statement: skip rule or walk; gives its end ("Patching").
    fn entry(&mut self, number: usize, at: usize, end: usize, last: bool) -> Result<usize, i64> {
        let table = self.runner.table;
        let node = &table.nodes[number];
        let (stop, steps) = self.meet(number, at, end, last)?;
        if node.mask & self.changed == 0 {
            return self.skip(at, stop, steps);
        }
        let before = self.runner.steps;
        self.runner.step()?;
        self.walked += 1;
        let place = self.runner.open(number);
        match node.kind {
            17 => self.assign(node, at + 3, stop)?,
            18 => {
                let middle = self.entry(node.a, at + 3, stop, false)?;
                self.entry(node.b, middle, stop, true)?;
            }
            19 => self.choice(node, at + 3, stop)?,
            20 => self.repeat(node, at + 3, stop)?,
            _ => {}
        }
        self.runner.close(place, before);
        Ok(stop)
    }

    // The skip rule: copy the entry, its steps to reused ("Patching", 1).
    fn skip(&mut self, at: usize, stop: usize, steps: i64) -> Result<usize, i64> {
        if self.runner.steps + steps > self.runner.limit {
            return Err(9);
        }
        self.runner.steps += steps;
        self.reused += steps;
        self.runner.out.copy(&self.old[at..stop]);
        if self.walked > 0 {
            self.met.features |= SKIPPED;
        }
        Ok(stop)
    }

    // Walk an assign ("Patching", 2).
    fn assign(&mut self, node: &Node, at: usize, end: usize) -> Result<(), i64> {
        let (change, at) = self.expression(node.a, at, end)?;
        if at != end {
            return Err(self.met.broken(Site::AssignEnd));
        }
        self.set_change(node.tag as usize, change);
        Ok(())
    }

    // Walk an if ("Patching", 2; "Broken (12)").
    fn choice(&mut self, node: &Node, at: usize, end: usize) -> Result<(), i64> {
        let condition = self.word(at, end)?;
        if !in_type(condition, TRUTH) {
            return Err(self.met.broken(Site::Condition));
        }
        let place = self.runner.out.leave(1);
        let sites = (Site::BeforeType, Site::BeforeSum);
        let after = self.snapshot(node, at + 1, end, sites)?;
        let new_after = self.runner.out.leave(node.mentioned.len());
        let at = self.types(node, after, end, Site::AfterType)?;
        let (change, at) = self.expression(node.a, at, end)?;
        let new_condition = condition ^ change;
        self.runner.out.set(place, new_condition);
        let branch = if new_condition == 1 { node.b } else { node.c };
        if change == 0 {
            self.met.features |= KEPT;
            self.entry(branch, at, end, true)?;
            self.after_kept(node, after, new_after)
        } else {
            self.met.features |= FLIPPED;
            self.run_fresh(|runner| runner.statement(branch))?;
            self.runner.snapshot_at(node, new_after);
            self.changes_from(node, after);
            Ok(())
        }
    }

    // The snapshot after of an if whose condition is kept, with its changes
    // ("Patching", condition kept).
    fn after_kept(&mut self, node: &Node, after: usize, new_after: usize) -> Result<(), i64> {
        for (word, &variable) in node.mentioned.iter().enumerate() {
            let variable = variable as usize;
            let kind = self.runner.table.types[variable];
            let Some(new) = plus(self.old[after + word], self.changes[variable], kind) else {
                return Err(self.met.broken(Site::AfterSum));
            };
            self.runner.out.set(new_after + word, new);
        }
        Ok(())
    }

    // Walk a repeat ("Patching", 2; "Broken (12)").
    fn repeat(&mut self, node: &Node, at: usize, end: usize) -> Result<(), i64> {
        let count = self.word(at, end)?;
        if !is_number(count) {
            return Err(self.met.broken(Site::CountType));
        }
        let place = self.runner.out.leave(1);
        let before = at + 1;
        let at = self.snapshot(node, before, end, (Site::BeforeType, Site::BeforeSum))?;
        let (change, at) = self.expression(node.a, at, end)?;
        let Some(new_count) = plus(count, change, NUMBER) else {
            return Err(self.met.broken(Site::CountSum));
        };
        self.runner.out.set(place, new_count);
        self.note_repeat(count, new_count);
        let (old_runs, new_runs) = (count.max(0), new_count.max(0));
        let (at, snapshot) = self.iterations(node, at, end, before, old_runs.min(new_runs))?;
        if new_runs < old_runs {
            return self.dropped_tail(node, at, end);
        }
        if at != end {
            let site = if old_runs == 0 {
                Site::NoneEnd
            } else {
                Site::RepeatEnd
            };
            return Err(self.met.broken(site));
        }
        if new_runs > old_runs {
            self.run_fresh(|runner| runner.iterations(node, new_runs - old_runs))?;
            self.changes_from(node, snapshot);
        }
        Ok(())
    }

    // Walk the iterations that stay; gives the place behind them and that of
    // the last old snapshot so far ("Patching", repeat).
    fn iterations(
        &mut self,
        node: &Node,
        at: usize,
        end: usize,
        before: usize,
        count: i64,
    ) -> Result<(usize, usize), i64> {
        let (mut at, mut snapshot) = (at, before);
        self.loops += 1;
        for _ in 0..count {
            snapshot = self.entry(node.b, at, end, false)?;
            let sites = (Site::IterationType, Site::IterationSum);
            at = self.snapshot(node, snapshot, end, sites)?;
        }
        self.loops -= 1;
        Ok((at, snapshot))
    }

    // The last snapshot of a dropped tail, and the changes from it ("Broken
    // (12)", a dropped tail; "Patching", repeat).
    fn dropped_tail(&mut self, node: &Node, at: usize, end: usize) -> Result<(), i64> {
        if end - at < node.mentioned.len() {
            return Err(self.met.broken(Site::TailPlace));
        }
        let last = end - node.mentioned.len();
        self.types(node, last, end, Site::TailType)?;
        self.changes_from(node, last);
        Ok(())
    }

    // Read a snapshot, write it with its changes, and put it in the store;
    // gives the place behind it ("Broken (12)", each word when read).
    fn snapshot(
        &mut self,
        node: &Node,
        at: usize,
        end: usize,
        sites: (Site, Site),
    ) -> Result<usize, i64> {
        let mut at = at;
        for &variable in &node.mentioned {
            let variable = variable as usize;
            let kind = self.runner.table.types[variable];
            let word = self.word(at, end)?;
            if !in_type(word, kind) {
                return Err(self.met.broken(sites.0));
            }
            let Some(new) = plus(word, self.changes[variable], kind) else {
                return Err(self.met.broken(sites.1));
            };
            self.runner.store[variable] = new;
            self.runner.out.put(new);
            at += 1;
        }
        Ok(at)
    }

    // Read a snapshot and test only its types; gives the place behind it
    // ("Broken (12)", each word when read).
    fn types(&mut self, node: &Node, at: usize, end: usize, site: Site) -> Result<usize, i64> {
        let mut at = at;
        for &variable in &node.mentioned {
            let word = self.word(at, end)?;
            if !in_type(word, self.runner.table.types[variable as usize]) {
                return Err(self.met.broken(site));
            }
            at += 1;
        }
        Ok(at)
    }

    // Each mentioned variable's change is its value in the store minus an old
    // snapshot, read and tested before ("Patching", flipped and repeat).
    fn changes_from(&mut self, node: &Node, snapshot: usize) {
        for (word, &variable) in node.mentioned.iter().enumerate() {
            let variable = variable as usize;
            let kind = self.runner.table.types[variable];
            let change = minus(self.runner.store[variable], self.old[snapshot + word], kind);
            self.set_change(variable, change);
        }
    }

    // Run a part fresh from the store; its steps go to fresh ("Patching").
    fn run_fresh<F>(&mut self, part: F) -> Result<(), i64>
    where
        F: FnOnce(&mut Runner<'t, 'r>) -> Result<(), i64>,
    {
        let before = self.runner.steps;
        part(&mut self.runner)?;
        self.fresh += self.runner.steps - before;
        self.met.features |= FRESH;
        Ok(())
    }

    // Walk an expression; gives its change and the place behind its record
    // ("Patching", the paragraph on operators; "Broken (12)").
    fn expression(&mut self, number: usize, at: usize, end: usize) -> Result<(i64, usize), i64> {
        let node = &self.runner.table.nodes[number];
        if node.kind < 3 {
            return Ok((0, at));
        }
        if node.kind == 3 {
            return Ok((self.changes[node.tag as usize], at));
        }
        let left = self.operand(at, end, Site::LeftType)?;
        let right = self.operand(at + 1, end, Site::RightType)?;
        let Some(old) = operate(node.kind, left, right) else {
            return Err(self.met.broken(Site::OldResult));
        };
        let place = self.runner.out.leave(2);
        let (left, at) = self.new_operand(node.a, left, at + 2, end, Site::LeftSum)?;
        let (right, at) = self.new_operand(node.b, right, at, end, Site::RightSum)?;
        self.runner.out.set(place, left);
        self.runner.out.set(place + 1, right);
        let new = operate(node.kind, left, right).ok_or(8)?;
        let kind = if node.kind < 7 { NUMBER } else { TRUTH };
        Ok((minus(new, old, kind), at))
    }

    // A recorded operand, a number ("Broken (12)", each word when read).
    #[inline]
    fn operand(&mut self, at: usize, end: usize, site: Site) -> Result<i64, i64> {
        let word = self.word(at, end)?;
        if is_number(word) {
            Ok(word)
        } else {
            Err(self.met.broken(site))
        }
    }

    // An operand's record, and the operand with its change ("Patching", the
    // paragraph on operators).
    fn new_operand(
        &mut self,
        number: usize,
        old: i64,
        at: usize,
        end: usize,
        site: Site,
    ) -> Result<(i64, usize), i64> {
        let (change, at) = self.expression(number, at, end)?;
        match plus(old, change, NUMBER) {
            Some(new) => Ok((new, at)),
            None => Err(self.met.broken(site)),
        }
    }

    // Note the features of a walked repeat; the answer does not rest on it.
    fn note_repeat(&mut self, count: i64, new_count: i64) {
        let (old, new) = (count.max(0), new_count.max(0));
        self.met.features |= match (old > 0, new > 0) {
            (false, false) => NONE_KEPT,
            (false, true) => FROM_NONE,
            (true, false) => TO_NONE,
            _ if old == new => REPEAT_KEPT,
            _ if old < new => REPEAT_GROWN,
            _ => REPEAT_SHRUNK,
        };
        if count < 0 || new_count < 0 {
            self.met.features |= NEGATIVE;
        }
        if self.loops > 0 {
            self.met.features |= NESTED;
        }
    }

    // The outputs with their changes, the header, 10 and the answer ("Broken
    // (12)", at the end; "Refusal numbers").
    fn finish(&mut self, header: usize, inputs: &[i64; 32]) -> Result<Answer, i64> {
        let variables = self.runner.table.variables;
        let mut answer = Answer::refused(0);
        for (variable, &input) in inputs.iter().enumerate().take(variables) {
            let kind = self.runner.table.types[variable];
            let output = self.old[3 + variables + variable];
            let Some(new) = plus(output, self.changes[variable], kind) else {
                return Err(self.met.broken(Site::Output));
            };
            answer.values[variable] = new;
            self.runner.out.set(header + 3 + variable, input);
            self.runner.out.set(header + 3 + variables + variable, new);
        }
        answer.length = self.runner.out.finish()?;
        answer.steps = self.runner.steps;
        answer.walked = self.walked;
        answer.reused = self.reused;
        answer.fresh = self.fresh;
        answer.changes = self.changes;
        self.runner.out.set(header, answer.length);
        self.runner.out.set(header + 1, self.runner.limit);
        self.runner.out.set(header + 2, self.runner.steps);
        Ok(answer)
    }
}
