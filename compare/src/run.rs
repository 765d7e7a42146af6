//! The fresh run (document 01, "Running" and "The record").

use crate::answer::Answer;
use crate::output::Output;
use crate::table::{check, Node, Table};
use crate::values::{in_type, operate, MOST_STEPS};

/// A run under way: the store, the steps so far and the room being written.
pub struct Runner<'t, 'r> {
    pub table: &'t Table,
    pub out: Output<'r>,
    pub limit: i64,
    pub steps: i64,
    pub store: [i64; 32],
}

/// How far a call went, accepted or not: its steps and the words it wrote.
#[derive(Clone, Copy, Debug, Default, PartialEq, Eq)]
pub struct Effort {
    pub steps: i64,
    pub words: usize,
}

// Run a table on a store under a limit into a room ("Running").
pub fn run(table: &[u8], inputs: &[i64], limit: i64, room: &mut [i64]) -> Answer {
    let mut effort = Effort::default();
    run_watched(table, inputs, limit, room, &mut effort)
}

// The same run, which also tells how far it went ("Running").
pub fn run_watched(
    table: &[u8],
    inputs: &[i64],
    limit: i64,
    room: &mut [i64],
    effort: &mut Effort,
) -> Answer {
    match attempt(table, inputs, limit, room, effort) {
        Ok(answer) => answer,
        Err(number) => {
            room.fill(0);
            Answer::refused(number)
        }
    }
}

// The run's tests in turn, 1 to 7, then the run, then 10 ("Refusal numbers").
fn attempt(
    table: &[u8],
    inputs: &[i64],
    limit: i64,
    room: &mut [i64],
    effort: &mut Effort,
) -> Result<Answer, i64> {
    let table = check(table)?;
    let store = store_of(&table, inputs).ok_or(6)?;
    if !(1..=MOST_STEPS).contains(&limit) {
        return Err(7);
    }
    let mut runner = Runner {
        table: &table,
        out: Output::new(room),
        limit,
        steps: 0,
        store,
    };
    runner.out.leave(3 + 2 * table.variables);
    let ended = runner.statement(table.nodes.len() - 1);
    *effort = Effort {
        steps: runner.steps,
        words: runner.out.at(),
    };
    ended?;
    finish(&mut runner, inputs)
}

// The store of a list of inputs, if it fits the table ("Refusal numbers", 6).
fn store_of(table: &Table, inputs: &[i64]) -> Option<[i64; 32]> {
    if inputs.len() != table.variables {
        return None;
    }
    let mut store = [0; 32];
    for (variable, &word) in inputs.iter().enumerate() {
        if !in_type(word, table.types[variable]) {
            return None;
        }
        store[variable] = word;
    }
    Some(store)
}

// The header of a finished run and its answer ("The record").
fn finish(runner: &mut Runner, inputs: &[i64]) -> Result<Answer, i64> {
    let length = runner.out.finish()?;
    let variables = runner.table.variables;
    runner.out.set(0, length);
    runner.out.set(1, runner.limit);
    runner.out.set(2, runner.steps);
    for (variable, &input) in inputs.iter().enumerate() {
        runner.out.set(3 + variable, input);
        runner
            .out
            .set(3 + variables + variable, runner.store[variable]);
    }
    let mut answer = Answer::refused(0);
    answer.steps = runner.steps;
    answer.fresh = runner.steps;
    answer.length = length;
    answer.values = runner.store;
    Ok(answer)
}

impl<'t, 'r> Runner<'t, 'r> {
    // Take one step, or refusal 9 with the limit used up ("Running").
    #[inline]
    pub fn step(&mut self) -> Result<(), i64> {
        if self.steps >= self.limit {
            return Err(9);
        }
        self.steps += 1;
        Ok(())
    }

    // Open an entry: its node number, and room for size and steps ("The record").
    #[inline]
    pub fn open(&mut self, number: usize) -> usize {
        let place = self.out.at();
        self.out.put(number as i64);
        self.out.leave(2);
        place
    }

    // Close an entry: its size and its steps with all its parts ("The record").
    #[inline]
    pub fn close(&mut self, place: usize, steps_before: i64) {
        let size = self.out.at() - place;
        self.out.set(place + 1, size as i64);
        self.out.set(place + 2, self.steps - steps_before);
    }

    // Write a snapshot of the store at the end ("The record").
    #[inline]
    pub fn snapshot(&mut self, node: &Node) {
        for &variable in &node.mentioned {
            self.out.put(self.store[variable as usize]);
        }
    }

    // Write a snapshot of the store into words left out before ("The record").
    #[inline]
    pub fn snapshot_at(&mut self, node: &Node, place: usize) {
        for (word, &variable) in node.mentioned.iter().enumerate() {
            self.out.set(place + word, self.store[variable as usize]);
        }
    }

    // Run a statement and write its entry ("Running").
    pub fn statement(&mut self, number: usize) -> Result<(), i64> {
        let table = self.table;
        let node = &table.nodes[number];
        let before = self.steps;
        self.step()?;
        let place = self.open(number);
        match node.kind {
            17 => self.store[node.tag as usize] = self.expression(node.a)?,
            18 => {
                self.statement(node.a)?;
                self.statement(node.b)?;
            }
            19 => self.choice(node)?,
            20 => self.repeat(node)?,
            _ => {}
        }
        self.close(place, before);
        Ok(())
    }

    // Run an if and write what stands behind its entry's opening ("The record").
    fn choice(&mut self, node: &Node) -> Result<(), i64> {
        let place = self.out.leave(1);
        self.snapshot(node);
        let after = self.out.leave(node.mentioned.len());
        let condition = self.expression(node.a)?;
        self.out.set(place, condition);
        self.statement(if condition == 1 { node.b } else { node.c })?;
        self.snapshot_at(node, after);
        Ok(())
    }

    // Run a repeat and write what stands behind its entry's opening ("The record").
    fn repeat(&mut self, node: &Node) -> Result<(), i64> {
        let place = self.out.leave(1);
        self.snapshot(node);
        let count = self.expression(node.a)?;
        self.out.set(place, count);
        self.iterations(node, count)
    }

    // Run some iterations of a repeat ("The record").
    pub fn iterations(&mut self, node: &Node, count: i64) -> Result<(), i64> {
        for _ in 0..count {
            self.statement(node.b)?;
            self.snapshot(node);
        }
        Ok(())
    }

    // Evaluate an expression and write its record; refusal 8 at the first
    // operator whose result is out of range ("Running").
    pub fn expression(&mut self, number: usize) -> Result<i64, i64> {
        let node = &self.table.nodes[number];
        match node.kind {
            1 => Ok(node.value),
            2 => Ok(node.tag as i64),
            3 => Ok(self.store[node.tag as usize]),
            kind => {
                let place = self.out.leave(2);
                let left = self.expression(node.a)?;
                let right = self.expression(node.b)?;
                self.out.set(place, left);
                self.out.set(place + 1, right);
                operate(kind, left, right).ok_or(8)
            }
        }
    }
}
