//! A run that leaves its record (document 01, "The record").
use super::answer::{Refusal, Words, FRESH, LENGTH, STEPS, VALUES};
use super::program::{Expression, Mentions, Operation, Program, Slots, Statement};
use super::room::Room;
use super::values::is_number;

/// A run under way; a patch has one for its fresh parts.
pub struct Run<'p, 'r> {
    pub program: &'p Program,
    pub slots: Box<Slots>,
    /// Steps that may still be taken.
    pub left: i64,
    pub room: Room<'r>,
}

/// The answer of a run; its record is in the room.
pub fn run(program: &Program, slots: Box<Slots>, inputs: &[i64], limit: i64, room: &mut [i64]) -> Result<Words, Refusal> {
    let mut run = Run { program, slots, left: limit, room: Room::new(room) };
    let variables = program.variables;
    run.room.claim(program.header());
    run.statement(program.root())?;
    run.room.finish()?;
    let (steps, length) = (limit - run.left, run.room.at() as i64);
    let header = run.room.part(0, program.header());
    header[..3].copy_from_slice(&[length, limit, steps]);
    header[3..3 + variables].copy_from_slice(inputs);
    header[3 + variables..].copy_from_slice(&run.slots[..variables]);
    let mut words = [0; 72];
    (words[STEPS], words[FRESH], words[LENGTH]) = (steps, steps, length);
    words[VALUES..VALUES + variables].copy_from_slice(&run.slots[..variables]);
    Ok(words)
}

/// Evaluate operations, and write their operands to the expression's record.
#[inline(always)]
fn evaluate(operations: &[Operation], slots: &mut Slots, record: &mut [i64]) -> Result<(), Refusal> {
    for operation in operations {
        let (left, right) = (slots[operation.left as usize], slots[operation.right as usize]);
        let place = operation.place as usize;
        (record[place + 1], record[place]) = (right, left);
        let result = operation.operator.of(left, right);
        if !is_number(result) {
            return Err(Refusal::Range);
        }
        slots[operation.into as usize] = result;
    }
    Ok(())
}

/// Write a snapshot.
#[inline(always)]
pub fn save(mentioned: &[u8], slots: &Slots, snapshot: &mut [i64]) {
    for (&variable, word) in mentioned.iter().zip(snapshot) {
        *word = slots[variable as usize];
    }
}

impl Run<'_, '_> {
    #[inline(always)]
    pub fn step(&mut self) -> Result<(), Refusal> {
        if self.left == 0 {
            return Err(Refusal::Fuel);
        }
        self.left -= 1;
        Ok(())
    }

    /// Run a statement and write its entry.
    pub fn statement(&mut self, number: u16) -> Result<(), Refusal> {
        let (before, from) = (self.left, self.room.at());
        self.step()?;
        match self.program.nodes[number as usize].statement {
            Statement::Skip => {
                self.room.claim(3).copy_from_slice(&[number as i64, 3, 1]);
                return Ok(());
            }
            Statement::Assign { variable, value } => return self.assign(number, variable, value),
            Statement::Sequence { first, second } => {
                self.room.claim(3)[0] = number as i64;
                self.statement(first)?;
                self.statement(second)?;
            }
            Statement::If { condition, then, otherwise, mentions } => {
                let truth = self.opened(number, condition, mentions, 2)?;
                self.statement(if truth == 1 { then } else { otherwise })?;
                let mentioned = self.program.mentioned(mentions);
                let after = self.room.part(from + 4 + mentioned.len(), mentioned.len());
                save(mentioned, &self.slots, after);
            }
            Statement::Repeat { count, body, mentions } => {
                let count = self.opened(number, count, mentions, 1)?;
                self.iterations(count, body, mentions)?;
            }
        }
        self.room.close(from, before - self.left);
        Ok(())
    }

    #[inline(always)]
    fn assign(&mut self, number: u16, variable: u8, value: Expression) -> Result<(), Refusal> {
        let size = 3 + value.words();
        let entry = self.room.claim(size);
        entry[..3].copy_from_slice(&[number as i64, size as i64, 1]);
        evaluate(self.program.operations(value), &mut self.slots, &mut entry[3..])?;
        self.slots[variable as usize] = self.slots[value.result as usize];
        Ok(())
    }

    /// Begin the entry of an if or a repeat, which has room for so many snapshots behind its value; gives the value.
    #[inline(always)]
    fn opened(&mut self, number: u16, value: Expression, mentions: Mentions, snapshots: usize) -> Result<i64, Refusal> {
        let mentioned = self.program.mentioned(mentions);
        let record = 4 + snapshots * mentioned.len();
        let entry = self.room.claim(record + value.words());
        entry[0] = number as i64;
        save(mentioned, &self.slots, &mut entry[4..record]);
        evaluate(self.program.operations(value), &mut self.slots, &mut entry[record..])?;
        entry[3] = self.slots[value.result as usize];
        Ok(entry[3])
    }

    /// Run some iterations of a repeat, each with its snapshot.
    pub fn iterations(&mut self, count: i64, body: u16, mentions: Mentions) -> Result<(), Refusal> {
        let mentioned = self.program.mentioned(mentions);
        for _ in 0..count {
            self.statement(body)?;
            save(mentioned, &self.slots, self.room.claim(mentioned.len()));
        }
        Ok(())
    }
}
