//! A run that keeps no record: what a game does that cannot patch.
use super::answer::{Refusal, Words, FRESH, STEPS, VALUES};
use super::program::{Expression, Program, Slots, Statement};
use super::values::is_number;

struct Plain<'p> {
    program: &'p Program,
    slots: Box<Slots>,
    /// Steps that may still be taken.
    left: i64,
}

/// The steps and the values at the end.
pub fn plain(program: &Program, slots: Box<Slots>, limit: i64) -> Result<Words, Refusal> {
    let mut plain = Plain { program, slots, left: limit };
    plain.statement(program.root())?;
    let mut words = [0; 72];
    words[STEPS] = limit - plain.left;
    words[FRESH] = words[STEPS];
    let variables = program.variables;
    words[VALUES..VALUES + variables].copy_from_slice(&plain.slots[..variables]);
    Ok(words)
}

impl Plain<'_> {
    fn statement(&mut self, number: u16) -> Result<(), Refusal> {
        if self.left == 0 {
            return Err(Refusal::Fuel);
        }
        self.left -= 1;
        match self.program.nodes[number as usize].statement {
            Statement::Skip => Ok(()),
            Statement::Assign { variable, value } => {
                self.slots[variable as usize] = self.evaluate(value)?;
                Ok(())
            }
            Statement::Sequence { first, second } => {
                self.statement(first)?;
                self.statement(second)
            }
            Statement::If { condition, then, otherwise, .. } => {
                let branch = if self.evaluate(condition)? == 1 { then } else { otherwise };
                self.statement(branch)
            }
            Statement::Repeat { count, body, .. } => {
                for _ in 0..self.evaluate(count)? {
                    self.statement(body)?;
                }
                Ok(())
            }
        }
    }

    #[inline(always)]
    fn evaluate(&mut self, expression: Expression) -> Result<i64, Refusal> {
        for operation in self.program.operations(expression) {
            let (left, right) = (self.slots[operation.left as usize], self.slots[operation.right as usize]);
            let result = operation.operator.of(left, right);
            if !is_number(result) {
                return Err(Refusal::Range);
            }
            self.slots[operation.into as usize] = result;
        }
        Ok(self.slots[expression.result as usize])
    }
}
