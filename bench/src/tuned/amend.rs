//! An expression in a patch: its record read, and written with the changes of its operands.
use super::answer::Refusal;
use super::program::{Expression, Operation, Program, Slots};
use super::values::{is_number, Numbers};

/// Carry an expression's record over, and leave its change in its slot. The operations go in the order of evaluation and only note that
/// a test failed: which refusal that is depends on an order of tests, which `first_refusal` keeps.
#[inline(always)]
pub fn amend(operations: &[Operation], changes: &mut Slots, old: &[i64], new: &mut [i64]) -> bool {
    let new = &mut new[..old.len()];
    let mut numbers = Numbers::default();
    for operation in operations {
        let place = operation.place as usize;
        let (right, left) = (old[place + 1], old[place]);
        let new_left = left.wrapping_add(changes[operation.left as usize]);
        let new_right = right.wrapping_add(changes[operation.right as usize]);
        (new[place + 1], new[place]) = (new_right, new_left);
        let (was, is) = (operation.operator.of(left, right), operation.operator.of(new_left, new_right));
        [left, right, new_left, new_right, was, is].into_iter().for_each(|word| numbers.note(word));
        changes[operation.into as usize] = operation.operator.change(is, was);
    }
    numbers.all()
}

/// The refusal of an expression that fails a test: the first in the walk of its record, or else a wrong end.
#[cold]
pub fn first_refusal(program: &Program, changes: &Slots, expression: Expression, record: &[i64]) -> Refusal {
    let mut rest = record;
    in_order(program.operations(expression), changes, expression.result, &mut rest).err().unwrap_or(Refusal::Broken)
}

/// Walk the expression of a slot test by test: words, old result, left part and sum, right part and sum, new result.
fn in_order(operations: &[Operation], changes: &Slots, slot: u16, rest: &mut &[i64]) -> Result<i64, Refusal> {
    let number = |word: i64| Some(word).filter(|&word| is_number(word)).ok_or(Refusal::Broken);
    let Some(operation) = operations.iter().find(|operation| operation.into == slot) else {
        return Ok(changes[slot as usize]);
    };
    let [left, right, behind @ ..] = *rest else { return Err(Refusal::Broken) };
    *rest = behind;
    let was = number(operation.operator.of(number(*left)?, number(*right)?))?;
    let left = number(left + in_order(operations, changes, operation.left, rest)?)?;
    let right = number(right + in_order(operations, changes, operation.right, rest)?)?;
    let is = operation.operator.of(left, right);
    is_number(is).then(|| operation.operator.change(is, was)).ok_or(Refusal::Range)
}
