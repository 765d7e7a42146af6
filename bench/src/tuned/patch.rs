//! The patch: the old record and the changes walked together (document 01, "Patching").
use super::amend::{amend, first_refusal};
use super::answer::{Refusal, Words, CHANGES, FRESH, LENGTH, REUSED, STEPS, VALUES, WALKED};
use super::program::{zeros, Expression, Mentions, Program, Slots, Statement, MOST_VARIABLES};
use super::room::Room;
use super::run::{save, Run};
use super::snapshot::{carried, carried_kept, typed};
use super::values::{is_number, MOST_STEPS};

/// A patch under way.
struct Walk<'p, 'r> {
    /// The new record, the fuel, and the slots that fresh parts start from.
    run: Run<'p, 'r>,
    /// The changes so far, by slot, and a bit for each variable whose change is not zero.
    changes: Box<Slots>,
    changed: u32,
    walked: i64,
    reused: i64,
}

/// The answer of a patch; its record is in the room.
pub fn patch(program: &Program, old: &[i64], changes: &[i64], room: &mut [i64]) -> Result<Words, Refusal> {
    let (header, root) = checked_header(program, old)?;
    let inputs = new_inputs(program, header, changes).ok_or(Refusal::Changes)?;
    let run = Run { program, slots: program.slots.clone(), left: header[1], room: Room::new(room) };
    let mut walk = Walk { run, changes: zeros(), changed: 0, walked: 0, reused: 0 };
    changes.iter().enumerate().for_each(|(variable, &change)| walk.set_change(variable, change));
    walk.run.room.claim(header.len());
    walk.entry(program.root(), root, true)?;
    walk.finish(header, &inputs)
}

/// The header of the old record and the words behind it up to its length, if the header holds.
fn checked_header<'o>(program: &Program, old: &'o [i64]) -> Result<(&'o [i64], &'o [i64]), Refusal> {
    let (header, rest) = old.split_at_checked(program.header()).ok_or(Refusal::Broken)?;
    let (limit, steps) = (header[1], header[2]);
    let behind = header[0].checked_sub(program.header() as i64).filter(|&words| (0..=rest.len() as i64).contains(&words));
    let right = (1..=MOST_STEPS).contains(&limit)
        && (1..=limit).contains(&steps)
        && header[3..].iter().zip(program.types().iter().cycle()).all(|(&word, kind)| kind.holds(word));
    behind.filter(|_| right).map(|words| (header, &rest[..words as usize])).ok_or(Refusal::Broken)
}

/// The inputs with their changes, if each is of its type again.
fn new_inputs(program: &Program, header: &[i64], changes: &[i64]) -> Option<[i64; MOST_VARIABLES]> {
    let mut inputs = [0; MOST_VARIABLES];
    if changes.len() != program.variables {
        return None;
    }
    for (variable, (kind, &change)) in program.types().iter().zip(changes).enumerate() {
        inputs[variable] = kind.plus(header[3 + variable], change);
        // a change beyond the type's width is told first, since its sum may wrap
        if !kind.changes_by(change) || !kind.holds(inputs[variable]) {
            return None;
        }
    }
    Some(inputs)
}

impl Walk<'_, '_> {
    #[inline(always)]
    fn set_change(&mut self, variable: usize, change: i64) {
        self.changes[variable] = change;
        self.changed = self.changed & !(1 << variable) | ((change != 0) as u32) << variable;
    }

    /// Patch the entry of a statement, which is the next of its parent's words; gives the words behind it.
    fn entry<'o>(&mut self, number: u16, words: &'o [i64], last: bool) -> Result<&'o [i64], Refusal> {
        let [node, size, steps, ..] = *words else { return Err(Refusal::Broken) };
        // a negative size is past every end
        let size = size as usize;
        let fits = if last { size == words.len() } else { size <= words.len() };
        if node != number as i64 || size < 3 || !fits || !(1..=MOST_STEPS).contains(&steps) {
            return Err(Refusal::Broken);
        }
        let (own, rest) = words.split_at(size);
        if self.run.program.nodes[number as usize].mask & self.changed == 0 {
            self.skip(own, steps)?;
        } else {
            self.walk(number, own)?;
        }
        Ok(rest)
    }

    /// The skip rule.
    #[inline(always)]
    fn skip(&mut self, own: &[i64], steps: i64) -> Result<(), Refusal> {
        if steps > self.run.left {
            return Err(Refusal::Fuel);
        }
        self.run.left -= steps;
        self.reused += steps;
        self.run.room.copy(own);
        Ok(())
    }

    /// Walk an entry whose opening words hold.
    #[inline(always)]
    fn walk(&mut self, number: u16, own: &[i64]) -> Result<(), Refusal> {
        let (before, from) = (self.run.left, self.run.room.at());
        self.run.step()?;
        self.walked += 1;
        match self.run.program.nodes[number as usize].statement {
            // it mentions nothing, so that the skip rule has it
            Statement::Skip => {}
            Statement::Assign { variable, value } => return self.assign(number, variable, value, own),
            Statement::Sequence { first, second } => {
                self.run.room.claim(3)[0] = number as i64;
                let rest = self.entry(first, &own[3..], false)?;
                self.entry(second, rest, true)?;
            }
            Statement::If { condition, then, otherwise, mentions } => self.choice(number, condition, [otherwise, then], mentions, own)?,
            Statement::Repeat { count, body, mentions } => self.repeat(number, count, body, mentions, own)?,
        }
        self.run.room.close(from, before - self.run.left);
        Ok(())
    }

    #[inline(always)]
    fn assign(&mut self, number: u16, variable: u8, value: Expression, own: &[i64]) -> Result<(), Refusal> {
        let Run { program, room, .. } = &mut self.run;
        let entry = room.claim(3 + value.words());
        entry[..3].copy_from_slice(&[number as i64, 3 + value.words() as i64, 1]);
        let record = &own[3..];
        if record.len() != value.words() || !amend(program.operations(value), &mut self.changes, record, &mut entry[3..]) {
            return Err(first_refusal(program, &self.changes, value, record));
        }
        self.set_change(variable as usize, self.changes[value.result as usize]);
        Ok(())
    }

    /// Walk an if; `branches` are the statements of a false and of a true condition.
    fn choice(&mut self, number: u16, condition: Expression, branches: [u16; 2], mentions: Mentions, own: &[i64]) -> Result<(), Refusal> {
        let program = self.run.program;
        let Run { slots, room, .. } = &mut self.run;
        let mentioned = program.mentioned(mentions);
        let width = mentioned.len();
        let (new_after, record) = (room.at() + 4 + width, 4 + 2 * width);
        let entry = room.claim(record + condition.words());
        entry[0] = number as i64;
        let (fixed, parts) = own.split_at_checked(record).ok_or(Refusal::Broken)?;
        let (old, after) = (fixed[3], &fixed[4 + width..]);
        let right = carried(program, mentioned, &self.changes, &fixed[4..], &mut entry[4..], slots);
        if !right || !typed(program, mentioned, after) || !(0..=1).contains(&old) {
            return Err(Refusal::Broken);
        }
        let change = match parts.get(..condition.words()) {
            Some(words) if amend(program.operations(condition), &mut self.changes, words, &mut entry[record..]) => {
                self.changes[condition.result as usize]
            }
            _ => return Err(first_refusal(program, &self.changes, condition, parts)),
        };
        entry[3] = old ^ change;
        let branch = branches[(old ^ change) as usize];
        if change == 0 {
            self.entry(branch, &parts[condition.words()..], true)?;
            let right = carried_kept(program, mentioned, &self.changes, after, self.run.room.part(new_after, width));
            return if right { Ok(()) } else { Err(Refusal::Broken) };
        }
        self.run.statement(branch)?;
        save(mentioned, &self.run.slots, self.run.room.part(new_after, width));
        self.changes_from(mentioned, after);
        Ok(())
    }

    fn repeat(&mut self, number: u16, count: Expression, body: u16, mentions: Mentions, own: &[i64]) -> Result<(), Refusal> {
        let program = self.run.program;
        let Run { slots, room, .. } = &mut self.run;
        let mentioned = program.mentioned(mentions);
        let record = 4 + mentioned.len();
        let entry = room.claim(record + count.words());
        entry[0] = number as i64;
        let (fixed, parts) = own.split_at_checked(record).ok_or(Refusal::Broken)?;
        let old = fixed[3];
        if !carried(program, mentioned, &self.changes, &fixed[4..], &mut entry[4..], slots) || !is_number(old) {
            return Err(Refusal::Broken);
        }
        let new = match parts.get(..count.words()) {
            Some(words) if amend(program.operations(count), &mut self.changes, words, &mut entry[record..]) => {
                old + self.changes[count.result as usize]
            }
            _ => return Err(first_refusal(program, &self.changes, count, parts)),
        };
        if !is_number(new) {
            return Err(Refusal::Broken);
        }
        entry[3] = new;
        let (old, new) = (old.max(0), new.max(0));
        let (last, rest) = self.iterations(old.min(new), body, mentioned, &fixed[4..], &parts[count.words()..])?;
        if new < old {
            return self.dropped_tail(mentioned, rest);
        }
        if !rest.is_empty() {
            return Err(Refusal::Broken);
        }
        if new > old {
            self.run.iterations(new - old, body, mentions)?;
            self.changes_from(mentioned, last);
        }
        Ok(())
    }

    /// Walk the iterations that stay; gives the last old snapshot, at first the one before, and the words behind.
    fn iterations<'o>(
        &mut self,
        count: i64,
        body: u16,
        mentioned: &[u8],
        before: &'o [i64],
        words: &'o [i64],
    ) -> Result<(&'o [i64], &'o [i64]), Refusal> {
        let (mut last, mut rest) = (before, words);
        for _ in 0..count {
            rest = self.entry(body, rest, false)?;
            (last, rest) = rest.split_at_checked(mentioned.len()).ok_or(Refusal::Broken)?;
            let Run { program, slots, room, .. } = &mut self.run;
            if !carried(program, mentioned, &self.changes, last, room.claim(mentioned.len()), slots) {
                return Err(Refusal::Broken);
            }
        }
        Ok((last, rest))
    }

    /// Of the iterations that fall away only the last snapshot is read.
    fn dropped_tail(&mut self, mentioned: &[u8], rest: &[i64]) -> Result<(), Refusal> {
        let from = rest.len().checked_sub(mentioned.len()).ok_or(Refusal::Broken)?;
        if !typed(self.run.program, mentioned, &rest[from..]) {
            return Err(Refusal::Broken);
        }
        self.changes_from(mentioned, &rest[from..]);
        Ok(())
    }

    /// Each mentioned variable's change is what the slots hold now minus an old snapshot, tested before.
    fn changes_from(&mut self, mentioned: &[u8], snapshot: &[i64]) {
        for (&variable, &word) in mentioned.iter().zip(snapshot) {
            let variable = variable as usize;
            self.set_change(variable, self.run.program.kind(variable).minus(self.run.slots[variable], word));
        }
    }

    /// The header and the answer, when the walk is over.
    fn finish(mut self, old: &[i64], inputs: &[i64; MOST_VARIABLES]) -> Result<Words, Refusal> {
        let program = self.run.program;
        let variables = program.variables;
        let mut words = [0; 72];
        for (variable, kind) in program.types().iter().enumerate() {
            let new = kind.plus(old[3 + variables + variable], self.changes[variable]);
            if !kind.holds(new) {
                return Err(Refusal::Broken);
            }
            words[VALUES + variable] = new;
        }
        self.run.room.finish()?;
        let (length, limit) = (self.run.room.at() as i64, old[1]);
        let steps = limit - self.run.left;
        (words[STEPS], words[WALKED], words[REUSED], words[LENGTH]) = (steps, self.walked, self.reused, length);
        words[FRESH] = steps - self.walked - self.reused;
        words[CHANGES..CHANGES + variables].copy_from_slice(&self.changes[..variables]);
        let header = self.run.room.part(0, program.header());
        header[..3].copy_from_slice(&[length, limit, steps]);
        header[3..3 + variables].copy_from_slice(&inputs[..variables]);
        header[3 + variables..].copy_from_slice(&words[VALUES..VALUES + variables]);
        Ok(words)
    }
}
