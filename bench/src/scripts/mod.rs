//! The scripts: what a city's rules look like (`city`), sizes and widths in steps (`sizes`), and sliders that touch a share (`sliders`).
pub mod city;
pub mod sizes;
pub mod sliders;

/// A script as a table, and its inputs.
pub struct Script {
    pub name: String,
    pub table: Vec<u8>,
    pub inputs: Vec<i64>,
}

impl Script {
    /// Assemble a text of numbers and then truths. `name` is what a table calls it.
    pub fn new(name: &str, numbers: &[i64], truths: &[i64], text: &str) -> Script {
        let types = [vec!["number"; numbers.len()], vec!["truth"; truths.len()]].concat().join(" ");
        let text = format!("{types}\n{text}");
        let table = compare::text::assemble(text.as_bytes()).unwrap_or_else(|why| panic!("{why:?}: {text}"));
        Script { name: name.to_string(), table, inputs: [numbers, truths].concat() }
    }

    pub fn nodes(&self) -> usize {
        u16::from_le_bytes([self.table[6], self.table[7]]) as usize
    }

    /// The same script on inputs with changes.
    pub fn moved(&self, changes: &[i64]) -> Script {
        let moved = |(i, (&input, &change)): (usize, (&i64, &i64))| if self.table[16 + i] == 0 { input + change } else { input ^ change };
        let inputs = self.inputs.iter().zip(changes).enumerate().map(moved).collect();
        Script { name: self.name.clone(), table: self.table.clone(), inputs }
    }

    /// A change list with some changes in it.
    pub fn changes(&self, changed: &[(usize, i64)]) -> Vec<i64> {
        let mut changes = vec![0; self.inputs.len()];
        changed.iter().for_each(|&(variable, change)| changes[variable] = change);
        changes
    }
}

/// A balanced sequence of statements, so that depth grows slowly.
pub fn sequence(parts: &[String]) -> String {
    let half = parts.len() / 2;
    match parts {
        [one] => one.clone(),
        _ if half == 1 => format!("{} ; {}", parts[0], sequence(&parts[1..])),
        _ => format!("( {} ) ; {}", sequence(&parts[..half]), sequence(&parts[half..])),
    }
}
