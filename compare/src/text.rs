//! Script text: an assembler to table bytes and a printer (request 9's grammar).
//!
//! The text opens with a line of types, one word per variable: `number` or
//! `truth`. Then comes one statement. Between words stand spaces, tabs and
//! line ends; the line of types ends with a line end.
//!
//! ```text
//! statement  = part [ ";" statement ]
//! part       = "skip" | variable ":=" expression
//!            | "if" expression "then" statement "else" statement "end"
//!            | "repeat" expression "do" statement "end"
//!            | "(" sequence ")"            only before a ";"
//! expression = number | "true" | "false" | variable
//!            | "(" expression operator expression ")"
//! operator   = "+" | "-" | "*" | ">" | "="
//! ```

use crate::program::Program;
use crate::table::{check, Table};
use crate::values::{is_number, NUMBER, TRUTH};

/// What is wrong with a text, and at which byte.
#[derive(Clone, Debug, PartialEq, Eq)]
pub struct Wrong {
    pub at: usize,
    pub what: String,
}

/// A text being read.
struct Reader<'a> {
    text: &'a [u8],
    at: usize,
    depth: usize,
    program: Program,
}

// The table's bytes of a script text (request 9).
pub fn assemble(text: &[u8]) -> Result<Vec<u8>, Wrong> {
    let (types, at) = read_types(text)?;
    let mut reader = Reader {
        text,
        at,
        depth: 0,
        program: Program::new(types),
    };
    let (root, _) = reader.statement()?;
    reader.space();
    if reader.at < text.len() {
        return reader.wrong(reader.at, "nothing more can stand here");
    }
    reader.program.root = root;
    let order = reader.program.in_order();
    if order.len() > 512 {
        return reader.wrong(text.len(), "more than 512 nodes");
    }
    let bytes = reader.program.table(&order);
    match check(&bytes) {
        Ok(_) => Ok(bytes),
        Err(number) => reader.wrong(text.len(), &format!("the table is refused with {number}")),
    }
}

// The types of the first line with words on it, and the place behind it (request 9).
fn read_types(text: &[u8]) -> Result<(Vec<u8>, usize), Wrong> {
    let mut types = Vec::new();
    let mut at = 0;
    loop {
        while at < text.len() && (text[at] == b' ' || text[at] == b'\t' || text[at] == b'\r') {
            at += 1;
        }
        if at < text.len() && text[at] == b'\n' {
            at += 1;
            if types.is_empty() {
                continue;
            }
            return Ok((types, at));
        }
        let start = at;
        while at < text.len() && text[at].is_ascii_alphanumeric() {
            at += 1;
        }
        match &text[start..at] {
            b"number" => types.push(NUMBER),
            b"truth" => types.push(TRUTH),
            _ => {
                let what = "a type (number or truth) or the line's end should stand here";
                return Err(Wrong {
                    at: start,
                    what: what.to_string(),
                });
            }
        }
        if types.len() > 32 {
            return Err(Wrong {
                at: start,
                what: "more than 32 variables".to_string(),
            });
        }
    }
}

impl Reader<'_> {
    // Say what is wrong at a byte (request 9).
    fn wrong<T>(&self, at: usize, what: &str) -> Result<T, Wrong> {
        Err(Wrong {
            at,
            what: what.to_string(),
        })
    }

    // Pass spaces and line ends (request 9).
    fn space(&mut self) {
        while self.at < self.text.len() && self.text[self.at].is_ascii_whitespace() {
            self.at += 1;
        }
    }

    // The word of letters and digits at the place, not yet passed (request 9).
    fn peek(&mut self) -> String {
        self.space();
        let rest = &self.text[self.at..];
        let length = rest
            .iter()
            .take_while(|b| b.is_ascii_alphanumeric())
            .count();
        String::from_utf8_lossy(&rest[..length]).to_string()
    }

    // Pass a word (request 9).
    fn word(&mut self, word: &str) -> Result<(), Wrong> {
        if self.peek() != word {
            return self.wrong(self.at, &format!("`{word}` should stand here"));
        }
        self.at += word.len();
        Ok(())
    }

    // Pass a mark if it stands at the place (request 9).
    fn mark(&mut self, mark: &str) -> bool {
        self.space();
        let there = self.text[self.at..].starts_with(mark.as_bytes());
        if there {
            self.at += mark.len();
        }
        there
    }

    // Pass a mark that must stand at the place (request 9).
    fn must(&mut self, mark: &str) -> Result<(), Wrong> {
        if self.mark(mark) {
            Ok(())
        } else {
            self.wrong(self.at, &format!("`{mark}` should stand here"))
        }
    }

    // One more bracket, if or loop is open; far more than a table can hold end
    // the reading (request 9).
    fn deeper(&mut self) -> Result<(), Wrong> {
        self.depth += 1;
        if self.depth > 600 {
            return self.wrong(self.at, "too deep");
        }
        Ok(())
    }

    // A statement; gives its place and whether it is a sequence (request 9).
    fn statement(&mut self) -> Result<(usize, bool), Wrong> {
        self.deeper()?;
        self.space();
        let bracket = self.mark("(");
        let first = if bracket {
            let start = self.at;
            let (inner, sequence) = self.statement()?;
            if !sequence {
                return self.wrong(start, "a sequence should stand in these brackets");
            }
            self.must(")")?;
            inner
        } else {
            self.part()?
        };
        if !self.mark(";") {
            if bracket {
                return self.wrong(self.at, "`;` should stand here");
            }
            self.depth -= 1;
            return Ok((first, false));
        }
        let (second, _) = self.statement()?;
        self.depth -= 1;
        Ok((self.program.add(18, 0, 0, &[first, second]), true))
    }

    // A statement that is no sequence (request 9).
    fn part(&mut self) -> Result<usize, Wrong> {
        let word = self.peek();
        match word.as_str() {
            "skip" => {
                self.word("skip")?;
                Ok(self.program.add(16, 0, 0, &[]))
            }
            "if" => {
                self.word("if")?;
                let a = self.typed(TRUTH)?;
                self.word("then")?;
                let (b, _) = self.statement()?;
                self.word("else")?;
                let (c, _) = self.statement()?;
                self.word("end")?;
                Ok(self.program.add(19, 0, 0, &[a, b, c]))
            }
            "repeat" => {
                self.word("repeat")?;
                let a = self.typed(NUMBER)?;
                self.word("do")?;
                let (b, _) = self.statement()?;
                self.word("end")?;
                Ok(self.program.add(20, 0, 0, &[a, b]))
            }
            _ => self.assign(),
        }
    }

    // An assign (request 9).
    fn assign(&mut self) -> Result<usize, Wrong> {
        let variable = self.variable("a statement should stand here")?;
        self.must(":=")?;
        let a = self.typed(self.program.types[variable as usize])?;
        Ok(self.program.add(17, variable, 0, &[a]))
    }

    // A variable with a type (request 9).
    fn variable(&mut self, missing: &str) -> Result<u8, Wrong> {
        let word = self.peek();
        let number = word
            .strip_prefix('v')
            .and_then(|digits| digits.parse::<u8>().ok());
        match number {
            Some(number) if format!("v{number}") == word && number < 32 => {
                if number as usize >= self.program.types.len() {
                    return self.wrong(self.at, "a variable without a type");
                }
                self.at += word.len();
                Ok(number)
            }
            _ => self.wrong(self.at, missing),
        }
    }

    // An expression of a type (request 9).
    fn typed(&mut self, wanted: u8) -> Result<usize, Wrong> {
        self.space();
        let start = self.at;
        let (place, kind) = self.expression()?;
        if kind == wanted {
            return Ok(place);
        }
        let what = if wanted == NUMBER {
            "a number should stand here, not a truth"
        } else {
            "a truth should stand here, not a number"
        };
        self.wrong(start, what)
    }

    // An expression; gives its place and type (request 9).
    fn expression(&mut self) -> Result<(usize, u8), Wrong> {
        self.space();
        if self.mark("(") {
            return self.operator();
        }
        match self.text.get(self.at) {
            Some(byte) if byte.is_ascii_digit() || *byte == b'-' => return self.constant(),
            _ => {}
        }
        let word = self.peek();
        if word == "true" || word == "false" {
            self.at += word.len();
            let tag = (word == "true") as u8;
            return Ok((self.program.add(2, tag, 0, &[]), TRUTH));
        }
        let variable = self.variable("an expression should stand here")?;
        let kind = self.program.types[variable as usize];
        Ok((self.program.add(3, variable, 0, &[]), kind))
    }

    // A decimal constant (request 9).
    fn constant(&mut self) -> Result<(usize, u8), Wrong> {
        let start = self.at;
        if self.text[self.at] == b'-' {
            self.at += 1;
        }
        let rest = &self.text[self.at..];
        let length = rest
            .iter()
            .take_while(|b| b.is_ascii_alphanumeric())
            .count();
        if length == 0 || !rest[..length].iter().all(|b| b.is_ascii_digit()) {
            return self.wrong(self.at, "a number's digits should stand here");
        }
        self.at += length;
        let written = String::from_utf8_lossy(&self.text[start..self.at]).to_string();
        match written.parse::<i64>() {
            Ok(value) if is_number(value) => {
                Ok((self.program.add(1, 0, value as i32, &[]), NUMBER))
            }
            _ => self.wrong(start, "a constant out of range"),
        }
    }

    // An operator behind its opening bracket (request 9).
    fn operator(&mut self) -> Result<(usize, u8), Wrong> {
        self.deeper()?;
        let a = self.typed(NUMBER)?;
        let marks = [("+", 4), ("-", 5), ("*", 6), (">", 7), ("=", 8)];
        let Some(kind) = marks.iter().find(|m| self.mark(m.0)).map(|m| m.1) else {
            return self.wrong(self.at, "an operator should stand here");
        };
        let b = self.typed(NUMBER)?;
        self.must(")")?;
        self.depth -= 1;
        let result = if kind < 7 { NUMBER } else { TRUTH };
        Ok((self.program.add(kind, 0, 0, &[a, b]), result))
    }
}

// The script text of a checked table (request 9).
pub fn print(table: &Table) -> String {
    let name = |kind: &u8| if *kind == NUMBER { "number" } else { "truth" };
    let types: Vec<&str> = table.types.iter().map(name).collect();
    let mut text = types.join(" ");
    text.push('\n');
    print_statement(table, table.nodes.len() - 1, &mut text);
    text.push('\n');
    text
}

// Print a statement (request 9).
fn print_statement(table: &Table, number: usize, text: &mut String) {
    let node = &table.nodes[number];
    match node.kind {
        16 => text.push_str("skip"),
        17 => {
            text.push_str(&format!("v{} := ", node.tag));
            print_expression(table, node.a, text);
        }
        18 => {
            let bracket = table.nodes[node.a].kind == 18;
            text.push_str(if bracket { "(" } else { "" });
            print_statement(table, node.a, text);
            text.push_str(if bracket { ") ; " } else { " ; " });
            print_statement(table, node.b, text);
        }
        19 => {
            text.push_str("if ");
            print_expression(table, node.a, text);
            text.push_str(" then ");
            print_statement(table, node.b, text);
            text.push_str(" else ");
            print_statement(table, node.c, text);
            text.push_str(" end");
        }
        _ => {
            text.push_str("repeat ");
            print_expression(table, node.a, text);
            text.push_str(" do ");
            print_statement(table, node.b, text);
            text.push_str(" end");
        }
    }
}

// Print an expression (request 9).
fn print_expression(table: &Table, number: usize, text: &mut String) {
    let node = &table.nodes[number];
    match node.kind {
        1 => text.push_str(&node.value.to_string()),
        2 => text.push_str(if node.tag == 1 { "true" } else { "false" }),
        3 => text.push_str(&format!("v{}", node.tag)),
        kind => {
            let mark = ["+", "-", "*", ">", "="][kind as usize - 4];
            text.push('(');
            print_expression(table, node.a, text);
            text.push_str(&format!(" {mark} "));
            print_expression(table, node.b, text);
            text.push(')');
        }
    }
}
