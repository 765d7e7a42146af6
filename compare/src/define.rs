//! Holding the definitions to a case file: each case becomes a theorem that
//! is proved by computing it, in a scratch repository outside this one.
//!
//! The theorems stand beside the definitions in one crate, so a check starts
//! once and nothing is built for a crate above; an error line names the file,
//! which tells a theorem from a definition.

use crate::case::Case;
use std::collections::BTreeSet;
use std::fmt::Write as _;
use std::fs;
use std::path::{Path, PathBuf};
use std::process::Command;

/// The modules of definitions that the theorems rest on; the laws about them are left out.
const NUMBERS: [&str; 1] = ["Signed"];
const RULES: [&str; 9] = [
    "Outcome",
    "Value",
    "Tree",
    "Table",
    "Run",
    "Published",
    "Patch",
    "Call",
    "Computing",
];

/// The module of the marked cases, which stands in the crate of the promises.
const MARKED: &str = "Marked";

/// What the name of each module of theorems begins with.
const CASES: &str = "Cases";

/// How many modules are checked side by side.
const JOBS: &str = "2";

/// How many theorems stand in one module.
const IN_MODULE: usize = 25;

/// What every module of theorems opens with.
const OPENING: &str = "use Rattle.std.specs.Prelude.{◌≡◌, refl, List, [], ◌∷◌, ◌++◌, ℤ, pos, negsuc}
use Rattle.rules.specs.Computing.{computing}
use Rattle.rules.specs.Call.{Called, call_check, call_run, call_patch}

-- an answer's words in the order of a case, then the buffer's
unfoldable flat : Called → List ℤ
flat c = pos c.answer.number ∷ pos c.answer.steps ∷ pos c.answer.counts.walked ∷ pos c.answer.counts.reused ∷ pos c.answer.counts.fresh ∷ pos c.answer.length ∷ (c.answer.values ++ (c.answer.changes ++ c.buffer))
";

/// A scratch repository outside this one; it is removed when it is let go.
pub struct Scratch {
    folder: PathBuf,
}

impl Drop for Scratch {
    // Leave nothing behind.
    fn drop(&mut self) {
        let _ = fs::remove_dir_all(&self.folder);
    }
}

impl Scratch {
    // The definitions of the repository at `root`, and a theorem for each case.
    pub fn new(cases: &[Case], root: &Path) -> Result<Scratch, String> {
        let name = format!("compare-scratch-{}", std::process::id());
        let scratch = Scratch {
            folder: std::env::temp_dir().join(name),
        };
        write(cases, root, &scratch.folder).map_err(of_scratch)?;
        Ok(scratch)
    }

    // Add the marked cases, as one module more.
    pub fn add_marked(&self, root: &Path) -> Result<(), String> {
        let list = self.rules().join("specs/Lib.antt");
        copy_modules("promises", &[MARKED], root, &self.rules())
            .and_then(|()| fs::read_to_string(&list))
            .and_then(|text| fs::write(&list, text + &named(&[MARKED])))
            .map_err(of_scratch)
    }

    // The folder of the definitions of the rules.
    pub fn rules(&self) -> PathBuf {
        self.folder.join("crates/rules")
    }

    // Check the scratch repository; gives whether it passed, and what the check said.
    pub fn check(&self) -> Result<(bool, String), String> {
        let ran = Command::new("rt")
            .args(["check", "--jobs", JOBS])
            .current_dir(self.rules())
            .output()
            .map_err(|why| format!("rt: {why}"))?;
        let said = format!(
            "{}{}",
            String::from_utf8_lossy(&ran.stdout),
            String::from_utf8_lossy(&ran.stderr)
        );
        Ok((ran.status.success(), said))
    }
}

// Why the scratch repository could not be written.
fn of_scratch(why: std::io::Error) -> String {
    format!("the scratch repository: {why}")
}

// Hold the definitions of the repository at `root` to cases; gives the exit status.
pub fn define(cases: &[Case], root: &Path) -> Result<i32, String> {
    let (passed, said) = Scratch::new(cases, root)?.check()?;
    if passed {
        println!("define: {} cases hold of the definitions", cases.len());
        return Ok(0);
    }
    Ok(report(&said, cases.len()))
}

// Say which cases fail, or what else the check said.
fn report(said: &str, count: usize) -> i32 {
    let failed = failures(said);
    for number in &failed {
        println!("case {number}: the definitions give another answer");
    }
    if failed.is_empty() {
        let mut lines: Vec<&str> = said.lines().filter(|line| line.contains("error")).collect();
        if lines.is_empty() {
            lines = said.lines().collect();
        }
        for line in lines.iter().take(5) {
            println!("{line:.400}");
        }
    }
    println!("define: {} of {count} cases fail", failed.len());
    1
}

// The numbers of the theorems that the check refused.
pub fn failures(said: &str) -> BTreeSet<usize> {
    said.lines()
        .filter_map(|line| {
            let (_, behind) = line.split_once("error: `case_")?;
            let digits: String = behind.chars().take_while(char::is_ascii_digit).collect();
            digits.parse().ok()
        })
        .collect()
}

// Whether the check refused the theorem of the marked cases.
pub fn marked_fails(said: &str) -> bool {
    said.contains("error: `marked_cases`")
}

// The errors in files of the definitions themselves.
pub fn of_definitions(said: &str) -> impl Iterator<Item = &str> {
    let modules = NUMBERS.iter().chain(&RULES);
    let files: Vec<String> = modules
        .map(|module| format!("specs/{module}.antt:"))
        .collect();
    said.lines().filter(move |line| {
        line.contains("error:") && files.iter().any(|file| line.contains(file.as_str()))
    })
}

// The repository that holds this folder, by its list of crates.
pub fn repository() -> Result<PathBuf, String> {
    let here = std::env::current_dir().map_err(|why| why.to_string())?;
    here.ancestors()
        .find(|folder| folder.join("crates.txt").is_file())
        .map(Path::to_path_buf)
        .ok_or_else(|| "no crates.txt here or above".to_string())
}

// Write the definitions and the theorems as a repository of their own.
fn write(cases: &[Case], root: &Path, scratch: &Path) -> std::io::Result<()> {
    let parts = cases.len().div_ceil(IN_MODULE);
    let theorems: Vec<String> = (0..parts).map(|part| format!("{CASES}{part}")).collect();
    open_crate(&scratch.join("crates/numbers"), &named(&NUMBERS))?;
    copy_modules("numbers", &NUMBERS, root, &scratch.join("crates/numbers"))?;
    let rules = scratch.join("crates/rules");
    open_crate(&rules, &(named(&RULES) + &named(&theorems)))?;
    copy_modules("rules", &RULES, root, &rules)?;
    let mut number = 0;
    for (module, cases) in theorems.iter().zip(cases.chunks(IN_MODULE)) {
        let mut text = OPENING.to_string();
        for case in cases {
            number += 1;
            theorem(&mut text, number, case);
        }
        fs::write(rules.join(format!("specs/{module}.antt")), text)?;
    }
    fs::write(scratch.join("crates.txt"), "numbers:\nrules: numbers\n")
}

// The theorem of one case.
fn theorem(text: &mut String, number: usize, case: &Case) {
    let statement = match case {
        Case::Table { table, number } => format!("call_check ({}) ≡ {number}", bytes(table)),
        Case::Run {
            table,
            limit,
            inputs,
            words,
            ..
        } => format!(
            "flat (call_run ({}) ({}) ({}) {}) ≡ {}",
            bytes(table),
            list(inputs),
            integer(*limit),
            words.len(),
            list(&case.expected())
        ),
        Case::Patch {
            table,
            old,
            changes,
            words,
            ..
        } => format!(
            "flat (call_patch ({}) ({}) ({}) {}) ≡ {}",
            bytes(table),
            list(old),
            list(changes),
            words.len(),
            list(&case.expected())
        ),
    };
    let _ = writeln!(
        text,
        "\ncase_{number} : {statement}\nunfolding computing flat\ncase_{number} = refl"
    );
}

// Words as a list of integers.
fn list(words: &[i64]) -> String {
    let mut text: String = words.iter().map(|word| integer(*word) + " ∷ ").collect();
    text.push_str("[]");
    text
}

// Bytes as a list of natural numbers.
fn bytes(table: &[u8]) -> String {
    let mut text: String = table.iter().map(|byte| format!("{byte} ∷ ")).collect();
    text.push_str("[]");
    text
}

// A signed word: `pos n` is n, `negsuc n` is -(n + 1).
fn integer(word: i64) -> String {
    if word < 0 {
        format!("negsuc {}", -(word + 1))
    } else {
        format!("pos {word}")
    }
}

// Copy modules of a crate into a folder of the scratch repository.
fn copy_modules(name: &str, modules: &[&str], root: &Path, to: &Path) -> std::io::Result<()> {
    let from = root.join("crates").join(name).join("specs");
    for module in modules {
        let file = format!("{module}.antt");
        fs::copy(from.join(&file), to.join("specs").join(&file))?;
    }
    Ok(())
}

// A crate's folder with no code, and what its root module names.
fn open_crate(folder: &Path, named: &str) -> std::io::Result<()> {
    fs::create_dir_all(folder.join("src"))?;
    fs::create_dir_all(folder.join("specs"))?;
    fs::write(folder.join("src/lib.rt"), "// No code.\n#![tactic(auto)]\n")?;
    fs::write(folder.join("specs/Lib.antt"), named)
}

// The lines of a root module that name these modules.
fn named(modules: &[impl std::fmt::Display]) -> String {
    modules
        .iter()
        .map(|module| format!("pub mod {module}\n"))
        .collect()
}

#[cfg(test)]
mod tests {
    use super::*;

    const SAID: &str = "note: x
./specs/Cases0.antt:31:10: error: `case_6`: expected type
  both types are shown computed
./specs/Cases3.antt:9:1: error: `case_12`: as printed
";

    #[test]
    fn theorems_that_fail_are_told_by_number() {
        assert_eq!(failures(SAID), BTreeSet::from([6, 12]));
        assert!(!marked_fails(SAID));
        assert!(marked_fails(
            "./specs/Marked.antt:85:5: error: `marked_cases`: expected"
        ));
    }

    #[test]
    fn a_definition_that_fails_is_told_by_its_file() {
        let wrong = "./specs/Table.antt:66:18: error: `check_header`: `u17` is not in scope";
        assert_eq!(of_definitions(SAID).count(), 0);
        assert_eq!(
            of_definitions(&format!("{SAID}{wrong}\n")).collect::<Vec<_>>(),
            [wrong]
        );
    }
}
