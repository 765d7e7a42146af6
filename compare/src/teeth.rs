//! Teeth: wrong edits of the definitions, each of which the cases of a file or
//! the marked cases must catch.
//!
//! An edit is a file of lines:
//!
//! ```text
//! what: one sentence that says what is wrong
//! file: a file of the definitions, below crates/rules
//! old: a text that stands in the file once
//! new: the text that is put in its place
//! ```
//!
//! More `old:`, `new:` and `file:` lines may follow; each pair is applied to
//! what the pairs before it left. Lines `old:` after one another are one text
//! of several lines, and so are lines `new:`.

use crate::case::Case;
use crate::define::{failures, marked_fails, of_definitions, Scratch};
use std::collections::BTreeMap;
use std::fs;
use std::path::{Path, PathBuf};
use std::time::Instant;

/// The folder of the edits in the repository.
const FOLDER: &str = "compare/teeth";

/// A text of a file, and the text that is put in its place, by lines.
struct Change {
    file: String,
    old: Vec<String>,
    new: Vec<String>,
}

/// A wrong edit of the definitions.
struct Edit {
    name: String,
    what: String,
    changes: Vec<Change>,
}

/// Files and their texts.
type Texts = BTreeMap<PathBuf, String>;

/// What came of an edit; where nothing caught it, what the check said.
enum Found {
    Caught { cases: usize, first: usize, marked: bool },
    NotCaught(String),
    NoDefinition(String),
}

// Try the named edits, or all, on a copy of the definitions of the repository
// at `root`; gives the exit status.
pub fn teeth(cases: &[Case], names: &[&str], root: &Path) -> Result<i32, String> {
    let edits = named(read_edits(&root.join(FOLDER))?, names)?;
    let began = Instant::now();
    let scratch = Scratch::new(cases, root)?;
    scratch.add_marked(root)?;
    if !sound(&edits, &scratch)? {
        return Ok(1);
    }
    let width = edits.iter().map(|edit| edit.name.len()).max().unwrap_or(0);
    println!("{:width$}  cases  first  marked  what is wrong", "edit");
    let mut caught = 0;
    for edit in &edits {
        let found = try_edit(edit, &scratch)?;
        println!("{:width$}  {}  {}{}", edit.name, found.columns(), edit.what, found.why());
        caught += matches!(found, Found::Caught { .. }) as usize;
    }
    let seconds = began.elapsed().as_secs();
    println!("teeth: {caught} of {} edits caught, {} cases, {seconds} s", edits.len(), cases.len());
    Ok((caught < edits.len()) as i32)
}

// Whether every edit applies, and the definitions hold without any.
fn sound(edits: &[Edit], scratch: &Scratch) -> Result<bool, String> {
    let mut all = true;
    for edit in edits {
        if let Err(why) = edited(edit, &scratch.rules()) {
            println!("{}: DOES NOT APPLY: {why}", edit.name);
            all = false;
        }
    }
    if all {
        let (passed, said) = scratch.check()?;
        if !passed {
            println!("teeth: the definitions fail without any edit{}", indented(&errors(&said)));
            all = false;
        }
    }
    Ok(all)
}

// The edits with these names; all when there are none.
fn named(edits: Vec<Edit>, names: &[&str]) -> Result<Vec<Edit>, String> {
    let unknown = |name: &&&str| !edits.iter().any(|edit| edit.name == **name);
    if let Some(name) = names.iter().find(unknown) {
        return Err(format!("no edit `{name}` in {FOLDER}"));
    }
    let wanted = |edit: &Edit| names.is_empty() || names.contains(&edit.name.as_str());
    Ok(edits.into_iter().filter(wanted).collect())
}

// The edits of a folder, by name.
fn read_edits(folder: &Path) -> Result<Vec<Edit>, String> {
    let wrong = |why: std::io::Error| format!("{FOLDER}: {why}");
    let mut edits = Vec::new();
    for file in fs::read_dir(folder).map_err(wrong)? {
        let path = file.map_err(wrong)?.path();
        let Some(name) = path.file_name().and_then(|name| name.to_str()?.strip_suffix(".edit")) else {
            continue;
        };
        let text = fs::read_to_string(&path).map_err(wrong)?;
        edits.push(parse(name, &text).map_err(|why| format!("{FOLDER}/{name}.edit: {why}"))?);
    }
    edits.sort_by(|one, other| one.name.cmp(&other.name));
    Ok(edits)
}

// The edit of a file's text, or why it is none.
fn parse(name: &str, text: &str) -> Result<Edit, String> {
    let (mut what, mut file) = ("", "");
    let mut changes: Vec<Change> = Vec::new();
    for (number, line) in text.lines().enumerate() {
        let wrong = |why: &str| format!("line {}: {why}", number + 1);
        let (word, rest) = line.split_once(':').unwrap_or((line, ""));
        let rest = rest.strip_prefix(' ').unwrap_or(rest);
        match (word, changes.last_mut()) {
            ("what", _) => what = rest,
            ("file", _) if rest.starts_with("specs/") && !rest.contains("..") => file = rest,
            ("file", _) => return Err(wrong("no file of specs/")),
            ("old", Some(change)) if change.new.is_empty() => change.old.push(rest.to_string()),
            ("old", _) => changes.push(Change {
                file: file.to_string(),
                old: vec![rest.to_string()],
                new: Vec::new(),
            }),
            ("new", Some(change)) => change.new.push(rest.to_string()),
            ("new", None) => return Err(wrong("a `new:` without an `old:`")),
            _ => return Err(wrong("no `what:`, `file:`, `old:` or `new:`")),
        }
    }
    let whole = |change: &Change| !change.file.is_empty() && !change.new.is_empty();
    if what.is_empty() || changes.is_empty() || !changes.iter().all(whole) {
        return Err("`what:`, `file:`, `old:` or `new:` is missing".to_string());
    }
    Ok(Edit {
        name: name.to_string(),
        what: what.to_string(),
        changes,
    })
}

// Make an edit in the scratch repository, see what catches it, and take it back.
fn try_edit(edit: &Edit, scratch: &Scratch) -> Result<Found, String> {
    let after = edited(edit, &scratch.rules())?;
    let before = after.keys().map(|path| Ok((path.clone(), read(path)?)));
    let before: Texts = before.collect::<Result<_, String>>()?;
    write(&after)?;
    let (passed, said) = scratch.check()?;
    write(&before)?;
    Ok(found(passed, &said))
}

// The files that an edit changes, with their new texts.
fn edited(edit: &Edit, rules: &Path) -> Result<Texts, String> {
    let mut texts = Texts::new();
    for change in &edit.changes {
        let path = rules.join(&change.file);
        let text = match texts.remove(&path) {
            Some(text) => text,
            None => read(&path)?,
        };
        texts.insert(path, replaced(&text, change)?);
    }
    Ok(texts)
}

// A file's text with a change's new text in the place of its old one.
fn replaced(text: &str, change: &Change) -> Result<String, String> {
    let old = change.old.join("\n");
    match text.matches(&old).count() {
        1 => Ok(text.replace(&old, &change.new.join("\n"))),
        times => Err(format!("{times} times in {}: {old}", change.file)),
    }
}

// The text of a file.
fn read(path: &Path) -> Result<String, String> {
    fs::read_to_string(path).map_err(|why| format!("{}: {why}", path.display()))
}

// Write files.
fn write(texts: &Texts) -> Result<(), String> {
    for (path, text) in texts {
        fs::write(path, text).map_err(|why| format!("{}: {why}", path.display()))?;
    }
    Ok(())
}

// What the check of edited definitions found.
fn found(passed: bool, said: &str) -> Found {
    if passed {
        return Found::NotCaught(String::new());
    }
    let amiss: Vec<&str> = of_definitions(said).collect();
    if !amiss.is_empty() {
        return Found::NoDefinition(errors(&amiss.join("\n")));
    }
    let (failed, marked) = (failures(said), marked_fails(said));
    if failed.is_empty() && !marked {
        return Found::NotCaught(errors(said));
    }
    Found::Caught {
        cases: failed.len(),
        first: failed.first().copied().unwrap_or(0),
        marked,
    }
}

// The first errors that a check said.
fn errors(said: &str) -> String {
    let lines = said.lines().filter(|line| line.contains("error")).take(3);
    lines.map(|line| format!("{line:.400}")).collect::<Vec<_>>().join("\n")
}

// Lines of their own, set in.
fn indented(text: &str) -> String {
    text.lines().map(|line| format!("\n    {line}")).collect()
}

impl Found {
    // The columns of a row: how many cases catch it, the first, and whether a
    // marked case does.
    fn columns(&self) -> String {
        let text = match self {
            Found::Caught { cases, first, marked } => {
                let first = if *cases > 0 { first.to_string() } else { "-".to_string() };
                let marked = if *marked { "yes" } else { "no" };
                format!("{cases:>5}  {first:>5}  {marked}")
            }
            Found::NotCaught(_) => "NOT CAUGHT".to_string(),
            Found::NoDefinition(_) => "NOT A DEFINITION".to_string(),
        };
        format!("{text:<20}")
    }

    // What the check said where nothing caught it.
    fn why(&self) -> String {
        match self {
            Found::Caught { .. } => String::new(),
            Found::NotCaught(said) | Found::NoDefinition(said) => indented(said),
        }
    }
}

#[cfg(test)]
mod tests {
    use super::*;

    const TWO: &str = "what: wrong\nfile: specs/A.antt\nold: a\nold:  b\nnew: c\nold: d\nnew:\n";

    #[test]
    fn an_edit_has_pairs_of_several_lines() {
        let edit = parse("two", TWO).unwrap();
        assert_eq!((edit.what.as_str(), edit.changes.len()), ("wrong", 2));
        let once = replaced("xa\n b d", &edit.changes[0]).unwrap();
        assert_eq!(once, "xc d");
        assert_eq!(replaced(&once, &edit.changes[1]).unwrap(), "xc ");
        assert!(replaced("d d", &edit.changes[1]).is_err());
        assert!(replaced("", &edit.changes[1]).is_err());
    }

    #[test]
    fn an_edit_has_all_its_lines() {
        for without in ["what", "file", "old", "new"] {
            let lines: Vec<&str> = TWO.lines().filter(|line| !line.starts_with(without)).collect();
            assert!(parse("two", &lines.join("\n")).is_err(), "{without}");
        }
        assert!(parse("two", &TWO.replace("specs/", "../")).is_err());
        assert!(parse("two", &format!("{TWO}\n")).is_err());
    }

    #[test]
    fn every_edit_of_the_repository_applies() {
        let root = Path::new(concat!(env!("CARGO_MANIFEST_DIR"), "/.."));
        let edits = read_edits(&root.join(FOLDER)).unwrap();
        assert_eq!(edits.len(), 96);
        let wrong = edits.iter().filter_map(|edit| {
            edited(edit, &root.join("crates/rules")).err().map(|why| format!("{}: {why}", edit.name))
        });
        assert_eq!(wrong.collect::<Vec<_>>(), Vec::<String>::new());
    }

    #[test]
    fn what_a_check_said_is_told_apart() {
        let said = |text: &str| found(false, text).columns().trim().to_string();
        assert_eq!(found(true, "").columns().trim(), "NOT CAUGHT");
        assert_eq!(said("./specs/Run.antt:9:1: error: y"), "NOT A DEFINITION");
        assert_eq!(said("rt: no space"), "NOT CAUGHT");
        let cases = "./specs/Cases0.antt:1:1: error: `case_7`: y\n./specs/Cases0.antt:2:1: error: `case_12`: y";
        assert_eq!(said(cases), "2      7  no");
        assert_eq!(said(&format!("./specs/Run.antt:9:1: error: y\n{cases}")), "NOT A DEFINITION");
        assert_eq!(said("./specs/Marked.antt:1:1: error: `marked_cases`: y"), "0      -  yes");
    }
}
