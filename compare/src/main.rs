//! The commands of `compare`.

use compare::case::{bytes_of_hex, hex_of_bytes, parse_file, print, Case};
use compare::{define, execute, generate, interpret, listing, sessions, table, tally, teeth, text};
use std::io::{Read, Write};
use std::path::Path;

const HELP: &str = "compare: an independent interpreter, and the cases it is compared on

  compare generate SEED COUNT [SORT..]
                                 write COUNT cases with the interpreter's
                                 answers, of the sorts table, run and patch, or
                                 of the named ones; damaged is patches of
                                 damaged records, and chain a run with 20
                                 patches behind it, each of the record left
                                 before it: both are made in great numbers
  compare interpret FILE         hold the interpreter to the cases of a file
  compare define FILE [REPOSITORY]
                                 hold the definitions of this repository, or of
                                 another copy of it, to the cases of a file
  compare execute FILE [PROGRAM]
                                 hold the product to the cases of a file, by the
                                 program calls of this repository, which `rt run`
                                 in crates/calls builds, or by another
  compare stream FILE            write the cases of a file as the bytes that the
                                 program calls reads
  compare teeth FILE [NAME..]    try the named wrong edits of the definitions, or
                                 all: the cases of a file or the marked cases
                                 must catch each
  compare tally FILE [--agreement | --patches COUNT]
                                 count the cases of a file; with --agreement
                                 fail unless there are enough of every sort, with
                                 --patches unless there are COUNT patches, half
                                 of them of damaged records, and chains
  compare list FILE [PROGRAM]    the listing of one session's bytes: the interpreter's,
                                 or what the program writes
  compare listed FILE [PROGRAM]  hold the interpreter, and the program patchlist of
                                 this repository or another, to the listings of a
                                 file of sessions
  compare listings SEED COUNT [PROGRAM]
                                 hold the program patchlist to the interpreter's
                                 listings of COUNT generated sessions, a fourth
                                 of them damaged
  compare session SCRIPT LIMIT INPUT.. [/ CHANGE..]..
                                 write a session's bytes: the table of a script
                                 text, a limit, V inputs, and behind each lone
                                 slash a list of V changes
  compare assemble SCRIPT        the hex of a script text's table
  compare show HEX               the script text of a table

FILE and SCRIPT may be - for standard input. Exit status: 0, or 1 when a case
fails, an edit is not caught or a file is wrong, or 2 for wrong arguments.
";

/// What a command ends with: its exit status, after saying why.
type Ended = Result<i32, String>;

// Take the arguments apart and carry out the command.
fn main() {
    let words: Vec<String> = std::env::args().skip(1).collect();
    let words: Vec<&str> = words.iter().map(|word| word.as_str()).collect();
    let ended = match words.as_slice() {
        ["help"] | ["--help"] | ["-h"] => {
            show(HELP.as_bytes());
            Ok(0)
        }
        ["generate", seed, count, sorts @ ..] => command_generate(seed, count, sorts),
        ["interpret", file] => command_interpret(file),
        ["define", file] => command_define(file, None),
        ["define", file, root] => command_define(file, Some(root)),
        ["execute", file] => command_execute(file, None),
        ["execute", file, program] => command_execute(file, Some(program)),
        ["stream", file] => command_stream(file),
        ["teeth", file, names @ ..] => command_teeth(file, names),
        ["tally", file] => command_tally(file, Wanted::Nothing),
        ["tally", file, "--agreement"] => command_tally(file, Wanted::Agreement),
        ["tally", file, "--patches", count] => {
            number(count, "count").and_then(|count| command_tally(file, Wanted::Patches(count)))
        }
        ["list", file] => command_list(file, None),
        ["list", file, program] => command_list(file, Some(program)),
        ["listed", file] => command_listed(file, None),
        ["listed", file, program] => command_listed(file, Some(program)),
        ["listings", seed, count] => command_listings(seed, count, None),
        ["listings", seed, count, program] => command_listings(seed, count, Some(program)),
        ["session", script, limit, rest @ ..] => command_session(script, limit, rest),
        ["assemble", script] => command_assemble(script),
        ["show", hex] => command_show(hex),
        [] => Err("no command; see compare help".to_string()),
        [first, ..] => Err(format!("wrong arguments of `{first}`; see compare help")),
    };
    let status = ended.unwrap_or_else(|why| {
        eprintln!("compare: {why}");
        2
    });
    std::process::exit(status);
}

// Write bytes to standard output; a reader that has gone ends the program.
fn show(bytes: &[u8]) {
    let mut out = std::io::stdout().lock();
    if out.write_all(bytes).and_then(|_| out.flush()).is_err() {
        std::process::exit(1);
    }
}

// The bytes of a file, or of standard input for `-`.
fn read(file: &str) -> Result<Vec<u8>, String> {
    let mut bytes = Vec::new();
    let done = if file == "-" {
        std::io::stdin().lock().read_to_end(&mut bytes).map(|_| ())
    } else {
        std::fs::read(file).map(|read| bytes = read)
    };
    match done {
        Ok(()) => Ok(bytes),
        Err(why) => Err(format!("{file}: {why}")),
    }
}

// The cases of a file; a wrong line ends with status 1.
fn read_cases(file: &str) -> Result<Result<Vec<Case>, i32>, String> {
    let bytes = read(file)?;
    let text = String::from_utf8(bytes).map_err(|_| format!("{file}: not text"))?;
    Ok(parse_file(&text).map_err(|why| {
        eprintln!("compare: {file}: {why}");
        1
    }))
}

// A decimal number among the arguments.
fn number<T: std::str::FromStr>(word: &str, what: &str) -> Result<T, String> {
    word.parse().map_err(|_| format!("`{word}` is no {what}"))
}

// compare generate SEED COUNT [SORT..]
fn command_generate(seed: &str, count: &str, sorts: &[&str]) -> Ended {
    let seed: u64 = number(seed, "seed")?;
    let count: usize = number(count, "count")?;
    let mut named = Vec::new();
    for sort in sorts {
        named.push(generate::Sort::named(sort).ok_or(format!("`{sort}` is no sort of case"))?);
    }
    if named.is_empty() {
        named.extend(generate::Sort::ALL);
    }
    let mut generator = generate::Generator::of(seed, &named);
    for _ in 0..count {
        let line = print(&generator.case()) + "\n";
        show(line.as_bytes());
    }
    Ok(0)
}

// compare interpret FILE
fn command_interpret(file: &str) -> Ended {
    match read_cases(file)? {
        Ok(cases) => Ok((interpret::interpret(&cases) > 0) as i32),
        Err(status) => Ok(status),
    }
}

// compare define FILE [REPOSITORY]
fn command_define(file: &str, root: Option<&str>) -> Ended {
    let root = match root {
        Some(root) => std::path::PathBuf::from(root),
        None => define::repository()?,
    };
    match read_cases(file)? {
        Ok(cases) => define::define(&cases, &root),
        Err(status) => Ok(status),
    }
}

// The program of this name where `rt run` leaves it in this repository, or another.
fn built(name: &str, other: Option<&str>) -> Result<std::path::PathBuf, String> {
    match other {
        Some(program) => Ok(std::path::PathBuf::from(program)),
        None => Ok(define::repository()?.join(format!("crates/{name}/out/{name}"))),
    }
}

// compare execute FILE [PROGRAM]
fn command_execute(file: &str, program: Option<&str>) -> Ended {
    let program = built("calls", program)?;
    match read_cases(file)? {
        Ok(cases) => execute::execute(&cases, &program),
        Err(status) => Ok(status),
    }
}

// compare stream FILE
fn command_stream(file: &str) -> Ended {
    match read_cases(file)? {
        Ok(cases) => {
            show(&execute::stream(&cases));
            Ok(0)
        }
        Err(status) => Ok(status),
    }
}

// compare teeth FILE [NAME..]
fn command_teeth(file: &str, names: &[&str]) -> Ended {
    match read_cases(file)? {
        Ok(cases) => teeth::teeth(&cases, names, &define::repository()?),
        Err(status) => Ok(status),
    }
}

/// What a file must have.
enum Wanted {
    Nothing,
    Agreement,
    Patches(usize),
}

// compare tally FILE [--agreement | --patches COUNT]
fn command_tally(file: &str, wanted: Wanted) -> Ended {
    let cases = match read_cases(file)? {
        Ok(cases) => cases,
        Err(status) => return Ok(status),
    };
    let counts = tally::tally(&cases);
    show(counts.text().as_bytes());
    let (missing, enough) = match wanted {
        Wanted::Nothing => return Ok(0),
        Wanted::Agreement => (
            counts.missing(),
            "agreement: enough cases of every sort".to_string(),
        ),
        Wanted::Patches(least) => (counts.missing_patches(least), counts.patches()),
    };
    for line in &missing {
        println!("missing: {line}");
    }
    if missing.is_empty() {
        println!("{enough}");
    }
    Ok(!missing.is_empty() as i32)
}

// compare list FILE [PROGRAM]
fn command_list(file: &str, program: Option<&str>) -> Ended {
    let session = read(file)?;
    let Some(program) = program else {
        show(&listing::listing(&session));
        return Ok(0);
    };
    let output = execute::ran(Path::new(program), session)?;
    show(&output.stdout);
    Ok(!output.status.success() as i32)
}

// compare listed FILE [PROGRAM]
fn command_listed(file: &str, program: Option<&str>) -> Ended {
    let program = built("patchlist", program)?;
    let text = String::from_utf8(read(file)?).map_err(|_| format!("{file}: not text"))?;
    match sessions::parse_file(&text) {
        Ok(stored) => sessions::hold_stored(&stored, &program),
        Err(why) => {
            eprintln!("compare: {file}: {why}");
            Ok(1)
        }
    }
}

// compare listings SEED COUNT [PROGRAM]
fn command_listings(seed: &str, count: &str, program: Option<&str>) -> Ended {
    let seed: u64 = number(seed, "seed")?;
    let count: usize = number(count, "count")?;
    let program = built("patchlist", program)?;
    sessions::hold_generated(&sessions::generate(seed, count), &program)
}

// The table of a script text's file; a wrong text ends with status 1.
fn read_script(script: &str) -> Result<Result<Vec<u8>, i32>, String> {
    let bytes = read(script)?;
    Ok(text::assemble(&bytes).map_err(|wrong| {
        eprintln!("compare: {script}: byte {}: {}", wrong.at, wrong.what);
        1
    }))
}

// compare session SCRIPT LIMIT INPUT.. [/ CHANGE..]..
fn command_session(script: &str, limit: &str, rest: &[&str]) -> Ended {
    let limit: i64 = number(limit, "limit")?;
    let mut lists = vec![Vec::new()];
    for word in rest {
        if *word == "/" {
            lists.push(Vec::new());
        } else if let Some(list) = lists.last_mut() {
            list.push(number::<i64>(word, "number")?);
        }
    }
    let bytes = match read_script(script)? {
        Ok(bytes) => bytes,
        Err(status) => return Ok(status),
    };
    let variables = bytes[4] as usize;
    if let Some(list) = lists.iter().find(|list| list.len() != variables) {
        return Err(format!(
            "a list of {} numbers, but {variables} variables",
            list.len()
        ));
    }
    match listing::session(&bytes, limit, &lists[0], &lists[1..]) {
        Some(session) => {
            show(&session);
            Ok(0)
        }
        None => Err("a session holds at most 64 change lists".to_string()),
    }
}

// compare assemble SCRIPT
fn command_assemble(script: &str) -> Ended {
    match read_script(script)? {
        Ok(bytes) => {
            println!("{}", hex_of_bytes(&bytes));
            Ok(0)
        }
        Err(status) => Ok(status),
    }
}

// compare show HEX
fn command_show(hex: &str) -> Ended {
    let bytes = bytes_of_hex(hex)?;
    match table::check(&bytes) {
        Ok(table) => {
            show(text::print(&table).as_bytes());
            Ok(0)
        }
        Err(number) => {
            eprintln!("compare: the table is refused with {number}");
            Ok(1)
        }
    }
}
