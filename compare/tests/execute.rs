//! The stream that the program `calls` reads, and how its lines are held to the cases.

use compare::case::{parse, parse_file, print_answer, Case};
use compare::execute::{differences, stream};
use compare::generate::{Generator, Sort};

/// The line that `calls` ends with where its input ends inside a call.
const CUT: &str = "calls: the input ends inside a call\n";

// The lines that a program with the right answers writes.
fn right_lines(cases: &[Case]) -> String {
    cases.iter().map(|case| print_answer(case) + "\n").collect()
}

// A file of the repository.
fn file(name: &str) -> Vec<u8> {
    let root = concat!(env!("CARGO_MANIFEST_DIR"), "/..");
    std::fs::read(format!("{root}/{name}")).expect(name)
}

#[test]
fn the_stream_has_the_numbers_the_table_and_the_words() {
    let zeros = ["0"; 69].join(" ");
    let run = format!("run 00ff07 -2 1 258 1 = 3 {zeros} : 0");
    let patch = format!("patch 05 2 6 -1 1 9 1 = 1 {zeros} : 0");
    let lines = format!("table - = 1\n{patch}\n{run}\n");
    let mut expected = vec![0; 20];
    expected.extend([2, 0, 0, 0, 1, 0, 0, 0, 3, 0, 0, 0]);
    expected.extend([2, 0, 0, 0, 1, 0, 0, 0, 5]);
    expected.extend([6, 0, 0, 0, 0, 0, 0, 0]);
    expected.extend([255, 255, 255, 255, 255, 255, 255, 255]);
    expected.extend([9, 0, 0, 0, 0, 0, 0, 0]);
    expected.extend([1, 0, 0, 0, 3, 0, 0, 0, 2, 0, 0, 0]);
    expected.extend([0, 0, 0, 0, 1, 0, 0, 0, 0, 255, 7]);
    expected.extend([254, 255, 255, 255, 255, 255, 255, 255]);
    expected.extend([2, 1, 0, 0, 0, 0, 0, 0]);
    assert_eq!(stream(&parse_file(&lines).unwrap()), expected);
}

#[test]
fn the_stored_input_and_output_are_those_of_the_stored_cases() {
    let text = String::from_utf8(file("compare/cases/calls.txt")).unwrap();
    let cases = parse_file(&text).unwrap();
    let stored = file("crates/calls/stdin");
    let whole = stream(&cases);
    assert!(stored.len() > whole.len());
    assert_eq!(stored[..whole.len()], whole);
    let lines = String::from_utf8(file("crates/calls/stdout")).unwrap();
    assert_eq!(lines, right_lines(&cases) + CUT);
}

#[test]
fn right_lines_are_held() {
    let mut generator = Generator::new(25);
    let cases: Vec<Case> = (0..100).map(|_| generator.case()).collect();
    assert_eq!(
        differences(&cases, &right_lines(&cases)),
        Vec::<String>::new()
    );
}

#[test]
fn every_wrong_line_is_told() {
    let mut generator = Generator::new(26);
    let cases: Vec<Case> = (0..60).map(|_| generator.case()).collect();
    let right = right_lines(&cases);
    for (at, line) in right.lines().enumerate() {
        let mut lines: Vec<&str> = right.lines().collect();
        let wrong = match line.strip_suffix('0') {
            Some(front) => format!("{front}1"),
            None => format!("{line}0"),
        };
        lines[at] = &wrong;
        let told = differences(&cases, &(lines.join("\n") + "\n"));
        assert_eq!(told.len(), 1, "{told:?}");
        assert!(told[0].starts_with(&format!("case at line {}: ", at + 1)));
    }
}

#[test]
fn lines_too_few_or_too_many_are_told() {
    let cases = vec![
        parse("table - = 1").unwrap(),
        parse("table 00 = 1").unwrap(),
    ];
    assert!(differences(&cases, "1\n1\n").is_empty());
    for text in ["", "1\n", "1\n1", "1\n1\n1\n", "1\n\n1\n", "1\n01\n"] {
        assert!(!differences(&cases, text).is_empty(), "{text:?}");
    }
    assert!(!differences(&cases, &format!("1\n{CUT}")).is_empty());
    assert!(!differences(&cases, &format!("1\n1\n{CUT}")).is_empty());
}

#[test]
fn a_generator_of_some_sorts_makes_no_other() {
    let mut generator = Generator::of(27, &[Sort::Table, Sort::Run]);
    assert!((0..200).all(|_| !matches!(generator.case(), Case::Patch { .. })));
    let mut generator = Generator::of(27, &[Sort::Patch]);
    assert!((0..50).all(|_| matches!(generator.case(), Case::Patch { .. })));
}
