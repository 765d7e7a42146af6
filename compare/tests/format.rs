//! The case format, the generator, the script text and the listing's refusals.

use compare::case::{parse, parse_file, print, Case};
use compare::generate::generate;
use compare::interpret::difference;
use compare::listing::{listing, session};
use compare::tally::tally;
use compare::text::assemble;

#[test]
fn generated_cases_read_back_and_agree() {
    let cases = generate(21, 800);
    let text: String = cases.iter().map(|case| print(case) + "\n").collect();
    assert_eq!(parse_file(&text).unwrap(), cases);
    assert!(cases.iter().all(|case| difference(case).is_none()));
    assert_eq!(tally(&cases).missing(), Vec::<String>::new());
    assert_eq!(generate(21, 50), cases[..50]);
    assert_ne!(generate(22, 50), cases[..50]);
}

#[test]
fn every_test_of_broken_is_met() {
    let counts = tally(&generate(23, 800));
    assert!(
        counts.sites.iter().all(|&count| count >= 2),
        "{:?}",
        counts.sites
    );
}

#[test]
fn a_changed_answer_is_found() {
    let mut found = 0;
    for case in generate(24, 60) {
        let mut wrong = case.clone();
        match &mut wrong {
            Case::Table { number, .. } => *number = (*number + 1) % 6,
            Case::Run { words, answer, .. } | Case::Patch { words, answer, .. } => {
                match words.last_mut() {
                    Some(word) => *word += 1,
                    None => answer.changes[31] += 1,
                }
            }
        }
        found += difference(&wrong).is_some() as usize;
    }
    assert_eq!(found, 60);
}

#[test]
fn wrong_lines_are_refused() {
    let zeros = ["0"; 69].join(" ");
    let right = format!("run 00ff 5 2 1 -2 1 = 3 {zeros} : 0");
    assert!(parse(&right).is_ok());
    assert!(parse(&format!("run - 5 0 0 = 3 {zeros} :")).is_ok());
    for line in [
        "",
        "table",
        "table - =",
        "table - = 6",
        "table - = 01",
        "table - = +1",
        "table - = 1 ",
        "table -  = 1",
        " table - = 1",
        "table abc = 1",
        "table AB = 1",
        "table 0g = 1",
        "table - = 1 1",
        "table - = 1\r",
        "tables - = 1",
        "run - 9223372036854775808 0 0 = 1 :",
    ] {
        assert!(parse(line).is_err(), "{line}");
    }
    for (from, to) in [
        (" 2 1 -2", " 3 1 -2"),
        (" 2 1 -2", " 1 1 -2"),
        (": 0", ":"),
        (": 0", ": 0 0"),
    ] {
        assert!(parse(&right.replace(from, to)).is_err(), "{from} {to}");
    }
    for (from, to) in [
        ("-2 1 =", "-2 -1 ="),
        ("5 2", "-0 2"),
        ("= 3", "= 13"),
        ("= 3 0", "= 3"),
        (" :", " ;"),
    ] {
        assert!(parse(&right.replace(from, to)).is_err(), "{from} {to}");
    }
    let two = parse_file("table - = 1\ntable - = 9\n");
    assert!(two.unwrap_err().starts_with("line 2:"));
}

#[test]
fn script_text_is_read() {
    let text = " number  truth \n\n (v0 := 1 ; skip)\n;\nif v1 then v1 := (v0 > -3) else repeat (v0 - -5) do v0 := -2147483648 end end";
    assert!(assemble(text.as_bytes()).is_ok());
    for (text, at) in [
        ("number", 6),
        ("numbers\nskip", 0),
        ("\n\nskip", 2),
        ("number\nskip skip", 12),
        ("number\nv1 := 1", 7),
        ("number\nv0 := 2147483648", 13),
        ("number\nv0 := true", 13),
        ("number\nv0 := - 1", 14),
        ("number\nv0 := (1 + true)", 18),
        ("number\nv0 := (1 / 2)", 16),
        ("number\n(skip) ; skip", 8),
        ("number\n(skip ; skip)", 20),
        ("number\nif 1 then skip else skip end", 10),
        ("number\nrepeat v00 do skip end", 14),
        ("number\nskip ;", 13),
    ] {
        assert_eq!(assemble(text.as_bytes()).unwrap_err().at, at, "{text}");
    }
}

#[test]
fn sessions_are_refused_in_order() {
    let table = assemble(b"number\nskip").unwrap();
    let right = session(&table, 5, &[1], &[vec![1], vec![0]]).unwrap();
    let expected = "run 0 1 0 0 1 8 1\npatch 0 1 0 1 0 8 2\npatch 0 1 0 1 0 8 2\n";
    assert_eq!(String::from_utf8(listing(&right)).unwrap(), expected);
    let refused = b"session refused\n".to_vec();
    for length in 0..right.len() {
        assert_eq!(listing(&right[..length]), refused, "{length}");
    }
    for at in 0..8 {
        let mut wrong = right.clone();
        wrong[at] ^= 128;
        assert_eq!(listing(&wrong), refused, "{at}");
    }
    let mut longer = right.clone();
    longer.push(0);
    assert_eq!(listing(&longer), refused);
    let mut bad_table = right[..8 + table.len()].to_vec();
    bad_table[8] = 0;
    assert_eq!(listing(&bad_table), b"run 1\n");
    assert_eq!(listing(&[8, 0, 0, 0, 8, 0, 0, 0]), b"run 1\n");
    assert_eq!(listing(&[8, 0, 0, 0, 8, 0, 65, 0]), refused);
    let no_fuel = session(&table, 0, &[1], &[vec![1]]).unwrap();
    assert_eq!(listing(&no_fuel), b"run 7\n");
}
