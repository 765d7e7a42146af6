//! Stored and generated sessions, and how a written listing is held to the right one.

use compare::listing::listing;
use compare::sessions::{difference, generate, parse_file, print, Stored};

// A file of the repository.
fn file(name: &str) -> Vec<u8> {
    let root = concat!(env!("CARGO_MANIFEST_DIR"), "/..");
    std::fs::read(format!("{root}/{name}")).expect(name)
}

// The stored sessions.
fn stored() -> Vec<Stored> {
    let text = String::from_utf8(file("compare/cases/sessions.txt")).unwrap();
    parse_file(&text).unwrap()
}

// Whether a listing has this line.
fn has(listing: &[u8], wanted: &str) -> bool {
    let text = String::from_utf8_lossy(listing);
    let found = text.lines().any(|line| line == wanted);
    found
}

#[test]
fn stored_sessions_have_the_interpreters_listing() {
    let text = String::from_utf8(file("compare/cases/sessions.txt")).unwrap();
    for (session, line) in stored().iter().zip(text.lines()) {
        assert_eq!(print(&session.name, &session.bytes), line);
        assert_eq!(listing(&session.bytes), session.listing);
    }
}

#[test]
fn stored_sessions_show_every_refusal_that_a_session_can() {
    let sessions = stored();
    for number in 1..=10 {
        let line = format!("run {number}");
        assert!(
            sessions.iter().any(|session| has(&session.listing, &line)),
            "{line}"
        );
    }
    for number in 8..=11 {
        let line = format!("patch {number}");
        assert!(
            sessions.iter().any(|session| has(&session.listing, &line)),
            "{line}"
        );
    }
    assert!(sessions
        .iter()
        .any(|session| session.listing == b"session refused\n"));
    let lines = |name: &str| {
        let session = sessions.iter().find(|session| session.name == name);
        String::from_utf8_lossy(&session.unwrap().listing)
            .lines()
            .count()
    };
    assert_eq!(lines("patches_64"), 65);
    assert_eq!(lines("variables_32"), 5);
    assert_eq!(lines("depth_24"), 4);
}

#[test]
fn the_stored_input_and_output_of_patchlist_are_program_p() {
    let sessions = stored();
    assert_eq!(sessions[0].name, "program_p");
    assert_eq!(sessions[0].bytes, file("crates/patchlist/stdin"));
    assert_eq!(sessions[0].listing, file("crates/patchlist/stdout"));
}

#[test]
fn a_wrong_line_of_a_file_is_told() {
    for text in [
        "session a 00 run 1",
        "session a = run 1",
        "case a 00 = run 1",
        "session a 0 = run 1",
    ] {
        assert!(parse_file(text).is_err(), "{text}");
    }
}

#[test]
fn generated_sessions_are_the_same_and_of_every_sort() {
    let made = generate(30, 1000);
    assert_eq!(made, generate(30, 1000));
    assert!(made.iter().filter(|made| made.damaged).count() >= 200);
    let length = |length: usize| {
        made.iter()
            .any(|made| !made.damaged && made.bytes.len() == length)
    };
    assert!(length(8 + 4_144 + 8 * 2_081));
    assert!(made.iter().any(|made| made.bytes.len() > 65_536));
    for line in [
        "session refused",
        "run 1",
        "run 2",
        "run 3",
        "run 4",
        "run 5",
        "run 6",
        "run 7",
        "run 8",
        "run 9",
        "run 10",
    ] {
        assert!(
            made.iter().any(|made| has(&listing(&made.bytes), line)),
            "{line}"
        );
    }
    for line in ["patch 8", "patch 9", "patch 10", "patch 11"] {
        assert!(
            made.iter().any(|made| has(&listing(&made.bytes), line)),
            "{line}"
        );
    }
}

#[test]
fn sessions_that_are_not_damaged_are_not_refused_as_sessions() {
    let made = generate(31, 400);
    let whole = made.iter().filter(|made| !made.damaged);
    assert!(whole.clone().count() > 0);
    for made in whole {
        assert!(!has(&listing(&made.bytes), "session refused"));
    }
}

#[test]
fn every_wrong_byte_is_told() {
    let right = &stored()[0].listing;
    assert_eq!(difference(right, right), None);
    for at in 0..right.len() {
        let mut wrong = right.clone();
        wrong[at] ^= 1;
        assert!(difference(right, &wrong).is_some(), "{at}");
        assert!(difference(right, &right[..at]).is_some(), "{at}");
    }
    for more in [&b"\n"[..], b"patch 9\n", b" "] {
        assert!(difference(right, &[right, more].concat()).is_some());
    }
}
