//! bench ROUNDS: times of the library, each beside others taken in turn in this process, as tables of text.
mod library;
mod measure;
mod profile;
mod tables;
mod times;

fn main() {
    let words: Vec<String> = std::env::args().skip(1).collect();
    let words: Vec<&str> = words.iter().map(String::as_str).collect();
    let done = match words[..] {
        [rounds] => rounds.parse().is_ok_and(|rounds| rounds > 0 && tables::all(rounds)),
        ["profile", act, count] => count.parse().is_ok_and(|count| profile::profile(act, count)),
        _ => false,
    };
    if !done {
        eprintln!("usage: bench ROUNDS | bench profile ACT COUNT\n{}", profile::ACTS);
        std::process::exit(2);
    }
}
