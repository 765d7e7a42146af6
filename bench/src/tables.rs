//! The tables, one function each. Times are the middle of the rounds, ratios the middle of the rounds' ratios.
use crate::measure::{check, patch, run, Measured};
use bench::scripts::city::{growth, services, taxes, BIRTHS, CEILING};
use bench::scripts::sizes::{expressions, idle, skips, snapshots};
use bench::scripts::sliders::{by_kind, by_share, Slider};
use bench::scripts::Script;
use bench::tuned::answer::LENGTH;

/// All tables, each taken over so many rounds.
pub fn all(rounds: usize) -> bool {
    [runs, shares, kinds, steps, nodes, lengths, checks].iter().for_each(|table| table(rounds));
    true
}

/// Print a table's heading and its columns, and say what is being measured.
fn begin(heading: &str, columns: &[&str]) {
    eprintln!("Measuring: {heading}");
    println!("\n## {heading}\n\n| {} |\n|{}", columns.join(" | "), "---|".repeat(columns.len()));
}

fn row(cells: &[String]) {
    println!("| {} |", cells.join(" | "));
}

fn ratio(measured: &Measured, of: &str, to: &str) -> String {
    format!("{:.2}", measured.times.ratio(of, to))
}

fn slider(script: Script, changed: &[(usize, i64)]) -> Slider {
    Slider { name: String::new(), changes: script.changes(changed), script }
}

/// Scripts of a city from 10^2 to 10^6 steps; and three that are all of one kind: no snapshots, wide expressions, wide snapshots.
fn run_scripts() -> Vec<Script> {
    vec![
        taxes(1, 12),
        taxes(80, 12),
        taxes(9, 1200),
        taxes(8900, 12),
        growth(1, 20, 12),
        growth(4, 50, 56),
        growth(13, 16, 84),
        services(1, 165),
        services(165, 1),
        services(1350, 1),
        skips(6666),
        expressions(31, 14_285),
        snapshots(32, 33_333),
    ]
}

fn runs(rounds: usize) {
    let heading =
        "1. Runs: a recording run, divided by a plain run without record, the tuned run, the interpreter's and a copy of the record";
    let sizes = ["script", "nodes", "steps", "bytes a step", "run, ns a step"];
    begin(heading, &[&sizes[..], &["run / plain", "tuned / plain", "run / tuned", "run / interpreter", "run / copy"]].concat());
    for script in run_scripts() {
        let m = run(&script, rounds);
        row(&[
            script.name.clone(),
            script.nodes().to_string(),
            m.steps().to_string(),
            format!("{:.0}", m.bytes_a_step()),
            format!("{:.1}", m.a_step("run")),
            ratio(&m, "run", "plain"),
            ratio(&m, "tuned", "plain"),
            ratio(&m, "run", "tuned"),
            ratio(&m, "run", "interpreter"),
            ratio(&m, "run", "copy"),
        ]);
    }
}

const PATCH_COLUMNS: [&str; 7] =
    ["touched", "patch, us", "rerun / patch", "patch / copy", "patch / tuned patch", "tuned rerun / tuned patch", "patch / interpreter"];

fn patch_cells(m: &Measured) -> Vec<String> {
    vec![
        format!("{:.1} %", 100.0 * m.touched()),
        format!("{:.0}", m.times.time("patch") / 1000.0),
        ratio(m, "rerun", "patch"),
        ratio(m, "patch", "copy"),
        ratio(m, "patch", "tuned"),
        ratio(m, "tuned rerun", "tuned"),
        ratio(m, "patch", "interpreter"),
    ]
}

fn shares(rounds: usize) {
    begin("2. Patches by share touched: a rerun divided by a patch, at 10^5 steps of services", &[&["loops"], &PATCH_COLUMNS[..]].concat());
    for (shape, years, scale) in [("a long one for each service", 1, 165), ("all services, year by year", 165, 1)] {
        for slider in by_share(years, scale) {
            row(&[vec![shape.to_string()], patch_cells(&patch(&slider, rounds))].concat());
        }
    }
}

fn kinds(rounds: usize) {
    begin("3. Patches by what the slider does: a rerun divided by a patch, at 10^5 steps", &[&["what moves"], &PATCH_COLUMNS[..]].concat());
    for slider in by_kind() {
        row(&[vec![slider.name.clone()], patch_cells(&patch(&slider, rounds))].concat());
    }
}

const GROWTH_COLUMNS: [&str; 9] = [
    "steps",
    "bytes a step",
    "run, ns a step",
    "run / plain",
    "run / tuned",
    "touched",
    "patch, ns a step",
    "rerun / patch",
    "patch / copy",
];

/// A run of a script, and a patch of it.
fn growth_cells(script: Script, changed: (usize, i64), rounds: usize) -> Vec<String> {
    let r = run(&script, rounds);
    let p = patch(&slider(script, &[changed]), rounds);
    vec![
        r.steps().to_string(),
        format!("{:.0}", r.bytes_a_step()),
        format!("{:.1}", r.a_step("run")),
        ratio(&r, "run", "plain"),
        ratio(&r, "run", "tuned"),
        format!("{:.0} %", 100.0 * p.touched()),
        format!("{:.1}", p.a_step("patch")),
        ratio(&p, "rerun", "patch"),
        ratio(&p, "patch", "copy"),
    ]
}

fn steps(rounds: usize) {
    let heading = "4. Growth with steps: taxes over more and more years; a run, and a patch that meets each year's decision";
    begin(heading, &[&["words of record"], &GROWTH_COLUMNS[..]].concat());
    for years in [1, 10, 100, 1000, 8900] {
        let script = taxes(years, 12);
        let words = run(&script, 1).answer[LENGTH].to_string();
        row(&[vec![words], growth_cells(script, (CEILING, 50_000), rounds)].concat());
    }
}

fn nodes(rounds: usize) {
    let heading = "5. Growth with nodes: 10^5 steps of more and more districts; a run, and a patch that meets them all";
    begin(heading, &[&["nodes"], &GROWTH_COLUMNS[..]].concat());
    for (districts, months) in [(0, 10_000), (1, 1050), (3, 380), (6, 192), (9, 129), (13, 90)] {
        let script = growth(districts, 10, months);
        row(&[vec![script.nodes().to_string()], growth_cells(script, (BIRTHS, 1), rounds)].concat());
    }
}

fn lengths(rounds: usize) {
    let heading =
        "6. Growth with the record's length: 10^5 steps with wider snapshots and wider expressions; a run, and a patch that walks all";
    begin(heading, &[&["what is wide"], &GROWTH_COLUMNS[..]].concat());
    let mut scripts: Vec<Script> = [4, 8, 16, 32].iter().map(|&width| snapshots(width, 33_333)).collect();
    scripts.extend([1, 3, 7, 15, 31].iter().map(|&operators| expressions(operators, 14_285)));
    for script in scripts {
        row(&[vec![script.name.clone()], growth_cells(script, (1, 1), rounds)].concat());
    }
}

fn checks(rounds: usize) {
    let heading =
        "7. The fixed cost of a call: a check, and a run and a patch of two steps, divided by the tuned version's and the interpreter's";
    let columns =
        ["nodes", "check, us", "run, us", "patch, us", "run / tuned", "patch / tuned patch", "check / interpreter", "run / interpreter"];
    begin(heading, &columns);
    for assigns in [1, 6, 20, 50, 101] {
        let script = idle(assigns);
        let (c, r) = (check(&script.table, rounds), run(&script, rounds));
        let nodes = script.nodes();
        let p = patch(&slider(script, &[]), rounds);
        let us = |nanoseconds: f64| format!("{:.2}", nanoseconds / 1000.0);
        row(&[
            nodes.to_string(),
            us(c.time("check")),
            us(r.times.time("run")),
            us(p.times.time("patch")),
            ratio(&r, "run", "tuned"),
            ratio(&p, "patch", "tuned"),
            format!("{:.2}", c.ratio("check", "interpreter")),
            ratio(&r, "run", "interpreter"),
        ]);
    }
}
