//! One act over and over, for a profiler: bench profile ACT COUNT.
use crate::library;
use crate::measure::{room_for, LIMIT};
use bench::scripts::city::{growth, services, taxes};
use bench::scripts::sizes::{expressions, idle, skips, snapshots};
use bench::scripts::sliders::{by_kind, by_share, Slider};
use bench::scripts::Script;
use bench::tuned;
use bench::tuned::answer::Words;
use std::hint::black_box;

pub const ACTS: &str = "[tuned-]ACT: taxes services growth-N skips expressions-N snapshots-N idle-N plain, patch-N kind-N";

type Run = fn(&[u8], &[i64], i64, &mut [i64]) -> Words;
type Patch = fn(&[u8], &[i64], &[i64], &mut [i64]) -> Words;

/// The act of a name, done so many times; false if there is none. It is the library's, or behind `tuned-` the tuned version's.
pub fn profile(act: &str, count: usize) -> bool {
    let of_tuned = act.strip_prefix("tuned-");
    let (run, patch): (Run, Patch) = if of_tuned.is_some() { (tuned::run, tuned::patch) } else { (library::run, library::patch) };
    let (name, size) = of_tuned.unwrap_or(act).split_once('-').unwrap_or((of_tuned.unwrap_or(act), "0"));
    let Ok(size) = size.parse() else { return false };
    match (name, script(name, size), slider(name, size)) {
        ("plain", _, _) => runs(|table, inputs, limit, _| tuned::plain(table, inputs, limit), &services(165, 1), count),
        (_, Some(script), _) => runs(run, &script, count),
        (_, _, Some(slider)) => patches(patch, &slider, count),
        _ => return false,
    }
    true
}

/// The script that a run is of.
fn script(name: &str, size: usize) -> Option<Script> {
    match name {
        "taxes" => Some(taxes(1000, 12)),
        "services" => Some(services(165, 1)),
        "growth" => Some(growth(size, 10, 1100 / size.max(1) as i64)),
        "skips" => Some(skips(6666)),
        "expressions" => Some(expressions(size, 14_285)),
        "snapshots" => Some(snapshots(size, 33_333)),
        "idle" => Some(idle(size)),
        _ => None,
    }
}

/// The slider that a patch is of: the staff of the first services, or a row of the table by kind.
fn slider(name: &str, size: usize) -> Option<Slider> {
    match name {
        "patch" => by_share(165, 1).into_iter().nth(size),
        "kind" => by_kind().into_iter().nth(size),
        _ => None,
    }
}

fn runs(run: Run, script: &Script, count: usize) {
    let mut room = room_for(script);
    for _ in 0..count {
        black_box(run(&script.table, &script.inputs, LIMIT, black_box(&mut room)));
    }
}

fn patches(patch: Patch, slider: &Slider, count: usize) {
    let script = &slider.script;
    let mut old = room_for(script);
    tuned::run(&script.table, &script.inputs, LIMIT, &mut old);
    let mut room = room_for(&script.moved(&slider.changes));
    for _ in 0..count {
        black_box(patch(&script.table, &old, &slider.changes, black_box(&mut room)));
    }
}
