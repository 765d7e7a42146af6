//! A run and a patch measured: the library, the tuned version, the interpreter and a copy in turn, all held to the same words.
use crate::library;
use crate::times::Times;
use bench::interpreter;
use bench::scripts::sliders::Slider;
use bench::scripts::Script;
use bench::tuned;
use bench::tuned::answer::{Words, FRESH, LENGTH, STEPS, WALKED};
use std::hint::black_box;

pub const LIMIT: i64 = 1_000_000;

/// A script or a slider, and its times.
pub struct Measured {
    pub times: Times,
    pub answer: Words,
}

impl Measured {
    pub fn steps(&self) -> f64 {
        self.answer[STEPS] as f64
    }

    pub fn bytes_a_step(&self) -> f64 {
        8.0 * self.answer[LENGTH] as f64 / self.steps()
    }

    /// Nanoseconds a step of an act.
    pub fn a_step(&self, act: &str) -> f64 {
        self.times.time(act) / self.steps()
    }

    /// The share of steps that a patch did not reuse.
    pub fn touched(&self) -> f64 {
        (self.answer[WALKED] + self.answer[FRESH]) as f64 / self.steps()
    }
}

/// Room for the record that a run leaves, and not a word more.
pub fn room_for(script: &Script) -> Vec<i64> {
    vec![-1; interpreter::record_words(&script.table, &script.inputs, LIMIT)]
}

/// The acts `run`, `tuned`, `interpreter`, `plain` and `copy` of a script.
pub fn run(script: &Script, rounds: usize) -> Measured {
    let (table, inputs) = (&script.table, &script.inputs);
    let (mut one, mut two, mut three) = (room_for(script), room_for(script), room_for(script));
    let mut measured = Measured { times: Times::default(), answer: [0; 72] };
    for _ in 0..rounds {
        let times = &mut measured.times;
        let expected = times.take("interpreter", || interpreter::run(table, inputs, LIMIT, black_box(&mut two)));
        let answer = times.take("run", || library::run(table, inputs, LIMIT, black_box(&mut one)));
        assert!(answer == expected && one == two && answer[0] == 0, "{}: the run differs or is refused", script.name);
        let answer = times.take("tuned", || tuned::run(table, inputs, LIMIT, black_box(&mut three)));
        assert!(answer == expected && one == three, "{}: the tuned run differs", script.name);
        let mut answer = times.take("plain", || tuned::plain(table, inputs, LIMIT));
        answer[LENGTH] = expected[LENGTH];
        assert!(answer == expected, "{}: the plain run differs", script.name);
        times.take("copy", || black_box(&mut three).copy_from_slice(black_box(&one)));
        measured.answer = expected;
    }
    measured
}

/// The acts `patch`, `tuned`, `interpreter`, `rerun`, `tuned rerun` and `copy` of a slider; the copy is of the old record.
pub fn patch(slider: &Slider, rounds: usize) -> Measured {
    let (script, changes) = (&slider.script, &slider.changes);
    let table = &script.table;
    let moved = script.moved(changes);
    let mut old = room_for(script);
    library::run(table, &script.inputs, LIMIT, &mut old);
    let (mut one, mut two, mut copy) = (room_for(&moved), room_for(&moved), old.clone());
    let mut measured = Measured { times: Times::default(), answer: [0; 72] };
    for _ in 0..rounds {
        let times = &mut measured.times;
        times.take("copy", || black_box(&mut copy).copy_from_slice(black_box(&old)));
        let expected = times.take("interpreter", || interpreter::patch(table, &old, changes, black_box(&mut two)));
        let answer = times.take("patch", || library::patch(table, &old, changes, black_box(&mut one)));
        assert!(answer == expected && one == two && answer[0] == 0, "{}: the patch differs or is refused", script.name);
        let answer = times.take("tuned", || tuned::patch(table, &old, changes, black_box(&mut two)));
        assert!(answer == expected && one == two, "{}: the tuned patch differs", script.name);
        times.take("rerun", || library::run(table, &moved.inputs, LIMIT, black_box(&mut two)));
        assert!(one == two, "{}: the rerun's record differs", script.name);
        times.take("tuned rerun", || tuned::run(table, &moved.inputs, LIMIT, black_box(&mut two)));
        assert!(one == two, "{}: the tuned rerun's record differs", script.name);
        measured.answer = expected;
    }
    measured
}

/// The acts `check`, `tuned` and `interpreter` of a table.
pub fn check(table: &[u8], rounds: usize) -> Times {
    let mut times = Times::default();
    for _ in 0..rounds {
        let numbers = [
            times.take("check", || library::check(black_box(table))),
            times.take("tuned", || tuned::check(black_box(table))),
            times.take("interpreter", || interpreter::check(black_box(table))),
        ];
        assert!(numbers == [0; 3], "a table is refused");
    }
    times
}
