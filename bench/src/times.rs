//! Times taken in turn, and what is read off them.
use std::collections::BTreeMap;
use std::hint::black_box;

/// A time is taken over as many calls as fill so many nanoseconds, so that the clock's own grain does not show and the caches hold the
/// act's own words and not those of the act before.
const LEAST: u64 = 3_000_000;

#[repr(C)]
struct Timespec {
    seconds: i64,
    nanoseconds: i64,
}

extern "C" {
    fn clock_gettime(clock: i32, time: *mut Timespec) -> i32;
}

/// What this thread has had of a processor, in nanoseconds: what others on the machine do meanwhile does not count as the act's time.
fn clock() -> u64 {
    const THREAD_CPU_TIME: i32 = 3;
    let mut time = Timespec { seconds: 0, nanoseconds: 0 };
    // the struct is laid out as 64-bit Linux has it
    unsafe { clock_gettime(THREAD_CPU_TIME, &mut time) };
    1_000_000_000 * time.seconds as u64 + time.nanoseconds as u64
}

/// The times of some acts, a row of rounds each, in nanoseconds a call.
#[derive(Default)]
pub struct Times {
    rows: BTreeMap<&'static str, Vec<f64>>,
}

impl Times {
    /// Take the time of an act, after as many calls that are not timed; gives what it made last.
    pub fn take<T>(&mut self, name: &'static str, mut act: impl FnMut() -> T) -> T {
        let began = clock();
        let mut made = black_box(act());
        let calls = (LEAST / (clock() - began).max(1)).max(1);
        (1..calls).for_each(|_| made = black_box(act()));
        let began = clock();
        (0..calls).for_each(|_| made = black_box(act()));
        let each = (clock() - began) as f64 / calls as f64;
        self.rows.entry(name).or_default().push(each);
        made
    }

    /// The middle of the ratios of two acts, round by round.
    pub fn ratio(&self, of: &str, to: &str) -> f64 {
        middle(self.rows[of].iter().zip(&self.rows[to]).map(|(a, b)| a / b).collect())
    }

    /// The middle of an act's times.
    pub fn time(&self, of: &str) -> f64 {
        middle(self.rows[of].clone())
    }
}

fn middle(mut values: Vec<f64>) -> f64 {
    values.sort_by(f64::total_cmp);
    values[values.len() / 2]
}
