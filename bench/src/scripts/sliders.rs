//! Sliders: a script, and the changes that a player makes.
use super::city::{growth, open, residents, services, staff, taxes, BIRTHS, CEILING, SHARES};
use super::Script;

pub struct Slider {
    pub name: String,
    pub script: Script,
    pub changes: Vec<i64>,
}

fn slider(name: &str, script: Script, changed: &[(usize, i64)]) -> Slider {
    let changes = script.changes(changed);
    Slider { name: name.to_string(), script, changes }
}

/// Sliders that touch more and more of about 10^5 steps: the staff of no service, the first, the first two...
pub fn by_share(years: i64, scale: i64) -> Vec<Slider> {
    let first = |count: usize| (0..count).map(|s| (staff(s), 1)).collect::<Vec<_>>();
    (0..=SHARES.len()).map(|count| slider("", services(years, scale), &first(count))).collect()
}

/// What else a slider can do than touch a share.
pub fn by_kind() -> Vec<Slider> {
    vec![
        slider("a threshold that each year's decision reads", taxes(1000, 12), &[(CEILING, 50_000)]),
        slider("a rate that every resident's tax rests on", taxes(1000, 12), &[(3, 1)]),
        slider("births, on which all districts rest", growth(13, 16, 84), &[(BIRTHS, 1)]),
        slider("one service opens: its ifs flip", services(1, 165), &[(open(4), 1)]),
        slider("a hundredth more residents", services(1, 165), &[(residents(5), 83)]),
        slider("a hundredth fewer residents", services(1, 165), &[(residents(5), -83)]),
    ]
}
