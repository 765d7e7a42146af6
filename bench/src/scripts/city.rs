//! Scripts that look like a city's rules: taxes, growth, services.
use super::{sequence, Script};

/// The variable of `taxes` that only a year's own decision reads.
pub const CEILING: usize = 5;

/// Taxes by income: years over residents, brackets as nested ifs. A resident is some 9 steps, a year 6 of its own.
pub fn taxes(years: i64, residents: i64) -> Script {
    // v0 years, v1 residents, v2 v3 v4 rates, v5 ceiling, v6 income, v7 tax, v8 treasury, v9 allowance, v10 cuts, v11 first income
    let high = "if (v6 > 30000) then v7 := ((v6 - v9) * v4) else v7 := ((v6 - v9) * v3) end";
    let resident = sequence(&[
        "if (v6 > 40000) then v6 := (v6 - 38117) else v6 := (v6 + 1373) end".to_string(),
        format!("if (v6 > v9) then if (v6 > 15000) then {high} else v7 := ((v6 - v9) * v2) end else v7 := 0 end"),
        "if (v8 > 900000) then v8 := (v8 - 900000) else v8 := (v8 + v7) end".to_string(),
    ]);
    let year = sequence(&[
        "v6 := v11".to_string(),
        format!("repeat v1 do {resident} end"),
        "if (v8 > v5) then v10 := (v10 + 1) else v10 := 0 end".to_string(),
    ]);
    let numbers = [years, residents, 9, 17, 31, 400_000, 0, 0, 0, 8000, 0, 1200];
    Script::new(&format!("taxes: years {years}, residents {residents}"), &numbers, &[], &format!("repeat v0 do {year} end"))
}

/// The variable of `growth` that every district's people grow by.
pub const BIRTHS: usize = 2;

/// Growth of up to 13 districts, month by month: people come while there are homes, homes are built while there is land, and a crowded
/// district builds on. Of no district there are only births.
pub fn growth(districts: usize, years: i64, months: i64) -> Script {
    // v0 years, v1 months, v2 births, v3 leaving, v4 empty homes, v5 city; then people and homes of each district
    let mut month = Vec::new();
    let mut numbers = vec![years, months, 7, 23, 90, 0];
    for d in 0..districts {
        let (p, h) = (6 + 2 * d, 7 + 2 * d);
        numbers.extend([1000 + 37 * d as i64, 1100 + 11 * d as i64]);
        month.push(format!("if (v{p} > v{h}) then v{p} := (v{p} - v3) else v{p} := (v{p} + v2) end"));
        month.push(format!("if ((v{h} - v{p}) > v4) then v{h} := (v{h} - 11) else v{h} := (v{h} + 4) end"));
        month.push(format!("if (v{p} > 1150) then v{h} := (v{h} + 1) else skip end"));
    }
    if districts == 0 {
        month.push("v3 := (v3 + v2)".to_string());
    }
    let text = format!("repeat v0 do repeat v1 do {} end ; v5 := (v5 + v3) end", sequence(&month));
    Script::new(&format!("growth: districts {districts}, years {years}, months {months}"), &numbers, &[], &text)
}

/// How many services there are, and how many residents of a hundred each has.
pub const SHARES: [i64; 6] = [1, 4, 5, 15, 25, 50];

/// The variable of a service that all its steps rest on.
pub fn staff(service: usize) -> usize {
    4 * service
}

/// The truth of a service that half its ifs rest on.
pub fn open(service: usize) -> usize {
    26 + service
}

/// The variable that counts a service's residents.
pub fn residents(service: usize) -> usize {
    4 * service + 3
}

/// Services, each a loop over its own residents: who is served, who waits, whether it is open. They stand in a loop over years.
pub fn services(years: i64, scale: i64) -> Script {
    // of each service: staff, need, served, residents; then v24 years, v25 nothing; then for each whether it is open
    let mut numbers = Vec::new();
    let mut year = Vec::new();
    for (s, share) in SHARES.iter().enumerate() {
        let (staff, need, served, residents, open) = (4 * s, 4 * s + 1, 4 * s + 2, 4 * s + 3, 26 + s);
        numbers.extend([30 + s as i64, 400, 0, share * scale]);
        let serve = format!("v{served} := (v{served} + v{staff}) ; v{need} := (v{need} - v{staff})");
        let all = format!("v{served} := (v{served} + v{need}) ; v{need} := 400");
        year.push(format!(
            "repeat v{residents} do if (v{need} > v{staff}) then {serve} else {all} end ; \
             if v{open} then v{need} := (v{need} + 7) else v{need} := (v{need} + 3) end end"
        ));
    }
    numbers.extend([years, 0]);
    let text = format!("repeat v24 do {} end", sequence(&year));
    Script::new(&format!("services: years {years}, residents {}", 100 * scale), &numbers, &[1, 0, 1, 1, 0, 1], &text)
}
