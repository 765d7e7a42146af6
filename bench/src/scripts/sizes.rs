//! Scripts that differ in one size: the width of snapshots, the width of expressions, the number of nodes.
use super::{sequence, Script};

/// A loop of ifs; if and loop mention so many variables (4 to 32), so that is the width of their snapshots.
pub fn snapshots(width: usize, turns: i64) -> Script {
    // v0 turns, v1 moves; the branch not taken has the others
    let others: Vec<String> = (2..width).map(|v| format!("v{v} := v1")).collect();
    let text = format!("repeat v0 do if (v1 > -1) then v1 := (v1 + 1) else {} end end", sequence(&others));
    let mut numbers = vec![7; width];
    (numbers[0], numbers[1]) = (turns, 0);
    Script::new(&format!("snapshots of {width} words"), &numbers, &[], &text)
}

/// A loop of assigns, each of a balanced expression of so many operators (a power of two less one).
pub fn expressions(operators: usize, turns: i64) -> Script {
    fn tree(leaves: usize) -> String {
        match leaves {
            1 => "v1".to_string(),
            _ => format!("({} {} {})", tree(leaves / 2), if leaves % 4 == 0 { "-" } else { "+" }, tree(leaves / 2)),
        }
    }
    let assigns: Vec<String> = (2..6).map(|v| format!("v{v} := {}", tree(operators + 1))).collect();
    let text = format!("repeat v0 do {} end", sequence(&assigns));
    Script::new(&format!("expressions of {operators} operators"), &[turns, 3, 0, 0, 0, 0], &[], &text)
}

/// A loop of statements that have nothing but their own opening words.
pub fn skips(turns: i64) -> Script {
    let text = format!("repeat v0 do {} end", sequence(&vec!["skip".to_string(); 8]));
    Script::new("skips", &[turns], &[], &text)
}

/// Two steps beside so many assigns that are not run: what is left of a call is its fixed cost.
pub fn idle(assigns: usize) -> Script {
    let parts: Vec<String> = (0..assigns).map(|i| format!("v{} := (v{} - 1)", i % 8, (i + 1) % 8)).collect();
    Script::new("idle", &[0; 8], &[], &format!("if (v0 > 0) then {} else skip end", sequence(&parts)))
}
