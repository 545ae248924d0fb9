// Calls that are refused answer 0; what is refused before any work writes nothing.
use crate::ours;
use crate::pattern::{LINE_NUMBERS, LINES, Pattern};

fn pattern() -> Pattern {
    Pattern { kind: 0, size: 7, order: 1, periods: vec![2, 2], cells: vec![1, 2, 3, 4] }
}

fn is_refused(name: &str, p: &Pattern) -> bool {
    let mut out = vec![9; LINES * LINE_NUMBERS];
    let codes = [1, 2, 3, 4];
    let answers = [
        ours::lines(p, &mut out),
        ours::refills(p, &codes, &[1, 1, 0, 0], &mut out),
        ours::remainders(p, &[0; 320], &mut out),
    ];
    let good = answers == [0; 3] && out.iter().all(|n| *n == 9);
    if !good {
        println!("not refused: {name}");
    }
    good
}

/// Whether all of these are refused.
pub fn all_refused() -> bool {
    let p = pattern();
    let changed = [
        ("kind", Pattern { kind: 2, ..p.clone() }),
        ("modulus", Pattern { size: 4, ..p.clone() }),
        ("degree", Pattern { kind: 1, size: 5, ..p.clone() }),
        ("order", Pattern { order: 2, ..p.clone() }),
        ("no period", Pattern { periods: vec![], ..p.clone() }),
        ("period 0", Pattern { periods: vec![4, 0], ..p.clone() }),
        ("too wide", Pattern { periods: vec![13, 5], cells: vec![0; 65], ..p.clone() }),
        ("cells", Pattern { cells: vec![1, 2, 3], ..p.clone() }),
        ("code", Pattern { cells: vec![1, 2, 3, 7], ..p.clone() }),
    ];
    let mut out = [9; 69];
    let short = ours::lines(&p, &mut out) == 0 && out == [9; 69];
    let length = ours::refills(&p, &[1], &[1, 1, 0, 0], &mut out) == 0;
    let exponent = ours::refills(&p, &[1, 2, 3, 4], &[1, 1, 1, 0], &mut out) == 0;
    let mut term = [0; 320];
    term[4] = 7;
    let code = ours::remainders(&p, &term, &mut out) == 0;
    changed.iter().all(|(name, p)| is_refused(name, p)) && short && length && exponent && code
}
