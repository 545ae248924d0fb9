// The table of times and ratios.
use crate::comparing::{Question, compare, stair_codes};
use crate::inputs::{Random, pattern_of_rank};
use crate::ours;
use crate::pattern::{Exponents, LINE_NUMBERS, LINES, POLYNOMIAL_NUMBERS, Pattern};
use crate::timing::{Effort, USUAL, now};

const SHAPES: [&[u16]; 3] = [&[8, 8], &[4, 4, 4], &[64]];
const FIELDS: [(u16, u16, &str); 3] = [(0, 65521, "mod 65521"), (0, 2, "mod 2"), (1, 8, "2^8")];
const ORDERS: [&str; 2] = ["lex", "graded"];

/// The ranks: all positions, or about half of them.
const RANKS: [(&str, usize, usize); 2] = [("full", 64, 64), ("half", 26, 40)];

fn shape(periods: &[u16]) -> String {
    let texts: Vec<String> = periods.iter().map(u16::to_string).collect();
    texts.join("x")
}

fn head(title: &str) {
    println!("\n{title}\n");
    println!("| pattern | field | order | stairs | ours µs | plain µs | tuned µs | ours/plain | ours/tuned | results |");
    println!("|---|---|---|---|---|---|---|---|---|---|");
}

/// The largest ratio to the tuned baseline so far, and whether all results were equal.
struct Tally {
    worst: f64,
    equal: bool,
}

fn row(p: &Pattern, field: &str, question: &Question, effort: &Effort, tally: &mut Tally) {
    let c = compare(p, question, effort);
    println!(
        "| {} | {field} | {} | {} | {:.1} | {:.1} | {:.1} | {:.2} | {:.2} | {} |",
        shape(&p.periods), ORDERS[p.order as usize], c.stairs, c.ours, c.plain, c.tuned,
        c.ours / c.plain, c.ours / c.tuned, if c.equal { "equal" } else { "DIFFER" },
    );
    tally.worst = tally.worst.max(c.ours / c.tuned);
    tally.equal &= c.equal;
}

fn each(orders: &[u16], mut visit: impl FnMut(&Pattern, &str)) {
    for (_, least, most) in RANKS {
        for (kind, size, field) in FIELDS {
            for periods in SHAPES {
                for order in orders {
                    visit(&pattern_of_rank(kind, size, *order, periods, least, most), field);
                }
            }
        }
    }
}

/// Monomials with these exponents, and one less, in all variables of the pattern.
pub fn monomials(p: &Pattern, exponent: u16, count: u16) -> Vec<Exponents> {
    (0..count)
        .map(|i| {
            let mut m = [0; 4];
            for v in 0..p.variables() {
                m[v] = exponent - (i >> v & 1);
            }
            m
        })
        .collect()
}

pub fn polynomials(p: &Pattern, count: usize) -> Vec<u16> {
    let mut random = Random(0x1234_5678_9abc_def1);
    let mut numbers = Vec::new();
    for _ in 0..64 * count {
        for v in 0..4 {
            numbers.push(if v < p.variables() { random.below(4096) } else { 0 });
        }
        numbers.push(random.below(p.codes()));
    }
    assert_eq!(numbers.len(), POLYNOMIAL_NUMBERS * count);
    numbers
}

fn close(tally: Tally) -> bool {
    println!("\nlargest ours/tuned: {:.2}; results {}", tally.worst, if tally.equal { "all equal" } else { "DIFFER" });
    tally.equal
}

pub fn print() {
    let mut all = crate::refusals::all_refused();
    println!("Refusals {}", if all { "as they must be" } else { "DIFFER" });
    let fresh = || Tally { worst: 0.0, equal: true };

    head("Working out, all lines with their combinations");
    let mut tally = fresh();
    each(&[0, 1], |p, field| row(p, field, &Question::Lines, &USUAL, &mut tally));
    all &= close(tally);

    for (exponent, count) in [(63, 2), (4095, 1)] {
        head(&format!("Refill, all exponents {exponent}"));
        let effort = if exponent > 1000 { Effort { least: 1, most: 5, enough: 150_000.0 } } else { USUAL };
        let mut tally = fresh();
        each(&[0, 1], |p, field| row(p, field, &Question::Refills(&monomials(p, exponent, count)), &effort, &mut tally));
        all &= close(tally);
    }

    head("Remainder of a polynomial of 64 terms, exponents to 4,095");
    let mut tally = fresh();
    each(&[0, 1], |p, field| row(p, field, &Question::Remainders(&polynomials(p, 8)), &USUAL, &mut tally));
    all &= close(tally);

    if !all {
        std::process::exit(1);
    }
}

/// One call of ours again and again for a second, for a profiler.
pub fn profile(what: &str) {
    for (kind, size, least, most) in [(0, 65521, 64, 64), (0, 65521, 26, 40), (1, 8, 64, 64)] {
        if std::env::args().nth(3).is_some_and(|asked| asked != format!("{size}-{most}")) {
            continue;
        }
        let p = pattern_of_rank(kind, size, 1, &[8, 8], least, most);
        let mut out = vec![0; LINES * LINE_NUMBERS];
        let count = ours::lines(&p, &mut out);
        let stairs = out.chunks_exact(LINE_NUMBERS).take(count).filter(|l| l[4] == 1).count();
        let codes = stair_codes(&p, stairs);
        let at = monomials(&p, if what == "border" { 1 } else { 63 }, 16).concat();
        let terms = polynomials(&p, 100);
        let start = now();
        while now() - start < 1e6 {
            match what {
                "refill" | "border" => ours::refills(&p, &codes, &at, &mut out),
                "remainder" => ours::remainders(&p, &terms, &mut out),
                _ => ours::lines(&p, &mut out),
            };
        }
    }
}
