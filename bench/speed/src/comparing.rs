// One pattern by all three, with the times and whether all results are equal.
use crate::arithmetic::{Arithmetic, PlainBinary, PlainResidues, TunedBinary, TunedResidues};
use crate::pattern::{Exponents, LINE_NUMBERS, LINES, POLYNOMIAL_NUMBERS, Pattern};
use crate::timing::{Effort, medians};
use crate::{ours, plain, tuned};

pub struct Compared {
    pub stairs: usize,
    pub ours: f64,
    pub plain: f64,
    pub tuned: f64,
    pub equal: bool,
}

pub enum Question<'a> {
    Lines,
    Refills(&'a [Exponents]),
    Remainders(&'a [u16]),
}

pub fn compare(p: &Pattern, question: &Question, effort: &Effort) -> Compared {
    if p.kind == 0 {
        asked::<PlainResidues, TunedResidues>(p, question, effort)
    } else {
        asked::<PlainBinary, TunedBinary>(p, question, effort)
    }
}

fn asked<P: Arithmetic, T: Arithmetic>(p: &Pattern, question: &Question, effort: &Effort) -> Compared {
    match question {
        Question::Lines => lines::<P, T>(p, effort),
        Question::Refills(monomials) => refills::<P, T>(p, monomials, effort),
        Question::Remainders(polynomials) => remainders::<P, T>(p, polynomials, effort),
    }
}

fn lines<P: Arithmetic, T: Arithmetic>(p: &Pattern, effort: &Effort) -> Compared {
    let mut a = vec![0; LINES * LINE_NUMBERS];
    let (mut b, mut c) = (a.clone(), a.clone());
    let (mut na, mut nb, mut nc) = (0, 0, 0);
    let times = medians(effort, &mut [
        &mut || na = ours::lines(p, &mut a),
        &mut || nb = plain::write(&plain::work_out(&P::new(p.size), p), &mut b),
        &mut || nc = tuned::write(&tuned::work_out(&T::new(p.size), p), &mut c),
    ]);
    let stairs = a.chunks_exact(LINE_NUMBERS).filter(|l| l[4] == 1).count();
    Compared { stairs, ours: times[0], plain: times[1], tuned: times[2], equal: na > 0 && na == nb && na == nc && a == b && a == c }
}

/// Codes on the staircase: those of the pattern itself would be continued to it; others do as well.
pub fn stair_codes(p: &Pattern, count: usize) -> Vec<u16> {
    (0..count).map(|j| ((j as u32 * 40503 + 17) % p.codes()) as u16).collect()
}

fn refills<P: Arithmetic, T: Arithmetic>(p: &Pattern, monomials: &[Exponents], effort: &Effort) -> Compared {
    let (pa, ta) = (P::new(p.size), T::new(p.size));
    let (plain_lines, sheet) = (plain::work_out(&pa, p), tuned::work_out(&ta, p));
    let codes = stair_codes(p, sheet.stairs.len());
    let exponents = monomials.concat();
    let mut a = vec![0; monomials.len()];
    let (mut b, mut c) = (a.clone(), a.clone());
    let mut counts = (0, 0);
    let times = medians(effort, &mut [
        &mut || counts.0 = ours::refills(p, &codes, &exponents, &mut a),
        &mut || counts.1 = ours::refills(p, &codes, &[], &mut []),
        &mut || b.iter_mut().zip(monomials).for_each(|(b, m)| *b = plain::refill(&pa, p, &plain_lines, &codes, m)),
        &mut || c.iter_mut().zip(monomials).for_each(|(c, m)| *c = tuned::refill(&ta, p, &sheet, &codes, m)),
    ]);
    let each = monomials.len() as f64;
    let equal = counts == (monomials.len(), 0) && a == b && a == c;
    Compared { stairs: codes.len(), ours: (times[0] - times[1]) / each, plain: times[2] / each, tuned: times[3] / each, equal }
}

fn remainders<P: Arithmetic, T: Arithmetic>(p: &Pattern, polynomials: &[u16], effort: &Effort) -> Compared {
    let (pa, ta) = (P::new(p.size), T::new(p.size));
    let (plain_lines, sheet) = (plain::work_out(&pa, p), tuned::work_out(&ta, p));
    let stairs = sheet.stairs.len();
    let count = polynomials.len() / POLYNOMIAL_NUMBERS;
    let mut a = vec![0; 64 * count];
    let (mut b, mut c) = (a.clone(), a.clone());
    let mut counts = (0, 0);
    let times = medians(effort, &mut [
        &mut || counts.0 = ours::remainders(p, polynomials, &mut a),
        &mut || counts.1 = ours::remainders(p, &[], &mut []),
        &mut || for (terms, b) in polynomials.chunks_exact(POLYNOMIAL_NUMBERS).zip(b.chunks_exact_mut(64)) {
            plain::remainder(&pa, p, &plain_lines, terms, &mut b[..stairs]);
        },
        &mut || for (terms, c) in polynomials.chunks_exact(POLYNOMIAL_NUMBERS).zip(c.chunks_exact_mut(64)) {
            tuned::remainder(&ta, p, &sheet, terms, &mut c[..stairs]);
        },
    ]);
    let each = count as f64;
    let equal = counts == (count, 0) && a == b && a == c;
    Compared { stairs, ours: (times[0] - times[1]) / each, plain: times[2] / each, tuned: times[3] / each, equal }
}
