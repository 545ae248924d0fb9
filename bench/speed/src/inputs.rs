// The patterns that are measured: random, and annihilated by enough factors of the periods' polynomials to have about half the rank.
use crate::arithmetic::{Arithmetic, PlainBinary, PlainResidues};
use crate::pattern::Pattern;
use crate::tuned;

pub struct Random(pub u64);

impl Random {
    pub fn next(&mut self) -> u64 {
        self.0 ^= self.0 << 13;
        self.0 ^= self.0 >> 7;
        self.0 ^= self.0 << 17;
        self.0.wrapping_mul(0x2545_f491_4f6c_dd1d) >> 20
    }
    pub fn below(&mut self, n: u32) -> u16 {
        (self.next() % n as u64) as u16
    }
}

/// A code whose order in the product divides n, as large as there is.
fn root<A: Arithmetic>(a: &A, codes: u32, n: u32, random: &mut Random) -> u16 {
    let mut best = 1;
    for _ in 0..8 {
        let base = 1 + random.below(codes - 1);
        let power = (codes - 1) / gcd(codes - 1, n);
        let mut result = 1;
        for _ in 0..power {
            result = a.product(result, base);
        }
        best = result;
    }
    best
}

fn gcd(a: u32, b: u32) -> u32 {
    if b == 0 { a } else { gcd(b, a % b) }
}

/// Takes away from each cell a root of 1 times the cell some steps along an axis.
fn annihilate<A: Arithmetic>(a: &A, p: &mut Pattern, random: &mut Random) {
    let axis = random.below(p.periods.len() as u32) as usize;
    let n = p.periods[axis] as u32;
    let step = 1 << random.below(n.trailing_zeros().max(1));
    let factor = a.negative(root(a, p.codes(), n / step, random));
    let mut m = [0; 4];
    m[axis] = step as u16;
    let old = p.clone();
    for position in 0..p.width() {
        let moved = crate::plain::moved(&old, &m, position);
        let lead = old.cells[position];
        p.cells[position] = a.sum(moved, a.product(factor, lead));
    }
}

fn rank(p: &Pattern) -> usize {
    if p.kind == 0 {
        tuned::work_out(&PlainResidues::new(p.size), p).stairs.len()
    } else {
        tuned::work_out(&PlainBinary::new(p.size), p).stairs.len()
    }
}

pub fn random_pattern(kind: u16, size: u16, order: u16, periods: &[u16], random: &mut Random) -> Pattern {
    let mut p = Pattern { kind, size, order, periods: periods.to_vec(), cells: Vec::new() };
    p.cells = (0..p.width()).map(|_| random.below(p.codes())).collect();
    p
}

/// A pattern with a rank from the least to the most.
pub fn pattern_of_rank(kind: u16, size: u16, order: u16, periods: &[u16], least: usize, most: usize) -> Pattern {
    let mut random = Random(0x9e37_79b9_7f4a_7c15 ^ (most as u64) << 32 ^ size as u64);
    loop {
        let mut p = random_pattern(kind, size, order, periods, &mut random);
        for _ in 0..40 {
            let rank = rank(&p);
            if rank <= most {
                if rank >= least {
                    return p;
                }
                break;
            }
            if kind == 0 {
                annihilate(&PlainResidues::new(size), &mut p, &mut random);
            } else {
                annihilate(&PlainBinary::new(size), &mut p, &mut random);
            }
        }
    }
}
