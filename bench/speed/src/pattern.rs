// Patterns, and the numbers that calls take and give.
#[derive(Clone)]
pub struct Pattern {
    /// 0 residues, 1 binary
    pub kind: u16,
    /// the modulus or the degree
    pub size: u16,
    /// 0 lexicographic, 1 graded
    pub order: u16,
    pub periods: Vec<u16>,
    pub cells: Vec<u16>,
}

/// Four exponents, 1 for a stair and 0 for a relation, 64 codes.
pub const LINE_NUMBERS: usize = 69;

/// 64 terms of four exponents and a code.
pub const POLYNOMIAL_NUMBERS: usize = 320;

/// The most lines.
pub const LINES: usize = 193;

pub type Exponents = [u16; 4];

impl Pattern {
    pub fn width(&self) -> usize {
        self.periods.iter().map(|n| *n as usize).product()
    }

    pub fn variables(&self) -> usize {
        self.periods.len()
    }

    pub fn codes(&self) -> u32 {
        if self.kind == 0 { self.size as u32 } else { 1 << self.size }
    }

    /// Whether one monomial is before another.
    pub fn before(&self, a: &Exponents, b: &Exponents) -> bool {
        if self.order == 1 {
            let (da, db): (u32, u32) = (degree(a), degree(b));
            if da != db {
                return da < db;
            }
        }
        a < b
    }
}

pub fn degree(a: &Exponents) -> u32 {
    a.iter().map(|e| *e as u32).sum()
}

pub fn divides(a: &Exponents, b: &Exponents) -> bool {
    a[0] <= b[0] && a[1] <= b[1] && a[2] <= b[2] && a[3] <= b[3]
}

pub fn times(a: &Exponents, variable: usize) -> Exponents {
    let mut product = *a;
    product[variable] += 1;
    product
}
