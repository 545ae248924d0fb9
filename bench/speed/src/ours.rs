// The proved worksheet, by the static library.
use crate::pattern::Pattern;

unsafe extern "C" {
    fn linked_lines(
        kind: u16, size: u16, order: u16,
        periods: *const u16, periods_len: usize,
        cells: *const u16, cells_len: usize,
        out: *mut u16, out_len: usize,
    ) -> usize;
    fn linked_refills(
        kind: u16, size: u16, order: u16,
        periods: *const u16, periods_len: usize,
        cells: *const u16, cells_len: usize,
        codes: *const u16, codes_len: usize,
        exponents: *const u16, exponents_len: usize,
        out: *mut u16, out_len: usize,
    ) -> usize;
    fn linked_remainders(
        kind: u16, size: u16, order: u16,
        periods: *const u16, periods_len: usize,
        cells: *const u16, cells_len: usize,
        polynomials: *const u16, polynomials_len: usize,
        out: *mut u16, out_len: usize,
    ) -> usize;
}

pub fn lines(p: &Pattern, out: &mut [u16]) -> usize {
    // each slice is handed over as its address and length
    unsafe {
        linked_lines(
            p.kind, p.size, p.order,
            p.periods.as_ptr(), p.periods.len(),
            p.cells.as_ptr(), p.cells.len(),
            out.as_mut_ptr(), out.len(),
        )
    }
}

pub fn refills(p: &Pattern, codes: &[u16], exponents: &[u16], out: &mut [u16]) -> usize {
    unsafe {
        linked_refills(
            p.kind, p.size, p.order,
            p.periods.as_ptr(), p.periods.len(),
            p.cells.as_ptr(), p.cells.len(),
            codes.as_ptr(), codes.len(),
            exponents.as_ptr(), exponents.len(),
            out.as_mut_ptr(), out.len(),
        )
    }
}

pub fn remainders(p: &Pattern, polynomials: &[u16], out: &mut [u16]) -> usize {
    unsafe {
        linked_remainders(
            p.kind, p.size, p.order,
            p.periods.as_ptr(), p.periods.len(),
            p.cells.as_ptr(), p.cells.len(),
            polynomials.as_ptr(), polynomials.len(),
            out.as_mut_ptr(), out.len(),
        )
    }
}
