//! The further C calls of include/wejdarox.h, in the form of `calls`: a slice is valid and apart from every `&mut`, which is all that the calls ask of their
//! caller. Each answers a refusal's number, 0 for none, where nothing else is said.
#![allow(unsafe_code)]

use crate::calls::{Counts, Held};

mod c {
    unsafe extern "C" {
        pub fn wejdarox_remove_column(
            factors: *mut f64,
            factors_len: usize,
            swaps: *mut usize,
            swaps_len: usize,
            m: usize,
            n: usize,
            pairs: *mut usize,
            dead: *mut usize,
        ) -> usize;
        pub fn wejdarox_build_up(
            a: *const f64,
            a_len: usize,
            m: usize,
            n: usize,
            factors: *mut f64,
            factors_len: usize,
            swaps: *mut usize,
            swaps_len: usize,
            pairs: *mut usize,
            dead: *mut usize,
            toss_ups: *mut usize,
        ) -> usize;
        pub fn wejdarox_tr_solve(
            factors: *const f64,
            factors_len: usize,
            swaps: *const usize,
            swaps_len: usize,
            m: usize,
            n: usize,
            pairs: usize,
            dead: usize,
            b: *const f64,
            b_len: usize,
            k: usize,
            x: *mut f64,
            x_len: usize,
        ) -> usize;
        pub fn wejdarox_l(
            factors: *const f64,
            factors_len: usize,
            swaps: *const usize,
            swaps_len: usize,
            m: usize,
            n: usize,
            pairs: usize,
            dead: usize,
            x: *mut f64,
            x_len: usize,
        ) -> usize;
        pub fn wejdarox_u(
            factors: *const f64,
            factors_len: usize,
            swaps: *const usize,
            swaps_len: usize,
            m: usize,
            n: usize,
            pairs: usize,
            dead: usize,
            x: *mut f64,
            x_len: usize,
        ) -> usize;
        pub fn wejdarox_solve_lower_triangular(
            t: *const f64,
            t_len: usize,
            n: usize,
            b: *const f64,
            b_len: usize,
            k: usize,
            x: *mut f64,
            x_len: usize,
        ) -> usize;
        pub fn wejdarox_solve_upper_triangular(
            t: *const f64,
            t_len: usize,
            n: usize,
            b: *const f64,
            b_len: usize,
            k: usize,
            x: *mut f64,
            x_len: usize,
        ) -> usize;
        pub fn wejdarox_tr_solve_lower_triangular(
            t: *const f64,
            t_len: usize,
            n: usize,
            b: *const f64,
            b_len: usize,
            k: usize,
            x: *mut f64,
            x_len: usize,
        ) -> usize;
        pub fn wejdarox_tr_solve_upper_triangular(
            t: *const f64,
            t_len: usize,
            n: usize,
            b: *const f64,
            b_len: usize,
            k: usize,
            x: *mut f64,
            x_len: usize,
        ) -> usize;
        pub fn wejdarox_solve_lower_triangular_with_diag(
            t: *const f64,
            t_len: usize,
            n: usize,
            b: *const f64,
            b_len: usize,
            k: usize,
            x: *mut f64,
            x_len: usize,
            diag: f64,
        ) -> usize;
        pub fn wejdarox_solve_lower_triangular_with_diag_corrected(
            t: *const f64,
            t_len: usize,
            n: usize,
            b: *const f64,
            b_len: usize,
            k: usize,
            x: *mut f64,
            x_len: usize,
            diag: f64,
        ) -> usize;
        pub fn wejdarox_append_permutation(swaps: *mut usize, swaps_len: usize, pairs: *mut usize, d: usize, i: usize, i2: usize) -> usize;
        pub fn wejdarox_permute_rows(a: *mut f64, a_len: usize, m: usize, n: usize, swaps: *const usize, swaps_len: usize, pairs: usize) -> usize;
        pub fn wejdarox_inv_permute_rows(a: *mut f64, a_len: usize, m: usize, n: usize, swaps: *const usize, swaps_len: usize, pairs: usize) -> usize;
        pub fn wejdarox_permute_columns(a: *mut f64, a_len: usize, m: usize, n: usize, swaps: *const usize, swaps_len: usize, pairs: usize) -> usize;
        pub fn wejdarox_inv_permute_columns(a: *mut f64, a_len: usize, m: usize, n: usize, swaps: *const usize, swaps_len: usize, pairs: usize) -> usize;
        pub fn wejdarox_moves(file: *const u8, file_len: usize, pad: usize, moves: *mut f64, pads: *mut usize, toss_ups: *mut usize) -> usize;
        pub fn wejdarox_read_panel(
            file: *const u8,
            file_len: usize,
            matrix: *mut f64,
            matrix_len: usize,
            readings: *mut f64,
            readings_len: usize,
            pads: *mut usize,
        ) -> usize;
        pub fn wejdarox_write_panel(
            n: usize,
            matrix: *const f64,
            matrix_len: usize,
            readings: *const f64,
            readings_len: usize,
            out: *mut u8,
            out_len: usize,
            count: *mut usize,
        ) -> usize;
        pub fn wejdarox_text(file: *const u8, file_len: usize, out: *mut u8) -> usize;
        pub fn wejdarox_moves_text(file: *const u8, file_len: usize, pad: usize, out: *mut u8) -> usize;
        pub fn wejdarox_stiffness_text(file: *const u8, file_len: usize, out: *mut u8) -> usize;
        pub fn wejdarox_why_text(file: *const u8, file_len: usize, out: *mut u8) -> usize;
        pub fn wejdarox_version() -> usize;
        pub fn wejdarox_permutation_sign(pairs: usize) -> f64;
    }
}

pub(crate) fn remove_column(factors: &mut [f64], swaps: &mut [usize], m: usize, n: usize, counts: &mut Counts) -> usize {
    let (fp, fl, sp, sl) = (factors.as_mut_ptr(), factors.len(), swaps.as_mut_ptr(), swaps.len());
    unsafe { c::wejdarox_remove_column(fp, fl, sp, sl, m, n, &mut counts.pairs, &mut counts.dead) }
}

pub(crate) fn build_up(a: &[f64], m: usize, n: usize, factors: &mut [f64], swaps: &mut [usize], counts: &mut Counts) -> usize {
    let (fp, fl, sp, sl) = (factors.as_mut_ptr(), factors.len(), swaps.as_mut_ptr(), swaps.len());
    let Counts { pairs, dead, toss_ups } = counts;
    unsafe { c::wejdarox_build_up(a.as_ptr(), a.len(), m, n, fp, fl, sp, sl, pairs, dead, toss_ups) }
}

pub(crate) fn tr_solve(held: Held, b: &[f64], k: usize, x: &mut [f64]) -> usize {
    let Held { factors: f, swaps: s, rows: m, columns: n, pairs, dead } = held;
    let (xp, xl) = (x.as_mut_ptr(), x.len());
    unsafe { c::wejdarox_tr_solve(f.as_ptr(), f.len(), s.as_ptr(), s.len(), m, n, pairs, dead, b.as_ptr(), b.len(), k, xp, xl) }
}

pub(crate) fn l(held: Held, x: &mut [f64]) -> usize {
    let Held { factors: f, swaps: s, rows: m, columns: n, pairs, dead } = held;
    unsafe { c::wejdarox_l(f.as_ptr(), f.len(), s.as_ptr(), s.len(), m, n, pairs, dead, x.as_mut_ptr(), x.len()) }
}

pub(crate) fn u(held: Held, x: &mut [f64]) -> usize {
    let Held { factors: f, swaps: s, rows: m, columns: n, pairs, dead } = held;
    unsafe { c::wejdarox_u(f.as_ptr(), f.len(), s.as_ptr(), s.len(), m, n, pairs, dead, x.as_mut_ptr(), x.len()) }
}

/// The triangular solves, by which of them it is.
pub(crate) fn triangular(which: crate::Triangle, t: &[f64], n: usize, b: &[f64], k: usize, x: &mut [f64]) -> usize {
    use crate::Triangle;
    let (tp, tl, bp, bl, xp, xl) = (t.as_ptr(), t.len(), b.as_ptr(), b.len(), x.as_mut_ptr(), x.len());
    unsafe {
        match which {
            Triangle::Lower => c::wejdarox_solve_lower_triangular(tp, tl, n, bp, bl, k, xp, xl),
            Triangle::Upper => c::wejdarox_solve_upper_triangular(tp, tl, n, bp, bl, k, xp, xl),
            Triangle::TransposedLower => c::wejdarox_tr_solve_lower_triangular(tp, tl, n, bp, bl, k, xp, xl),
            Triangle::TransposedUpper => c::wejdarox_tr_solve_upper_triangular(tp, tl, n, bp, bl, k, xp, xl),
            Triangle::LowerWithDiag(diag) => c::wejdarox_solve_lower_triangular_with_diag(tp, tl, n, bp, bl, k, xp, xl, diag),
            Triangle::LowerWithDiagCorrected(diag) => c::wejdarox_solve_lower_triangular_with_diag_corrected(tp, tl, n, bp, bl, k, xp, xl, diag),
        }
    }
}

pub(crate) fn append_permutation(swaps: &mut [usize], pairs: &mut usize, d: usize, i: usize, i2: usize) -> usize {
    unsafe { c::wejdarox_append_permutation(swaps.as_mut_ptr(), swaps.len(), pairs, d, i, i2) }
}

/// Rows or columns, in the order of the list or backwards.
pub(crate) fn permute(columns: bool, backwards: bool, a: &mut [f64], m: usize, n: usize, swaps: &[usize], pairs: usize) -> usize {
    let (ap, al, sp, sl) = (a.as_mut_ptr(), a.len(), swaps.as_ptr(), swaps.len());
    unsafe {
        match (columns, backwards) {
            (false, false) => c::wejdarox_permute_rows(ap, al, m, n, sp, sl, pairs),
            (false, true) => c::wejdarox_inv_permute_rows(ap, al, m, n, sp, sl, pairs),
            (true, false) => c::wejdarox_permute_columns(ap, al, m, n, sp, sl, pairs),
            (true, true) => c::wejdarox_inv_permute_columns(ap, al, m, n, sp, sl, pairs),
        }
    }
}

/// The sign itself: this call has no refusal.
pub(crate) fn permutation_sign(pairs: usize) -> f64 {
    unsafe { c::wejdarox_permutation_sign(pairs) }
}

pub(crate) fn moves(file: &[u8], pad: usize, moves: &mut [f64; 64], pads: &mut usize, toss_ups: &mut usize) -> usize {
    unsafe { c::wejdarox_moves(file.as_ptr(), file.len(), pad, moves.as_mut_ptr(), pads, toss_ups) }
}

pub(crate) fn read_panel(file: &[u8], matrix: &mut [f64], readings: &mut [f64], pads: &mut usize) -> usize {
    let (mp, ml, rp, rl) = (matrix.as_mut_ptr(), matrix.len(), readings.as_mut_ptr(), readings.len());
    unsafe { c::wejdarox_read_panel(file.as_ptr(), file.len(), mp, ml, rp, rl, pads) }
}

pub(crate) fn write_panel(n: usize, matrix: &[f64], readings: &[f64], out: &mut [u8], count: &mut usize) -> usize {
    let (mp, ml, rp, rl) = (matrix.as_ptr(), matrix.len(), readings.as_ptr(), readings.len());
    unsafe { c::wejdarox_write_panel(n, mp, ml, rp, rl, out.as_mut_ptr(), out.len(), count) }
}

/// Which text.
#[derive(Clone, Copy)]
pub(crate) enum Printed {
    Order,
    Moves(usize),
    Stiffness,
    Why,
}

/// How many bytes the text has: this call has no refusal.
pub(crate) fn text(which: Printed, file: &[u8], out: &mut [u8; 1288]) -> usize {
    let (fp, fl, op) = (file.as_ptr(), file.len(), out.as_mut_ptr());
    unsafe {
        match which {
            Printed::Order => c::wejdarox_text(fp, fl, op),
            Printed::Moves(pad) => c::wejdarox_moves_text(fp, fl, pad, op),
            Printed::Stiffness => c::wejdarox_stiffness_text(fp, fl, op),
            Printed::Why => c::wejdarox_why_text(fp, fl, op),
        }
    }
}

/// The version as a number: this call has no refusal.
pub(crate) fn version() -> usize {
    unsafe { c::wejdarox_version() }
}
