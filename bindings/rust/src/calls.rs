//! The C calls of include/wejdarox.h, each lent slices. A slice is valid and apart from every `&mut`, which is all that the calls ask of their caller;
//! every size, length, swap list and number is tested by the call itself. Each answers a refusal's number, 0 for none.
#![allow(unsafe_code)]

mod c {
    unsafe extern "C" {
        pub fn wejdarox_factor(
            a: *const f64,
            a_len: usize,
            m: usize,
            n: usize,
            factors: *mut f64,
            factors_len: usize,
            swaps: *mut usize,
            swaps_len: usize,
            pairs: *mut usize,
            dead: *mut usize,
            toss_ups: *mut usize,
        ) -> usize;
        pub fn wejdarox_add_column(
            factors: *mut f64,
            factors_len: usize,
            column: *const f64,
            column_len: usize,
            swaps: *mut usize,
            swaps_len: usize,
            m: usize,
            n: usize,
            pairs: *mut usize,
            dead: *mut usize,
            toss_ups: *mut usize,
        ) -> usize;
        pub fn wejdarox_solve(
            factors: *const f64,
            factors_len: usize,
            swaps: *const usize,
            swaps_len: usize,
            m: usize,
            n: usize,
            pairs: usize,
            dead: usize,
            b: *const f64,
            b_len: usize,
            k: usize,
            x: *mut f64,
            x_len: usize,
        ) -> usize;
        pub fn wejdarox_why_factor(
            a: *const f64,
            a_len: usize,
            m: usize,
            n: usize,
            factors: *mut f64,
            factors_len: usize,
            swaps: *mut usize,
            swaps_len: usize,
            step: *mut usize,
            column: *mut usize,
            row: *mut usize,
        ) -> usize;
        pub fn wejdarox_why_solve(
            factors: *const f64,
            factors_len: usize,
            swaps: *const usize,
            swaps_len: usize,
            m: usize,
            n: usize,
            pairs: usize,
            dead: usize,
            b: *const f64,
            b_len: usize,
            k: usize,
            x: *mut f64,
            x_len: usize,
            pass: *mut usize,
            column: *mut usize,
            row: *mut usize,
        ) -> usize;
        pub fn wejdarox_inverse(
            factors: *const f64,
            factors_len: usize,
            swaps: *const usize,
            swaps_len: usize,
            m: usize,
            n: usize,
            pairs: usize,
            dead: usize,
            x: *mut f64,
            x_len: usize,
        ) -> usize;
        pub fn wejdarox_determinant(
            factors: *const f64,
            factors_len: usize,
            swaps: *const usize,
            swaps_len: usize,
            m: usize,
            n: usize,
            pairs: usize,
            dead: usize,
            value: *mut f64,
        ) -> usize;
        pub fn wejdarox_scaled_determinant(
            factors: *const f64,
            factors_len: usize,
            swaps: *const usize,
            swaps_len: usize,
            m: usize,
            n: usize,
            pairs: usize,
            dead: usize,
            significand: *mut f64,
            exponent: *mut i32,
        ) -> usize;
        pub fn wejdarox_is_invertible(
            factors: *const f64,
            factors_len: usize,
            swaps: *const usize,
            swaps_len: usize,
            m: usize,
            n: usize,
            pairs: usize,
            dead: usize,
            invertible: *mut bool,
        ) -> usize;
        pub fn wejdarox_rank(loads: *const f64, loads_len: usize, n: usize, ranks: *mut usize, ranks_len: usize, count: *mut usize) -> usize;
        pub fn wejdarox_rank_all(loads: *const f64, loads_len: usize, n: usize, ranks: *mut usize, ranks_len: usize, count: *mut usize) -> usize;
        pub fn wejdarox_pad_order(file: *const u8, file_len: usize, ranks: *mut usize, loads: *mut f64, pads: *mut usize, toss_ups: *mut usize) -> usize;
        pub fn wejdarox_stiffness(file: *const u8, file_len: usize, significand: *mut f64, exponent: *mut i32, toss_ups: *mut usize) -> usize;
        pub fn wejdarox_with_file(file: *const u8, file_len: usize, season: *mut usize) -> usize;
        pub fn wejdarox_four_pads(matrix: *const f64, readings: *const f64, factors: *mut f64, pairs: *mut usize, swaps: *mut usize, loads: *mut f64) -> usize;
        pub fn wejdarox_four_pads_of(file: *const u8, file_len: usize, factors: *mut f64, pairs: *mut usize, swaps: *mut usize, loads: *mut f64) -> usize;
    }
}

/// What factoring and adding count.
#[derive(Clone, Copy, Debug, Default, PartialEq)]
pub(crate) struct Counts {
    pub pairs: usize,
    pub dead: usize,
    pub toss_ups: usize,
}

/// Factors and what belongs to them, as a call on them takes it.
#[derive(Clone, Copy)]
pub(crate) struct Held<'a> {
    pub factors: &'a [f64],
    pub swaps: &'a [usize],
    pub rows: usize,
    pub columns: usize,
    pub pairs: usize,
    pub dead: usize,
}

pub(crate) fn factor(a: &[f64], m: usize, n: usize, factors: &mut [f64], swaps: &mut [usize], counts: &mut Counts) -> usize {
    let (fp, fl, sp, sl) = (factors.as_mut_ptr(), factors.len(), swaps.as_mut_ptr(), swaps.len());
    let Counts { pairs, dead, toss_ups } = counts;
    unsafe { c::wejdarox_factor(a.as_ptr(), a.len(), m, n, fp, fl, sp, sl, pairs, dead, toss_ups) }
}

pub(crate) fn add_column(factors: &mut [f64], column: &[f64], swaps: &mut [usize], m: usize, n: usize, counts: &mut Counts) -> usize {
    let (fp, fl, sp, sl) = (factors.as_mut_ptr(), factors.len(), swaps.as_mut_ptr(), swaps.len());
    let Counts { pairs, dead, toss_ups } = counts;
    unsafe { c::wejdarox_add_column(fp, fl, column.as_ptr(), column.len(), sp, sl, m, n, pairs, dead, toss_ups) }
}

pub(crate) fn solve(held: Held, b: &[f64], k: usize, x: &mut [f64]) -> usize {
    let Held { factors: f, swaps: s, rows: m, columns: n, pairs, dead } = held;
    let (xp, xl) = (x.as_mut_ptr(), x.len());
    unsafe { c::wejdarox_solve(f.as_ptr(), f.len(), s.as_ptr(), s.len(), m, n, pairs, dead, b.as_ptr(), b.len(), k, xp, xl) }
}

/// The place that an explanation tells: step or pass, column, row.
#[derive(Clone, Copy, Debug, Default)]
pub(crate) struct Place {
    pub first: usize,
    pub column: usize,
    pub row: usize,
}

pub(crate) fn why_factor(a: &[f64], m: usize, n: usize, factors: &mut [f64], swaps: &mut [usize], place: &mut Place) -> usize {
    let (fp, fl, sp, sl) = (factors.as_mut_ptr(), factors.len(), swaps.as_mut_ptr(), swaps.len());
    let Place { first, column, row } = place;
    unsafe { c::wejdarox_why_factor(a.as_ptr(), a.len(), m, n, fp, fl, sp, sl, first, column, row) }
}

pub(crate) fn why_solve(held: Held, b: &[f64], k: usize, x: &mut [f64], place: &mut Place) -> usize {
    let Held { factors: f, swaps: s, rows: m, columns: n, pairs, dead } = held;
    let (xp, xl) = (x.as_mut_ptr(), x.len());
    let Place { first, column, row } = place;
    unsafe { c::wejdarox_why_solve(f.as_ptr(), f.len(), s.as_ptr(), s.len(), m, n, pairs, dead, b.as_ptr(), b.len(), k, xp, xl, first, column, row) }
}

pub(crate) fn inverse(held: Held, x: &mut [f64]) -> usize {
    let Held { factors: f, swaps: s, rows: m, columns: n, pairs, dead } = held;
    let (xp, xl) = (x.as_mut_ptr(), x.len());
    unsafe { c::wejdarox_inverse(f.as_ptr(), f.len(), s.as_ptr(), s.len(), m, n, pairs, dead, xp, xl) }
}

pub(crate) fn determinant(held: Held, value: &mut f64) -> usize {
    let Held { factors: f, swaps: s, rows: m, columns: n, pairs, dead } = held;
    unsafe { c::wejdarox_determinant(f.as_ptr(), f.len(), s.as_ptr(), s.len(), m, n, pairs, dead, value) }
}

pub(crate) fn scaled_determinant(held: Held, significand: &mut f64, exponent: &mut i32) -> usize {
    let Held { factors: f, swaps: s, rows: m, columns: n, pairs, dead } = held;
    unsafe { c::wejdarox_scaled_determinant(f.as_ptr(), f.len(), s.as_ptr(), s.len(), m, n, pairs, dead, significand, exponent) }
}

pub(crate) fn is_invertible(held: Held, invertible: &mut bool) -> usize {
    let Held { factors: f, swaps: s, rows: m, columns: n, pairs, dead } = held;
    unsafe { c::wejdarox_is_invertible(f.as_ptr(), f.len(), s.as_ptr(), s.len(), m, n, pairs, dead, invertible) }
}

pub(crate) fn rank(loads: &[f64], n: usize, ranks: &mut [usize], count: &mut usize) -> usize {
    unsafe { c::wejdarox_rank(loads.as_ptr(), loads.len(), n, ranks.as_mut_ptr(), ranks.len(), count) }
}

pub(crate) fn rank_all(loads: &[f64], n: usize, ranks: &mut [usize], count: &mut usize) -> usize {
    unsafe { c::wejdarox_rank_all(loads.as_ptr(), loads.len(), n, ranks.as_mut_ptr(), ranks.len(), count) }
}

pub(crate) fn pad_order(file: &[u8], ranks: &mut [usize; 64], loads: &mut [f64; 64], pads: &mut usize, toss_ups: &mut usize) -> usize {
    unsafe { c::wejdarox_pad_order(file.as_ptr(), file.len(), ranks.as_mut_ptr(), loads.as_mut_ptr(), pads, toss_ups) }
}

pub(crate) fn stiffness(file: &[u8], significand: &mut f64, exponent: &mut i32, toss_ups: &mut usize) -> usize {
    unsafe { c::wejdarox_stiffness(file.as_ptr(), file.len(), significand, exponent, toss_ups) }
}

/// The season as its sixteen counts and the number of files.
pub(crate) fn with_file(file: &[u8], season: &mut [usize; 17]) -> usize {
    unsafe { c::wejdarox_with_file(file.as_ptr(), file.len(), season.as_mut_ptr()) }
}

/// The results of the four-pad calls.
#[derive(Clone, Copy, Debug, Default, PartialEq)]
pub(crate) struct Profile {
    pub factors: [f64; 16],
    pub pairs: usize,
    pub swaps: [usize; 8],
    pub loads: [f64; 4],
}

pub(crate) fn four_pads(matrix: &[[f64; 4]; 4], readings: &[f64; 4], out: &mut Profile) -> usize {
    let Profile { factors, pairs, swaps, loads } = out;
    let (fp, sp, lp) = (factors.as_mut_ptr(), swaps.as_mut_ptr(), loads.as_mut_ptr());
    unsafe { c::wejdarox_four_pads(matrix.as_flattened().as_ptr(), readings.as_ptr(), fp, pairs, sp, lp) }
}

pub(crate) fn four_pads_of(file: &[u8], out: &mut Profile) -> usize {
    let Profile { factors, pairs, swaps, loads } = out;
    let (fp, sp, lp) = (factors.as_mut_ptr(), swaps.as_mut_ptr(), loads.as_mut_ptr());
    unsafe { c::wejdarox_four_pads_of(file.as_ptr(), file.len(), fp, pairs, sp, lp) }
}

#[cfg(test)]
mod tests {
    use super::*;

    /// A refused stiffness: 7 leaves +0.0 with 0, any other refusal what was there.
    #[test]
    fn refused_stiffness() {
        let seven = [b"LXP\x01\x00\x02".to_vec(), [1u64, 1, 0, 0, 0, 0].iter().flat_map(|word| word.to_le_bytes()).collect()].concat();
        let (mut significand, mut exponent, mut toss_ups) = (7.5, -3, 9);
        assert_eq!(stiffness(&seven[..53], &mut significand, &mut exponent, &mut toss_ups), 3);
        assert_eq!((significand, exponent, toss_ups), (7.5, -3, 0));
        assert_eq!(stiffness(&seven, &mut significand, &mut exponent, &mut toss_ups), 7);
        assert_eq!((significand.to_bits(), exponent, toss_ups), (0, 0, 0));
    }

    /// Any refusal of four pads leaves zeros: a number that is not finite, a singular matrix, a load that overflows; of a file also its head, size and length.
    #[test]
    fn refused_four_pads() {
        let held = Profile { factors: [7.5; 16], pairs: 9, swaps: [9; 8], loads: [7.5; 4] };
        let identity = |x: f64| [[x, 0.0, 0.0, 0.0], [0.0, 1.0, 0.0, 0.0], [0.0, 0.0, 1.0, 0.0], [0.0, 0.0, 0.0, 1.0]];
        for (x, reading, number) in [(f64::NAN, 1.0, 5), (1.0, f64::INFINITY, 5), (0.0, 1.0, 6), (1e-310, 1.0, 7), (1e-300, 1e300, 7)] {
            let mut out = held;
            assert_eq!(four_pads(&identity(x), &[reading, 1.0, 1.0, 1.0], &mut out), number);
            assert_eq!(out, Profile::default());
        }
        for (file, number) in [(&b"LXQ\x01\x00\x04"[..], 8), (b"LXP\x01\x00\x01", 1), (b"LXP\x01\x00\x04", 3)] {
            let mut out = held;
            assert_eq!(four_pads_of(file, &mut out), number);
            assert_eq!(out, Profile::default());
        }
    }

    /// An `Lu` keeps its number of dead columns true, so 9 is met here alone: numbers that do not match, for two dead columns of either sign.
    #[test]
    fn another_number_of_dead_columns() {
        let (factors, swaps) = ([0.0, 0.0, 5.0, -0.0], [0; 128]);
        for dead in [0, 1, 3, 1 << 32, usize::MAX] {
            let held = Held { factors: &factors, swaps: &swaps, rows: 2, columns: 2, pairs: 0, dead };
            let (mut x, mut value, mut exponent, mut invertible) = ([7.5; 4], 7.5, -3, true);
            assert_eq!(solve(held, &[1.0, 2.0], 1, &mut x[..2]), 9);
            assert_eq!(inverse(held, &mut x), 9);
            assert_eq!(determinant(held, &mut value), 9);
            assert_eq!(scaled_determinant(held, &mut value, &mut exponent), 9);
            assert_eq!(is_invertible(held, &mut invertible), 9);
            assert_eq!((x, value, exponent, invertible), ([7.5; 4], 7.5, -3, true));

            let (mut store, mut list) = ([0.0, 0.0, 5.0, -0.0, 7.5, 7.5], swaps);
            let mut counts = Counts { pairs: 0, dead, toss_ups: 9 };
            assert_eq!(add_column(&mut store, &[1.0, 2.0], &mut list, 2, 2, &mut counts), 9);
            assert_eq!((store, list), ([0.0, 0.0, 5.0, -0.0, 7.5, 7.5], swaps));
            assert_eq!(counts, Counts { pairs: 0, dead, toss_ups: 0 });
        }
    }

    /// The number is tested after 1 to 5, and before 6.
    #[test]
    fn order_of_tests() {
        let (none, one, mut x) = ([0; 128], [1; 128], [7.5; 2]);
        let of = |factors, swaps, columns, pairs, dead| Held { factors, swaps, rows: 2, columns, pairs, dead };
        assert_eq!(solve(of(&[0.0; 4], &none, 2, 0, 2), &[1.0, 2.0], 1, &mut x), 6);
        assert_eq!(solve(of(&[0.0; 4], &none, 2, 0, 1), &[1.0, 2.0], 1, &mut x), 9);
        assert_eq!(solve(of(&[0.0; 4], &none, 2, 0, 1), &[1.0, f64::NAN], 1, &mut x), 5);
        assert_eq!(solve(of(&[0.0, f64::NAN, 0.0, 0.0], &none, 2, 0, 1), &[1.0, 2.0], 1, &mut x), 5);
        assert_eq!(solve(of(&[0.0; 4], &one, 2, 1, 1), &[1.0, f64::NAN], 1, &mut x), 4);
        assert_eq!(solve(of(&[0.0; 3], &one, 2, 1, 1), &[1.0, 2.0], 1, &mut x), 3);
        assert_eq!(solve(of(&[0.0; 3], &one, 1, 1, 1), &[1.0, 2.0], 1, &mut x), 2);
        assert_eq!(solve(of(&[0.0; 3], &one, 65, 1, 1), &[1.0, 2.0], 1, &mut x), 1);
        assert_eq!(x, [7.5; 2]);
    }
}
