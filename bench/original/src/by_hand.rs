// Adding a column as one would write it by hand: document 01's steps on good input with no tests, and the same with its tests and request 7's.
use std::slice::{from_raw_parts, from_raw_parts_mut};

/// Step 5 on `column` by the packed column `older`, whose number is i.
fn update(column: &mut [f64], older: &[f64], i: usize) {
    if older[i] == 0.0 {
        return;
    }
    let pivot = -column[i];
    for (entry, multiplier) in column[i + 1..].iter_mut().zip(&older[i + 1..]) {
        *entry += pivot * multiplier;
    }
}

/// The first row from `first` on with the greatest magnitude.
fn pivot_row(column: &[f64], first: usize) -> usize {
    let (mut row, mut greatest) = (first, column[first].abs());
    for (i, entry) in column.iter().enumerate().skip(first + 1) {
        if entry.abs() > greatest {
            (row, greatest) = (i, entry.abs());
        }
    }
    row
}

/// The new column's own pivot and multipliers. Answers the row that row n is exchanged with; n itself where the column is dead.
fn own_step(column: &mut [f64], n: usize) -> usize {
    let row = pivot_row(column, n);
    if column[row] == 0.0 {
        return n;
    }
    column.swap(n, row);
    let reciprocal = 1.0 / column[n];
    for entry in &mut column[n + 1..] {
        *entry *= reciprocal;
    }
    row
}

/// Adds a raw column of m numbers to the n columns in `factors`; `pairs` of the swap store are in use, and `dead` columns are dead.
#[no_mangle]
pub unsafe extern "C" fn by_hand_add_column(
    factors: *mut f64,
    raw: *const f64,
    swaps: *mut usize,
    m: usize,
    n: usize,
    pairs: &mut usize,
    dead: &mut usize,
) {
    let (older, column) = from_raw_parts_mut(factors, m * (n + 1)).split_at_mut(m * n);
    let swaps = from_raw_parts_mut(swaps, 128);
    column.copy_from_slice(from_raw_parts(raw, m));
    for pair in swaps[..2 * *pairs].chunks_exact(2) {
        column.swap(pair[0], pair[1]);
    }
    for (i, packed) in older.chunks_exact(m).enumerate().take(m) {
        update(column, packed, i);
    }
    if n >= m {
        return;
    }
    let row = own_step(column, n);
    *dead += usize::from(column[n] == 0.0);
    if row != n {
        older.chunks_exact_mut(m).for_each(|packed| packed.swap(n, row));
        swaps[2 * *pairs..][..2].copy_from_slice(&[n, row]);
        *pairs += 1;
    }
}

/// Whether every number is finite, with no branch for a number.
fn all_finite(numbers: &[f64]) -> bool {
    numbers.iter().fold(true, |good, x| good & x.is_finite())
}

/// How many of the first min(m, n) columns have a zero on the diagonal.
fn dead_columns(factors: &[f64], m: usize, n: usize) -> usize {
    factors.iter().step_by(m + 1).take(m.min(n)).filter(|x| **x == 0.0).count()
}

/// The number of the refusal before the work, 0 for none.
fn refusal(factors: &[f64], raw: &[f64], swaps: &[usize], m: usize, n: usize, pairs: usize, dead: usize) -> usize {
    let good = |pair: &[usize]| (pair[0] != pair[1]) & (pair[0] < m) & (pair[1] < m);
    if !(1..=64).contains(&m) || n > 63 {
        1
    } else if factors.len() != m * (n + 1) || raw.len() != m || swaps.len() != 128 {
        3
    } else if pairs > m.min(n) || !swaps[..2 * pairs].chunks_exact(2).all(good) {
        4
    } else if !(all_finite(&factors[..m * n]) && all_finite(raw)) {
        5
    } else if dead != dead_columns(factors, m, n) {
        9
    } else {
        0
    }
}

/// The same on any input: refused before the work by document 01's numbers, and with 7 after it, when the exchange is undone.
#[no_mangle]
pub unsafe extern "C" fn by_hand_tested_add_column(
    factors: *mut f64,
    factors_length: usize,
    raw: *const f64,
    raw_length: usize,
    swaps: *mut usize,
    swaps_length: usize,
    m: usize,
    n: usize,
    pairs: &mut usize,
    dead: &mut usize,
) -> usize {
    let (was, dead_before) = (*pairs, *dead);
    let (store, list) = (from_raw_parts(factors, factors_length), from_raw_parts(swaps, swaps_length));
    let number = refusal(store, from_raw_parts(raw, raw_length), list, m, n, was, dead_before);
    if number != 0 {
        return number;
    }
    let next = [list[2 * was], list[2 * was + 1]];
    by_hand_add_column(factors, raw, swaps, m, n, pairs, dead);
    let (older, column) = from_raw_parts_mut(factors, factors_length).split_at_mut(m * n);
    if all_finite(column) {
        return 0;
    }
    column.fill(0.0);
    *dead = dead_before;
    if *pairs != was {
        let pair = &mut from_raw_parts_mut(swaps, swaps_length)[2 * was..][..2];
        older.chunks_exact_mut(m).for_each(|packed| packed.swap(pair[0], pair[1]));
        pair.copy_from_slice(&next);
        *pairs = was;
    }
    7
}
