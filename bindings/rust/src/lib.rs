//! LU decomposition with row pivoting of small `f64` matrices, by the proved static library of this repository.
//!
//! Matrices lie column after column, with 1 to 64 rows and up to 64 columns. Sizes, lengths and numbers may be anything: what cannot be answered is refused
//! with a [`Refusal`], and nothing here panics. The numbers under "Errors" are those of [`Refusal::number`]. Without the feature
//! `std`, which adds files on a disk, only `core` and `alloc` are used. See `examples/pads.rs`.
#![cfg_attr(not(test), no_std)]
#![deny(unsafe_code)]
#![warn(missing_docs)]

extern crate alloc;
#[cfg(all(feature = "std", not(test)))]
extern crate std;

mod calls;
mod columns;
#[cfg(feature = "std")]
mod disk;
mod files;
mod further_calls;
mod passes;
mod why;

use alloc::vec;
use alloc::vec::Vec;
use calls::{Counts, Profile};
use core::error::Error;
use core::fmt;
#[cfg(feature = "std")]
pub use disk::{file_bytes, pad_order_at, FileError};
pub use files::{library_version, moves, moves_text, stiffness_text, text, why_text, Panel};
pub use passes::{solve_triangular, SwapList, Triangle};
pub use why::{Pass, WhyFactor, WhySolve};

#[cfg(not(target_pointer_width = "64"))]
compile_error!("the library counts in 64-bit numbers");

/// The most rows, columns, right-hand columns and loads that the library takes.
///
/// ```
/// assert_eq!(wejdarox::MOST, 64);
/// ```
pub const MOST: usize = 64;

/// What no result needs more of: a longer input is refused whatever the length of the slice for the result.
const MOST_ENTRIES: usize = MOST * MOST;

/// Why a call was refused. It reads as words also where `main` returns it.
///
/// ```
/// # use wejdarox::{rank, Refusal};
/// let refusal = rank(&[f64::NAN]).unwrap_err();
/// assert_eq!((refusal, refusal.number()), (Refusal::NotFinite, 5));
/// assert_eq!(format!("{refusal:?}"), "refused 5: a number is not finite");
/// ```
#[derive(Clone, Copy, PartialEq, Eq, Hash)]
#[non_exhaustive]
pub enum Refusal {
    /// 1: a size is outside its limits.
    Size,
    /// 2: the matrix is not square.
    NotSquare,
    /// 3: a length differs from what the sizes ask for.
    Length,
    /// 4: a bad swap list. An [`Lu`] keeps its own, so that none of its calls meets this.
    SwapList,
    /// 5: an infinity or a NaN goes in.
    NotFinite,
    /// 6: a zero on the diagonal of the factors.
    Singular,
    /// 7: a result is not finite.
    Overflow,
    /// 8: not a panel file of version 1.
    NotAPanelFile,
    /// 9: a number of dead columns that is not that of the factors. An [`Lu`] keeps its own true, so that none of its calls meets this.
    DeadColumns,
    /// 10: the season is full.
    SeasonFull,
}

impl Refusal {
    /// Its number, 1 to 10.
    ///
    /// ```
    /// assert_eq!(wejdarox::Refusal::Singular.number(), 6);
    /// ```
    #[must_use]
    pub fn number(self) -> usize {
        match self {
            Refusal::Size => 1,
            Refusal::NotSquare => 2,
            Refusal::Length => 3,
            Refusal::SwapList => 4,
            Refusal::NotFinite => 5,
            Refusal::Singular => 6,
            Refusal::Overflow => 7,
            Refusal::NotAPanelFile => 8,
            Refusal::DeadColumns => 9,
            Refusal::SeasonFull => 10,
        }
    }

    /// What a call's answer says; no call answers a number past 10.
    fn told(answer: usize) -> Result<(), Refusal> {
        match answer {
            0 => Ok(()),
            1 => Err(Refusal::Size),
            2 => Err(Refusal::NotSquare),
            3 => Err(Refusal::Length),
            4 => Err(Refusal::SwapList),
            5 => Err(Refusal::NotFinite),
            6 => Err(Refusal::Singular),
            7 => Err(Refusal::Overflow),
            8 => Err(Refusal::NotAPanelFile),
            9 => Err(Refusal::DeadColumns),
            _ => Err(Refusal::SeasonFull),
        }
    }
}

impl fmt::Display for Refusal {
    fn fmt(&self, f: &mut fmt::Formatter<'_>) -> fmt::Result {
        let words = match self {
            Refusal::Size => "a size is outside its limits: 1 to 64 rows, right-hand columns or pads, 0 to 64 columns",
            Refusal::NotSquare => "the matrix is not square",
            Refusal::Length => "a length differs from what the sizes ask for",
            Refusal::SwapList => "the swap list has a pair of equal numbers, a number that is not a row's, or too many pairs",
            Refusal::NotFinite => "a number is not finite",
            Refusal::Singular => "the matrix is singular: a zero on the diagonal of its factors",
            Refusal::Overflow => "a result is too large for a finite number",
            Refusal::NotAPanelFile => "this is no panel file of version 1: under 6 bytes, another mark or another version",
            Refusal::DeadColumns => "the number of dead columns is not that of the factors",
            Refusal::SeasonFull => "the season is full: it has 4,000 files",
        };
        write!(f, "refused {}: {words}", self.number())
    }
}

/// As [`fmt::Display`], since that is what a refusal prints as that `main` returns.
impl fmt::Debug for Refusal {
    fn fmt(&self, f: &mut fmt::Formatter<'_>) -> fmt::Result {
        fmt::Display::fmt(self, f)
    }
}

impl Error for Refusal {}

/// A number as a significand times a power of two. It has room for the product of any 64 finite numbers; it prints as `1.25 × 2^-1200`.
///
/// ```
/// let soft = wejdarox::Scaled { significand: 1.25, exponent: -1200 };
/// assert_eq!(soft.to_string(), "1.25 × 2^-1200");
/// ```
#[derive(Clone, Copy, Debug, PartialEq)]
pub struct Scaled {
    /// The significand, of magnitude from 1 up to but not 2; or +0.0.
    pub significand: f64,
    /// The exponent of two, from -68,736 up to 65,535; 0 beside +0.0.
    pub exponent: i32,
}

impl fmt::Display for Scaled {
    fn fmt(&self, f: &mut fmt::Formatter<'_>) -> fmt::Result {
        if self.significand == 0.0 {
            return write!(f, "0");
        }
        write!(f, "{} × 2^{}", self.significand, self.exponent)
    }
}

/// The factors of a matrix, with the exchanged rows and the record of the factoring.
///
/// ```
/// # use wejdarox::{rank, Lu};
/// let mut crossing = Lu::factor(&[0.0, 2.0], 2, 1)?;
/// crossing.add_column(&[1.0, 0.0])?;
/// assert_eq!(crossing.swaps().collect::<Vec<_>>(), [(0, 1)]);
/// let loads = crossing.solve(&[5.0, 8.0], 1)?;
/// assert_eq!(loads, [4.0, 5.0]);
/// assert_eq!(rank(&loads)?, [2, 1]);
/// assert_eq!((crossing.determinant()?, crossing.is_invertible()?), (-2.0, true));
/// assert_eq!(crossing.scaled_determinant()?.to_string(), "-1 × 2^1");
/// assert_eq!(crossing.inverse()?, [0.0, 1.0, 0.5, 0.0]);
/// # Ok::<(), wejdarox::Refusal>(())
/// ```
#[derive(Clone, Debug)]
pub struct Lu {
    factors: Vec<f64>,
    swaps: [usize; 2 * MOST],
    rows: usize,
    columns: usize,
    counts: Counts,
}

impl Lu {
    /// Factors the matrix `a` of so many rows and columns, column after column. A zero pivot is no error: its step is skipped.
    ///
    /// ```
    /// # use wejdarox::Lu;
    /// let lu = Lu::factor(&[0.0, 2.0, 1.0, 0.0], 2, 2)?;
    /// assert_eq!(lu.factors(), [2.0, 0.0, 0.0, 1.0]);
    /// # Ok::<(), wejdarox::Refusal>(())
    /// ```
    ///
    /// # Errors
    /// 1, 3, 5, 7.
    pub fn factor(a: &[f64], rows: usize, columns: usize) -> Result<Lu, Refusal> {
        let mut lu = Lu { factors: vec![0.0; a.len().min(MOST_ENTRIES)], swaps: [0; 2 * MOST], rows, columns, counts: Counts::default() };
        Refusal::told(calls::factor(a, rows, columns, &mut lu.factors, &mut lu.swaps, &mut lu.counts))?;
        Ok(lu)
    }

    /// Adds one column of the matrix behind the others: the same factors, to the last bit, and the same counts as factoring the widened matrix.
    ///
    /// ```
    /// # use wejdarox::Lu;
    /// let mut lu = Lu::factor(&[0.0, 2.0], 2, 1)?;
    /// lu.add_column(&[1.0, 0.0])?;
    /// assert_eq!(lu.factors(), Lu::factor(&[0.0, 2.0, 1.0, 0.0], 2, 2)?.factors());
    /// # Ok::<(), wejdarox::Refusal>(())
    /// ```
    ///
    /// # Errors
    /// 1 (there are 64 columns), 3, 5, 7; all is then as it was.
    pub fn add_column(&mut self, column: &[f64]) -> Result<(), Refusal> {
        let before = self.factors.len();
        let mut counts = self.counts;
        self.factors.resize(before + self.rows, 0.0);
        let answer = calls::add_column(&mut self.factors, column, &mut self.swaps, self.rows, self.columns, &mut counts);
        if let Err(refusal) = Refusal::told(answer) {
            self.factors.truncate(before);
            return Err(refusal);
        }
        self.columns += 1;
        counts.toss_ups += self.counts.toss_ups; // the call told the new column's alone
        self.counts = counts;
        Ok(())
    }

    /// Solves for `k` right-hand columns, which lie in `b` one after the other.
    ///
    /// ```
    /// # use wejdarox::Lu;
    /// let lu = Lu::factor(&[0.0, 2.0, 1.0, 0.0], 2, 2)?;
    /// assert_eq!(lu.solve(&[5.0, 8.0], 1)?, [4.0, 5.0]);
    /// # Ok::<(), wejdarox::Refusal>(())
    /// ```
    ///
    /// # Errors
    /// 1, 2, 3, 5, 6, 7.
    pub fn solve(&self, b: &[f64], k: usize) -> Result<Vec<f64>, Refusal> {
        let mut x = vec![0.0; b.len().min(MOST_ENTRIES)];
        Refusal::told(calls::solve(self.held(), b, k, &mut x))?;
        Ok(x)
    }

    /// The inverse of a square matrix.
    ///
    /// ```
    /// # use wejdarox::Lu;
    /// let lu = Lu::factor(&[0.0, 2.0, 1.0, 0.0], 2, 2)?;
    /// assert_eq!(lu.inverse()?, [0.0, 1.0, 0.5, 0.0]);
    /// # Ok::<(), wejdarox::Refusal>(())
    /// ```
    ///
    /// # Errors
    /// 2, 6, 7.
    pub fn inverse(&self) -> Result<Vec<f64>, Refusal> {
        let mut x = vec![0.0; self.rows * self.rows];
        Refusal::told(calls::inverse(self.held(), &mut x))?;
        Ok(x)
    }

    /// The determinant of a square matrix. It may underflow to zero where the matrix is invertible.
    ///
    /// ```
    /// # use wejdarox::Lu;
    /// let lu = Lu::factor(&[0.0, 2.0, 1.0, 0.0], 2, 2)?;
    /// assert_eq!(lu.determinant()?, -2.0);
    /// # Ok::<(), wejdarox::Refusal>(())
    /// ```
    ///
    /// # Errors
    /// 2, 7.
    pub fn determinant(&self) -> Result<f64, Refusal> {
        let mut value = 0.0;
        Refusal::told(calls::determinant(self.held(), &mut value))?;
        Ok(value)
    }

    /// The determinant of a square matrix, which neither vanishes nor overflows: it is zero only where a column is dead.
    ///
    /// ```
    /// # use wejdarox::Lu;
    /// let lu = Lu::factor(&[0.0, 2.0, 1.0, 0.0], 2, 2)?;
    /// assert_eq!(lu.scaled_determinant()?.to_string(), "-1 × 2^1");
    /// # Ok::<(), wejdarox::Refusal>(())
    /// ```
    ///
    /// # Errors
    /// 2.
    pub fn scaled_determinant(&self) -> Result<Scaled, Refusal> {
        let mut d = Scaled { significand: 0.0, exponent: 0 };
        Refusal::told(calls::scaled_determinant(self.held(), &mut d.significand, &mut d.exponent))?;
        Ok(d)
    }

    /// Whether a square matrix is invertible: it has no dead column.
    ///
    /// ```
    /// # use wejdarox::Lu;
    /// assert!(!Lu::factor(&[1.0, 2.0, 2.0, 4.0], 2, 2)?.is_invertible()?);
    /// # Ok::<(), wejdarox::Refusal>(())
    /// ```
    ///
    /// # Errors
    /// 2.
    pub fn is_invertible(&self) -> Result<bool, Refusal> {
        let mut invertible = false;
        Refusal::told(calls::is_invertible(self.held(), &mut invertible))?;
        Ok(invertible)
    }

    /// The number of rows, 1 to 64.
    ///
    /// ```
    /// # use wejdarox::Lu;
    /// assert_eq!(Lu::factor(&[3.0, 4.0], 2, 1)?.rows(), 2);
    /// # Ok::<(), wejdarox::Refusal>(())
    /// ```
    #[must_use]
    pub fn rows(&self) -> usize {
        self.rows
    }

    /// The number of columns, 0 to 64.
    ///
    /// ```
    /// # use wejdarox::Lu;
    /// assert_eq!(Lu::factor(&[3.0, 4.0], 2, 1)?.columns(), 1);
    /// # Ok::<(), wejdarox::Refusal>(())
    /// ```
    #[must_use]
    pub fn columns(&self) -> usize {
        self.columns
    }

    /// L and U packed, column after column: U on and above the diagonal, L below it without its ones.
    ///
    /// ```
    /// # use wejdarox::Lu;
    /// assert_eq!(Lu::factor(&[2.0, 4.0], 2, 1)?.factors(), [4.0, 0.5]);
    /// # Ok::<(), wejdarox::Refusal>(())
    /// ```
    #[must_use]
    pub fn factors(&self) -> &[f64] {
        &self.factors
    }

    /// The exchanged rows, pair after pair, counted from 0.
    ///
    /// ```
    /// # use wejdarox::Lu;
    /// let lu = Lu::factor(&[0.0, 2.0, 1.0, 0.0], 2, 2)?;
    /// assert_eq!(lu.swaps().collect::<Vec<_>>(), [(0, 1)]);
    /// # Ok::<(), wejdarox::Refusal>(())
    /// ```
    pub fn swaps(&self) -> impl ExactSizeIterator<Item = (usize, usize)> + '_ {
        self.swaps.chunks_exact(2).take(self.counts.pairs).map(|pair| (pair[0], pair[1]))
    }

    /// How many columns are dead: a zero of either sign on the diagonal of the factors. Those past the last row have no diagonal and do not count.
    ///
    /// ```
    /// # use wejdarox::Lu;
    /// assert_eq!(Lu::factor(&[1.0, 2.0, 2.0, 4.0], 2, 2)?.dead_columns(), 1);
    /// # Ok::<(), wejdarox::Refusal>(())
    /// ```
    #[must_use]
    pub fn dead_columns(&self) -> usize {
        self.counts.dead
    }

    /// In how many columns another row had the pivot's magnitude, so that the first was taken.
    ///
    /// ```
    /// # use wejdarox::Lu;
    /// assert_eq!(Lu::factor(&[1.0, -1.0], 2, 1)?.toss_ups(), 1);
    /// # Ok::<(), wejdarox::Refusal>(())
    /// ```
    #[must_use]
    pub fn toss_ups(&self) -> usize {
        self.counts.toss_ups
    }

    fn held(&self) -> calls::Held<'_> {
        let Counts { pairs, dead, .. } = self.counts;
        calls::Held { factors: &self.factors, swaps: &self.swaps, rows: self.rows, columns: self.columns, pairs, dead }
    }
}

/// The numbers of the pads that carry a load, counted from 1, in the order to lift them: greatest magnitude of load first, equal magnitudes by the lower
/// number. A pad whose load is a zero of either sign is left off.
///
/// ```
/// assert_eq!(wejdarox::rank(&[-1.0, 0.0, 2.0])?, [3, 1]);
/// # Ok::<(), wejdarox::Refusal>(())
/// ```
///
/// # Errors
/// 1, 5.
pub fn rank(loads: &[f64]) -> Result<Vec<usize>, Refusal> {
    listed(calls::rank, loads)
}

/// The numbers of all pads, in the same order.
///
/// ```
/// assert_eq!(wejdarox::rank_all(&[-1.0, 0.0, 2.0])?, [3, 1, 2]);
/// # Ok::<(), wejdarox::Refusal>(())
/// ```
///
/// # Errors
/// 1, 5.
pub fn rank_all(loads: &[f64]) -> Result<Vec<usize>, Refusal> {
    listed(calls::rank_all, loads)
}

/// The pads that one of the two calls lists, without the slots behind them.
fn listed(call: fn(&[f64], usize, &mut [usize], &mut usize) -> usize, loads: &[f64]) -> Result<Vec<usize>, Refusal> {
    let (mut ranks, mut count) = (vec![0; loads.len().min(MOST)], 0);
    Refusal::told(call(loads, loads.len(), &mut ranks, &mut count))?;
    ranks.truncate(count);
    Ok(ranks)
}

/// A pad and the load on it.
///
/// ```
/// # use wejdarox::{pad_order, Pad, Panel};
/// let file = Panel { matrix: vec![0.0, 2.0, 1.0, 0.0], readings: vec![5.0, 8.0] }.write()?;
/// assert_eq!(pad_order(&file)?.pads[0], Pad { number: 2, load: 5.0 });
/// # Ok::<(), wejdarox::Refusal>(())
/// ```
#[derive(Clone, Copy, Debug, PartialEq)]
pub struct Pad {
    /// Its number, counted from 1.
    pub number: usize,
    /// Its load.
    pub load: f64,
}

/// The answer for a panel file.
///
/// ```
/// # use wejdarox::{pad_order, Panel};
/// let file = Panel { matrix: vec![0.0, 2.0, 1.0, 0.0], readings: vec![5.0, 8.0] }.write()?;
/// let order = pad_order(&file)?;
/// assert_eq!((order.pads.len(), order.toss_ups), (2, 0));
/// # Ok::<(), wejdarox::Refusal>(())
/// ```
#[derive(Clone, Debug, PartialEq)]
pub struct PadOrder {
    /// The pads in the order to lift them.
    pub pads: Vec<Pad>,
    /// In how many columns another row had the pivot's magnitude, so that the first was taken.
    pub toss_ups: usize,
}

/// The pads of a panel file in the order to lift them.
///
/// ```
/// # use wejdarox::{pad_order, Panel};
/// let file = Panel { matrix: vec![0.0, 2.0, 1.0, 0.0], readings: vec![5.0, 8.0] }.write()?;
/// let order: Vec<_> = pad_order(&file)?.pads.iter().map(|pad| (pad.number, pad.load)).collect();
/// assert_eq!(order, [(2, 5.0), (1, 4.0)]);
/// # Ok::<(), wejdarox::Refusal>(())
/// ```
///
/// # Errors
/// 8, 1, 3, 5, 6, 7.
pub fn pad_order(file: &[u8]) -> Result<PadOrder, Refusal> {
    let (mut ranks, mut loads, mut pads, mut toss_ups) = ([0; MOST], [0.0; MOST], 0, 0);
    Refusal::told(calls::pad_order(file, &mut ranks, &mut loads, &mut pads, &mut toss_ups))?;
    let pads = ranks[..pads].iter().map(|&number| Pad { number, load: loads[number - 1] }).collect();
    Ok(PadOrder { pads, toss_ups })
}

/// How stiff the crossing of a panel file is.
///
/// ```
/// # use wejdarox::{stiffness, Panel};
/// let file = Panel { matrix: vec![0.0, 2.0, 1.0, 0.0], readings: vec![5.0, 8.0] }.write()?;
/// assert_eq!(stiffness(&file)?.toss_ups, 0);
/// # Ok::<(), wejdarox::Refusal>(())
/// ```
#[derive(Clone, Copy, Debug, PartialEq)]
pub struct Stiffness {
    /// The determinant of its matrix; +0.0 where that is singular.
    pub determinant: Scaled,
    /// In how many columns another row had the pivot's magnitude, so that the first was taken.
    pub toss_ups: usize,
}

/// The stiffness of a panel file's crossing.
///
/// ```
/// # use wejdarox::{stiffness, Panel};
/// let file = Panel { matrix: vec![0.0, 2.0, 1.0, 0.0], readings: vec![5.0, 8.0] }.write()?;
/// assert_eq!(stiffness(&file)?.determinant.to_string(), "-1 × 2^1");
/// # Ok::<(), wejdarox::Refusal>(())
/// ```
///
/// # Errors
/// 8, 1, 3, 5, and 7 where a factor is not finite.
pub fn stiffness(file: &[u8]) -> Result<Stiffness, Refusal> {
    let (mut determinant, mut toss_ups) = (Scaled { significand: 0.0, exponent: 0 }, 0);
    Refusal::told(calls::stiffness(file, &mut determinant.significand, &mut determinant.exponent, &mut toss_ups))?;
    Ok(Stiffness { determinant, toss_ups })
}

/// A crossing of exactly four pads, factored and solved: bit for bit what [`Lu::factor`] and [`Lu::solve`] give, in less time and with nothing allocated.
///
/// ```
/// let ones = [[1.0, 0.0, 0.0, 0.0], [0.0, 1.0, 0.0, 0.0], [0.0, 0.0, 1.0, 0.0], [0.0, 0.0, 0.0, 1.0]];
/// assert_eq!(wejdarox::four_pads(&ones, &[1.0, 2.0, 3.0, 4.0])?.factors, ones.concat()[..]);
/// # Ok::<(), wejdarox::Refusal>(())
/// ```
#[derive(Clone, Copy, Debug, PartialEq)]
pub struct FourPads {
    /// L and U packed, column after column.
    pub factors: [f64; 16],
    /// The loads, in the order of the pads.
    pub loads: [f64; 4],
    swaps: [usize; 8],
    pairs: usize,
}

impl FourPads {
    /// The pairs of exchanged rows, first pair first, counted from 0: at most three.
    ///
    /// ```
    /// let turned = [[0.0, 1.0, 0.0, 0.0], [1.0, 0.0, 0.0, 0.0], [0.0, 0.0, 1.0, 0.0], [0.0, 0.0, 0.0, 1.0]];
    /// assert_eq!(wejdarox::four_pads(&turned, &[1.0; 4])?.swaps().collect::<Vec<_>>(), [(0, 1)]);
    /// # Ok::<(), wejdarox::Refusal>(())
    /// ```
    pub fn swaps(&self) -> impl ExactSizeIterator<Item = (usize, usize)> + '_ {
        self.swaps.chunks_exact(2).take(self.pairs).map(|pair| (pair[0], pair[1]))
    }

    fn told(number: usize, out: Profile) -> Result<FourPads, Refusal> {
        Refusal::told(number)?;
        let Profile { factors, pairs, swaps, loads } = out;
        Ok(FourPads { factors, loads, swaps, pairs })
    }
}

/// Factors and solves a crossing of four pads: its matrix column by column, and its readings.
///
/// ```
/// let matrix = [[2.0, 0.0, 0.0, 0.0], [0.0, 4.0, 0.0, 0.0], [0.0, 0.0, 8.0, 0.0], [0.0, 0.0, 0.0, 16.0]];
/// assert_eq!(wejdarox::four_pads(&matrix, &[2.0, 8.0, 24.0, 64.0])?.loads, [1.0, 2.0, 3.0, 4.0]);
/// # Ok::<(), wejdarox::Refusal>(())
/// ```
///
/// # Errors
/// 5, 7 where a factor is not finite, 6, 7.
pub fn four_pads(matrix: &[[f64; 4]; 4], readings: &[f64; 4]) -> Result<FourPads, Refusal> {
    let mut out = Profile::default();
    FourPads::told(calls::four_pads(matrix, readings, &mut out), out)
}

/// The same for a panel file of four pads.
///
/// ```
/// assert_eq!(wejdarox::four_pads_of(b"no panel file"), Err(wejdarox::Refusal::NotAPanelFile));
/// ```
///
/// # Errors
/// 8, 1 (also for another size), 3, 5, 7, 6, 7.
pub fn four_pads_of(file: &[u8]) -> Result<FourPads, Refusal> {
    let mut out = Profile::default();
    FourPads::told(calls::four_pads_of(file, &mut out), out)
}

/// The figures of a season: panel files are handed over one at a time, at most 4,000, and counted by what becomes of them. The order of the files does not
/// matter.
///
/// ```
/// let season = wejdarox::Season::new().with_file(b"no panel file")?;
/// assert_eq!((season.files, season.accepted, season.refused[8 - 1]), (1, 0, 1));
/// # Ok::<(), wejdarox::Refusal>(())
/// ```
#[derive(Clone, Copy, Debug, Default, PartialEq, Eq, Hash)]
pub struct Season {
    /// The files that [`pad_order`] answers.
    pub accepted: usize,
    /// Those that it refuses with 1, with 2, and so on up to 9.
    pub refused: [usize; 9],
    /// The pads that [`rank`] lists of the accepted files: idle ones are left off.
    pub pads: usize,
    /// The accepted files by the least magnitude on the diagonal of their factors: its biased exponent is 0, 1 to 511, 512 to 1022, 1023 to 1534, 1535 to 2046.
    pub bands: [usize; 5],
    /// How many files were handed over: accepted and refused add to it, and the bands to the accepted.
    pub files: usize,
}

impl Season {
    /// A season of no file.
    ///
    /// ```
    /// assert_eq!(wejdarox::Season::new().files, 0);
    /// ```
    #[must_use]
    pub fn new() -> Season {
        Season::default()
    }

    /// The season with one file more.
    ///
    /// ```
    /// # use wejdarox::Season;
    /// let season = Season::new().with_file(b"no panel file")?;
    /// assert_eq!((season.files, season.refused[8 - 1]), (1, 1));
    /// # Ok::<(), wejdarox::Refusal>(())
    /// ```
    ///
    /// # Errors
    /// 10, where it has 4,000.
    pub fn with_file(self, file: &[u8]) -> Result<Season, Refusal> {
        let mut counts = [0; 17];
        counts[0] = self.accepted;
        counts[1..10].copy_from_slice(&self.refused);
        counts[10] = self.pads;
        counts[11..16].copy_from_slice(&self.bands);
        counts[16] = self.files;
        Refusal::told(calls::with_file(file, &mut counts))?;
        let [accepted, a, b, c, d, e, f, g, h, i, pads, v, w, x, y, z, files] = counts;
        Ok(Season { accepted, refused: [a, b, c, d, e, f, g, h, i], pads, bands: [v, w, x, y, z], files })
    }
}
