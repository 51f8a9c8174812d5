//! Why a factoring or a solve is refused: the refusal, and the place that caused it. Places are counted from 0.
use crate::{calls, Lu, Refusal, MOST, MOST_ENTRIES};
use alloc::vec;
use core::fmt;

/// Why [`Lu::factor`] refuses a matrix.
///
/// ```
/// # use wejdarox::{Lu, WhyFactor};
/// assert!(matches!(Lu::why_factor(&[5e-324, 0.0], 2, 1), Some(WhyFactor::Overflow { step: 0, column: 0, row: 1, .. })));
/// ```
#[derive(Clone, Copy, Debug, PartialEq, Eq, Hash)]
#[non_exhaustive]
pub enum WhyFactor {
    /// Its sizes, lengths or numbers: 1, 3 or 5.
    Refused(Refusal),
    /// 7: the first result that is not finite, in the order of the elimination.
    Overflow {
        /// The step that stored it.
        step: usize,
        /// Its column.
        column: usize,
        /// Its row, as the rows stood after that step's exchange.
        row: usize,
    },
}

/// A pass of a solve.
///
/// ```
/// # use wejdarox::{Lu, Pass, WhySolve};
/// let lu = Lu::factor(&[0.25], 1, 1)?;
/// assert!(matches!(lu.why_solve(&[1.7e308], 1), Some(WhySolve::Overflow { pass: Pass::Upper, .. })));
/// # Ok::<(), wejdarox::Refusal>(())
/// ```
#[derive(Clone, Copy, Debug, PartialEq, Eq, Hash)]
#[non_exhaustive]
pub enum Pass {
    /// The unit lower pass, the first.
    Lower,
    /// The upper pass, the second.
    Upper,
}

/// Why [`Lu::solve`] refuses right-hand columns.
///
/// ```
/// # use wejdarox::{Lu, WhySolve};
/// let dead = Lu::factor(&[1.0, 2.0, 2.0, 4.0], 2, 2)?;
/// assert!(matches!(dead.why_solve(&[1.0, 2.0], 1), Some(WhySolve::Singular { column: 1, .. })));
/// # Ok::<(), wejdarox::Refusal>(())
/// ```
#[derive(Clone, Copy, Debug, PartialEq, Eq, Hash)]
#[non_exhaustive]
pub enum WhySolve {
    /// The sizes, lengths or numbers: 1, 2, 3 or 5.
    Refused(Refusal),
    /// 6: the lowest column whose diagonal is zero.
    Singular {
        /// The column of the matrix.
        column: usize,
    },
    /// 7: the first result that is not finite, in the order of the two passes.
    Overflow {
        /// The pass that stored it.
        pass: Pass,
        /// Its right-hand column.
        column: usize,
        /// Its row.
        row: usize,
    },
}

impl WhyFactor {
    /// The refusal that the explained call gives.
    ///
    /// ```
    /// # use wejdarox::{Lu, Refusal};
    /// assert_eq!(Lu::why_factor(&[f64::NAN], 1, 1).map(|why| why.refusal()), Some(Refusal::NotFinite));
    /// ```
    #[must_use]
    pub fn refusal(self) -> Refusal {
        match self {
            WhyFactor::Refused(refusal) => refusal,
            WhyFactor::Overflow { .. } => Refusal::Overflow,
        }
    }
}

impl WhySolve {
    /// The refusal that the explained call gives.
    ///
    /// ```
    /// # use wejdarox::{Lu, Refusal};
    /// let dead = Lu::factor(&[0.0], 1, 1)?;
    /// assert_eq!(dead.why_solve(&[1.0], 1).map(|why| why.refusal()), Some(Refusal::Singular));
    /// # Ok::<(), wejdarox::Refusal>(())
    /// ```
    #[must_use]
    pub fn refusal(self) -> Refusal {
        match self {
            WhySolve::Refused(refusal) => refusal,
            WhySolve::Singular { .. } => Refusal::Singular,
            WhySolve::Overflow { .. } => Refusal::Overflow,
        }
    }
}

/// People count from 1.
impl fmt::Display for WhyFactor {
    fn fmt(&self, f: &mut fmt::Formatter<'_>) -> fmt::Result {
        match *self {
            WhyFactor::Refused(refusal) => refusal.fmt(f),
            WhyFactor::Overflow { step, column, row } => {
                write!(f, "a number is too large after step {}, in column {}, row {}", step + 1, column + 1, row + 1)
            }
        }
    }
}

/// People count from 1.
impl fmt::Display for WhySolve {
    fn fmt(&self, f: &mut fmt::Formatter<'_>) -> fmt::Result {
        match *self {
            WhySolve::Refused(refusal) => refusal.fmt(f),
            WhySolve::Singular { column } => write!(f, "column {} is dead", column + 1),
            WhySolve::Overflow { pass, column, row } => {
                let name = if pass == Pass::Lower { "lower" } else { "upper" };
                write!(f, "a number is too large in the {name} pass, in right-hand column {}, row {}", column + 1, row + 1)
            }
        }
    }
}

impl Lu {
    /// Why [`Lu::factor`] refuses these arguments; `None` where it accepts them.
    ///
    /// ```
    /// # use wejdarox::{Lu, WhyFactor};
    /// assert_eq!(Lu::why_factor(&[1.0, -1.0, 1e308, 1e308], 2, 2), Some(WhyFactor::Overflow { step: 0, column: 1, row: 1 }));
    /// assert_eq!(Lu::why_factor(&[1.0], 1, 1), None);
    /// ```
    #[must_use]
    pub fn why_factor(a: &[f64], rows: usize, columns: usize) -> Option<WhyFactor> {
        let mut factors = vec![0.0; a.len().min(MOST_ENTRIES)];
        let mut place = calls::Place::default();
        let number = calls::why_factor(a, rows, columns, &mut factors, &mut [0; 2 * MOST], &mut place);
        let calls::Place { first: step, column, row } = place;
        match Refusal::told(number) {
            Ok(()) => None,
            Err(Refusal::Overflow) => Some(WhyFactor::Overflow { step, column, row }),
            Err(refusal) => Some(WhyFactor::Refused(refusal)),
        }
    }

    /// Why [`Lu::solve`] refuses these right-hand columns; `None` where it accepts them.
    ///
    /// ```
    /// # use wejdarox::{Lu, WhySolve};
    /// let crossing = Lu::factor(&[1.0, 0.0, 1.0, 0.0], 2, 2)?;
    /// assert_eq!(crossing.why_solve(&[5.0, 8.0], 1), Some(WhySolve::Singular { column: 1 }));
    /// # Ok::<(), wejdarox::Refusal>(())
    /// ```
    #[must_use]
    pub fn why_solve(&self, b: &[f64], k: usize) -> Option<WhySolve> {
        let mut x = vec![0.0; b.len().min(MOST_ENTRIES)];
        let mut place = calls::Place::default();
        let number = calls::why_solve(self.held(), b, k, &mut x, &mut place);
        let calls::Place { first, column, row } = place;
        match Refusal::told(number) {
            Ok(()) => None,
            Err(Refusal::Singular) => Some(WhySolve::Singular { column }),
            Err(Refusal::Overflow) => {
                let pass = if first == 1 { Pass::Lower } else { Pass::Upper };
                Some(WhySolve::Overflow { pass, column, row })
            }
            Err(refusal) => Some(WhySolve::Refused(refusal)),
        }
    }
}
