//! The triangular solves and swap lists, each by itself.
use crate::{further_calls, Refusal, MOST, MOST_ENTRIES};
use alloc::vec;
use alloc::vec::Vec;

/// By which triangle of a matrix [`solve_triangular`] solves.
///
/// ```
/// # use wejdarox::{solve_triangular, Triangle};
/// assert_eq!(solve_triangular(Triangle::Upper, &[2.0, 0.0, 4.0, 8.0], 2, &[6.0, 8.0], 1)?, [1.0, 1.0]);
/// # Ok::<(), wejdarox::Refusal>(())
/// ```
#[derive(Clone, Copy, Debug, PartialEq)]
#[non_exhaustive]
pub enum Triangle {
    /// The lower one, with the matrix's diagonal.
    Lower,
    /// The upper one.
    Upper,
    /// The lower one transposed.
    TransposedLower,
    /// The upper one transposed.
    TransposedUpper,
    /// The lower one with this number in place of the diagonal, as nalgebra 0.35.0 does it: the rows themselves are not divided.
    LowerWithDiag(f64),
    /// The same, and each row is divided: the solution.
    LowerWithDiagCorrected(f64),
}

/// Solves by one triangle of the `n` by `n` matrix `t`, which lies column after column, for `k` right-hand columns.
///
/// ```
/// # use wejdarox::{solve_triangular, Triangle};
/// assert_eq!(solve_triangular(Triangle::Lower, &[2.0, 4.0, 0.0, 8.0], 2, &[2.0, 12.0], 1)?, [1.0, 1.0]);
/// # Ok::<(), wejdarox::Refusal>(())
/// ```
///
/// # Errors
/// 1, 3, 5, 6, 7.
pub fn solve_triangular(by: Triangle, t: &[f64], n: usize, b: &[f64], k: usize) -> Result<Vec<f64>, Refusal> {
    let mut x = vec![0.0; b.len().min(MOST_ENTRIES)];
    Refusal::told(further_calls::triangular(by, t, n, b, k, &mut x))?;
    Ok(x)
}

/// A list of exchanges for a dimension of 1 to 64: at most so many pairs of numbers below 64.
///
/// ```
/// # use wejdarox::SwapList;
/// let mut list = SwapList::new(3);
/// list.append(0, 1)?;
/// list.append(1, 2)?;
/// let mut column = [1.0, 2.0, 3.0];
/// list.permute_rows(&mut column, 3, 1)?;
/// assert_eq!((column, list.sign()), ([2.0, 3.0, 1.0], 1.0));
/// list.inv_permute_rows(&mut column, 3, 1)?;
/// assert_eq!(column, [1.0, 2.0, 3.0]);
/// # Ok::<(), wejdarox::Refusal>(())
/// ```
#[derive(Clone, Debug, PartialEq, Eq)]
pub struct SwapList {
    store: [usize; 2 * MOST],
    pairs: usize,
    dimension: usize,
}

impl SwapList {
    /// A list of no pair. A dimension outside 1 to 64 is refused by [`SwapList::append`].
    ///
    /// ```
    /// assert_eq!(wejdarox::SwapList::new(3).pairs().len(), 0);
    /// ```
    #[must_use]
    pub fn new(dimension: usize) -> SwapList {
        SwapList { store: [0; 2 * MOST], pairs: 0, dimension }
    }

    /// Appends a pair; two equal numbers append nothing.
    ///
    /// ```
    /// # use wejdarox::{Refusal, SwapList};
    /// let mut list = SwapList::new(1);
    /// list.append(0, 1)?;
    /// assert_eq!(list.append(1, 2), Err(Refusal::SwapList));
    /// # Ok::<(), wejdarox::Refusal>(())
    /// ```
    ///
    /// # Errors
    /// 1 for the dimension; 4 where a number is not below 64, or the list is full. The list is then as it was.
    pub fn append(&mut self, i: usize, i2: usize) -> Result<(), Refusal> {
        Refusal::told(further_calls::append_permutation(&mut self.store, &mut self.pairs, self.dimension, i, i2))
    }

    /// The pairs, the first first.
    ///
    /// ```
    /// # use wejdarox::SwapList;
    /// let mut list = SwapList::new(3);
    /// list.append(0, 2)?;
    /// assert_eq!(list.pairs().collect::<Vec<_>>(), [(0, 2)]);
    /// # Ok::<(), wejdarox::Refusal>(())
    /// ```
    pub fn pairs(&self) -> impl ExactSizeIterator<Item = (usize, usize)> + '_ {
        self.store.chunks_exact(2).take(self.pairs).map(|pair| (pair[0], pair[1]))
    }

    /// 1.0 where the pairs are even, -1.0 where they are odd.
    ///
    /// ```
    /// # use wejdarox::SwapList;
    /// let mut list = SwapList::new(3);
    /// list.append(0, 2)?;
    /// assert_eq!(list.sign(), -1.0);
    /// # Ok::<(), wejdarox::Refusal>(())
    /// ```
    #[must_use]
    pub fn sign(&self) -> f64 {
        further_calls::permutation_sign(self.pairs)
    }

    /// Exchanges rows of a matrix of so many rows and columns, the first pair first.
    ///
    /// ```
    /// # use wejdarox::SwapList;
    /// let mut list = SwapList::new(2);
    /// list.append(0, 1)?;
    /// let mut a = [1.0, 2.0, 3.0, 4.0];
    /// list.permute_rows(&mut a, 2, 2)?;
    /// assert_eq!(a, [2.0, 1.0, 4.0, 3.0]);
    /// # Ok::<(), wejdarox::Refusal>(())
    /// ```
    ///
    /// # Errors
    /// 1, 3, 4 where a number of the list is not a row's, 5. The matrix is then as it was.
    pub fn permute_rows(&self, a: &mut [f64], rows: usize, columns: usize) -> Result<(), Refusal> {
        Refusal::told(further_calls::permute(false, false, a, rows, columns, &self.store, self.pairs))
    }

    /// The same, the last pair first: it undoes [`SwapList::permute_rows`].
    ///
    /// ```
    /// # use wejdarox::SwapList;
    /// let mut list = SwapList::new(3);
    /// list.append(0, 1)?;
    /// list.append(1, 2)?;
    /// let mut a = [2.0, 3.0, 1.0];
    /// list.inv_permute_rows(&mut a, 3, 1)?;
    /// assert_eq!(a, [1.0, 2.0, 3.0]);
    /// # Ok::<(), wejdarox::Refusal>(())
    /// ```
    ///
    /// # Errors
    /// As for [`SwapList::permute_rows`].
    pub fn inv_permute_rows(&self, a: &mut [f64], rows: usize, columns: usize) -> Result<(), Refusal> {
        Refusal::told(further_calls::permute(false, true, a, rows, columns, &self.store, self.pairs))
    }

    /// Exchanges columns, the first pair first.
    ///
    /// ```
    /// # use wejdarox::SwapList;
    /// let mut list = SwapList::new(2);
    /// list.append(0, 1)?;
    /// let mut a = [1.0, 2.0, 3.0, 4.0];
    /// list.permute_columns(&mut a, 2, 2)?;
    /// assert_eq!(a, [3.0, 4.0, 1.0, 2.0]);
    /// # Ok::<(), wejdarox::Refusal>(())
    /// ```
    ///
    /// # Errors
    /// As for [`SwapList::permute_rows`], 4 where a number of the list is not a column's.
    pub fn permute_columns(&self, a: &mut [f64], rows: usize, columns: usize) -> Result<(), Refusal> {
        Refusal::told(further_calls::permute(true, false, a, rows, columns, &self.store, self.pairs))
    }

    /// The same, the last pair first: it undoes [`SwapList::permute_columns`].
    ///
    /// ```
    /// # use wejdarox::SwapList;
    /// let mut list = SwapList::new(3);
    /// list.append(0, 1)?;
    /// list.append(1, 2)?;
    /// let mut a = [2.0, 3.0, 1.0];
    /// list.inv_permute_columns(&mut a, 1, 3)?;
    /// assert_eq!(a, [1.0, 2.0, 3.0]);
    /// # Ok::<(), wejdarox::Refusal>(())
    /// ```
    ///
    /// # Errors
    /// As for [`SwapList::permute_columns`].
    pub fn inv_permute_columns(&self, a: &mut [f64], rows: usize, columns: usize) -> Result<(), Refusal> {
        Refusal::told(further_calls::permute(true, true, a, rows, columns, &self.store, self.pairs))
    }
}
