//! More of an [`Lu`]: the last column taken off, factors built up column by column, L and U, and the transposed solve.
use crate::{calls::Counts, further_calls, Lu, Refusal, MOST, MOST_ENTRIES};
use alloc::vec;
use alloc::vec::Vec;

impl Lu {
    /// Factors a matrix by adding one column after another: the same factors, to the last bit, and the same counts as [`Lu::factor`]; slower.
    ///
    /// ```
    /// # use wejdarox::Lu;
    /// let (whole, grown) = (Lu::factor(&[0.0, 2.0, 1.0, 0.0], 2, 2)?, Lu::build_up(&[0.0, 2.0, 1.0, 0.0], 2, 2)?);
    /// assert_eq!(whole.factors(), grown.factors());
    /// # Ok::<(), wejdarox::Refusal>(())
    /// ```
    ///
    /// # Errors
    /// 1, 3, 5, 7.
    pub fn build_up(a: &[f64], rows: usize, columns: usize) -> Result<Lu, Refusal> {
        let mut lu = Lu { factors: vec![0.0; a.len().min(MOST_ENTRIES)], swaps: [0; 2 * MOST], rows, columns, counts: Counts::default() };
        Refusal::told(further_calls::build_up(a, rows, columns, &mut lu.factors, &mut lu.swaps, &mut lu.counts))?;
        Ok(lu)
    }

    /// Takes the last column off: the same factors, to the last bit, and the same swaps and dead columns as factoring the columns that remain.
    /// The toss-ups stay those of all columns that were ever added, since how many the last one had is not kept.
    ///
    /// ```
    /// # use wejdarox::Lu;
    /// let mut crossing = Lu::factor(&[0.0, 2.0], 2, 1)?;
    /// crossing.add_column(&[1.0, 0.0])?;
    /// crossing.remove_column()?;
    /// assert_eq!(crossing.factors(), [2.0, 0.0]);
    /// # Ok::<(), wejdarox::Refusal>(())
    /// ```
    ///
    /// # Errors
    /// 1, where there is no column.
    pub fn remove_column(&mut self) -> Result<(), Refusal> {
        let mut counts = self.counts;
        Refusal::told(further_calls::remove_column(&mut self.factors, &mut self.swaps, self.rows, self.columns, &mut counts))?;
        self.columns -= 1;
        self.factors.truncate(self.rows * self.columns);
        self.counts = counts;
        Ok(())
    }

    /// Solves by the transposed matrix for `k` right-hand columns, which lie in `b` one after the other.
    ///
    /// ```
    /// # use wejdarox::Lu;
    /// assert_eq!(Lu::factor(&[0.0, 2.0, 1.0, 0.0], 2, 2)?.tr_solve(&[5.0, 8.0], 1)?, [8.0, 2.5]);
    /// # Ok::<(), wejdarox::Refusal>(())
    /// ```
    ///
    /// # Errors
    /// 1, 2, 3, 5, 6, 7.
    pub fn tr_solve(&self, b: &[f64], k: usize) -> Result<Vec<f64>, Refusal> {
        let mut x = vec![0.0; b.len().min(MOST_ENTRIES)];
        Refusal::told(further_calls::tr_solve(self.held(), b, k, &mut x))?;
        Ok(x)
    }

    /// L, with its ones: as many rows as the matrix, and as many columns as the lesser of its two sizes.
    ///
    /// ```
    /// # use wejdarox::Lu;
    /// assert_eq!(Lu::factor(&[2.0, 1.0, 0.0, 4.0], 2, 2)?.l(), [1.0, 0.5, 0.0, 1.0]);
    /// # Ok::<(), wejdarox::Refusal>(())
    /// ```
    #[must_use]
    pub fn l(&self) -> Vec<f64> {
        let mut x = vec![0.0; self.rows * self.rows.min(self.columns)];
        further_calls::l(self.held(), &mut x); // no test can fail: the lengths fit, and an Lu holds finite factors and a good list
        x
    }

    /// U: as many rows as the lesser of the matrix's two sizes, and as many columns as it has.
    ///
    /// ```
    /// # use wejdarox::Lu;
    /// assert_eq!(Lu::factor(&[2.0, 1.0, 0.0, 4.0], 2, 2)?.u(), [2.0, 0.0, 0.0, 4.0]);
    /// # Ok::<(), wejdarox::Refusal>(())
    /// ```
    #[must_use]
    pub fn u(&self) -> Vec<f64> {
        let mut x = vec![0.0; self.rows.min(self.columns) * self.columns];
        further_calls::u(self.held(), &mut x); // as for l
        x
    }
}
