//! Rounded elimination with row exchanges, and the corrections that it yields.

use super::reading::Case;
use super::rounding::{rounded_quotient, scaled, MULTIPLIER_UNIT};
use super::{Refusal, MOST_TANKS, OUTSIDE_RANGE, ZERO_PIVOT};

/// Working numbers start as whole numbers of 256ths.
const WORKING_UNIT: i64 = 256;
const MOST_CORRECTION: i64 = 20_000_000;

/// The triangular form of a case's coefficients.
///
/// No working number passes 2^30: it starts below 2^23, no multiplier passes 1, and so each of at most seven steps at most doubles it.
/// Residuals stay below 2^42 and are doubled at most seven times too, so that no product here leaves 64 bits.
pub struct Elimination {
    n: usize,
    /// On and above the diagonal the working numbers, below it the multipliers; a row is exchanged with its multipliers.
    working: [[i64; MOST_TANKS]; MOST_TANKS],
    /// The case's row that stands in each place.
    order: [usize; MOST_TANKS],
}

impl Elimination {
    /// The working numbers before the first step.
    pub fn start(case: &Case) -> Self {
        let mut working = [[0; MOST_TANKS]; MOST_TANKS];
        for (working_row, row) in working.iter_mut().zip(&case.rows[..case.n]) {
            for (number, &coefficient) in working_row.iter_mut().zip(&row.coefficients) {
                *number = WORKING_UNIT * i64::from(coefficient);
            }
        }
        Elimination {
            n: case.n,
            working,
            order: [0, 1, 2, 3, 4, 5, 6, 7],
        }
    }

    /// All steps.
    #[inline(always)]
    pub fn finish(&mut self) -> Result<(), Refusal> {
        let working = &mut self.working[..self.n];
        for k in 0..working.len() {
            let pivot_row = find_pivot_row(working, k)?;
            working.swap(k, pivot_row);
            self.order.swap(k, pivot_row);
            clear_column(working, k);
        }
        Ok(())
    }

    /// The answer's correction for these residuals, which stand in the case's row order.
    #[inline(always)]
    pub fn correction(&self, residuals: &[i64; MOST_TANKS]) -> Result<[i64; MOST_TANKS], Refusal> {
        let n = self.n;
        let mut z = [0; MOST_TANKS];
        for i in 0..n {
            let mut rest = residuals[self.order[i]];
            for (&multiplier, &above) in self.working[i][..i].iter().zip(&z) {
                rest -= scaled(multiplier, above);
            }
            z[i] = rest;
        }
        let mut correction = [0; MOST_TANKS];
        for i in (0..n).rev() {
            let row = &self.working[i][..n];
            let known: i64 = row[i + 1..]
                .iter()
                .zip(&correction[i + 1..])
                .map(|(number, d)| number * d)
                .sum();
            let d = rounded_quotient(WORKING_UNIT * z[i] - known, row[i]);
            if d.abs() > MOST_CORRECTION {
                return Err(OUTSIDE_RANGE);
            }
            correction[i] = d;
        }
        Ok(correction)
    }
}

/// The uppermost row from `k` on with the largest entry of column `k`.
fn find_pivot_row(working: &[[i64; MOST_TANKS]], k: usize) -> Result<usize, Refusal> {
    let mut pivot_row = k;
    let mut largest = 0;
    for (i, row) in working.iter().enumerate().skip(k) {
        let size = row[k].abs();
        if size > largest {
            largest = size;
            pivot_row = i;
        }
    }
    if largest == 0 {
        return Err(ZERO_PIVOT);
    }
    Ok(pivot_row)
}

/// Step `k` below its pivot: each row gets its multiplier in column `k` and loses that share of the pivot row.
fn clear_column(working: &mut [[i64; MOST_TANKS]], k: usize) {
    let n = working.len();
    let (upper, lower) = working.split_at_mut(k + 1);
    let pivot_row = &upper[k];
    for row in lower {
        let multiplier = rounded_quotient(MULTIPLIER_UNIT * row[k], pivot_row[k]);
        row[k] = multiplier;
        for (number, &pivot_number) in row[k + 1..n].iter_mut().zip(&pivot_row[k + 1..n]) {
            *number -= scaled(multiplier, pivot_number);
        }
    }
}
