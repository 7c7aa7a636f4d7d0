//! The exact judgement of an answer, after Oettli and Prager.

use super::reading::{Case, Row};
use super::MOST_TANKS;

/// What an answer leaves in each row of a case. Only the first `n` of each list count.
#[derive(Clone)]
pub struct Judgement {
    /// D * b less the sum of A * Y.
    pub residuals: [i64; MOST_TANKS],
    /// D * f and the sum of E * |Y|: the most that changes within the tolerances can take off a residual.
    pub reaches: [i64; MOST_TANKS],
    /// The first unmet row, counted from 1, or 0 where all are met.
    pub first_unmet: u8,
    /// Found when it is first asked for: rounds that are met or alone need no ranking, and soundings no factor.
    deciding: Option<Deciding>,
}

impl Judgement {
    /// The judgement of an answer with these figures; none at all stand for zeros.
    pub fn of(case: &Case, answer: &[i64]) -> Self {
        let mut judgement = Judgement {
            residuals: [0; MOST_TANKS],
            reaches: [0; MOST_TANKS],
            first_unmet: 0,
            deciding: None,
        };
        judgement.judge(case, answer);
        judgement
    }

    /// Judges another answer to the same case.
    pub fn judge(&mut self, case: &Case, answer: &[i64]) {
        self.first_unmet = 0;
        self.deciding = None;
        for (i, row) in case.rows[..case.n].iter().enumerate() {
            let (residual, reach) = row.residual_and_reach(case.unit, answer);
            self.residuals[i] = residual;
            self.reaches[i] = reach;
            if residual.abs() > reach && self.first_unmet == 0 {
                self.first_unmet = i as u8 + 1;
            }
        }
    }

    pub fn is_met(&self) -> bool {
        self.first_unmet == 0
    }

    /// The row that decides for these `n` rows.
    pub fn deciding(&mut self, n: usize) -> Deciding {
        match self.deciding {
            Some(deciding) => deciding,
            None => *self.deciding.insert(self.find_deciding(n)),
        }
    }

    fn find_deciding(&self, n: usize) -> Deciding {
        let mut deciding = Deciding {
            row: 1,
            factor: Factor {
                residual: 0,
                reach: 1,
            },
        };
        for (i, (residual, &reach)) in self.residuals[..n].iter().zip(&self.reaches).enumerate() {
            let factor = Factor {
                residual: residual.unsigned_abs(),
                reach: reach as u64,
            };
            if factor.exceeds(&deciding.factor) {
                let row = i as u8 + 1;
                deciding = Deciding { row, factor };
                if factor.is_none() {
                    break;
                }
            }
        }
        deciding
    }
}

/// The row that decides, counted from 1, and its factor, which is also the factor of the whole answer.
#[derive(Clone, Copy)]
pub struct Deciding {
    pub row: u8,
    pub factor: Factor,
}

impl Row {
    fn residual_and_reach(&self, unit: i64, answer: &[i64]) -> (i64, i64) {
        let mut residual = unit * i64::from(self.right_side);
        let mut reach = unit * i64::from(self.right_tolerance);
        for ((&y, &coefficient), &tolerance) in
            answer.iter().zip(&self.coefficients).zip(&self.tolerances)
        {
            residual -= i64::from(coefficient) * y;
            reach += i64::from(tolerance) * y.abs();
        }
        (residual, reach)
    }
}

/// A row's backward error, |residual| / reach: by this part of their tolerances its figures must change at least.
#[derive(Clone, Copy)]
pub struct Factor {
    residual: u64,
    reach: u64,
}

impl Factor {
    /// A residual that no change within the tolerances takes off.
    pub fn is_none(&self) -> bool {
        self.reach == 0 && self.residual != 0
    }

    /// The `other` is not 0 / 0. Such a factor counts as 0, and exceeds nothing; none exceeds every factor, and does not exceed none.
    pub fn exceeds(&self, other: &Factor) -> bool {
        u128::from(self.residual) * u128::from(other.reach)
            > u128::from(other.residual) * u128::from(self.reach)
    }
}
