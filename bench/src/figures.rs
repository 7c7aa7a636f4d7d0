//! A case's figures as plain numbers, and its bytes.

use crate::twin::MOST_TANKS;

pub const MOST_ROUNDS: usize = 8;
pub const MOST_EXPONENT: usize = 3;
pub const MOST_COEFFICIENT: i64 = 32_767;
pub const MOST_RIGHT_SIDE: i64 = 1_000_000_000;
pub const MOST_ANSWER: i64 = 10_000_000;

pub type Table = [[i64; MOST_TANKS]; MOST_TANKS];
pub type List = [i64; MOST_TANKS];

/// Only the first `n` of each list count, and the trial only where `rounds` is 0.
#[derive(Clone, Default)]
pub struct Figures {
    pub n: usize,
    pub exponent: usize,
    pub rounds: usize,
    pub coefficients: Table,
    pub tolerances: Table,
    pub right_sides: List,
    pub right_tolerances: List,
    pub trial: List,
}

/// The moment of these tonnes.
pub fn moment(coefficients: &[i64], tonnes: &[i64]) -> i64 {
    let terms = coefficients.iter().zip(tonnes);
    terms.map(|(coefficient, y)| coefficient * y).sum()
}

impl Figures {
    /// D, the number of parts that an answer counts in a tonne.
    pub fn unit(&self) -> i64 {
        10_i64.pow(self.exponent as u32)
    }

    /// Takes every figure of row `i` to the nearest one within its limits.
    pub fn limit_row(&mut self, i: usize) {
        for (coefficient, tolerance) in self.coefficients[i].iter_mut().zip(&mut self.tolerances[i])
        {
            *coefficient = (*coefficient).clamp(-MOST_COEFFICIENT, MOST_COEFFICIENT);
            *tolerance = (*tolerance).clamp(0, MOST_COEFFICIENT);
        }
        self.right_sides[i] = self.right_sides[i].clamp(-MOST_RIGHT_SIDE, MOST_RIGHT_SIDE);
        self.right_tolerances[i] = self.right_tolerances[i].clamp(0, MOST_RIGHT_SIDE);
    }

    /// The case's bytes. A figure outside its limits is encoded as it is, cut to the width of its place.
    pub fn encode(&self) -> Vec<u8> {
        let n = self.n;
        let mut bytes = vec![0x01, 0, 3, n as u8, self.exponent as u8, self.rounds as u8];
        for i in 0..n {
            bytes.extend([0x02, 0, 4 * n as u8 + 8]);
            for figure in self.coefficients[i][..n]
                .iter()
                .chain(&self.tolerances[i][..n])
            {
                bytes.extend((*figure as u16).to_be_bytes());
            }
            bytes.extend((self.right_sides[i] as u32).to_be_bytes());
            bytes.extend((self.right_tolerances[i] as u32).to_be_bytes());
        }
        if self.rounds == 0 {
            bytes.extend([0x03, 0, 4 * n as u8]);
            for figure in &self.trial[..n] {
                bytes.extend((*figure as u32).to_be_bytes());
            }
        }
        bytes.extend([0xFF, 0, 0]);
        bytes
    }
}
