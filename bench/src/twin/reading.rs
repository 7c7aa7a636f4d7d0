//! A case's bytes and its figures.

use super::{
    Refusal, FIELD_MISSING, MOST_TANKS, OUTSIDE_LIMITS, TRAILING_BYTES, VALUE_CUT_SHORT,
    WRONG_LENGTH, WRONG_TAG,
};

const HEAD: u8 = 0x01;
const ROW: u8 = 0x02;
const TRIAL: u8 = 0x03;
const END: u8 = 0xFF;

const MOST_ROUNDS: u8 = 8;
/// D, the number of parts that an answer counts in a tonne, for each exponent.
const UNITS: [i64; 4] = [1, 10, 100, 1000];
pub const MOST_COEFFICIENT: u16 = 32_767;
const MOST_RIGHT_SIDE: u32 = 1_000_000_000;
/// The limit of every answer figure, brought or worked out.
pub const MOST_ANSWER: i64 = 10_000_000;

/// One moment equation. Only the first `n` of each list count.
#[derive(Clone, Copy)]
pub struct Row {
    pub coefficients: [i16; MOST_TANKS],
    pub tolerances: [u16; MOST_TANKS],
    pub right_side: i32,
    pub right_tolerance: u32,
}

/// A case. Only the first `n` rows and trial figures count. A case with rounds brings no trial; its figures are zero then.
pub struct Case {
    pub n: usize,
    pub unit: i64,
    pub rounds: u8,
    pub rows: [Row; MOST_TANKS],
    pub trial: [i64; MOST_TANKS],
}

impl Case {
    const NO_ROW: Row = Row {
        coefficients: [0; MOST_TANKS],
        tolerances: [0; MOST_TANKS],
        right_side: 0,
        right_tolerance: 0,
    };
    pub const EMPTY: Case = Case {
        n: 0,
        unit: 1,
        rounds: 0,
        rows: [Self::NO_ROW; MOST_TANKS],
        trial: [0; MOST_TANKS],
    };

    /// Reads the input into this empty case, in place: a result that carries the whole case would be copied.
    pub fn read(&mut self, input: &[u8]) -> Result<(), Refusal> {
        let mut fields = Fields { rest: input };
        self.read_head(fields.take(HEAD, 3)?)?;
        let n = self.n;
        for row in &mut self.rows[..n] {
            row.read(fields.take(ROW, 4 * n + 8)?, n)?;
        }
        if self.rounds == 0 {
            self.read_trial(fields.take(TRIAL, 4 * n)?)?;
        }
        fields.take(END, 0)?;
        if fields.rest.is_empty() {
            Ok(())
        } else {
            Err(TRAILING_BYTES)
        }
    }

    /// The trial that the case brings, if it brings one.
    pub fn trial(&self) -> &[i64] {
        match self.rounds {
            0 => &self.trial[..self.n],
            _ => &[],
        }
    }

    fn read_head(&mut self, value: &[u8]) -> Result<(), Refusal> {
        let (n, exponent, rounds) = (usize::from(value[0]), usize::from(value[1]), value[2]);
        if !(1..=MOST_TANKS).contains(&n) || exponent >= UNITS.len() || rounds > MOST_ROUNDS {
            return Err(OUTSIDE_LIMITS);
        }
        self.n = n;
        self.unit = UNITS[exponent];
        self.rounds = rounds;
        Ok(())
    }

    fn read_trial(&mut self, value: &[u8]) -> Result<(), Refusal> {
        for (figure, bytes) in self.trial.iter_mut().zip(value.chunks_exact(4)) {
            *figure = i64::from(i32::from_be_bytes([bytes[0], bytes[1], bytes[2], bytes[3]]));
            if figure.abs() > MOST_ANSWER {
                return Err(OUTSIDE_LIMITS);
            }
        }
        Ok(())
    }
}

impl Row {
    fn read(&mut self, value: &[u8], n: usize) -> Result<(), Refusal> {
        let (coefficients, value) = value.split_at(2 * n);
        let (tolerances, value) = value.split_at(2 * n);
        for (figure, bytes) in self
            .coefficients
            .iter_mut()
            .zip(coefficients.chunks_exact(2))
        {
            *figure = i16::from_be_bytes([bytes[0], bytes[1]]);
            if figure.unsigned_abs() > MOST_COEFFICIENT {
                return Err(OUTSIDE_LIMITS);
            }
        }
        for (figure, bytes) in self.tolerances.iter_mut().zip(tolerances.chunks_exact(2)) {
            *figure = u16::from_be_bytes([bytes[0], bytes[1]]);
            if *figure > MOST_COEFFICIENT {
                return Err(OUTSIDE_LIMITS);
            }
        }
        self.right_side = i32::from_be_bytes([value[0], value[1], value[2], value[3]]);
        self.right_tolerance = u32::from_be_bytes([value[4], value[5], value[6], value[7]]);
        if self.right_side.unsigned_abs() > MOST_RIGHT_SIDE
            || self.right_tolerance > MOST_RIGHT_SIDE
        {
            return Err(OUTSIDE_LIMITS);
        }
        Ok(())
    }
}

/// The fields that are still to be taken from the front.
struct Fields<'a> {
    rest: &'a [u8],
}

impl<'a> Fields<'a> {
    fn take(&mut self, tag: u8, length: usize) -> Result<&'a [u8], Refusal> {
        let [found_tag, high, low, rest @ ..] = self.rest else {
            return Err(FIELD_MISSING);
        };
        if *found_tag != tag {
            return Err(WRONG_TAG);
        }
        if usize::from(u16::from_be_bytes([*high, *low])) != length {
            return Err(WRONG_LENGTH);
        }
        let (value, rest) = rest.split_at_checked(length).ok_or(VALUE_CUT_SHORT)?;
        self.rest = rest;
        Ok(value)
    }
}
