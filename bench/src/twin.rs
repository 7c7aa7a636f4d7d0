//! The calls in plain Rust: the same bytes or figures in, the same record, depths, matrix or refusal out, and no proof.

mod elimination;
mod judging;
mod matrix;
mod reading;
mod record;
mod refinement;
mod rounding;
mod soundings;

use reading::Case;
use refinement::Answer;

/// A number from document 01, "Refused, in this order", or from a request of document 02.
pub type Refusal = u8;

pub const BUFFER_TOO_SHORT: Refusal = 1;
pub const FIELD_MISSING: Refusal = 2;
pub const WRONG_TAG: Refusal = 3;
pub const WRONG_LENGTH: Refusal = 4;
pub const VALUE_CUT_SHORT: Refusal = 5;
pub const OUTSIDE_LIMITS: Refusal = 6;
pub const TRAILING_BYTES: Refusal = 7;
pub const ZERO_PIVOT: Refusal = 8;
pub const OUTSIDE_RANGE: Refusal = 9;
pub const OUTSIDE_TABLE: Refusal = 10;
pub const WRONG_MATRIX_HEADER: Refusal = 11;
pub const WRONG_MATRIX_ENTRY: Refusal = 12;

pub const MOST_TANKS: usize = 8;
pub const RECORD_ROOM: usize = record::length(MOST_TANKS);
pub const SOUNDINGS_ROOM: usize = soundings::length(MOST_TANKS);
pub const MATRIX_ROOM: usize = matrix::ROOM;
pub const MATRIX_PLACES: usize = matrix::PLACES;

/// Reads the case and returns its number of tanks.
// Never inlined, like the next ones: the library's functions are calls too.
#[inline(never)]
pub fn check_case(input: &[u8]) -> Result<usize, Refusal> {
    let mut case = Case::EMPTY;
    case.read(input)?;
    Ok(case.n)
}

/// Leaves the record of the case at the front of `out` and returns its length. A refusal leaves `out` as it was.
#[inline(never)]
pub fn judge_case(input: &[u8], out: &mut [u8]) -> Result<usize, Refusal> {
    if out.len() < RECORD_ROOM {
        return Err(BUFFER_TOO_SHORT);
    }
    let mut case = Case::EMPTY;
    case.read(input)?;
    let mut answer = Answer::start(&case);
    if case.rounds > 0 {
        answer.refine(&case)?;
    }
    Ok(record::write(case.n, &mut answer, out))
}

/// Leaves each tank's depth at the front of `out` and returns their length. A refusal leaves `out` as it was.
#[inline(never)]
pub fn soundings(input: &[u8], out: &mut [u8]) -> Result<usize, Refusal> {
    if out.len() < SOUNDINGS_ROOM {
        return Err(BUFFER_TOO_SHORT);
    }
    let mut case = Case::EMPTY;
    case.read(input)?;
    // A brought trial is taken as it is: no depth asks for its judgement.
    if case.rounds == 0 {
        return soundings::write(case.trial(), case.unit, out);
    }
    let mut answer = Answer::start(&case);
    answer.refine(&case)?;
    soundings::write(&answer.figures[..case.n], case.unit, out)
}

/// Leaves the coefficients of a Matrix Market text at the front of `places`, row after row, and returns their n. A refusal leaves `places`
/// as it was.
#[inline(never)]
pub fn read_matrix(text: &[u8], places: &mut [i16]) -> Result<usize, Refusal> {
    if places.len() < MATRIX_PLACES {
        return Err(BUFFER_TOO_SHORT);
    }
    matrix::read(text, places)
}

/// Leaves the Matrix Market text of these coefficients, row after row, at the front of `out` and returns its length. A refusal leaves `out`
/// as it was.
#[inline(never)]
pub fn write_matrix(n: usize, coefficients: &[i16], out: &mut [u8]) -> Result<usize, Refusal> {
    if out.len() < MATRIX_ROOM {
        return Err(BUFFER_TOO_SHORT);
    }
    matrix::write(n, coefficients, out)
}
