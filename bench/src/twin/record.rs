//! The record of a judged answer.

use super::refinement::Answer;

const VERDICT: u8 = 0x10;
const ANSWER: u8 = 0x11;
const ROWS: u8 = 0x12;
const FACTOR: u8 = 0x13;
const END: u8 = 0xFF;

pub const fn length(n: usize) -> usize {
    20 + 20 * n
}

/// Writes the record to the front of `out`, which has room for it, and returns its length.
pub fn write(n: usize, answer: &mut Answer, out: &mut [u8]) -> usize {
    let judgement = &mut answer.judgement;
    let (head, rest) = out[..length(n)].split_at_mut(6);
    let (figures_head, rest) = rest.split_at_mut(3);
    let (figures, rest) = rest.split_at_mut(4 * n);
    let (rows_head, rest) = rest.split_at_mut(3);
    let (rows, tail) = rest.split_at_mut(16 * n);

    head.copy_from_slice(&[
        VERDICT,
        0,
        3,
        u8::from(judgement.is_met()),
        judgement.first_unmet,
        answer.rounds_used,
    ]);
    figures_head.copy_from_slice(&[ANSWER, 0, 4 * n as u8]);
    for (bytes, &y) in figures.chunks_exact_mut(4).zip(&answer.figures) {
        bytes.copy_from_slice(&(y as i32).to_be_bytes());
    }
    rows_head.copy_from_slice(&[ROWS, 0, 16 * n as u8]);
    for ((bytes, residual), reach) in rows
        .chunks_exact_mut(16)
        .zip(&judgement.residuals)
        .zip(&judgement.reaches)
    {
        bytes[..8].copy_from_slice(&residual.to_be_bytes());
        bytes[8..].copy_from_slice(&reach.to_be_bytes());
    }
    let deciding = judgement.deciding(n);
    let none = u8::from(deciding.factor.is_none());
    tail.copy_from_slice(&[FACTOR, 0, 2, none, deciding.row, END, 0, 0]);
    length(n)
}
