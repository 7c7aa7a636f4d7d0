//! Answers that lie at the entries of the reference tank, where a depth begins, or beside them.

use crate::figures::{List, MOST_ANSWER};
use crate::random::Random;

const DEEPEST: i64 = 400;
/// What the reference tank holds at most, in tonnes.
pub const MOST_TONNES: i64 = 520;

/// An answer inside the table, but for one figure of one in five.
pub fn near_entries(n: usize, unit: i64, random: &mut Random) -> List {
    let mut answer = List::default();
    answer[..n].fill_with(|| inside(unit, random));
    if random.one_in(5) {
        answer[random.below(n)] = outside(unit, random);
    }
    answer
}

fn inside(unit: i64, random: &mut Random) -> i64 {
    let most = MOST_TONNES * unit;
    match random.below(8) {
        0 => random.between(0, most),
        1 => random.pick(&[0, 1, most - 1, most]),
        _ => (entry(unit, random) + random.pick(&[-1, 0, 0, 1])).clamp(0, most),
    }
}

/// An entry in parts of a tonne, rounded down. With few decimals only every tenth or hundredth is whole, so these come more often.
fn entry(unit: i64, random: &mut Random) -> i64 {
    let step = random.pick(&[1, 1, 10, 100]);
    let h = step * random.between(0, DEEPEST / step);
    (900 * h + h * h) * unit / 1000
}

fn outside(unit: i64, random: &mut Random) -> i64 {
    let most = MOST_TONNES * unit;
    match random.below(4) {
        0 => -1,
        1 => most + 1,
        2 => -random.between(1, most),
        _ => random.between(most + 1, MOST_ANSWER),
    }
}
