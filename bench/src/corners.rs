//! Sound cases that chance would hardly find.

use crate::coefficients::{coefficients, table, Style};
use crate::figures::{moment, Figures, List, MOST_ANSWER, MOST_RIGHT_SIDE, MOST_ROUNDS};
use crate::random::Random;
use crate::twin::MOST_TANKS;

/// Gives the first two rows factors that only exact arithmetic can tell apart: |residual| / reach of the one and of the other are
/// neighbouring convergents of a continued fraction, so that their cross products differ by 1.
pub fn neighbouring_factors(figures: &mut Figures, random: &mut Random) {
    figures.rounds = 0;
    figures.trial = List::default();
    figures.trial[0] = 1;
    for i in 0..figures.n {
        set_factor(figures, i, 0, random.between(0, 9));
    }
    let (former, latter) = neighbours(MOST_RIGHT_SIDE * figures.unit(), random);
    let mut pair = [former, latter];
    pair.rotate_left(random.below(2));
    for (i, (residual, reach)) in pair.into_iter().enumerate().take(figures.n) {
        set_factor(figures, i, random.pick(&[1, -1]) * residual, reach);
    }
}

/// Two neighbouring convergents, as (numerator, denominator), of a continued fraction with small quotients.
fn neighbours(most: i64, random: &mut Random) -> ((i64, i64), (i64, i64)) {
    let largest_quotient = random.between(1, 4);
    let (mut former, mut latter) = ((1, 0), (random.between(0, 2), 1));
    for _ in 0..random.between(1, 70) {
        let quotient = random.between(1, largest_quotient);
        let next = (
            quotient * latter.0 + former.0,
            quotient * latter.1 + former.1,
        );
        if next.0.max(next.1) > most {
            break;
        }
        (former, latter) = (latter, next);
    }
    (former, latter)
}

/// Gives row `i` this residual and reach for the trial that is 1 in the first tank and 0 in all others.
fn set_factor(figures: &mut Figures, i: usize, residual: i64, reach: i64) {
    let unit = figures.unit();
    figures.right_sides[i] = residual / unit;
    figures.coefficients[i][0] = -(residual % unit);
    figures.right_tolerances[i] = reach / unit;
    figures.tolerances[i][0] = reach % unit;
}

/// Makes the first two tanks nearly dependent, so that the second pivot's rounding error is as large as the pivot, and the first round's
/// answer nearly the largest allowed. Later corrections then overshoot: they can pass the answer's limit while the new answer does not.
pub fn overshooting(figures: &mut Figures, random: &mut Random) {
    let pivot = random.between(20_000, 32_767);
    let beside = random.between(20_000, pivot);
    let below = random.between(1, pivot);
    let last = rounded(below as f64 * beside as f64 / pivot as f64);
    let multiplier = rounded(16_384.0 * below as f64 / pivot as f64);
    let second_pivot = last as f64 - multiplier as f64 * beside as f64 / 16_384.0;
    let first_answer = random.between(MOST_ANSWER / 2, MOST_ANSWER) as f64;

    *figures = Figures {
        n: figures.n.max(2),
        exponent: figures.exponent,
        rounds: random.between(2, MOST_ROUNDS as i64) as usize,
        ..Figures::default()
    };
    for i in 2..figures.n {
        figures.coefficients[i][i] = random.between(1, 99);
    }
    figures.coefficients[0][..2].copy_from_slice(&[pivot, beside]);
    figures.coefficients[1][..2].copy_from_slice(&[below, last]);
    figures.right_sides[1] = rounded(first_answer * second_pivot / figures.unit() as f64);
    let place = random.below(figures.n);
    figures.coefficients.swap(0, place);
    figures.right_sides.swap(0, place);
}

/// The second round of this case takes the second answer figure from one limit to the other, by the largest correction allowed. A slightly
/// different right side leads just beyond.
pub fn largest_correction(figures: &mut Figures, random: &mut Random) {
    let sign = random.pick(&[1, -1]);
    let most_change = random.pick(&[0, 500]);
    *figures = Figures {
        n: 2,
        rounds: random.between(2, MOST_ROUNDS as i64) as usize,
        ..Figures::default()
    };
    figures.coefficients[0][..2].copy_from_slice(&[29_539, 21_583]);
    figures.coefficients[1][..2].copy_from_slice(&[103, 75]);
    figures.right_sides[0] = sign * (362_747_091 + random.within(most_change));
    figures.right_sides[1] = sign * 402_624;
}

/// Makes the first two rows multiples of one, but not quite their right sides. What rounding leaves of a pivot leads each round further on,
/// to an answer of its own with a factor of its own, and the best may be any.
pub fn dependent_rows(figures: &mut Figures, random: &mut Random) {
    let n = figures.n.max(2);
    *figures = Figures {
        n,
        exponent: figures.exponent,
        rounds: figures.rounds,
        coefficients: coefficients(Style::Full, n, random),
        right_tolerances: [1; MOST_TANKS],
        ..Figures::default()
    };
    let common = figures.coefficients[0].map(|coefficient| coefficient / 7);
    figures.coefficients[0] = common.map(|coefficient| 7 * coefficient);
    figures.coefficients[1] = common.map(|coefficient| 3 * coefficient);
    let tonnes = [(); MOST_TANKS].map(|_| random.within(3000));
    for i in 0..n {
        figures.right_sides[i] = moment(&figures.coefficients[i], &tonnes) + random.within(9);
    }
}

/// Pairs of tanks whose rounds lead to and fro for ever between two answers, and single tanks with an answer on a half, which stays from the
/// first round on. The two answers have equal factors or not, or one of the two has none.
pub fn on_halves(figures: &mut Figures, random: &mut Random) {
    let n = figures.n;
    *figures = Figures {
        n,
        rounds: figures.rounds,
        ..Figures::default()
    };
    let (least, most) = random.pick(&[(0, 0), (0, 2), (1, 1)]);
    let mut i = 0;
    while i < n {
        let paired = i + 1 < n && !random.one_in(4);
        let count = if paired { 2 } else { 1 };
        if paired {
            to_and_fro(figures, i, random);
        } else {
            on_a_half(figures, i, random);
        }
        for row in i..i + count {
            figures.tolerances[row][i + random.below(count)] = random.between(least, most);
            figures.right_tolerances[row] = random.between(1, 2);
            figures.trial[row] = random.within(4);
        }
        i += count;
    }
    // Only without a tolerance of its right side can a row have no factor.
    if random.one_in(2) {
        figures.right_tolerances[random.below(n)] = 0;
    }
}

/// Row `i`: this tank alone, and an answer on a half.
fn on_a_half(figures: &mut Figures, i: usize, random: &mut Random) {
    let half = random.between(1, 9);
    figures.coefficients[i][i] = 2 * half * random.pick(&[1, -1]);
    figures.right_sides[i] = half * random.pick(&[1, -1, 3, -3, 5, -7]);
}

/// Rows `i` and the next: 4 x + y is twice an odd number, or a multiple of both sides, and x is odd. The forward pass and x's correction
/// fall on halves, so that x is even in each round and misses its row by 1, from either side in turn.
fn to_and_fro(figures: &mut Figures, i: usize, random: &mut Random) {
    let multiple = random.pick(&[1, 2, 4, 8]);
    figures.coefficients[i][i] = 4 * multiple * random.pick(&[1, -1]);
    figures.coefficients[i][i + 1] = multiple * random.pick(&[1, -1]);
    figures.right_sides[i] = 2 * multiple * random.pick(&[1, -1, 3, -3, 5, -7]);
    figures.coefficients[i + 1][i] = random.pick(&[1, -1]);
    figures.right_sides[i + 1] = random.pick(&[1, 1, -1, -1, 3, -5]);
}

/// Multipliers, losses and the forward pass on halves. The first pivot is 16,384, so that the coefficients below it, which are odd, are the
/// first multipliers. The first step's losses are these times multiples of 32, divided by 64, and the forward pass begins with them times
/// multiples of 8,192, divided by 16,384. The second pivot is 2^15 as a working number, with odd ones below it, whose multipliers are on a
/// half. The first step has no such multiplier, as no coefficient reaches 2^15.
pub fn elimination_on_halves(figures: &mut Figures, random: &mut Random) {
    let n = figures.n.max(3);
    *figures = Figures {
        n,
        rounds: random.between(1, MOST_ROUNDS as i64) as usize,
        coefficients: table(n, |_, _| random.within(99)),
        right_sides: [(); MOST_TANKS].map(|_| 8192 * random.within(499)),
        right_tolerances: figures.right_tolerances,
        ..Figures::default()
    };
    figures.coefficients[0] = [(); MOST_TANKS].map(|_| 32 * random.within(9));
    figures.coefficients[0][0] = 16_384 * random.pick(&[1, -1]);
    figures.coefficients[0][1] = 64 * (2 * random.within(4) + 1);
    figures.coefficients[1][0] = 0;
    figures.coefficients[1][1] = 128 * random.pick(&[1, -1]);
    for row in &mut figures.coefficients[2..n] {
        row[0] = 2 * random.within(9) + 1;
    }
    let place = random.below(n);
    figures.coefficients.swap(0, place);
    figures.right_sides.swap(0, place);
}

fn rounded(value: f64) -> i64 {
    value.round() as i64
}
