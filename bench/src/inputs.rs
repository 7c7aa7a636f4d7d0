//! Inputs for the differential test: sound cases of every kind, and spoiled ones.

use crate::coefficients::{coefficients, table, Style, STYLES};
use crate::corners::{
    dependent_rows, elimination_on_halves, largest_correction, neighbouring_factors, on_halves,
    overshooting,
};
use crate::entries::near_entries;
use crate::figures::{
    Figures, List, Table, MOST_ANSWER, MOST_COEFFICIENT, MOST_EXPONENT, MOST_RIGHT_SIDE,
    MOST_ROUNDS,
};
use crate::random::Random;
use crate::spoiling::spoiled;
use crate::twin::MOST_TANKS;

/// A call's input, and the lengths of the result buffers that it gets, for a record and for soundings.
pub struct Input {
    pub bytes: Vec<u8>,
    pub room: usize,
    pub soundings_room: usize,
}

pub fn input(random: &mut Random) -> Input {
    let figures = figures(random);
    let bytes = if random.one_in(4) {
        spoiled(&figures, random)
    } else {
        figures.encode()
    };
    Input {
        bytes,
        room: room(random),
        soundings_room: soundings_room(random),
    }
}

/// One buffer in sixteen is too short, so that most inputs reach the later refusals.
fn room(random: &mut Random) -> usize {
    if random.one_in(16) {
        random.pick(&[0, 1, 20, 40, 100, 178, 179])
    } else {
        random.pick(&[180, 180, 181, 182, 200, 256, 388, 400])
    }
}

/// Short as often as a record's.
fn soundings_room(random: &mut Random) -> usize {
    if random.one_in(16) {
        random.pick(&[0, 1, 2, 4, 8, 14, 15, 15])
    } else {
        random.pick(&[16, 16, 17, 18, 19, 20, 32, 180])
    }
}

/// The figures of a sound case.
fn figures(random: &mut Random) -> Figures {
    let mut figures = any_figures(random);
    match random.below(64) {
        0..4 => neighbouring_factors(&mut figures, random),
        4..8 => overshooting(&mut figures, random),
        8 => largest_correction(&mut figures, random),
        9..25 => fill_reference_tanks(&mut figures, random),
        25..29 => dependent_rows(&mut figures, random),
        29..33 => on_halves(&mut figures, random),
        33..35 => elimination_on_halves(&mut figures, random),
        _ => {}
    }
    figures
}

fn any_figures(random: &mut Random) -> Figures {
    let n = 1 + random.below(MOST_TANKS);
    let mut figures = Figures {
        n,
        exponent: random.below(MOST_EXPONENT + 1),
        rounds: if random.one_in(4) {
            0
        } else {
            random.below(MOST_ROUNDS + 1)
        },
        coefficients: coefficients(random.pick(&STYLES), n, random),
        tolerances: tolerances(n, random),
        right_tolerances: right_tolerances(n, random),
        ..Figures::default()
    };
    let answer = hidden_answer(n, random);
    figures.right_sides = right_sides(&figures, &answer, random);
    if figures.rounds == 0 {
        figures.trial = trial(&answer, n, random);
        if random.one_in(2) {
            relate_two_rows(&mut figures, random);
        }
    }
    figures
}

/// Gives the case an answer near the reference tank's entries. Half of the cases get coefficients by which the rounds find it.
fn fill_reference_tanks(figures: &mut Figures, random: &mut Random) {
    if random.one_in(2) {
        figures.coefficients = coefficients(Style::Dominant, figures.n, random);
    }
    let answer = near_entries(figures.n, figures.unit(), random);
    figures.right_sides = moments(figures, &answer, random);
    figures.trial = answer;
}

fn list(n: usize, mut entry: impl FnMut() -> i64) -> List {
    let mut list = List::default();
    list[..n].fill_with(&mut entry);
    list
}

fn tolerances(n: usize, random: &mut Random) -> Table {
    match random.below(6) {
        0 | 1 => Table::default(),
        2 => table(n, |_, _| random.between(0, 3)),
        3 => table(n, |_, _| random.between(0, MOST_COEFFICIENT)),
        4 => table(n, |_, _| random.pick(&[0, 0, 1, MOST_COEFFICIENT])),
        _ => {
            let zero_row = random.below(n);
            table(n, |i, _| {
                if i == zero_row {
                    0
                } else {
                    random.between(0, 9)
                }
            })
        }
    }
}

fn right_tolerances(n: usize, random: &mut Random) -> List {
    let most = random.pick(&[0, 0, 1, 3, 1000, 1_000_000, MOST_RIGHT_SIDE]);
    if random.one_in(6) {
        return list(n, || random.pick(&[0, 1, MOST_RIGHT_SIDE]));
    }
    list(n, || random.between(0, most))
}

/// An answer from which right sides can be made, so that the rounds have something to find.
fn hidden_answer(n: usize, random: &mut Random) -> List {
    const LIMITS: [i64; 4] = [0, 1, MOST_ANSWER - 1, MOST_ANSWER];
    let most = random.pick(&[0, 10, 1000, 100_000, MOST_ANSWER]);
    if random.one_in(8) {
        return list(n, || random.pick(&[1, -1]) * random.pick(&LIMITS));
    }
    list(n, || random.within(most))
}

fn right_sides(figures: &Figures, answer: &List, random: &mut Random) -> List {
    const LIMITS: [i64; 6] = [
        0,
        1,
        MOST_ANSWER,
        MOST_ANSWER + 1,
        2 * MOST_ANSWER,
        MOST_RIGHT_SIDE,
    ];
    let n = figures.n;
    match random.below(8) {
        0 => list(n, || random.within(MOST_RIGHT_SIDE)),
        1 => list(n, || random.within(99)),
        2 => list(n, || random.pick(&[1, -1]) * random.pick(&LIMITS)),
        3 => list(n, || random.within(MOST_ANSWER)),
        _ => moments(figures, answer, random),
    }
}

/// The right sides that the answer solves, where they are whole and within their limits, and near them otherwise.
fn moments(figures: &Figures, answer: &List, random: &mut Random) -> List {
    let most_error = random.pick(&[0, 0, 0, 1, 100]);
    let mut moments = List::default();
    for (moment, row) in moments[..figures.n].iter_mut().zip(&figures.coefficients) {
        let sum: i64 = row
            .iter()
            .zip(answer)
            .map(|(coefficient, y)| coefficient * y)
            .sum();
        *moment = (sum / figures.unit() + random.within(most_error))
            .clamp(-MOST_RIGHT_SIDE, MOST_RIGHT_SIDE);
    }
    moments
}

fn trial(answer: &List, n: usize, random: &mut Random) -> List {
    match random.below(6) {
        0 => list(n, || random.within(MOST_ANSWER)),
        1 => list(n, || random.pick(&[0, 1, -1, MOST_ANSWER, -MOST_ANSWER])),
        2 => List::default(),
        3 => answer.map(|y| (y + random.within(2)).clamp(-MOST_ANSWER, MOST_ANSWER)),
        _ => *answer,
    }
}

/// Makes one row a multiple of another with its tolerances, so that their factors are equal, and then perhaps changes one figure a little,
/// so that they are nearly equal.
fn relate_two_rows(figures: &mut Figures, random: &mut Random) {
    let (source, target) = (random.below(figures.n), random.below(figures.n));
    let multiple = random.pick(&[1, 1, 2, 3, -1, -2]);
    figures.coefficients[target] = figures.coefficients[source].map(|figure| multiple * figure);
    figures.tolerances[target] = figures.tolerances[source].map(|figure| multiple.abs() * figure);
    figures.right_sides[target] = multiple * figures.right_sides[source];
    figures.right_tolerances[target] = multiple.abs() * figures.right_tolerances[source];
    let change = random.pick(&[-1, 1]);
    match random.below(6) {
        0 => figures.right_sides[target] += change,
        1 => figures.right_tolerances[target] += change,
        2 => figures.tolerances[target][0] += change,
        _ => {}
    }
    figures.limit_row(target);
}
