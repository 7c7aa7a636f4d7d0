//! Coefficients in many styles, each of which leads the elimination somewhere else.

use crate::figures::{Table, MOST_COEFFICIENT};
use crate::random::Random;
use crate::twin::MOST_TANKS;

#[derive(Clone, Copy)]
pub enum Style {
    /// Up to 9: quotients often end in a half.
    Small,
    Full,
    /// One large entry in each row and column, in any place, as in real moment equations.
    Dominant,
    /// One row is a sum of two others but for one figure: pivots become small, and corrections large.
    NearlySingular,
    /// One row is a multiple of another.
    Singular,
    /// A small rank and a little noise: several pivots are small.
    Noise,
    /// Every entry has the same size: the uppermost of equals must be chosen.
    Ties,
    /// A row or a column of zeros.
    Zeros,
    Triangular,
    /// Only zero, one and the limits.
    Limits,
    PowersOfTwo,
    /// Mostly zeros.
    Sparse,
}

pub const STYLES: [Style; 12] = [
    Style::Small,
    Style::Full,
    Style::Dominant,
    Style::NearlySingular,
    Style::Singular,
    Style::Noise,
    Style::Ties,
    Style::Zeros,
    Style::Triangular,
    Style::Limits,
    Style::PowersOfTwo,
    Style::Sparse,
];

pub fn coefficients(style: Style, n: usize, random: &mut Random) -> Table {
    match style {
        Style::Small => table(n, |_, _| random.within(9)),
        Style::Full => table(n, |_, _| random.within(MOST_COEFFICIENT)),
        Style::Dominant => dominant(n, random),
        Style::NearlySingular => nearly_singular(n, random),
        Style::Singular => singular(n, random),
        Style::Noise => noise(n, random),
        Style::Ties => ties(n, random),
        Style::Zeros => zeros(n, random),
        Style::Triangular => triangular(n, random),
        Style::Limits => table(n, |_, _| {
            random.pick(&[0, 1, -1, MOST_COEFFICIENT, -MOST_COEFFICIENT])
        }),
        Style::PowersOfTwo => table(n, |_, _| random.pick(&[1, -1]) << random.below(15)),
        Style::Sparse => table(n, |_, _| {
            if random.one_in(3) {
                random.within(999)
            } else {
                0
            }
        }),
    }
}

/// The table with the given entries in its first `n` rows and columns.
pub fn table(n: usize, mut entry: impl FnMut(usize, usize) -> i64) -> Table {
    let mut table = Table::default();
    for (i, row) in table[..n].iter_mut().enumerate() {
        for (j, figure) in row[..n].iter_mut().enumerate() {
            *figure = entry(i, j);
        }
    }
    table
}

fn shuffle_rows(table: &mut Table, n: usize, random: &mut Random) {
    for i in 1..n {
        table.swap(i, random.below(i + 1));
    }
}

fn dominant(n: usize, random: &mut Random) -> Table {
    let mut result = table(n, |i, j| {
        if i == j {
            random.between(600, 800)
        } else {
            random.within(100)
        }
    });
    shuffle_rows(&mut result, n, random);
    result
}

fn nearly_singular(n: usize, random: &mut Random) -> Table {
    let most = random.pick(&[9, 999, MOST_COEFFICIENT / 2]);
    let mut result = table(n, |_, _| random.within(most));
    let (target, first, second) = (random.below(n), random.below(n), random.below(n));
    result[target] = std::array::from_fn(|j| result[first][j] + result[second][j]);
    result[target][random.below(n)] += random.pick(&[-1, 1]);
    result
}

fn singular(n: usize, random: &mut Random) -> Table {
    let most = random.pick(&[9, 999, MOST_COEFFICIENT / 4]);
    let mut result = table(n, |_, _| random.within(most));
    let (target, source, multiple) = (random.below(n), random.below(n), random.within(4));
    result[target] = result[source].map(|figure| multiple * figure);
    result
}

fn noise(n: usize, random: &mut Random) -> Table {
    let most = random.pick(&[9, 99, 180]);
    let mut left = [0; MOST_TANKS];
    let mut right = [0; MOST_TANKS];
    for figure in left.iter_mut().chain(&mut right) {
        *figure = random.within(most);
    }
    let most_noise = random.between(1, 5);
    table(n, |i, j| left[i] * right[j] + random.within(most_noise))
}

fn ties(n: usize, random: &mut Random) -> Table {
    let size = random.between(1, MOST_COEFFICIENT);
    table(n, |_, _| random.pick(&[size, -size]))
}

fn zeros(n: usize, random: &mut Random) -> Table {
    let zero = random.below(n);
    let in_row = random.one_in(2);
    table(n, |i, j| {
        if zero == (if in_row { i } else { j }) {
            0
        } else {
            random.within(99)
        }
    })
}

fn triangular(n: usize, random: &mut Random) -> Table {
    let most = random.pick(&[9, 999, MOST_COEFFICIENT]);
    let upper = random.one_in(2);
    let mut result = table(n, |i, j| {
        if i != j && (i < j) != upper {
            0
        } else {
            random.within(most)
        }
    });
    if random.one_in(2) {
        shuffle_rows(&mut result, n, random);
    }
    result
}
