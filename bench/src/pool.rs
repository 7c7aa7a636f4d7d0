//! Cases for measuring: sound, refused by neither contestant, and with a known number of rounds.

use crate::coefficients::{coefficients, table, Style};
use crate::corners::dependent_rows;
use crate::entries::MOST_TONNES;
use crate::figures::{moment, Figures, MOST_RIGHT_SIDE, MOST_ROUNDS};
use crate::random::Random;
use crate::twin::{self, MOST_TANKS, RECORD_ROOM, SOUNDINGS_ROOM};

pub const POOL_SIZE: usize = 256;
/// The numbers of tanks and rounds that are measured.
pub const TANKS: [usize; 4] = [1, 2, 4, 8];
pub const ROUNDS: [usize; 3] = [0, 1, 8];
pub const SOUNDINGS_ROUNDS: [usize; 2] = [0, 1];
/// One tank's answer stays from the first round on, so that there is nothing to rank.
pub const RANKED_TANKS: [usize; 3] = [2, 4, 8];

/// The length of a record's first field, which says how many rounds are used.
const HEAD_LENGTH: usize = 6;

/// What the pools hold, for a reader of the figures.
pub const DESCRIPTION: &str = "\
Cases: half with one large coefficient in each row and column, half with coefficients from the full range; 0 to 3 decimals.
K = 0 judges the trial that 8 rounds work out; K = 1 has one round; both have tolerances from zero to small.
K = 8 really uses all 8 rounds: the tolerances are zero, or 1 on the right side only, and no round's answer is met. Half of these cases
have no factor in any round, and in most others all rounds from the second or third on have the same answer. For rank two rows are
dependent: every round has a factor and nearly every one an answer of its own, and the best is neither the first nor the last.
For soundings every answer is one that the reference tank holds, from 0 to 520 tonnes.";

pub struct Entry {
    pub figures: Figures,
    pub bytes: Vec<u8>,
}

/// The pool of one cell; it depends on nothing but these three numbers.
pub fn pool(n: usize, rounds: usize, seed: u64) -> Vec<Entry> {
    let mut random = cell_random(n, rounds, seed);
    filled(|place| accepted(candidate(n, rounds, place, &mut random)))
}

/// The pool of one cell for soundings; it depends on nothing but these three numbers.
pub fn soundings_pool(n: usize, rounds: usize, seed: u64) -> Vec<Entry> {
    let mut random = cell_random(n, rounds, seed);
    filled(|place| {
        let mut figures = candidate(n, rounds, place, &mut random);
        let tonnes = [(); MOST_TANKS].map(|_| random.between(0, MOST_TONNES));
        for i in 0..n {
            figures.right_sides[i] = moment(&figures.coefficients[i], &tonnes);
        }
        accepted(figures)
            .filter(|entry| twin::soundings(&entry.bytes, &mut [0; SOUNDINGS_ROOM]).is_ok())
    })
}

/// The pool of one cell for ranking, with all rounds; it depends on nothing but these two numbers.
pub fn ranked_pool(n: usize, seed: u64) -> Vec<Entry> {
    let mut random = cell_random(n, MOST_ROUNDS, seed);
    filled(|_| {
        let mut figures = Figures {
            n,
            rounds: MOST_ROUNDS,
            exponent: random.below(4),
            ..Figures::default()
        };
        dependent_rows(&mut figures, &mut random);
        accepted(figures).filter(best_in_between)
    })
}

fn cell_random(n: usize, rounds: usize, seed: u64) -> Random {
    Random::new(seed ^ ((n as u64) << 32) ^ ((rounds as u64) << 40))
}

/// As many entries as a pool has, each for its place; what yields none is tried again.
fn filled(mut entry: impl FnMut(usize) -> Option<Entry>) -> Vec<Entry> {
    let mut entries = Vec::with_capacity(POOL_SIZE);
    while entries.len() < POOL_SIZE {
        entries.extend(entry(entries.len()));
    }
    entries
}

fn candidate(n: usize, rounds: usize, place: usize, random: &mut Random) -> Figures {
    let style = [Style::Dominant, Style::Full][place % 2];
    let mut figures = Figures {
        n,
        rounds,
        exponent: random.below(4),
        coefficients: coefficients(style, n, random),
        ..Figures::default()
    };
    for i in 0..n {
        figures.right_sides[i] = right_side(&figures.coefficients[i], random);
    }
    if rounds == MOST_ROUNDS {
        figures.right_tolerances = [(place / 2 % 2) as i64; MOST_TANKS];
    } else {
        figures.right_tolerances = [(); MOST_TANKS].map(|_| random.between(0, 50));
        figures.tolerances = table(n, |_, _| random.between(0, 2));
    }
    figures
}

/// Whether the best trial of the rounds is neither the first nor the last. A trial that is not kept leaves the record as it was.
fn best_in_between(entry: &Entry) -> bool {
    let [first, former, last] = [1, MOST_ROUNDS - 1, MOST_ROUNDS].map(|rounds| {
        let figures = Figures {
            rounds,
            ..entry.figures.clone()
        };
        record(&figures.encode()).map(|record| record[HEAD_LENGTH..].to_vec())
    });
    first != former && former == last
}

/// A moment of up to about 3,000 tonnes in each tank.
fn right_side(coefficients: &[i64], random: &mut Random) -> i64 {
    let sum: i64 = coefficients
        .iter()
        .map(|coefficient| coefficient * random.within(3000))
        .sum();
    (sum + random.within(99)).clamp(-MOST_RIGHT_SIDE, MOST_RIGHT_SIDE)
}

/// The candidate with its trial, if it brings one, provided that it is finished in the way the description says.
fn accepted(mut figures: Figures) -> Option<Entry> {
    let wanted = figures.rounds;
    if wanted == 0 {
        figures.rounds = MOST_ROUNDS;
        let record = record(&figures.encode())?;
        for (i, bytes) in record[9..].chunks_exact(4).take(figures.n).enumerate() {
            let figure = i32::from_be_bytes([bytes[0], bytes[1], bytes[2], bytes[3]]);
            figures.trial[i] = i64::from(figure);
        }
        figures.rounds = 0;
    }
    let bytes = figures.encode();
    let [.., met, _, used] = record(&bytes)?[..HEAD_LENGTH] else {
        return None;
    };
    let fits = usize::from(used) == wanted && (met == 0 || wanted < MOST_ROUNDS);
    fits.then_some(Entry { figures, bytes })
}

fn record(case: &[u8]) -> Option<[u8; RECORD_ROOM]> {
    let mut out = [0; RECORD_ROOM];
    twin::judge_case(case, &mut out).ok()?;
    Some(out)
}
