//! Inputs that are no case, or no longer the case they were.

use crate::figures::{Figures, MOST_ANSWER, MOST_COEFFICIENT, MOST_RIGHT_SIDE};
use crate::random::Random;

/// Bytes near the given case; now and then they are still a case.
pub fn spoiled(figures: &Figures, random: &mut Random) -> Vec<u8> {
    let mut bytes = figures.encode();
    match random.below(12) {
        0..5 => spoil_byte(&mut bytes, &[0, 1, 2, 3, 0xFF], random),
        5 => append(&mut bytes, random),
        6 => change_tag(&mut bytes, random),
        7 => change_length(&mut bytes, random),
        8 => change_head(&mut bytes, random),
        9 => move_field(&mut bytes, random),
        10 => return beyond_limits(figures, random).encode(),
        _ => return noise(random),
    }
    bytes
}

/// Changes, inserts or removes a byte, or cuts off what begins there. Inserted bytes are chosen from those that have a meaning.
pub fn spoil_byte(bytes: &mut Vec<u8>, meaningful: &[u8], random: &mut Random) {
    match random.below(5) {
        0 => bytes.truncate(random.below(bytes.len())),
        1 => *any_byte(bytes, random) = random.byte(),
        2 => *any_byte(bytes, random) ^= 1 << random.below(8),
        3 => bytes.insert(random.below(bytes.len() + 1), random.pick(meaningful)),
        _ => drop(bytes.remove(random.below(bytes.len()))),
    }
}

fn any_byte<'a>(bytes: &'a mut [u8], random: &mut Random) -> &'a mut u8 {
    &mut bytes[random.below(bytes.len())]
}

fn append(bytes: &mut Vec<u8>, random: &mut Random) {
    let count = random.pick(&[1, 2, 3, 4, 100, 1000]);
    let end_field = [0xFF, 0, 0];
    let random_bytes = random.one_in(2);
    bytes.extend((0..count).map(|at| {
        if random_bytes {
            random.byte()
        } else {
            end_field[at % 3]
        }
    }));
}

/// Where the fields of a sound case start.
fn field_starts(bytes: &[u8]) -> Vec<usize> {
    let mut starts = vec![];
    let mut at = 0;
    while at < bytes.len() {
        starts.push(at);
        at += 3 + usize::from(u16::from_be_bytes([bytes[at + 1], bytes[at + 2]]));
    }
    starts
}

fn any_field(bytes: &[u8], random: &mut Random) -> usize {
    random.pick(&field_starts(bytes))
}

fn change_tag(bytes: &mut [u8], random: &mut Random) {
    let start = any_field(bytes, random);
    bytes[start] = random.pick(&[0, 1, 2, 3, 4, 0x10, 0x82, 0xFE, 0xFF]);
}

fn change_length(bytes: &mut [u8], random: &mut Random) {
    let start = any_field(bytes, random);
    let length = &mut bytes[start + 1..start + 3];
    match random.below(4) {
        0 => length[1] = length[1].wrapping_add(random.pick(&[1, 2, 4, 8, 0xFF, 0xFE, 0xFC])),
        1 => length[0] = random.pick(&[1, 2, 0x80, 0xFF]),
        2 => length.swap(0, 1),
        _ => length.copy_from_slice(&[random.byte(), random.byte()]),
    }
}

/// Another n, e or K, while the rest of the case stays as it is.
fn change_head(bytes: &mut [u8], random: &mut Random) {
    bytes[3 + random.below(3)] = random.pick(&[0, 1, 2, 3, 4, 5, 7, 8, 9, 10, 0x80, 0xFF]);
}

/// Removes a field, and perhaps puts it in once or twice elsewhere.
fn move_field(bytes: &mut Vec<u8>, random: &mut Random) {
    let start = any_field(bytes, random);
    let length = 3 + usize::from(bytes[start + 2]);
    let field: Vec<u8> = bytes.drain(start..start + length).collect();
    for _ in 0..random.below(3) {
        let place = if bytes.is_empty() {
            0
        } else {
            any_field(bytes, random)
        };
        bytes.splice(place..place, field.iter().copied());
    }
}

/// One figure outside its limits, mostly by one.
fn beyond_limits(figures: &Figures, random: &mut Random) -> Figures {
    let mut figures = figures.clone();
    let n = figures.n;
    let (i, j) = (random.below(n), random.below(n));
    match random.below(if figures.rounds == 0 { 6 } else { 5 }) {
        0 => figures.coefficients[i][j] = -MOST_COEFFICIENT - 1,
        1 => {
            figures.tolerances[i][j] =
                random.pick(&[MOST_COEFFICIENT + 1, MOST_COEFFICIENT + 2, 0xFFFF])
        }
        2 => {
            figures.right_sides[i] =
                random.pick(&[1, -1]) * (MOST_RIGHT_SIDE + random.pick(&[1, 2, 1_000_000_000]))
        }
        3 => figures.right_tolerances[i] = MOST_RIGHT_SIDE + random.pick(&[1, 2, 0xC000_0000]),
        4 => figures.exponent = random.pick(&[4, 5, 0xFF]),
        _ => {
            figures.trial[i] =
                random.pick(&[1, -1]) * (MOST_ANSWER + random.pick(&[1, 2, 2_000_000_000]))
        }
    }
    figures
}

/// No case at all: nothing, random bytes, or random bytes behind a sound head.
fn noise(random: &mut Random) -> Vec<u8> {
    let count = random.pick(&[0, 1, 2, 3, 4, 8, 50, 389]);
    let mut bytes = if random.one_in(2) {
        vec![
            0x01,
            0,
            3,
            1 + random.below(8) as u8,
            random.below(4) as u8,
            random.below(9) as u8,
        ]
    } else {
        vec![]
    };
    bytes.extend((0..count).map(|_| random.byte()));
    bytes
}
