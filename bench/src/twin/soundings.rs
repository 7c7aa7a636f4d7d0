//! Depths in the reference tank.

use super::{Refusal, MOST_TANKS, OUTSIDE_TABLE};

/// Every whole number of centimetres from 0 to 400.
const DEPTHS: usize = 401;
/// An entry is (900 + h) × h, so none is above this many kilograms a centimetre.
const MOST_PER_CENTIMETRE: i64 = 1300;
const KILOGRAMS_IN_TONNE: i64 = 1000;

/// What the reference tank holds at each depth, in kilograms.
static TABLE: [i64; DEPTHS] = table();

const fn table() -> [i64; DEPTHS] {
    let mut table = [0; DEPTHS];
    let mut depth = 0;
    while depth < DEPTHS {
        let h = depth as i64;
        table[depth] = 900 * h + h * h;
        depth += 1;
    }
    table
}

/// The bytes that the depths of `n` tanks take.
pub const fn length(n: usize) -> usize {
    2 * n
}

/// Writes the depths of these answer figures to the front of `out`, which has room for them, and returns their length. Every depth is
/// found before the first is written, since a refusal leaves `out` as it was.
pub fn write(figures: &[i64], unit: i64, out: &mut [u8]) -> Result<usize, Refusal> {
    let mut depths = [0; MOST_TANKS];
    for (depth, &y) in depths.iter_mut().zip(figures) {
        *depth = find_depth(y, unit)?;
    }
    let out = &mut out[..length(figures.len())];
    for (bytes, depth) in out.chunks_exact_mut(2).zip(depths) {
        bytes.copy_from_slice(&depth.to_be_bytes());
    }
    Ok(out.len())
}

/// The greatest depth whose entry is not above `y` parts of a tonne, of which `unit` make one. Weights are compared in kilograms times
/// `unit`, so that all are whole.
fn find_depth(y: i64, unit: i64) -> Result<u16, Refusal> {
    let weight = KILOGRAMS_IN_TONNE * y;
    if y < 0 || weight > unit * TABLE[DEPTHS - 1] {
        return Err(OUTSIDE_TABLE);
    }
    // The entry at this depth is not above the weight, and from there the depth only has to climb.
    let start = (weight / (unit * MOST_PER_CENTIMETRE)) as usize;
    let fits = |entry: &&i64| unit * **entry <= weight;
    let climbed = TABLE[start + 1..].iter().take_while(fits).count();
    Ok((start + climbed) as u16)
}

#[cfg(test)]
mod tests {
    use super::*;

    #[test]
    fn entries_of_the_table() {
        for (depth, entry) in [
            (0, 0),
            (1, 901),
            (2, 1804),
            (7, 6349),
            (100, 100_000),
            (399, 518_301),
            (400, 520_000),
        ] {
            assert_eq!(TABLE[depth], entry, "{depth}");
        }
        for (h, entry) in (0..).zip(TABLE) {
            assert_eq!(entry, h * (900 + h));
            assert!(entry <= h * MOST_PER_CENTIMETRE);
        }
    }

    #[test]
    fn a_depth_begins_at_its_entry() {
        for (depth, entry) in (0..).zip(TABLE) {
            assert_eq!(find_depth(entry, 1000), Ok(depth));
            if depth > 0 {
                assert_eq!(find_depth(entry - 1, 1000), Ok(depth - 1));
            }
        }
    }
}
