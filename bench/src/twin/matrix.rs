//! Matrix Market texts of coefficients, in the array form.

use super::reading::MOST_COEFFICIENT;
use super::{
    Refusal, MOST_TANKS, OUTSIDE_LIMITS, WRONG_LENGTH, WRONG_MATRIX_ENTRY, WRONG_MATRIX_HEADER,
};
use std::io::Write;

const FIRST_LINE: &str = "%%MatrixMarket matrix array integer general";
const MOST_DIGITS: usize = 5;

/// The coefficients of the most tanks.
pub const PLACES: usize = MOST_TANKS * MOST_TANKS;
/// The longest text that is written. Every line has its line feed.
pub const ROOM: usize =
    FIRST_LINE.len() + 1 + "8 8\n".len() + PLACES * ("-".len() + MOST_DIGITS + 1);

/// Leaves the text's coefficients at the front of `places`, which has room for them, and returns their n. All are read before the first is
/// left, since a refusal leaves `places` as it was.
pub fn read(text: &[u8], places: &mut [i16]) -> Result<usize, Refusal> {
    let mut lines = Lines { rest: text };
    let n = read_header(&mut lines).ok_or(WRONG_MATRIX_HEADER)?;
    let mut coefficients = [0; PLACES];
    read_entries(&mut lines, n, &mut coefficients).ok_or(WRONG_MATRIX_ENTRY)?;
    places[..n * n].copy_from_slice(&coefficients[..n * n]);
    Ok(n)
}

/// Writes the coefficients' text to the front of `out`, which has room for it, and returns its length.
pub fn write(n: usize, coefficients: &[i16], out: &mut [u8]) -> Result<usize, Refusal> {
    if !(1..=MOST_TANKS).contains(&n) {
        return Err(OUTSIDE_LIMITS);
    }
    if coefficients.len() != n * n {
        return Err(WRONG_LENGTH);
    }
    if coefficients
        .iter()
        .any(|coefficient| coefficient.unsigned_abs() > MOST_COEFFICIENT)
    {
        return Err(OUTSIDE_LIMITS);
    }
    Ok(write_lines(n, coefficients, out).expect("the buffer has room for the longest text"))
}

fn write_lines(n: usize, coefficients: &[i16], out: &mut [u8]) -> std::io::Result<usize> {
    let room = out.len();
    let mut rest = out;
    writeln!(rest, "{FIRST_LINE}")?;
    writeln!(rest, "{n} {n}")?;
    for column in 0..n {
        for row in coefficients.chunks_exact(n) {
            writeln!(rest, "{}", row[column])?;
        }
    }
    Ok(room - rest.len())
}

/// The lines of a text that are still to be taken from the front.
struct Lines<'a> {
    rest: &'a [u8],
}

impl<'a> Lines<'a> {
    /// The next line, without the line feed that ends it.
    fn take(&mut self) -> Option<&'a [u8]> {
        let end = self.rest.iter().position(|&byte| byte == b'\n')?;
        let line = &self.rest[..end];
        self.rest = &self.rest[end + 1..];
        Some(line)
    }
}

/// The first line, the comments and the size line.
fn read_header(lines: &mut Lines) -> Option<usize> {
    if lines.take()? != FIRST_LINE.as_bytes() {
        return None;
    }
    let mut line = lines.take()?;
    while line.starts_with(b"%") {
        line = lines.take()?;
    }
    read_size(line)
}

/// The digit n twice, with spaces between.
fn read_size(line: &[u8]) -> Option<usize> {
    let [rows, spaces @ .., columns] = line else {
        return None;
    };
    let n = usize::from(rows.checked_sub(b'0')?);
    let square = rows == columns && (1..=MOST_TANKS).contains(&n);
    let separated = !spaces.is_empty() && spaces.iter().all(|&byte| byte == b' ');
    (square && separated).then_some(n)
}

/// The entries stand column after column, and the coefficients row after row.
fn read_entries(lines: &mut Lines, n: usize, coefficients: &mut [i16; PLACES]) -> Option<()> {
    for column in 0..n {
        for row in 0..n {
            coefficients[n * row + column] = read_entry(lines.take()?)?;
        }
    }
    lines.rest.is_empty().then_some(())
}

fn read_entry(line: &[u8]) -> Option<i16> {
    let (sign, digits) = match line {
        [b'-', digits @ ..] => (-1, digits),
        digits => (1, digits),
    };
    if !(1..=MOST_DIGITS).contains(&digits.len()) || !digits.iter().all(u8::is_ascii_digit) {
        return None;
    }
    let magnitude = digits
        .iter()
        .fold(0, |number, digit| 10 * number + i32::from(digit - b'0'));
    (magnitude <= i32::from(MOST_COEFFICIENT)).then_some((sign * magnitude) as i16)
}
