//! Matrices and Matrix Market texts for the differential test: sound ones in every form that may be read, and spoiled ones.

use crate::coefficients::{coefficients, STYLES};
use crate::figures::Table;
use crate::random::Random;
use crate::spoiling::spoil_byte;
use crate::twin::MOST_TANKS;

const FIRST_LINE: &str = "%%MatrixMarket matrix array integer general";

/// Coefficients to be written, row after row.
#[derive(Debug)]
pub struct Matrix {
    pub n: usize,
    pub coefficients: Vec<i16>,
}

/// A text with the places of the list that it is read into, and a matrix with the length of the buffer that it is written into.
pub struct MatrixInput {
    pub text: Vec<u8>,
    pub places: usize,
    pub matrix: Matrix,
    pub room: usize,
}

pub fn matrix_input(random: &mut Random) -> MatrixInput {
    let n = 1 + random.below(MOST_TANKS);
    let table = coefficients(random.pick(&STYLES), n, random);
    MatrixInput {
        text: text(&table, n, random),
        places: places(random),
        matrix: matrix(&table, n, random),
        room: room(random),
    }
}

/// One list in sixteen is too short, so that most texts are looked at.
fn places(random: &mut Random) -> usize {
    if random.one_in(16) {
        random.pick(&[0, 1, 8, 32, 62, 63, 63])
    } else {
        random.pick(&[64, 64, 65, 66, 80, 128])
    }
}

/// Short as often as a list.
fn room(random: &mut Random) -> usize {
    if random.one_in(16) {
        random.pick(&[0, 1, 44, 48, 400, 494, 495, 495])
    } else {
        random.pick(&[496, 496, 497, 498, 512, 800])
    }
}

/// The coefficients of the table; one in four is spoiled, in one way or in several.
fn matrix(table: &Table, n: usize, random: &mut Random) -> Matrix {
    let rows = table[..n].iter();
    let mut matrix = Matrix {
        n,
        coefficients: rows
            .flat_map(|row| row[..n].iter().map(|&figure| figure as i16))
            .collect(),
    };
    if random.one_in(4) {
        spoil_matrix(&mut matrix, random);
    }
    matrix
}

fn spoil_matrix(matrix: &mut Matrix, random: &mut Random) {
    const COUNTS: [usize; 9] = [0, 1, 4, 9, 16, 49, 63, 64, 81];
    // the squares of the last two leave 64 bits
    const TANKS: [usize; 8] = [0, 9, 10, 64, 255, 256, 1 << 32, usize::MAX];
    let list = &mut matrix.coefficients;
    if random.one_in(2) {
        let place = random.below(list.len());
        list[place] = i16::MIN;
    }
    match random.below(6) {
        0 => drop(list.pop()),
        1 => list.push(1),
        2 => list.resize(random.pick(&COUNTS), i16::MIN),
        _ => {}
    }
    match random.below(4) {
        0 => matrix.n = random.pick(&TANKS),
        1 => matrix.n = 1 + random.below(MOST_TANKS),
        _ => {}
    }
}

/// A text of the table. One in two is spoiled, and now and then is a text all the same.
fn text(table: &Table, n: usize, random: &mut Random) -> Vec<u8> {
    let mut lines = if random.one_in(4) {
        written_lines(table, n)
    } else {
        other_lines(table, n, random)
    };
    match random.below(8) {
        0 => spoil_line(&mut lines, n, random),
        1 => spoil_order(&mut lines, random),
        2 => return spoiled_byte(&lines, random),
        3 => return noise(random),
        _ => {}
    }
    joined(&lines)
}

fn spoiled_byte(lines: &[Vec<u8>], random: &mut Random) -> Vec<u8> {
    let mut text = joined(lines);
    spoil_byte(&mut text, b"\n\r\t %+-./0123456789:Ee\0\xFF", random);
    text
}

/// Each with its line feed.
fn joined(lines: &[Vec<u8>]) -> Vec<u8> {
    let mut text = lines.join(&b'\n');
    text.push(b'\n');
    text
}

/// The table's entries, column after column.
fn entries(table: &Table, n: usize) -> impl Iterator<Item = i64> + '_ {
    (0..n).flat_map(move |j| table[..n].iter().map(move |row| row[j]))
}

/// As the writer writes them.
fn written_lines(table: &Table, n: usize) -> Vec<Vec<u8>> {
    let mut lines = vec![FIRST_LINE.into(), format!("{n} {n}").into()];
    lines.extend(entries(table, n).map(|entry| entry.to_string().into()));
    lines
}

/// With comments, further spaces, leading zeros and a minus before a zero.
fn other_lines(table: &Table, n: usize, random: &mut Random) -> Vec<Vec<u8>> {
    let mut lines = vec![FIRST_LINE.into()];
    lines.extend((0..random.below(4)).map(|_| comment(random)));
    let spaces = random.pick(&[1, 1, 2, 3, 50]);
    lines.push(format!("{n}{:spaces$}{n}", "").into());
    for entry in entries(table, n) {
        let minus = entry < 0 || entry == 0 && random.one_in(2);
        let width = random.pick(&[1, 1, 2, 3, 4, 5]);
        let sign = if minus { "-" } else { "" };
        lines.push(format!("{sign}{:0width$}", entry.abs()).into());
    }
    lines
}

fn comment(random: &mut Random) -> Vec<u8> {
    const COMMENTS: [&[u8]; 7] = [b"%", b"%%", b"% ", b"%1 1", b"%\r", b"%-5", b"% tank book"];
    let mut line = random.pick(&COMMENTS).to_vec();
    if random.one_in(4) {
        let length = random.pick(&[1, 3, 20, 200]);
        let bytes = std::iter::repeat_with(|| random.byte()).take(length);
        line.extend(bytes.filter(|&byte| byte != b'\n'));
    }
    line
}

/// Puts a wrong line, or one at a limit, in the place of the first one, the size line or an entry.
fn spoil_line(lines: &mut [Vec<u8>], n: usize, random: &mut Random) {
    let size_at = lines.len() - n * n - 1;
    let (at, line) = match random.below(4) {
        0 => (0, random.pick(&WRONG_FIRST_LINES).to_string()),
        1 => (size_at, spoiled_size_line(n, random)),
        _ => (
            size_at + 1 + random.below(n * n),
            random.pick(&EDGE_ENTRIES).to_string(),
        ),
    };
    lines[at] = line.into();
}

const WRONG_FIRST_LINES: [&str; 12] = [
    "",
    "%",
    "%%MatrixMarket matrix array integer general ",
    "%%MatrixMarket matrix array integer general\r",
    "%%MatrixMarket matrix array integer genera",
    "%%matrixmarket matrix array integer general",
    "%%MatrixMarket matrix array integer symmetric",
    "%%MatrixMarket matrix array integer skew-symmetric",
    "%%MatrixMarket matrix array real general",
    "%%MatrixMarket matrix array complex general",
    "%%MatrixMarket matrix coordinate integer general",
    "%MatrixMarket matrix array integer general",
];

/// Wrong, unless the other number is a size by chance.
fn spoiled_size_line(n: usize, random: &mut Random) -> String {
    let other = random.below(12);
    match random.below(12) {
        0 => String::new(),
        1 => format!("{n}"),
        2 => format!("{n}{n}"),
        3 => format!("{n}\t{n}"),
        4 => format!(" {n} {n}"),
        5 => format!("{n} {n} "),
        6 => format!("{n} {n}\r"),
        7 => format!("0{n} {n}"),
        8 => format!("{n} {n} {}", n * n),
        9 => format!("{other} {other}"),
        10 => format!("{n} {other}"),
        _ => format!("{other} {n}"),
    }
}

/// Malformed, in forms that the writer does not use, and at and past the limits.
const EDGE_ENTRIES: [&str; 30] = [
    "", "-", "--1", "+1", " 1", "1 ", "1\r", "\t1", "1.0", "1e1", "1 1", "1-", "/", ":", "x", "\0",
    "%", "% 1", "-0", "00000", "-00007", "000007", "32767", "-32767", "32768", "-32768", "65535",
    "-65537", "99999", "100000",
];

/// Takes a line out, or chooses another, and puts it in anywhere, up to two times.
fn spoil_order(lines: &mut Vec<Vec<u8>>, random: &mut Random) {
    const OTHERS: [&[u8]; 6] = [b"", b"%", b"% 1", b"1", b"-32767", b"\r"];
    let line = if random.one_in(2) {
        lines.remove(random.below(lines.len()))
    } else {
        random.pick(&OTHERS).to_vec()
    };
    for _ in 0..random.below(3) {
        lines.insert(random.below(lines.len() + 1), line.clone());
    }
}

/// No text at all: nothing, random bytes, or random bytes behind what a text starts with.
fn noise(random: &mut Random) -> Vec<u8> {
    let start = random.pick(&["", "\n", "\n%\n", "\n1 1\n", "\n%\n2  2\n1\n2\n"]);
    let mut text = if random.one_in(4) {
        vec![]
    } else {
        [FIRST_LINE, start].concat().into_bytes()
    };
    let count = random.pick(&[0, 1, 2, 3, 50, 500]);
    text.extend((0..count).map(|_| random.byte()));
    text
}
