//! The twin against the results of the second implementation that the repository stores.

use bench::twin::{judge_case, read_matrix, soundings, write_matrix};
use std::fs;
use std::path::Path;

/// The byte that every buffer holds before a call, and both bytes of every place of a list.
const FILL: u8 = 0xA5;

/// A file's bytes that are still to be taken from the front.
struct Stored<'a> {
    rest: &'a [u8],
}

impl<'a> Stored<'a> {
    fn take(&mut self, count: usize) -> &'a [u8] {
        let (taken, rest) = self.rest.split_at(count);
        self.rest = rest;
        taken
    }

    fn number(&mut self) -> usize {
        let bytes = self.take(2);
        usize::from(u16::from_be_bytes([bytes[0], bytes[1]]))
    }

    /// An input or a text, behind its length.
    fn input(&mut self) -> &'a [u8] {
        let length = self.number();
        self.take(length)
    }

    /// The outcome, and the bytes that it leaves: for a count as many as `left` says of it.
    fn outcome(&mut self, left: fn(usize) -> usize) -> (Result<usize, u8>, &'a [u8]) {
        let refused = self.take(1)[0] == 1;
        match (refused, self.number()) {
            (true, refusal) => (Err(refusal as u8), &[]),
            (false, count) => (Ok(count), self.take(left(count))),
        }
    }
}

/// Has `check` take one call after another from the front of the file, and expects at least so many.
fn check_each(name: &str, least: usize, check: impl Fn(&mut Stored)) {
    let folder = Path::new(env!("CARGO_MANIFEST_DIR")).join("../crates/vectors/data");
    let bytes = fs::read(folder.join(name)).unwrap();
    let mut stored = Stored { rest: &bytes };
    let mut count = 0;
    while stored.rest != [0xFF, 0xFF] {
        check(&mut stored);
        count += 1;
    }
    assert!(count >= least, "{count} calls in {name}");
}

/// A buffer with these bytes at its front and nothing changed beyond.
fn changed(front: &[u8], room: usize) -> Vec<u8> {
    let mut buffer = vec![FILL; room];
    buffer[..front.len()].copy_from_slice(front);
    buffer
}

fn check_cases(name: &str, call: fn(&[u8], &mut [u8]) -> Result<usize, u8>) {
    check_each(name, 3000, |stored| {
        let input = stored.input();
        let mut out = vec![FILL; stored.number()];
        let (expected, front) = stored.outcome(|length| length);
        assert_eq!(call(input, &mut out), expected, "{input:02X?}");
        assert_eq!(out, changed(front, out.len()), "{input:02X?}");
    });
}

#[test]
fn records() {
    check_cases("vectors.bin", judge_case);
}

#[test]
fn depths() {
    check_cases("soundings.bin", soundings);
}

fn from_bytes(bytes: &[u8]) -> Vec<i16> {
    let pairs = bytes.chunks_exact(2);
    pairs.map(|b| i16::from_be_bytes([b[0], b[1]])).collect()
}

#[test]
fn matrices_read() {
    check_each("matrix_reads.bin", 800, |stored| {
        let text = stored.input();
        let before = vec![FILL; 2 * stored.number()];
        let mut places = from_bytes(&before);
        let (expected, front) = stored.outcome(|n| 2 * n * n);
        let due = from_bytes(&changed(front, before.len()));
        let shown = text.escape_ascii();
        assert_eq!(read_matrix(text, &mut places), expected, "{shown}");
        assert_eq!(places, due, "{shown}");
    });
}

#[test]
fn matrices_written() {
    check_each("matrix_writes.bin", 200, |stored| {
        let n = stored.number();
        let count = usize::from(stored.take(1)[0]);
        let coefficients = from_bytes(stored.take(2 * count));
        let mut out = vec![FILL; stored.number()];
        let (expected, front) = stored.outcome(|length| length);
        let outcome = write_matrix(n, &coefficients, &mut out);
        assert_eq!(outcome, expected, "{n}, {coefficients:?}");
        assert_eq!(out, changed(front, out.len()), "{n}, {coefficients:?}");
    });
}
