//! The library's writer against the second implementation's stored results. Their form stands in `tools/vectors.py`.
use ballast::{write_case, Case};

const WRITES: &[u8] = include_bytes!("../../../crates/vectors/data/writes.bin");
/// What every byte of a buffer holds before a call.
const FILL: u8 = 0xA5;

struct Stream {
    rest: &'static [u8],
}

impl Stream {
    fn take(&mut self, count: usize) -> &'static [u8] {
        let (taken, rest) = self.rest.split_at(count);
        self.rest = rest;
        taken
    }

    fn number(&mut self, width: usize) -> usize {
        self.take(width).iter().fold(0, |number, &byte| number << 8 | usize::from(byte))
    }

    /// A list: its count, and so many figures of this width, each made from its bytes.
    fn list<T>(&mut self, width: usize, figure: impl Fn(&[u8]) -> T) -> Vec<T> {
        let count = self.number(1);
        self.take(count * width).chunks_exact(width).map(figure).collect()
    }
}

fn two(bytes: &[u8]) -> [u8; 2] {
    bytes.try_into().unwrap()
}

fn four(bytes: &[u8]) -> [u8; 4] {
    bytes.try_into().unwrap()
}

/// One call and its comparison.
fn run_next(stream: &mut Stream) {
    let head = stream.take(3);
    let coefficients = stream.list(2, |b| i16::from_be_bytes(two(b)));
    let tolerances = stream.list(2, |b| u16::from_be_bytes(two(b)));
    let right_sides = stream.list(4, |b| i32::from_be_bytes(four(b)));
    let right_tolerances = stream.list(4, |b| u32::from_be_bytes(four(b)));
    let trial = stream.list(4, |b| i32::from_be_bytes(four(b)));
    let case = Case {
        n: head[0].into(),
        exponent: head[1].into(),
        rounds: head[2].into(),
        coefficients: &coefficients,
        tolerances: &tolerances,
        right_sides: &right_sides,
        right_tolerances: &right_tolerances,
        trial: &trial,
    };
    let mut out = vec![FILL; stream.number(2)];
    let (refused, number) = (stream.number(1) == 1, stream.number(2));
    let mut expected = vec![FILL; out.len()];
    let outcome = write_case(&case, &mut out);
    if refused {
        assert_eq!(outcome.map_err(|refusal| usize::from(refusal.number())), Err(number), "{case:?}");
    } else {
        assert_eq!(outcome, Ok(number), "{case:?}");
        expected[..number].copy_from_slice(stream.take(number));
    }
    assert_eq!(out, expected, "{case:?}");
}

#[test]
fn stored_writes() {
    let mut stream = Stream { rest: WRITES };
    let mut calls = 0;
    while stream.rest != [0xFF; 3] {
        run_next(&mut stream);
        calls += 1;
    }
    assert_eq!(calls, 637);
}
