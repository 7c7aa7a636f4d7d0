//! Gives generated inputs to the proved library and to the twin, and stops at the first difference.
//!
//! `differential [count] [seed]`

mod comparing;
mod tally;

use bench::inputs::input;
use bench::matrices::matrix_input;
use bench::random::Random;
use comparing::{compare_checks, pattern, JUDGE, READ_MATRIX, SOUND, WRITE_MATRIX};
use std::process::exit;
use tally::Tally;

const DEFAULT_COUNT: u64 = 250_000;
const DEFAULT_SEED: u64 = 1;

fn main() {
    let (count, seed) = arguments();
    let mut random = Random::new(seed);
    let mut tally = Tally::default();
    for number in 1..=count {
        compare_case(number, &mut random, &mut tally);
        compare_matrix(number, &mut random, &mut tally);
    }
    tally.print();
    println!("{count} of {count} inputs agree (seed {seed})");
}

/// The calls that take a case, on one input.
fn compare_case(number: u64, random: &mut Random, tally: &mut Tally) {
    let input = input(random);
    tally.add_check(compare_checks(number, &input));
    let before = pattern(input.room, || random.byte());
    let (outcome, buffer) = JUDGE.compare(number, &input.bytes, &before);
    tally.add_judgement(outcome, &buffer);
    let before = pattern(input.soundings_room, || random.byte());
    let (outcome, buffer) = SOUND.compare(number, &input.bytes, &before);
    tally.add_soundings(outcome, &buffer);
}

/// The calls that read and write a matrix, on an input each.
fn compare_matrix(number: u64, random: &mut Random, tally: &mut Tally) {
    let input = matrix_input(random);
    let before = pattern(input.places, || random.bits() as i16);
    let (outcome, list) = READ_MATRIX.compare(number, &input.text, &before);
    tally.add_read_matrix(outcome, &list, &input.text);
    let before = pattern(input.room, || random.byte());
    let (outcome, _) = WRITE_MATRIX.compare(number, &input.matrix, &before);
    tally.add_written_matrix(outcome, input.matrix.n);
}

fn arguments() -> (u64, u64) {
    let mut arguments = std::env::args().skip(1);
    let mut number = |default| match arguments.next() {
        None => default,
        Some(text) => text.parse().unwrap_or_else(|_| usage()),
    };
    let result = (number(DEFAULT_COUNT), number(DEFAULT_SEED));
    if arguments.next().is_some() {
        usage();
    }
    result
}

fn usage() -> ! {
    eprintln!("usage: differential [count] [seed]");
    exit(2)
}
