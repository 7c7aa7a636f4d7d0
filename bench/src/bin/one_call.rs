//! One contestant on one cell for a given number of calls, so that a profiler counts nothing else.
//!
//! `one_call proved|twin judge|rank|read|sound <tanks> <rounds> <calls>`

use bench::figures::MOST_ROUNDS;
use bench::pool::{pool, ranked_pool, soundings_pool};
use bench::twin::{self, RECORD_ROOM};
use std::hint::black_box;
use std::process::exit;

const SEED: u64 = 1;

fn main() {
    let arguments: Vec<String> = std::env::args().skip(1).collect();
    let [contestant, work, tanks, rounds, calls] = &arguments[..] else {
        usage()
    };
    let call = match (contestant.as_str(), work.as_str()) {
        ("proved", "judge" | "rank") => {
            |case: &[u8], out: &mut [u8]| ballast::judge_case(case, out).is_ok()
        }
        ("proved", "read") => |case: &[u8], _: &mut [u8]| ballast::check_case(case).is_ok(),
        ("proved", "sound") => |case: &[u8], out: &mut [u8]| ballast::soundings(case, out).is_ok(),
        ("twin", "judge" | "rank") => {
            |case: &[u8], out: &mut [u8]| twin::judge_case(case, out).is_ok()
        }
        ("twin", "read") => |case: &[u8], _: &mut [u8]| twin::check_case(case).is_ok(),
        ("twin", "sound") => |case: &[u8], out: &mut [u8]| twin::soundings(case, out).is_ok(),
        _ => usage(),
    };
    let (tanks, rounds) = (number(tanks), number(rounds));
    let cases = match work.as_str() {
        "sound" => soundings_pool(tanks, rounds, SEED),
        "rank" if rounds == MOST_ROUNDS => ranked_pool(tanks, SEED),
        "rank" => usage(),
        _ => pool(tanks, rounds, SEED),
    };
    let mut out = [0; RECORD_ROOM];
    for case in cases.iter().cycle().take(number(calls)) {
        black_box(call(black_box(&case.bytes), black_box(&mut out)));
    }
}

fn number(text: &str) -> usize {
    text.parse().unwrap_or_else(|_| usage())
}

fn usage() -> ! {
    eprintln!("usage: one_call proved|twin judge|rank|read|sound <tanks> <rounds> <calls>");
    exit(2)
}
