//! Times the proved library, the twin and LAPACK on the same cases.
//!
//! `benchmark [seed]`

mod lapack;
mod timing;

use bench::figures::MOST_ROUNDS;
use bench::pool::{
    pool, ranked_pool, soundings_pool, Entry, DESCRIPTION, POOL_SIZE, RANKED_TANKS, ROUNDS,
    SOUNDINGS_ROUNDS, TANKS,
};
use bench::twin::{self, RECORD_ROOM, SOUNDINGS_ROOM};
use std::hint::black_box;
use std::process::exit;
use timing::{measure, Contestant, Measured, SAMPLES};

const DEFAULT_SEED: u64 = 1;

fn main() {
    let seed = arguments();
    print_conditions(seed);
    let mut worst_backward_error: f64 = 0.0;
    for rounds in ROUNDS {
        for n in TANKS {
            let cases = pool(n, rounds, seed);
            check_agreement(&cases);
            worst_backward_error = worst_backward_error.max(check_lapack(&cases));
            print_row("judge", n, rounds, &measure_judging(&cases, rounds > 0));
        }
    }
    for n in RANKED_TANKS {
        let cases = ranked_pool(n, seed);
        check_agreement(&cases);
        print_row("rank", n, MOST_ROUNDS, &measure_judging(&cases, false));
    }
    for n in TANKS {
        print_row("read", n, 1, &measure_reading(&pool(n, 1, seed)));
    }
    for rounds in SOUNDINGS_ROUNDS {
        for n in TANKS {
            let cases = soundings_pool(n, rounds, seed);
            check_soundings(&cases);
            print_row("sound", n, rounds, &measure_sounding(&cases));
        }
    }
    println!("\nThe largest componentwise backward error that dgesvx reported for these cases: {worst_backward_error:.1e}");
}

fn arguments() -> u64 {
    let arguments: Vec<String> = std::env::args().skip(1).collect();
    match &arguments[..] {
        [] => DEFAULT_SEED,
        [seed] => seed.parse().unwrap_or_else(|_| usage()),
        _ => usage(),
    }
}

fn usage() -> ! {
    eprintln!("usage: benchmark [seed]");
    exit(2)
}

fn print_conditions(seed: u64) {
    let version = lapack::version();
    println!("{DESCRIPTION}");
    println!("Each cell: {POOL_SIZE} cases (seed {seed}), {SAMPLES} samples of each contestant, taken in turn.");
    println!(
        "proved  judge_case, check_case and soundings of the proved library, from bytes to bytes"
    );
    println!("twin    the same in plain Rust without proof, from bytes to bytes");
    println!("dgesvx  LAPACK {version} in double precision, FACT N, TRANS N, one right-hand side: factors, solves, refines as often as it sees fit,");
    println!("        estimates the condition and bounds its errors. It reads and writes no bytes; the figures are converted before the timing,");
    println!("        and with FACT N nothing has to be copied. It has no counterpart to reading a case or judging a given trial.");
    println!("Result buffers are not cleared between calls. Time is nanoseconds per case: the median, with both quartiles in brackets;");
    println!("a ratio is the median of the ratios of samples taken one after the other.\n");
    print!(
        "work   n  K  {:>23}  {:>23}  {:>23}",
        "proved", "twin", "dgesvx"
    );
    println!("  proved/twin  proved/dgesvx  proved cases/s");
}

/// Both give the same record for every case, before either is timed.
fn check_agreement(cases: &[Entry]) {
    for case in cases {
        let (mut proved, mut twin) = ([0; RECORD_ROOM], [0; RECORD_ROOM]);
        let outcome =
            ballast::judge_case(&case.bytes, &mut proved).map_err(ballast::Refusal::number);
        assert_eq!(outcome, twin::judge_case(&case.bytes, &mut twin));
        assert!(outcome.is_ok() && proved == twin, "the records differ");
    }
}

/// Both give the same depths for every case.
fn check_soundings(cases: &[Entry]) {
    for case in cases {
        let (mut proved, mut twin) = ([0; SOUNDINGS_ROOM], [0; SOUNDINGS_ROOM]);
        let outcome =
            ballast::soundings(&case.bytes, &mut proved).map_err(ballast::Refusal::number);
        assert_eq!(outcome, twin::soundings(&case.bytes, &mut twin));
        assert!(outcome.is_ok() && proved == twin, "the depths differ");
    }
}

/// LAPACK solves every case; returns the largest backward error that it reports.
fn check_lapack(cases: &[Entry]) -> f64 {
    let mut space = lapack::Workspace::default();
    let mut worst: f64 = 0.0;
    for case in cases {
        let info = lapack::solve(&mut lapack::System::of(&case.figures), &mut space);
        assert_eq!(info, 0, "LAPACK refuses a case");
        worst = worst.max(space.backward_error);
    }
    worst
}

fn measure_judging(cases: &[Entry], solving: bool) -> Vec<Measured> {
    let (mut proved_out, mut twin_out) = ([0; RECORD_ROOM], [0; RECORD_ROOM]);
    let systems = cases.iter().map(|case| lapack::System::of(&case.figures));
    let mut systems: Vec<lapack::System> = systems.collect();
    let mut space = lapack::Workspace::default();
    let mut contestants: Vec<Contestant> = vec![
        Box::new(|| {
            for case in cases {
                let (input, out) = (black_box(&case.bytes), black_box(&mut proved_out));
                black_box(ballast::judge_case(input, out)).ok();
            }
        }),
        Box::new(|| {
            for case in cases {
                let (input, out) = (black_box(&case.bytes), black_box(&mut twin_out));
                black_box(twin::judge_case(input, out)).ok();
            }
        }),
    ];
    if solving {
        contestants.push(Box::new(|| {
            for system in &mut systems {
                black_box(lapack::solve(black_box(system), black_box(&mut space)));
            }
        }));
    }
    measure(&mut contestants, cases.len())
}

fn measure_reading(cases: &[Entry]) -> Vec<Measured> {
    let mut contestants: [Contestant; 2] = [
        Box::new(|| {
            for case in cases {
                black_box(ballast::check_case(black_box(&case.bytes))).ok();
            }
        }),
        Box::new(|| {
            for case in cases {
                black_box(twin::check_case(black_box(&case.bytes))).ok();
            }
        }),
    ];
    measure(&mut contestants, cases.len())
}

fn measure_sounding(cases: &[Entry]) -> Vec<Measured> {
    let (mut proved_out, mut twin_out) = ([0; SOUNDINGS_ROOM], [0; SOUNDINGS_ROOM]);
    let mut contestants: [Contestant; 2] = [
        Box::new(|| {
            for case in cases {
                let (input, out) = (black_box(&case.bytes), black_box(&mut proved_out));
                black_box(ballast::soundings(input, out)).ok();
            }
        }),
        Box::new(|| {
            for case in cases {
                let (input, out) = (black_box(&case.bytes), black_box(&mut twin_out));
                black_box(twin::soundings(input, out)).ok();
            }
        }),
    ];
    measure(&mut contestants, cases.len())
}

fn print_row(work: &str, n: usize, rounds: usize, measured: &[Measured]) {
    let none = "-".to_string();
    let proved = &measured[0];
    print!("{work:<5} {n:>2} {rounds:>2}");
    for contestant in 0..3 {
        let time = measured.get(contestant).map(Measured::text);
        print!("  {:>23}", time.as_ref().unwrap_or(&none));
    }
    for (contestant, width) in [(1, 11), (2, 13)] {
        let other = measured.get(contestant);
        let ratio = other.map(|other| format!("{:.2}", proved.ratio_to(other)));
        print!("  {:>width$}", ratio.as_ref().unwrap_or(&none));
    }
    println!("  {:>14.0}", 1e9 / proved.median());
}
