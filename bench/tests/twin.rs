//! The twin against document 01's trials at the edges as document 02 leaves them, document 02's rounding of halves, reference tank and
//! Matrix Market files, and the repository's samples.

use bench::figures::Figures;
use bench::twin::{check_case, judge_case, read_matrix, soundings, write_matrix};
use bench::twin::{MATRIX_PLACES, MATRIX_ROOM, MOST_TANKS, RECORD_ROOM, SOUNDINGS_ROOM};
use std::fmt::Write;
use std::fs;
use std::path::Path;

/// The printed verdict, as document 01 gives it.
fn printed(case: &[u8]) -> String {
    let mut record = [0; RECORD_ROOM];
    match judge_case(case, &mut record) {
        Err(refusal) => format!("refused {refusal}\n"),
        Ok(length) => printed_record(&record[..length], u32::from(case[4])),
    }
}

fn printed_record(record: &[u8], exponent: u32) -> String {
    let n = record.len() / 20 - 1;
    let mut text = format!(
        "{} row {} rounds {}\n",
        if record[3] == 1 { "met" } else { "unmet" },
        record[4],
        record[5]
    );
    for (tank, bytes) in record[9..][..4 * n].chunks_exact(4).enumerate() {
        let y = i32::from_be_bytes(bytes.try_into().unwrap());
        writeln!(text, "answer {} {}", tank + 1, printed_answer(y, exponent)).unwrap();
    }
    for (row, bytes) in record[12 + 4 * n..][..16 * n].chunks_exact(16).enumerate() {
        let residual = i64::from_be_bytes(bytes[..8].try_into().unwrap());
        let reach = u64::from_be_bytes(bytes[8..].try_into().unwrap());
        writeln!(text, "row {} residual {residual} reach {reach}", row + 1).unwrap();
    }
    let [none, row] = record[15 + 20 * n..][..2] else {
        unreachable!()
    };
    writeln!(
        text,
        "factor {}row {row}",
        if none == 1 { "none " } else { "" }
    )
    .unwrap();
    text
}

fn printed_answer(y: i32, exponent: u32) -> String {
    let unit = 10_u32.pow(exponent);
    let sign = if y < 0 { "-" } else { "" };
    let whole = y.unsigned_abs() / unit;
    match exponent as usize {
        0 => format!("{sign}{whole}"),
        width => format!("{sign}{whole}.{:0width$}", y.unsigned_abs() % unit),
    }
}

/// One tank: the case with exponent, rounds, A, E, b, f and, for no rounds, the trial.
fn one_tank(exponent: usize, rounds: usize, a: i64, e: i64, b: i64, f: i64, trial: i64) -> Vec<u8> {
    let mut figures = Figures {
        n: 1,
        exponent,
        rounds,
        ..Figures::default()
    };
    figures.coefficients[0][0] = a;
    figures.tolerances[0][0] = e;
    figures.right_sides[0] = b;
    figures.right_tolerances[0] = f;
    figures.trial[0] = trial;
    figures.encode()
}

/// Tanks without tolerances and decimals, one round.
fn tanks<const N: usize>(rows: [[i64; N]; N], right_sides: [i64; N]) -> Vec<u8> {
    let mut figures = Figures {
        n: N,
        rounds: 1,
        ..Figures::default()
    };
    for i in 0..N {
        figures.coefficients[i][..N].copy_from_slice(&rows[i]);
        figures.right_sides[i] = right_sides[i];
    }
    figures.encode()
}

fn check_printed<const COUNT: usize>(trials: [(Vec<u8>, &str); COUNT]) {
    for (case, expected) in trials {
        assert_eq!(printed(&case), expected);
    }
}

#[test]
fn one_tank_worked_out() {
    check_printed([
        (
            one_tank(1, 1, 5, 0, -2, 0, 0),
            "met row 0 rounds 1\nanswer 1 -0.4\nrow 1 residual 0 reach 0\nfactor row 1\n",
        ),
        (
            one_tank(1, 1, 3, 0, 1, 1, 0),
            "met row 0 rounds 1\nanswer 1 0.3\nrow 1 residual 1 reach 10\nfactor row 1\n",
        ),
        (
            one_tank(1, 1, 3, 0, 1, 0, 0),
            "unmet row 1 rounds 1\nanswer 1 0.3\nrow 1 residual 1 reach 0\nfactor none row 1\n",
        ),
        (
            one_tank(1, 1, 3, 1, 1, 0, 0),
            "met row 0 rounds 1\nanswer 1 0.3\nrow 1 residual 1 reach 3\nfactor row 1\n",
        ),
        (
            one_tank(1, 1, 3, 0, -1, 1, 0),
            "met row 0 rounds 1\nanswer 1 -0.3\nrow 1 residual -1 reach 10\nfactor row 1\n",
        ),
        (
            one_tank(0, 1, 2, 0, 1, 1, 0),
            "met row 0 rounds 1\nanswer 1 0\nrow 1 residual 1 reach 1\nfactor row 1\n",
        ),
    ]);
}

#[test]
fn one_tank_brought() {
    check_printed([
        (
            one_tank(0, 0, 2, 1, 4, 0, 1),
            "unmet row 1 rounds 0\nanswer 1 1\nrow 1 residual 2 reach 1\nfactor row 1\n",
        ),
        (
            one_tank(0, 0, 2, 5, 1, 0, 0),
            "unmet row 1 rounds 0\nanswer 1 0\nrow 1 residual 1 reach 0\nfactor none row 1\n",
        ),
    ]);
}

#[test]
fn one_tank_refused() {
    check_printed([
        (one_tank(0, 1, 1, 0, 1_000_000_000, 0, 0), "refused 9\n"),
        (one_tank(0, 1, -32_768, 0, 1, 0, 0), "refused 6\n"),
        (vec![], "refused 2\n"),
    ]);
}

#[test]
fn two_tank_trials() {
    for (case, expected) in [
        (
            tanks([[0, 1], [1, 0]], [5, 7]),
            "met row 0 rounds 1\nanswer 1 7\nanswer 2 5\n",
        ),
        (
            tanks([[2, 1], [1, 3]], [5, 10]),
            "met row 0 rounds 1\nanswer 1 1\nanswer 2 3\n",
        ),
    ] {
        let rows = "row 1 residual 0 reach 0\nrow 2 residual 0 reach 0\nfactor row 1\n";
        assert_eq!(printed(&case), expected.to_string() + rows);
    }
    assert_eq!(printed(&tanks([[1, 1], [1, 1]], [5, 7])), "refused 8\n");
}

#[test]
fn halves_in_each_place() {
    for (halves, even) in [(1, 0), (3, 2), (5, 2), (7, 4)] {
        check_halves(halves, even);
        check_halves(-halves, -even);
    }
}

/// So many halves in each of the four places that round, where another whole number than this would lead to another answer.
fn check_halves(halves: i64, even: i64) {
    let check = |case: Vec<u8>, answers: String| {
        let text = printed(&case);
        assert!(text.contains(&answers), "{halves} halves: {text}");
    };
    // the correction of tank 1, and the forward pass, which tank 2 shows
    check(
        tanks([[16_384, 0], [1, 1]], [8_192 * halves, 0]),
        format!("answer 1 {even}\nanswer 2 {}\n", -even),
    );
    // the multiplier of the second step, which takes twice itself from the third row
    check(
        tanks(
            [[16_384, 64, 0], [0, 128, 0], [-halves, 0, 1]],
            [0, 32_768, 0],
        ),
        format!("answer 1 -1\nanswer 2 256\nanswer 3 {}\n", -2 * even),
    );
    // what the last entry loses, which is all that is left as the second pivot
    check(
        tanks([[16_384, 32 * halves], [1, 0]], [0, even]),
        match even {
            0 => "refused 8\n".to_string(),
            _ => format!("answer 1 {even}\nanswer 2 -256\n"),
        },
    );
}

#[test]
fn the_largest_correction_is_allowed() {
    let mut figures = Figures {
        n: 2,
        rounds: 2,
        ..Figures::default()
    };
    figures.coefficients[0][..2].copy_from_slice(&[29_539, 21_583]);
    figures.coefficients[1][..2].copy_from_slice(&[103, 75]);
    figures.right_sides[..2].copy_from_slice(&[362_747_091, 402_624]);
    // row 1 decides, and has the smaller residual after the second round
    figures.right_tolerances[..2].copy_from_slice(&[1, 1_000_000_000]);
    assert!(printed(&figures.encode()).contains("rounds 2\nanswer 1 7318892\nanswer 2 -10000000\n"));
    figures.rounds = 1;
    assert!(printed(&figures.encode()).contains("rounds 1\nanswer 1 -7294331\nanswer 2 10000000\n"));
}

/// The even figure is taken in the first round, and a correction of one half is none.
#[test]
fn one_tank_on_a_half_stays() {
    for (a, b, y, residual) in [
        (6, 3, 0, 3),
        (6, 9, 2, -3),
        (6, 15, 2, 3),
        (6, 21, 4, -3),
        (6, -3, 0, -3),
        (6, -9, -2, 3),
        (6, -15, -2, -3),
        (-6, 3, 0, 3),
        (-6, 9, -2, -3),
        (-6, -9, 2, 3),
        (-6, -15, 2, -3),
    ] {
        for rounds in 1..=8 {
            assert_eq!(
                printed(&one_tank(0, rounds, a, 0, b, 0, 0)),
                format!(
                    "unmet row 1 rounds {rounds}\nanswer 1 {y}\n\
                     row 1 residual {residual} reach 0\nfactor none row 1\n"
                )
            );
        }
    }
}

/// Two tanks whose rounds lead to and fro for ever between two answers, by halves in the forward pass and in the correction. Row 2 is met by
/// both, and row 1 by neither.
fn to_and_fro(rounds: usize, second_right_side: i64, e: i64, f: i64) -> Vec<u8> {
    let mut figures = Figures {
        n: 2,
        rounds,
        ..Figures::default()
    };
    figures.coefficients[0][..2].copy_from_slice(&[8, 2]);
    figures.coefficients[1][..2].copy_from_slice(&[1, 0]);
    figures.tolerances[0][0] = e;
    figures.right_sides[..2].copy_from_slice(&[4, second_right_side]);
    figures.right_tolerances[..2].copy_from_slice(&[f, 1]);
    figures.encode()
}

#[test]
fn the_first_of_equals_is_kept_and_one_with_a_factor() {
    // in turn with 0 and 0
    let first = "answer 1 2\nanswer 2 -4\nrow 1 residual -4 reach ";
    // in turn with each other
    let zero_first = "answer 1 0\nanswer 2 4\nrow 1 residual -4 reach ";
    let second = "answer 1 -2\nanswer 2 8\nrow 1 residual 4 reach ";
    // the factors are 4 and 4; 4/3 and 4; 2 and none; none and none; and then the same with the middle ones turned round
    for (b, e, f, kept, reach, from_round) in [
        (1, 0, 1, first, 1, 1),
        (1, 1, 1, first, 3, 1),
        (1, 1, 0, first, 2, 1),
        (1, 0, 0, first, 0, 1),
        (-1, 0, 1, zero_first, 1, 1),
        (-1, 1, 1, second, 3, 2),
        (-1, 1, 0, second, 2, 2),
        (-1, 0, 0, zero_first, 0, 1),
    ] {
        let none = if reach == 0 { "none " } else { "" };
        for rounds in from_round..=8 {
            let text = printed(&to_and_fro(rounds, b, e, f));
            let lines = format!("unmet row 1 rounds {rounds}\n{kept}{reach}\n");
            assert!(text.starts_with(&lines), "{text}");
            assert!(text.ends_with(&format!("factor {none}row 1\n")), "{text}");
        }
    }
    for (f, last_line) in [(0, "factor none row 1\n"), (1, "factor row 1\n")] {
        let text = printed(&to_and_fro(1, -1, 1, f));
        assert!(text.contains(zero_first) && text.ends_with(last_line));
    }
}

#[test]
fn the_first_of_equals_behind_a_worse_one() {
    let mut figures = Figures {
        n: 2,
        right_tolerances: [1; MOST_TANKS],
        ..Figures::default()
    };
    figures.coefficients[0][..2].copy_from_slice(&[2, -3]);
    figures.coefficients[1][..2].copy_from_slice(&[4, 1]);
    figures.right_sides[1] = 3;
    // the factors are 3, 2, 2, and 2 for ever, and the answers from round 2 on are 1 and 0, and 1 and 1, in turn
    for rounds in 1..=8 {
        figures.rounds = rounds;
        let expected = if rounds == 1 {
            "answer 1 0\nanswer 2 1\nrow 1 residual 3 reach 1\nrow 2 residual 2 reach 1\n"
        } else {
            "answer 1 1\nanswer 2 0\nrow 1 residual -2 reach 1\nrow 2 residual -1 reach 1\n"
        };
        assert_eq!(
            printed(&figures.encode()),
            format!("unmet row 1 rounds {rounds}\n{expected}factor row 1\n")
        );
    }
}

#[test]
fn the_best_trial_is_kept_until_one_is_met() {
    let mut figures = Figures {
        n: 2,
        right_tolerances: [1; MOST_TANKS],
        ..Figures::default()
    };
    figures.coefficients[0][..2].copy_from_slice(&[11_900, 13_700]);
    figures.coefficients[1][..2].copy_from_slice(&[3_300, 3_800]);
    figures.right_sides[..2].copy_from_slice(&[8_830_700, 2_449_200]);
    // the factors are 1300, 5700, 2500, 3600 and 0
    for rounds in 1..=8 {
        figures.rounds = rounds;
        let (first_lines, depths_due) = if rounds < 5 {
            let verdict = format!("unmet row 1 rounds {rounds}\n");
            (verdict + "answer 1 179\nanswer 2 489\n", [167, 381])
        } else {
            let verdict = "met row 0 rounds 5\n".to_string();
            (verdict + "answer 1 262\nanswer 2 417\n", [231, 337])
        };
        let case = figures.encode();
        assert!(printed(&case).starts_with(&first_lines));
        assert_eq!(depths(&case), Ok(depths_due.to_vec()));
    }
}

#[test]
fn a_trial_without_a_factor_is_replaced() {
    let mut figures = Figures {
        n: 2,
        ..Figures::default()
    };
    figures.coefficients[0][..2].copy_from_slice(&[4, 1]);
    figures.coefficients[1][..2].copy_from_slice(&[-1, 1]);
    figures.tolerances[0][0] = 1;
    figures.right_sides[..2].copy_from_slice(&[9, 6]);
    for (rounds, expected) in [
        (1, "answer 1 1\nanswer 2 6\n"),
        (2, "answer 1 1\nanswer 2 7\n"),
        (3, "answer 1 1\nanswer 2 7\n"),
    ] {
        figures.rounds = rounds;
        let text = printed(&figures.encode());
        assert!(
            text.contains(&format!(" rounds {rounds}\n{expected}")),
            "{text}"
        );
    }
}

#[test]
fn a_good_trial_does_not_save_a_later_refusal() {
    let mut figures = Figures {
        n: 2,
        rounds: 2,
        right_tolerances: [1; MOST_TANKS],
        ..Figures::default()
    };
    figures.coefficients[0][..2].copy_from_slice(&[20_736, 2_271]);
    figures.coefficients[1][..2].copy_from_slice(&[10_098, 1_106]);
    figures.right_sides[1] = 234_375;
    assert!(printed(&figures.encode()).contains(" rounds 2\nanswer 1 -1095197\n"));
    figures.rounds = 3;
    assert_eq!(printed(&figures.encode()), "refused 9\n");
}

#[test]
fn limits_of_buffer_and_tanks() {
    let case = one_tank(1, 1, 5, 0, -2, 0, 0);
    assert_eq!(judge_case(&case, &mut [0; 179]), Err(1));
    assert_eq!(judge_case(&case, &mut [0; 180]), Ok(40));
    assert_eq!(
        check_case(
            &Figures {
                n: 8,
                rounds: 1,
                ..Figures::default()
            }
            .encode()
        ),
        Ok(8)
    );
    assert_eq!(check_case(&[1, 0, 3, 9, 0, 1]), Err(6));
    assert_eq!(
        Figures {
            n: 8,
            ..Figures::default()
        }
        .encode()
        .len(),
        388
    );
}

#[test]
fn a_refusal_changes_no_byte_and_a_record_no_byte_beyond_it() {
    let mut out = [0xA5; 200];
    assert_eq!(
        judge_case(&one_tank(0, 1, 1, 0, 1_000_000_000, 0, 0), &mut out),
        Err(9)
    );
    assert_eq!(out, [0xA5; 200]);
    assert_eq!(
        judge_case(&one_tank(1, 1, 5, 0, -2, 0, 0), &mut out),
        Ok(40)
    );
    assert_eq!(
        out[..16],
        [0x10, 0, 3, 1, 0, 1, 0x11, 0, 4, 0xFF, 0xFF, 0xFF, 0xFC, 0x12, 0, 0x10]
    );
    assert_eq!(out[16..32], [0; 16]);
    assert_eq!(out[32..40], [0x13, 0, 2, 0, 1, 0xFF, 0, 0]);
    assert_eq!(out[40..], [0xA5; 160]);
}

#[test]
fn samples() {
    let folder = Path::new(env!("CARGO_MANIFEST_DIR")).join("../samples");
    let mut count = 0;
    for entry in fs::read_dir(folder).unwrap() {
        let path = entry.unwrap().path();
        if path
            .extension()
            .is_some_and(|extension| extension == "case")
        {
            let expected = fs::read_to_string(path.with_extension("txt")).unwrap();
            assert_eq!(
                printed(&fs::read(&path).unwrap()),
                expected,
                "{}",
                path.display()
            );
            count += 1;
        }
    }
    assert!(count > 0, "no samples found");
}

/// The depths in centimetres, as document 02 gives them.
fn depths(case: &[u8]) -> Result<Vec<u16>, u8> {
    let mut bytes = [0xA5; SOUNDINGS_ROOM];
    let length = soundings(case, &mut bytes)?;
    let pairs = bytes[..length].chunks_exact(2);
    Ok(pairs
        .map(|pair| u16::from_be_bytes([pair[0], pair[1]]))
        .collect())
}

/// The case that brings this trial. Its rows are not met, which plays no part for depths.
fn brought(exponent: usize, trial: &[i64]) -> Vec<u8> {
    let mut figures = Figures {
        n: trial.len(),
        exponent,
        right_sides: [-1; MOST_TANKS],
        ..Figures::default()
    };
    figures.trial[..trial.len()].copy_from_slice(trial);
    figures.encode()
}

/// The reference tank's entry, in kilograms.
fn entry(h: u16) -> i64 {
    900 * i64::from(h) + i64::from(h) * i64::from(h)
}

#[test]
fn every_answer_inside_the_table() {
    for exponent in 0..4 {
        let unit = 10_i64.pow(exponent as u32);
        let answers: Vec<i64> = (0..=520 * unit).collect();
        let mut due = 0;
        for trial in answers.chunks(MOST_TANKS) {
            let found = depths(&brought(exponent, trial)).unwrap();
            assert_eq!(found.len(), trial.len());
            for (y, depth) in trial.iter().zip(found) {
                while due < 400 && entry(due + 1) * unit <= y * 1000 {
                    due += 1;
                }
                assert_eq!(depth, due, "{y} / {unit}");
            }
        }
        assert_eq!(due, 400);
    }
}

#[test]
fn depths_at_the_edges() {
    for (exponent, y, expected) in [
        (3, 0, Ok(0)),
        (3, 900, Ok(0)),
        (3, 901, Ok(1)),
        (3, 518_300, Ok(398)),
        (3, 518_301, Ok(399)),
        (3, 519_999, Ok(399)),
        (3, 520_000, Ok(400)),
        (3, 520_001, Err(10)),
        (3, -1, Err(10)),
        (2, 90, Ok(0)),
        (2, 91, Ok(1)),
        (2, 910, Ok(10)),
        (2, 52_000, Ok(400)),
        (2, 52_001, Err(10)),
        (1, 90, Ok(9)),
        (1, 91, Ok(10)),
        (1, 5_200, Ok(400)),
        (1, 5_201, Err(10)),
        (0, 99, Ok(99)),
        (0, 100, Ok(100)),
        (0, 219, Ok(199)),
        (0, 220, Ok(200)),
        (0, 520, Ok(400)),
        (0, 521, Err(10)),
        (0, -1, Err(10)),
        (0, 10_000_000, Err(10)),
        (0, -10_000_000, Err(10)),
    ] {
        let found = depths(&brought(exponent, &[y]));
        assert_eq!(found, expected.map(|depth| vec![depth]), "{y}, {exponent}");
    }
}

#[test]
fn depths_of_an_answer_worked_out() {
    assert_eq!(depths(&tanks([[0, 1], [1, 0]], [5, 7])), Ok(vec![7, 5]));
    // not met, and the answer is 0.3 or 333.3 tonnes all the same
    assert_eq!(depths(&one_tank(1, 1, 3, 0, 1, 0, 0)), Ok(vec![0]));
    assert_eq!(depths(&one_tank(1, 1, 3, 0, 1000, 0, 0)), Ok(vec![281]));
    assert_eq!(depths(&one_tank(1, 1, 5, 0, -2, 0, 0)), Err(10));
    assert_eq!(depths(&one_tank(0, 1, 1, 0, 521, 0, 0)), Err(10));
}

#[test]
fn soundings_are_refused_in_order() {
    let outside = brought(0, &[-1]);
    for room in 0..SOUNDINGS_ROOM {
        assert_eq!(
            soundings(&outside, &mut [0; SOUNDINGS_ROOM][..room]),
            Err(1)
        );
        assert_eq!(soundings(&[], &mut [0; SOUNDINGS_ROOM][..room]), Err(1));
    }
    let longer = [&outside[..], &[0]].concat();
    let cut = &outside[..outside.len() - 4];
    let mut out = [0xA5; 32];
    for (case, expected) in [
        (vec![], 2),
        (vec![2, 0, 3], 3),
        (vec![1, 0, 4], 4),
        (cut.to_vec(), 5),
        (brought(0, &[-10_000_001]), 6),
        (longer, 7),
        (tanks([[1, 1], [1, 1]], [5, 7]), 8),
        (one_tank(0, 1, 1, 0, 1_000_000_000, 0, 0), 9),
        (outside, 10),
    ] {
        assert_eq!(soundings(&case, &mut out), Err(expected));
        assert_eq!(out, [0xA5; 32]);
    }
}

#[test]
fn a_later_tank_outside_the_table_leaves_the_buffer() {
    let mut out = [0xA5; 32];
    for last in [-1, 521] {
        let case = brought(0, &[7, 5, last]);
        assert_eq!(soundings(&case, &mut out), Err(10));
        assert_eq!(out, [0xA5; 32]);
    }
    assert_eq!(soundings(&brought(0, &[7, 5, 520]), &mut out), Ok(6));
    assert_eq!(out[..6], [0, 7, 0, 5, 1, 0x90]);
    assert_eq!(out[6..], [0xA5; 26]);
}

const FIRST_LINE: &str = "%%MatrixMarket matrix array integer general\n";
/// What every place of a list holds before a call.
const PLACE_FILL: i16 = -0x5A5B;

/// The coefficients of a text, row after row. Places beyond them, and all after a refusal, are as they were.
fn matrix(text: &[u8]) -> Result<Vec<i16>, u8> {
    let mut places = [PLACE_FILL; MATRIX_PLACES + 1];
    let outcome = read_matrix(text, &mut places);
    let (read, beyond) = places.split_at(outcome.map_or(0, |n| n * n));
    assert!(beyond.iter().all(|&place| place == PLACE_FILL));
    outcome.map(|_| read.to_vec())
}

fn written(n: usize, coefficients: &[i16]) -> Result<Vec<u8>, u8> {
    let mut out = [0xA5; MATRIX_ROOM + 1];
    let outcome = write_matrix(n, coefficients, &mut out);
    let (text, beyond) = out.split_at(outcome.unwrap_or(0));
    assert!(beyond.iter().all(|&byte| byte == 0xA5));
    outcome.map(|_| text.to_vec())
}

/// Holds the text with this behind its first line to what is due.
fn check_behind_first_line(rest: &str, expected: Result<&[i16], u8>) {
    let text = FIRST_LINE.to_string() + rest;
    let expected = expected.map(<[i16]>::to_vec);
    assert_eq!(matrix(text.as_bytes()), expected, "{rest:?}");
}

#[test]
fn matrices_as_the_format_allows_them() {
    for (rest, coefficients) in [
        ("1 1\n5\n", &[5][..]),
        ("2 2\n1\n2\n3\n4\n", &[1, 3, 2, 4]),
        ("%\n1 1\n5\n", &[5]),
        ("% a\r\n%%b%\n%1 1\n1 1\n5\n", &[5]),
        ("1     1\n5\n", &[5]),
        ("1 1\n-0\n", &[0]),
        ("1 1\n-00000\n", &[0]),
        ("1 1\n007\n", &[7]),
        ("1 1\n00007\n", &[7]),
        ("1 1\n-00007\n", &[-7]),
        ("1 1\n32767\n", &[32_767]),
        ("1 1\n-32767\n", &[-32_767]),
    ] {
        check_behind_first_line(rest, Ok(coefficients));
    }
}

#[test]
fn wrong_first_lines() {
    for line in [
        "",
        "\n",
        "%%MatrixMarket matrix array integer general",
        "%%MatrixMarket matrix array integer general \n",
        "%%MatrixMarket matrix array integer general\r\n",
        "%%MatrixMarket matrix array integer genera\n",
        "%%MatrixMarket matrix array integer General\n",
        "%%MatrixMarket  matrix array integer general\n",
        "%%MatrixMarket matrix array integer symmetric\n",
        "%%MatrixMarket matrix array real general\n",
        "%%MatrixMarket matrix coordinate integer general\n",
        " %%MatrixMarket matrix array integer general\n",
        "\n%%MatrixMarket matrix array integer general\n",
        "%MatrixMarket matrix array integer general\n",
        "%\n%%MatrixMarket matrix array integer general\n",
    ] {
        let text = line.to_string() + "1 1\n5\n";
        assert_eq!(matrix(text.as_bytes()), Err(11), "{line:?}");
    }
}

#[test]
fn wrong_size_lines() {
    for rest in [
        "",
        "1 1",
        "% 1 1",
        "%\n",
        "\n1 1\n5\n",
        "\n%\n1 1\n5\n",
        "11\n5\n",
        "1\n5\n",
        "1 1 1\n5\n",
        "1\t1\n5\n",
        " 1 1\n5\n",
        "1 1 \n5\n",
        "1 1\r\n5\n",
        "01 1\n5\n",
        "1 01\n5\n",
        "-1 -1\n5\n",
        "1 2\n5\n5\n",
        "2 1\n5\n5\n",
        "0 0\n",
        "9 9\n5\n",
        "/ /\n5\n",
        ": :\n5\n",
        "% 1\n",
    ] {
        check_behind_first_line(rest, Err(11));
    }
}

#[test]
fn wrong_entries() {
    for entry in [
        "", "-", "--1", "+1", " 1", "1 ", "1\r", "1\t", "1.", "1e1", "- 1", "1-", "/", ":", "a",
        "\0", "%", "% a", "32768", "-32768", "99999", "000007", "-000000", "100000", "65537",
    ] {
        check_behind_first_line(&format!("1 1\n{entry}\n"), Err(12));
        check_behind_first_line(&format!("2 2\n1\n2\n3\n{entry}\n"), Err(12));
        check_behind_first_line(&format!("2 2\n1\n{entry}\n3\n4\n"), Err(12));
    }
}

#[test]
fn entries_missing_or_too_many() {
    for rest in [
        "1 1\n",
        "1 1\n5",
        "2 2\n1\n2\n3\n",
        "2 2\n1\n2\n3\n4",
        "1 1\n5\n5\n",
        "1 1\n5\n5",
        "1 1\n5\n\n",
        "1 1\n5\n%\n",
        "1 1\n5\n ",
        "1 1\n5\n\0",
        "1 1\n%\n5\n",
        "2 2\n1\n2\n%\n3\n4\n",
        "2 2\n1 3\n2 4\n",
    ] {
        check_behind_first_line(rest, Err(12));
    }
}

/// Coefficients of n tanks, no two alike, with the limits at both ends.
fn growing(n: usize) -> Vec<i16> {
    let mut coefficients: Vec<i16> = (0..).map(|i| 7 * i * i - 400).take(n * n).collect();
    coefficients[n * n - 1] = 32_767;
    coefficients[0] = -32_767;
    coefficients
}

#[test]
fn what_is_written_is_read() {
    for n in 1..=MOST_TANKS {
        let coefficients = growing(n);
        let text = written(n, &coefficients).unwrap();
        assert_eq!(matrix(&text), Ok(coefficients));
    }
}

#[test]
fn a_text_cut_short() {
    let text = written(3, &growing(3)).unwrap();
    let header = FIRST_LINE.len() + "3 3\n".len();
    for length in 0..text.len() {
        let refusal = if length < header { 11 } else { 12 };
        assert_eq!(matrix(&text[..length]), Err(refusal), "{length}");
    }
}

#[test]
fn written_texts() {
    let text = b"%%MatrixMarket matrix array integer general\n2 2\n0\n-7\n10\n-32767\n";
    assert_eq!(written(2, &[0, 10, -7, -32_767]), Ok(text.to_vec()));
    let longest = written(8, &[-32_767; 64]).unwrap();
    assert_eq!((longest.len(), MATRIX_ROOM), (496, 496));
}

#[test]
fn matrices_are_read_into_64_places() {
    let text = written(1, &[5]).unwrap();
    for count in 0..MATRIX_PLACES {
        let mut places = [PLACE_FILL; MATRIX_PLACES];
        assert_eq!(read_matrix(&text, &mut places[..count]), Err(1));
        assert_eq!(read_matrix(&[], &mut places[..count]), Err(1));
        assert_eq!(places, [PLACE_FILL; MATRIX_PLACES]);
    }
    assert_eq!(read_matrix(&text, &mut [0; MATRIX_PLACES]), Ok(1));
}

#[test]
fn writing_a_matrix_is_refused_in_order() {
    for (n, coefficients, room, expected) in [
        (0, &[-32_768; 2][..], 495, 1),
        (2, &[1; 4], 0, 1),
        (0, &[-32_768; 2], 496, 6),
        (0, &[], 496, 6),
        (9, &[1; 81], 496, 6),
        (usize::MAX, &[], 496, 6),
        (2, &[-32_768; 3], 496, 4),
        (2, &[1; 5], 496, 4),
        (8, &[], 496, 4),
        (2, &[1, 2, 3, -32_768], 496, 6),
    ] {
        let mut out = [0xA5; MATRIX_ROOM];
        let outcome = write_matrix(n, coefficients, &mut out[..room]);
        assert_eq!(outcome, Err(expected), "{n}, {coefficients:?}, {room}");
        assert_eq!(out, [0xA5; MATRIX_ROOM]);
    }
}

#[test]
fn the_sample_of_a_matrix() {
    let folder = Path::new(env!("CARGO_MANIFEST_DIR")).join("../samples");
    let found = matrix(&fs::read(folder.join("three-tanks.mtx")).unwrap()).unwrap();
    let rows = fs::read_to_string(folder.join("three-tanks.rows")).unwrap();
    let due: Vec<i16> = rows
        .split_whitespace()
        .map(|word| word.parse().unwrap())
        .collect();
    assert_eq!(found, due);
}
