//! The wrapper and the header say the same: sizes and refusals.
use ballast::{check_case, depths, judge_case, read_matrix, soundings, verdict_text, write_case, write_matrix};
use ballast::{Case, Refusal, CASE_ROOM, MATRIX_PLACES, MATRIX_ROOM, RECORD_ROOM, SOUNDINGS_ROOM, TEXT_ROOM};

const HEADER: &str = include_str!("../../../include/ballast.h");

/// The number that the header gives a name, by `#define NAME n` or `NAME = n`.
fn header_number(name: &str) -> i64 {
    let line = HEADER.lines().find(|line| line.split_whitespace().any(|word| word == name));
    let words = line.unwrap_or_else(|| panic!("the header has no {name}")).split_whitespace();
    let mut after = words.skip_while(|word| *word != name).skip(1).filter(|word| *word != "=");
    after.next().unwrap().trim_end_matches(',').parse().unwrap()
}

#[test]
fn sizes() {
    assert_eq!(header_number("BALLAST_RECORD_ROOM"), RECORD_ROOM as i64);
    assert_eq!(header_number("BALLAST_CASE_ROOM"), CASE_ROOM as i64);
    assert_eq!(header_number("BALLAST_TEXT_ROOM"), TEXT_ROOM as i64);
    assert_eq!(header_number("BALLAST_SOUNDINGS_ROOM"), SOUNDINGS_ROOM as i64);
    assert_eq!(header_number("BALLAST_MATRIX_ROOM"), MATRIX_ROOM as i64);
    assert_eq!(header_number("BALLAST_MATRIX_PLACES"), MATRIX_PLACES as i64);
}

#[test]
fn refusals() {
    let names: [&str; Refusal::ALL.len()] = [
        "BUFFER_TOO_SHORT",
        "FIELD_MISSING",
        "WRONG_TAG",
        "WRONG_LENGTH",
        "VALUE_CUT_SHORT",
        "OUTSIDE_LIMITS",
        "TRAILING_BYTES",
        "ZERO_PIVOT",
        "OUTSIDE_RANGE",
        "OUTSIDE_TABLE",
        "WRONG_MATRIX_HEADER",
        "WRONG_MATRIX_ENTRY",
    ];
    for (name, refusal) in names.iter().zip(Refusal::ALL) {
        assert_eq!(header_number(&format!("BALLAST_{name}")), -i64::from(refusal.number()));
    }
}

#[test]
fn shortest_buffers() {
    let case = Case {
        n: 1,
        exponent: 0,
        rounds: 1,
        coefficients: &[1],
        tolerances: &[0],
        right_sides: &[1],
        right_tolerances: &[0],
        trial: &[],
    };
    let mut room = [0; TEXT_ROOM];
    assert_eq!(write_case(&case, &mut room[..CASE_ROOM - 1]), Err(Refusal::BufferTooShort));
    let length = write_case(&case, &mut room[..CASE_ROOM]).unwrap();
    let input = room[..length].to_vec();
    assert_eq!(check_case(&input), Ok(1));
    assert_eq!(judge_case(&input, &mut room[..RECORD_ROOM - 1]), Err(Refusal::BufferTooShort));
    assert_eq!(judge_case(&input, &mut room[..RECORD_ROOM]), Ok(40));
    assert_eq!(soundings(&input, &mut room[..SOUNDINGS_ROOM - 1]), Err(Refusal::BufferTooShort));
    assert_eq!(soundings(&input, &mut room[..SOUNDINGS_ROOM]), Ok(2));
    assert_eq!(verdict_text(&input, &mut room[..TEXT_ROOM - 1]), Err(Refusal::BufferTooShort));
    assert!(verdict_text(&input, &mut room).is_ok());
}

/// The case of three tanks with this trial, in kilograms.
fn trial_of_three(trial: &[i32; 3], out: &mut [u8]) -> usize {
    let case = Case {
        n: 3,
        exponent: 3,
        rounds: 0,
        coefficients: &[0; 9],
        tolerances: &[0; 9],
        right_sides: &[0; 3],
        right_tolerances: &[0; 3],
        trial,
    };
    write_case(&case, out).expect("the case is within its limits")
}

#[test]
fn depths_by_tanks() {
    let (mut case, mut room) = ([0; CASE_ROOM], [0xA5; SOUNDINGS_ROOM]);
    let length = trial_of_three(&[900, 520_001, 0], &mut case);
    assert_eq!(soundings(&case[..length], &mut room), Err(Refusal::OutsideTable));
    assert_eq!(room, [0xA5; SOUNDINGS_ROOM]);
    let length = trial_of_three(&[900, 520_000, 901], &mut case);
    assert_eq!(soundings(&case[..length], &mut room), Ok(6));
    assert!(depths(&room[..6]).eq([0, 400, 1]));
    assert_eq!(room[6..], [0xA5; SOUNDINGS_ROOM - 6]);
}

#[test]
fn written_matrices() {
    let mut room = [0xA5; MATRIX_ROOM + 1];
    assert_eq!(write_matrix(0, &[], &mut room[..MATRIX_ROOM - 1]), Err(Refusal::BufferTooShort));
    assert_eq!(write_matrix(0, &[], &mut room), Err(Refusal::OutsideLimits));
    assert_eq!(write_matrix(2, &[-32_768; 3], &mut room), Err(Refusal::WrongLength));
    assert_eq!(write_matrix(2, &[1, 2, 3, -32_768], &mut room), Err(Refusal::OutsideLimits));
    assert_eq!(room, [0xA5; MATRIX_ROOM + 1]);
    let text = b"%%MatrixMarket matrix array integer general\n2 2\n1\n-3\n20\n0\n";
    assert_eq!(write_matrix(2, &[1, 20, -3, 0], &mut room), Ok(text.len()));
    assert_eq!(room[..text.len()], text[..]);
    assert!(room[text.len()..].iter().all(|&byte| byte == 0xA5));
    assert_eq!(write_matrix(8, &[-32_767; MATRIX_PLACES], &mut room[..MATRIX_ROOM]), Ok(MATRIX_ROOM));
}

#[test]
fn read_matrices() {
    let text = b"%%MatrixMarket matrix array integer general\n%\n2  2\n1\n-03\n20\n-0\n";
    let mut places = [77; MATRIX_PLACES + 1];
    assert_eq!(read_matrix(b"", &mut places[..MATRIX_PLACES - 1]), Err(Refusal::BufferTooShort));
    assert_eq!(read_matrix(b"", &mut places), Err(Refusal::WrongMatrixHeader));
    assert_eq!(read_matrix(&text[1..], &mut places), Err(Refusal::WrongMatrixHeader));
    assert_eq!(read_matrix(&text[..text.len() - 1], &mut places), Err(Refusal::WrongMatrixEntry));
    assert_eq!(places, [77; MATRIX_PLACES + 1]);
    assert_eq!(read_matrix(text, &mut places[..MATRIX_PLACES]), Ok(2));
    assert_eq!(places[..4], [1, 20, -3, 0]);
    assert_eq!(places[4..], [77; MATRIX_PLACES - 3]);
}
