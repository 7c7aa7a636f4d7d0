//! Prints the verdict of each case file named on the command line; with none, of a case written here. Behind `--soundings` it prints the
//! depths of each, and behind `--matrix` the coefficients of each Matrix Market file, a row a line.
use ballast::{depths, read_matrix, soundings, verdict_text, write_case, Case, Refusal};
use ballast::{CASE_ROOM, MATRIX_PLACES, SOUNDINGS_ROOM, TEXT_ROOM};
use std::io::Write;

/// Two tanks whose rows have to be exchanged: rows (0, 1) and (1, 0), right sides 5 and 7.
fn two_tanks(out: &mut [u8]) -> usize {
    let case = Case {
        n: 2,
        exponent: 0,
        rounds: 1,
        coefficients: &[0, 1, 1, 0],
        tolerances: &[0; 4],
        right_sides: &[5, 7],
        right_tolerances: &[0; 2],
        trial: &[],
    };
    write_case(&case, out).expect("the case is within its limits")
}

fn print(input: &[u8]) -> std::io::Result<()> {
    let mut text = [0; TEXT_ROOM];
    let length = verdict_text(input, &mut text).expect("the buffer has the room");
    std::io::stdout().write_all(&text[..length])
}

fn print_depths(input: &[u8]) -> std::io::Result<()> {
    let mut out = std::io::stdout();
    let mut room = [0; SOUNDINGS_ROOM];
    match soundings(input, &mut room) {
        Err(refusal) => print_refusal(refusal),
        Ok(length) => depths(&room[..length])
            .zip(1..)
            .try_for_each(|(depth, tank)| writeln!(out, "tank {tank} depth {depth} cm")),
    }
}

fn print_rows(text: &[u8]) -> std::io::Result<()> {
    let mut coefficients = [0; MATRIX_PLACES];
    match read_matrix(text, &mut coefficients) {
        Err(refusal) => print_refusal(refusal),
        Ok(n) => coefficients[..n * n].chunks_exact(n).try_for_each(print_row),
    }
}

fn print_row(row: &[i16]) -> std::io::Result<()> {
    let figures: Vec<String> = row.iter().map(i16::to_string).collect();
    writeln!(std::io::stdout(), "{}", figures.join(" "))
}

fn print_refusal(refusal: Refusal) -> std::io::Result<()> {
    writeln!(std::io::stdout(), "refused {}", refusal.number())
}

fn print_files(names: &[String], print: fn(&[u8]) -> std::io::Result<()>) -> std::io::Result<()> {
    names.iter().try_for_each(|name| print(&std::fs::read(name)?))
}

fn main() -> std::io::Result<()> {
    let arguments: Vec<String> = std::env::args().skip(1).collect();
    match &arguments[..] {
        [] => {
            let mut case = [0; CASE_ROOM];
            let length = two_tanks(&mut case);
            print(&case[..length])
        }
        [option, names @ ..] if option == "--soundings" => print_files(names, print_depths),
        [option, names @ ..] if option == "--matrix" => print_files(names, print_rows),
        names => print_files(names, print),
    }
}
