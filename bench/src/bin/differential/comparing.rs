//! A call of the library beside the same call of the twin.

use ballast::Refusal;
use bench::inputs::Input;
use bench::matrices::Matrix;
use bench::twin;
use std::fmt::Debug;
use std::process::exit;

/// Elements on both sides of each result buffer, which no call may touch.
const MARGIN: usize = 64;

pub type Outcome = Result<usize, u8>;

pub fn compare_checks(number: u64, input: &Input) -> Outcome {
    let proved = ballast::check_case(&input.bytes).map_err(Refusal::number);
    let twin = twin::check_case(&input.bytes);
    if proved != twin {
        println!("input {number}: check_case differs");
        println!("input:  {:02X?} (hexadecimal)", input.bytes);
        println!("proved: {proved:?}");
        println!("twin:   {twin:?}");
        exit(1)
    }
    proved
}

/// What a buffer of this length and its margins hold before a call.
pub fn pattern<T>(room: usize, any: impl FnMut() -> T) -> Vec<T> {
    std::iter::repeat_with(any)
        .take(room + 2 * MARGIN)
        .collect()
}

/// A call that fills a buffer, of bytes or of coefficients, as the library and as the twin have it.
pub struct Call<Given: ?Sized, Element> {
    name: &'static str,
    proved: fn(&Given, &mut [Element]) -> Outcome,
    twin: fn(&Given, &mut [Element]) -> Outcome,
    /// How many elements at the buffer's front are filled where this count is returned.
    filled: fn(usize) -> usize,
}

pub const JUDGE: Call<[u8], u8> = Call {
    name: "judge_case",
    proved: |input, out| ballast::judge_case(input, out).map_err(Refusal::number),
    twin: twin::judge_case,
    filled: |length| length,
};

pub const SOUND: Call<[u8], u8> = Call {
    name: "soundings",
    proved: |input, out| ballast::soundings(input, out).map_err(Refusal::number),
    twin: twin::soundings,
    filled: |length| length,
};

pub const READ_MATRIX: Call<[u8], i16> = Call {
    name: "read_matrix",
    proved: |text, list| ballast::read_matrix(text, list).map_err(Refusal::number),
    twin: twin::read_matrix,
    filled: |n| n * n,
};

pub const WRITE_MATRIX: Call<Matrix, u8> = Call {
    name: "write_matrix",
    proved: |matrix, out| {
        ballast::write_matrix(matrix.n, &matrix.coefficients, out).map_err(Refusal::number)
    },
    twin: |matrix, out| twin::write_matrix(matrix.n, &matrix.coefficients, out),
    filled: |length| length,
};

impl<Given: Debug + ?Sized, Element: Copy + Debug + PartialEq> Call<Given, Element> {
    /// Both on buffers with the same content; returns the outcome and the buffer on which they agree.
    pub fn compare(
        &self,
        number: u64,
        given: &Given,
        pattern: &[Element],
    ) -> (Outcome, Vec<Element>) {
        let buffer = MARGIN..pattern.len() - MARGIN;
        let mut proved_left = pattern.to_vec();
        let mut twin_left = pattern.to_vec();
        let proved = (self.proved)(given, &mut proved_left[buffer.clone()]);
        let twin = (self.twin)(given, &mut twin_left[buffer.clone()]);
        if proved != twin
            || proved_left != twin_left
            || !self.rest_untouched(proved, &proved_left, pattern)
        {
            let (name, room) = (self.name, buffer.len());
            println!("input {number}: {name} differs, or something outside its count has changed");
            println!("input:  {given:02X?} (hexadecimal)");
            println!("buffer: {room} elements, with {MARGIN} more on each side");
            println!("before: {pattern:02X?}");
            println!("proved: {proved:?}\n        {proved_left:02X?}");
            println!("twin:   {twin:?}\n        {twin_left:02X?}");
            exit(1)
        }
        (proved, proved_left[buffer].to_vec())
    }

    /// Whether everything beyond what the count fills, or after a refusal everything, is as it was.
    fn rest_untouched(&self, outcome: Outcome, left: &[Element], pattern: &[Element]) -> bool {
        let rest = MARGIN + outcome.map_or(0, self.filled);
        left[..MARGIN] == pattern[..MARGIN] && left[rest..] == pattern[rest..]
    }
}
