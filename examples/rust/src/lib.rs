//! Safe calls of the proved library. What each promises stands in `include/ballast.h`.

/// The shortest buffers, and the shortest list of coefficients, that are not refused with 1; nothing written is longer.
pub const RECORD_ROOM: usize = 180;
pub const CASE_ROOM: usize = 388;
pub const TEXT_ROOM: usize = 800;
pub const SOUNDINGS_ROOM: usize = 16;
pub const MATRIX_ROOM: usize = 496;
pub const MATRIX_PLACES: usize = 64;

/// In the order in which a case or a matrix text is looked through; what each means stands in the header.
#[derive(Clone, Copy, Debug, PartialEq, Eq)]
#[repr(u8)]
pub enum Refusal {
    BufferTooShort = 1,
    FieldMissing = 2,
    WrongTag = 3,
    WrongLength = 4,
    ValueCutShort = 5,
    OutsideLimits = 6,
    TrailingBytes = 7,
    ZeroPivot = 8,
    OutsideRange = 9,
    OutsideTable = 10,
    WrongMatrixHeader = 11,
    WrongMatrixEntry = 12,
}

impl Refusal {
    pub const ALL: [Refusal; 12] = [
        Refusal::BufferTooShort,
        Refusal::FieldMissing,
        Refusal::WrongTag,
        Refusal::WrongLength,
        Refusal::ValueCutShort,
        Refusal::OutsideLimits,
        Refusal::TrailingBytes,
        Refusal::ZeroPivot,
        Refusal::OutsideRange,
        Refusal::OutsideTable,
        Refusal::WrongMatrixHeader,
        Refusal::WrongMatrixEntry,
    ];

    pub fn number(self) -> u8 {
        self as u8
    }
}

/// A case's figures: coefficients and their tolerances row after row, and a trial where `rounds` is 0.
#[derive(Clone, Copy, Debug)]
pub struct Case<'a> {
    pub n: usize,
    pub exponent: usize,
    pub rounds: usize,
    pub coefficients: &'a [i16],
    pub tolerances: &'a [u16],
    pub right_sides: &'a [i32],
    pub right_tolerances: &'a [u32],
    pub trial: &'a [i32],
}

mod library {
    extern "C" {
        pub fn ballast_check_case(input: *const u8, length: usize) -> i64;
        pub fn ballast_judge_case(input: *const u8, length: usize, out: *mut u8, room: usize) -> i64;
        pub fn ballast_soundings(input: *const u8, length: usize, out: *mut u8, room: usize) -> i64;
        pub fn ballast_verdict_text(input: *const u8, length: usize, out: *mut u8, room: usize) -> i64;
        pub fn ballast_write_case(
            n: usize,
            exponent: usize,
            rounds: usize,
            coefficients: *const i16,
            coefficient_count: usize,
            tolerances: *const u16,
            tolerance_count: usize,
            right_sides: *const i32,
            right_side_count: usize,
            right_tolerances: *const u32,
            right_tolerance_count: usize,
            trial: *const i32,
            trial_count: usize,
            out: *mut u8,
            room: usize,
        ) -> i64;
        pub fn ballast_read_matrix(text: *const u8, length: usize, coefficients: *mut i16, places: usize) -> i64;
        pub fn ballast_write_matrix(n: usize, coefficients: *const i16, count: usize, out: *mut u8, room: usize) -> i64;
    }
}

/// A count from 0 on, or the refusal whose number stands behind the minus.
fn outcome(result: i64) -> Result<usize, Refusal> {
    match usize::try_from(result) {
        Ok(count) => Ok(count),
        Err(_) => Err(Refusal::ALL[result.unsigned_abs() as usize - 1]),
    }
}

/// The case's number of tanks, or refusal 2 to 7.
pub fn check_case(input: &[u8]) -> Result<usize, Refusal> {
    // SAFETY: the slice gives a pointer and the length behind it.
    outcome(unsafe { library::ballast_check_case(input.as_ptr(), input.len()) })
}

/// The record's length, with the record at the front of `out`.
pub fn judge_case(input: &[u8], out: &mut [u8]) -> Result<usize, Refusal> {
    // SAFETY: as above; `out` is borrowed alone, so it shares no memory with `input`.
    outcome(unsafe { library::ballast_judge_case(input.as_ptr(), input.len(), out.as_mut_ptr(), out.len()) })
}

/// Twice the number of tanks, with the tanks' depths, two bytes each, at the front of `out`.
pub fn soundings(input: &[u8], out: &mut [u8]) -> Result<usize, Refusal> {
    // SAFETY: as above.
    outcome(unsafe { library::ballast_soundings(input.as_ptr(), input.len(), out.as_mut_ptr(), out.len()) })
}

/// The depths in centimetres, tank 1 first, of the bytes that `soundings` wrote.
pub fn depths(bytes: &[u8]) -> impl Iterator<Item = u16> + '_ {
    bytes.chunks_exact(2).map(|pair| u16::from_be_bytes([pair[0], pair[1]]))
}

/// The length of the printed verdict, with the text at the front of `out`.
pub fn verdict_text(input: &[u8], out: &mut [u8]) -> Result<usize, Refusal> {
    // SAFETY: as above.
    outcome(unsafe { library::ballast_verdict_text(input.as_ptr(), input.len(), out.as_mut_ptr(), out.len()) })
}

/// The case's length, with the case at the front of `out`.
pub fn write_case(case: &Case<'_>, out: &mut [u8]) -> Result<usize, Refusal> {
    // SAFETY: as above, for each of the lists.
    outcome(unsafe {
        library::ballast_write_case(
            case.n,
            case.exponent,
            case.rounds,
            case.coefficients.as_ptr(),
            case.coefficients.len(),
            case.tolerances.as_ptr(),
            case.tolerances.len(),
            case.right_sides.as_ptr(),
            case.right_sides.len(),
            case.right_tolerances.as_ptr(),
            case.right_tolerances.len(),
            case.trial.as_ptr(),
            case.trial.len(),
            out.as_mut_ptr(),
            out.len(),
        )
    })
}

/// The n of a matrix text, with its n × n coefficients, row after row, at the front of `coefficients`.
pub fn read_matrix(text: &[u8], coefficients: &mut [i16]) -> Result<usize, Refusal> {
    // SAFETY: as above.
    outcome(unsafe { library::ballast_read_matrix(text.as_ptr(), text.len(), coefficients.as_mut_ptr(), coefficients.len()) })
}

/// The length of the matrix text of these coefficients, which stand row after row, with the text at the front of `out`.
pub fn write_matrix(n: usize, coefficients: &[i16], out: &mut [u8]) -> Result<usize, Refusal> {
    // SAFETY: as above.
    outcome(unsafe { library::ballast_write_matrix(n, coefficients.as_ptr(), coefficients.len(), out.as_mut_ptr(), out.len()) })
}
