//! LAPACK's expert driver for linear equations, in double precision.

use bench::figures::Figures;
use bench::twin::MOST_TANKS;
use std::ffi::c_char;

/// One set of equations: coefficients column after column, and right sides.
pub struct System {
    n: i32,
    coefficients: [f64; MOST_TANKS * MOST_TANKS],
    right_sides: [f64; MOST_TANKS],
}

impl System {
    pub fn of(figures: &Figures) -> Self {
        let n = figures.n;
        let mut coefficients = [0.0; MOST_TANKS * MOST_TANKS];
        for j in 0..n {
            for i in 0..n {
                coefficients[j * n + i] = figures.coefficients[i][j] as f64;
            }
        }
        System {
            n: n as i32,
            coefficients,
            right_sides: figures.right_sides.map(|right_side| right_side as f64),
        }
    }
}

/// What the driver writes; kept between calls, so that no call pays for clearing it.
#[derive(Default)]
pub struct Workspace {
    factored: [[f64; MOST_TANKS]; MOST_TANKS],
    pivots: [i32; MOST_TANKS],
    row_scales: [f64; MOST_TANKS],
    column_scales: [f64; MOST_TANKS],
    pub solution: [f64; MOST_TANKS],
    work: [[f64; MOST_TANKS]; 4],
    whole_work: [i32; MOST_TANKS],
    forward_error: f64,
    pub backward_error: f64,
}

/// Factors, solves, refines, and bounds the errors. Returns LAPACK's INFO, which is 0 where all went well.
pub fn solve(system: &mut System, space: &mut Workspace) -> i32 {
    const NO: c_char = b'N' as c_char;
    let mut equilibrated = NO;
    let mut reciprocal_condition = 0.0;
    let mut info = 0;
    let n = system.n;
    // SAFETY: every array has room for eight tanks, and n is at most 8. With FACT N the coefficients and right sides are only read.
    unsafe {
        dgesvx_(
            &NO,
            &NO,
            &n,
            &1,
            system.coefficients.as_mut_ptr(),
            &n,
            space.factored.as_mut_ptr().cast(),
            &n,
            space.pivots.as_mut_ptr(),
            &mut equilibrated,
            space.row_scales.as_mut_ptr(),
            space.column_scales.as_mut_ptr(),
            system.right_sides.as_mut_ptr(),
            &n,
            space.solution.as_mut_ptr(),
            &n,
            &mut reciprocal_condition,
            &mut space.forward_error,
            &mut space.backward_error,
            space.work.as_mut_ptr().cast(),
            space.whole_work.as_mut_ptr(),
            &mut info,
            1,
            1,
            1,
        );
    }
    info
}

/// The version of the library that this program found.
pub fn version() -> String {
    let (mut major, mut minor, mut patch) = (0, 0, 0);
    // SAFETY: ilaver writes these three numbers and nothing else.
    unsafe { ilaver_(&mut major, &mut minor, &mut patch) };
    format!("{major}.{minor}.{patch}")
}

// The last three arguments of dgesvx are the lengths of its three texts, as Fortran compilers pass them.
extern "C" {
    fn ilaver_(major: *mut i32, minor: *mut i32, patch: *mut i32);
    fn dgesvx_(
        fact: *const c_char,
        trans: *const c_char,
        n: *const i32,
        nrhs: *const i32,
        a: *mut f64,
        lda: *const i32,
        af: *mut f64,
        ldaf: *const i32,
        ipiv: *mut i32,
        equed: *mut c_char,
        r: *mut f64,
        c: *mut f64,
        b: *mut f64,
        ldb: *const i32,
        x: *mut f64,
        ldx: *const i32,
        rcond: *mut f64,
        ferr: *mut f64,
        berr: *mut f64,
        work: *mut f64,
        iwork: *mut i32,
        info: *mut i32,
        fact_length: usize,
        trans_length: usize,
        equed_length: usize,
    );
}
