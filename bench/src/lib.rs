//! A second implementation of the calls ("twin"), and the inputs on which it meets the proved library.
//!
//! The twin is written from documents 01 and 02 alone and shares no code with the library.
#![forbid(unsafe_code)]

pub mod coefficients;
pub mod corners;
pub mod entries;
pub mod figures;
pub mod inputs;
pub mod matrices;
pub mod pool;
pub mod random;
pub mod spoiling;
pub mod twin;
