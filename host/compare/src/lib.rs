//! The proved library beside the reference.
//!
//! [`input`] makes an address, a plan, a file and a room from a number; [`check`] gives
//! them to both sides and compares answers and output buffers; [`tally`] counts what was
//! answered. The files come from [`samples`], by way of [`layout_noise`] (which leaves the
//! record as it is), [`values`] and [`together`] (other values, the summary row mended),
//! [`damage`] and [`random`], and at last [`profiles`] (h lines as request A5 has them) or
//! [`spellings`] (the accents and short settings of request A1); the plans from [`plans`].
//! Each choice is a throw of [`dice`].
//! For collecting, [`transfers`] makes a run of [`units`] from a number, [`collecting`]
//! gives it to both sides, and [`units_met`] counts what became of the units.
//! The library is called by [`ours`], which links it on x86-64 and is [`far`] elsewhere.
//! With the feature `pace`, for times, it is linked everywhere (elsewhere it is code without its proofs), and `pace` is the
//! reference's side of the book's calls.
#![deny(unsafe_code)]

pub mod body;
pub mod check;
pub mod collecting;
pub mod damage;
pub mod dice;
pub mod far;
pub mod input;
pub mod kinds;
pub mod layout_noise;
pub mod lines;
#[cfg(any(target_arch = "x86_64", feature = "pace"))]
pub mod ours;
#[cfg(feature = "pace")]
pub mod pace;
pub mod plans;
pub mod profiles;
#[cfg(test)]
mod profiles_met;
pub mod random;
pub mod samples;
pub mod spellings;
#[cfg(test)]
mod spellings_met;
pub mod tally;
pub mod together;
pub mod transfers;
pub mod units;
pub mod units_met;
pub mod values;
pub mod words;

#[cfg(not(any(target_arch = "x86_64", feature = "pace")))]
pub use far as ours;

/// Reading or normalising, on either side.
pub type Entry = fn(u32, u32, &[u8], &[u8], &mut [u8]) -> u32;
