//! The C entries of host/include/halimpung.h, as calls on slices, and that of crates/bench_book. The only `unsafe` code
//! here: a slice of Rust is what the header asks for (never null, of its length; what is written is lent alone, so it
//! overlaps nothing else).
#![allow(unsafe_code)]

use crate::collecting::{MOST, STATE};

#[rustfmt::skip]
extern "C" {
    fn halimpung_read(
        ca: u32, ioa: u32, plan: *const u8, plan_len: usize, file: *const u8, file_len: usize, out: *mut u8, out_len: usize,
    ) -> u32;
    fn halimpung_normalise(
        ca: u32, ioa: u32, plan: *const u8, plan_len: usize, file: *const u8, file_len: usize, out: *mut u8, out_len: usize,
    ) -> u32;
    fn halimpung_collect(unit: *const u8, unit_len: usize, state: *mut u8, file: *mut u8) -> u32;
}

pub fn read(ca: u32, ioa: u32, plan: &[u8], file: &[u8], out: &mut [u8]) -> u32 {
    unsafe {
        halimpung_read(ca, ioa, plan.as_ptr(), plan.len(), file.as_ptr(), file.len(), out.as_mut_ptr(), out.len())
    }
}

pub fn normalise(ca: u32, ioa: u32, plan: &[u8], file: &[u8], out: &mut [u8]) -> u32 {
    unsafe {
        halimpung_normalise(ca, ioa, plan.as_ptr(), plan.len(), file.as_ptr(), file.len(), out.as_mut_ptr(), out.len())
    }
}

pub fn collect(unit: &[u8], state: &mut [u8; STATE], file: &mut [u8; MOST]) -> u32 {
    unsafe { halimpung_collect(unit.as_ptr(), unit.len(), state.as_mut_ptr(), file.as_mut_ptr()) }
}

#[cfg(feature = "pace")]
#[rustfmt::skip]
extern "C" {
    fn halimpung_pace(
        call: u32, rounds: u32, held: u32,
        plan: *const u8, plan_len: usize, command: *const u8, command_len: usize, revocation: *const u8, revocation_len: usize,
    ) -> u32;
}

#[cfg(feature = "pace")]
pub fn pace(call: u32, rounds: u32, held: u32, plan: &[u8], command: &[u8], revocation: &[u8]) -> u32 {
    let (plan, plan_len) = (plan.as_ptr(), plan.len());
    let (command, command_len) = (command.as_ptr(), command.len());
    let (revocation, revocation_len) = (revocation.as_ptr(), revocation.len());
    unsafe { halimpung_pace(call, rounds, held, plan, plan_len, command, command_len, revocation, revocation_len) }
}
