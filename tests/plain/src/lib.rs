//! The five calls of include/crossbar.h as a program that is written for
//! speed and has no proofs: the yardstick of the benchmark. It keeps the whole
//! contract of the header: every check, and every byte of every output slice,
//! zeros after a refusal. `tests/answers.rs` compares it with the second
//! implementation.
//!
//! A call clears an output slice only where it does not write it, reads each
//! text once and allocates nothing.

#![forbid(unsafe_code)]

mod job;
mod light;
mod listing;
mod reader;
mod record;

pub use job::{map, walk};
pub use light::light;
pub use listing::{load, print};

/// Document 01, "Job text" and "Listing".
const MOST_SWITCHES: u32 = 64;
const MOST_NODES: u32 = 254;
const MOST_OUTPUTS: u32 = 32;
const MOST_WIRES: u32 = 128;

/// A refusal as the header packs it: the number in the highest byte, then the
/// line.
type Refused = u64;

/// Ground `number` at `line`.
#[inline(always)]
fn refused(number: u64, line: usize) -> Refused {
    number << 56 | line as u64
}

/// The answer of map and load: a refusal leaves zeros only.
fn settle(answer: Result<u64, Refused>, record: &mut [u8], cells: &mut [u8]) -> u64 {
    match answer {
        Ok(value) => value,
        Err(refusal) => {
            record.fill(0);
            cells.fill(0);
            refusal
        }
    }
}
