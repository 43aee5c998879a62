//! The proved library and a plain Rust implementation of document 01 and its change requests, side
//! by side.
//!
//! [`plain`] is written from the documents alone; [`library`] wraps the proved archive. Both answer
//! the same calls, three of them on two models, so that [`generate`]d inputs can be put to both.

pub mod generate;
pub mod library;
pub mod plain;
pub mod rounds;
pub mod vectors;

use plain::Policy;

/// Bytes of a machine record: 32 awake, 32 × 4 used, 256 waiting, 256 dropped, 16 × 4 ages,
/// 16 × 2 fastest tempos, 32 again, 256 late.
pub const RECORD_BYTES: usize = 1_056;

/// Bytes of one tick call: the mask of arrivals in two, high byte first, the tempo likewise,
/// "finish", one unused.
pub const CALL_BYTES: usize = 6;

/// No report is longer: 256 link lines of at most 45 bytes, the tempo line and the line `hold`.
pub const LONGEST_REPORT: usize = 12_288;

/// One implementation, by the calls that both have.
#[derive(Clone, Copy)]
pub struct Side {
    pub name: &'static str,
    /// The report on a file, into a page: the bytes written, or -(10,000 × number + place).
    pub report: fn(policy: Policy, file: &[u8], page: &mut [u8]) -> i64,
    /// The quoted tempo in tenths, or -(10,000 × number + place).
    pub quote: fn(policy: Policy, file: &[u8]) -> i64,
    /// A list of tick calls from the idle start. Fills an outcome for each and the last record and
    /// returns 0, or returns -(10,000 × number + place) and fills nothing.
    pub run: RunCall,
    /// The spacing of the MIDI clock at a tempo in tenths, or -(10,000 × number + place).
    pub clock: fn(tempo: u32) -> i64,
}

pub type RunCall =
    fn(policy: Policy, file: &[u8], calls: &[u8], outcomes: &mut [u8], record: &mut [u8]) -> i64;
