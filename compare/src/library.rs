//! The proved library's exported calls, wrapped. Linked only where the archive is there (build.rs).

use crate::Side;

/// The proved side, if its archive is linked.
#[cfg(not(proved))]
pub fn side() -> Option<Side> {
    None
}

/// The proved side, if its archive is linked.
#[cfg(proved)]
pub fn side() -> Option<Side> {
    use linked::{clock, quote, report, run};
    Some(Side { name: "proved", report, quote, run, clock })
}

#[cfg(proved)]
mod linked {
    use crate::plain::Policy;

    // A `&[u8]` of the library's functions passes as pointer and length. The calls of the hold-on
    // model have the parameters and answers of the others.
    unsafe extern "C" {
        fn bench_report(file: *const u8, file_len: usize, out: *mut u8, out_len: usize) -> i64;
        fn bench_hold_report(file: *const u8, file_len: usize, out: *mut u8, out_len: usize) -> i64;
        fn bench_quote(file: *const u8, file_len: usize) -> i64;
        fn bench_hold_quote(file: *const u8, file_len: usize) -> i64;
        safe fn bench_clock(tempo: u32) -> i64;
        fn bench_run(
            file: *const u8,
            file_len: usize,
            calls: *const u8,
            calls_len: usize,
            outcomes: *mut u8,
            outcomes_len: usize,
            record: *mut u8,
            record_len: usize,
        ) -> i64;
        fn bench_hold_run(
            file: *const u8,
            file_len: usize,
            calls: *const u8,
            calls_len: usize,
            outcomes: *mut u8,
            outcomes_len: usize,
            record: *mut u8,
            record_len: usize,
        ) -> i64;
    }

    // Each call below is safe for the same reason: every pointer and length comes from one slice
    // that lives through the call, the slices written to are borrowed alone, and the library
    // keeps no pointer.

    pub fn report(policy: Policy, file: &[u8], page: &mut [u8]) -> i64 {
        let call = match policy {
            Policy::Preemptive => bench_report,
            Policy::HoldOn => bench_hold_report,
        };
        unsafe { call(file.as_ptr(), file.len(), page.as_mut_ptr(), page.len()) }
    }

    pub fn quote(policy: Policy, file: &[u8]) -> i64 {
        let call = match policy {
            Policy::Preemptive => bench_quote,
            Policy::HoldOn => bench_hold_quote,
        };
        unsafe { call(file.as_ptr(), file.len()) }
    }

    pub fn clock(tempo: u32) -> i64 {
        bench_clock(tempo)
    }

    pub fn run(policy: Policy, file: &[u8], calls: &[u8], outcomes: &mut [u8], record: &mut [u8]) -> i64 {
        let call = match policy {
            Policy::Preemptive => bench_run,
            Policy::HoldOn => bench_hold_run,
        };
        unsafe {
            call(
                file.as_ptr(),
                file.len(),
                calls.as_ptr(),
                calls.len(),
                outcomes.as_mut_ptr(),
                outcomes.len(),
                record.as_mut_ptr(),
                record.len(),
            )
        }
    }
}
