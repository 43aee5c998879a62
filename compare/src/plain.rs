//! Document 01 with the change requests C-11 and C-13 to C-16 in plain Rust, written from their text:
//! the baseline for answers and for speed.

pub mod clock;
pub mod description;
pub mod list;
pub mod loads;
pub mod machine;
pub mod quote;
pub mod refusal;
pub mod report;
pub mod verdicts;

#[cfg(test)]
pub mod definition;
#[cfg(test)]
mod figures;
#[cfg(test)]
mod promise;

use crate::{CALL_BYTES, RECORD_BYTES, Side};
use description::Description;
use loads::Loads;
use machine::{Machine, read_call};
use refusal::{Refusal, Word};
use std::fmt;

/// Plain Rust behind the calls of the proved library.
pub const SIDE: Side =
    Side { name: "plain", report: report_into, quote: quote_of, run: run_calls, clock: clock_at };

/// The tempos of the knob, in tenths of a beat per minute.
pub const SLOWEST: u32 = 200;
pub const FASTEST: u32 = 3_000;

/// Who has the processor: the two models.
#[derive(Clone, Copy, Debug, PartialEq, Eq)]
pub enum Policy {
    /// The highest awake task.
    Preemptive,
    /// The task that is running, to its end; the highest awake task where none is (C-14).
    HoldOn,
}

impl Policy {
    pub const BOTH: [Policy; 2] = [Policy::Preemptive, Policy::HoldOn];
}

impl fmt::Display for Policy {
    fn fmt(&self, f: &mut fmt::Formatter) -> fmt::Result {
        f.write_str(match self {
            Policy::Preemptive => "preemptive",
            Policy::HoldOn => "hold-on",
        })
    }
}

/// An accepted file: its description and the loads that follow from it.
pub struct Plan {
    pub description: Description,
    pub loads: Loads,
}

impl Plan {
    /// Reads a file and judges it, refusals 1 to 10.
    pub fn read(file: &[u8]) -> Result<Plan, Refusal> {
        let description = Description::read(file)?;
        let loads = Loads::of(&description)?;
        Ok(Plan { description, loads })
    }
}

fn report_into(policy: Policy, file: &[u8], page: &mut [u8]) -> i64 {
    let text = report::report(policy, file);
    match page.get_mut(..text.len()) {
        Some(lines) => {
            lines.copy_from_slice(&text);
            text.len() as i64
        }
        None => Refusal::of(Word::ShortPage).code(),
    }
}

fn quote_of(policy: Policy, file: &[u8]) -> i64 {
    match Plan::read(file).and_then(|plan| quote::quote(policy, &plan)) {
        Ok(tempo) => tempo.into(),
        Err(refusal) => refusal.code(),
    }
}

fn clock_at(tempo: u32) -> i64 {
    match tempo {
        SLOWEST..=FASTEST => clock::SPACINGS[(tempo - SLOWEST) as usize].into(),
        _ => Refusal::of(Word::OffTheKnob).code(),
    }
}

fn run_calls(policy: Policy, file: &[u8], calls: &[u8], outcomes: &mut [u8], record: &mut [u8]) -> i64 {
    match policy {
        Policy::Preemptive => run_on::<false>(file, calls, outcomes, record),
        Policy::HoldOn => run_on::<true>(file, calls, outcomes, record),
    }
}

/// One model's run. Apart from the other's, its loop stays as fast as alone.
#[inline(never)]
fn run_on<const HOLD_ON: bool>(file: &[u8], calls: &[u8], outcomes: &mut [u8], record: &mut [u8]) -> i64 {
    let mut machine = match Plan::read(file) {
        Ok(plan) => Machine::<HOLD_ON>::start(&plan.description),
        Err(refusal) => return refusal.code(),
    };
    let calls = calls.chunks_exact(CALL_BYTES);
    if outcomes.len() < calls.len() || record.len() < RECORD_BYTES {
        return Refusal::of(Word::ShortPage).code();
    }
    for (call, outcome) in calls.zip(outcomes) {
        let (arrivals, tempo, finish) = read_call(call);
        *outcome = match machine.tick(arrivals, tempo, finish) {
            Ok(()) => 0,
            Err(refusal) => refusal.word as u8,
        };
    }
    machine.record().write(&mut record[..RECORD_BYTES]);
    0
}
