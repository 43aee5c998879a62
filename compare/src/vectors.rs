//! The recorded answers of another implementation of document 01 and its change requests: the data of the crate `vectors`.

use crate::plain::{Plan, Policy};
use std::ops::Range;

/// Reports of document 01's files, of files with swing (C-11), and on the hold-on model (C-14).
static REPORTS: [&[u8]; 2] = [
    include_bytes!("../../crates/vectors/data/reports.bin"),
    include_bytes!("../../crates/vectors/data/swing.bin"),
];
static HOLD_REPORTS: [&[u8]; 1] = [include_bytes!("../../crates/vectors/data/hold-reports.bin")];
/// Runs on the two models (C-15).
static RUNS: &[u8] = include_bytes!("../../crates/vectors/data/latched-runs.bin");
static HOLD_RUNS: &[u8] = include_bytes!("../../crates/vectors/data/latched-hold-runs.bin");
/// Runs recorded before C-15: with a tempo in each call (C-13), the same on the hold-on model (C-14), and
/// document 01's, each at one tempo. Kept are those in which no event comes for a task part done, which
/// C-15 leaves as they were.
static EARLIER_RUNS: &[u8] = include_bytes!("../../crates/vectors/data/knob-runs.bin");
static EARLIER_HOLD_RUNS: &[u8] = include_bytes!("../../crates/vectors/data/hold-runs.bin");
static STEADY_RUNS: &[u8] = include_bytes!("../../crates/vectors/data/steady-runs.bin");

/// The ages of a record; behind them are the fastest tempos, and then the marks of C-15.
const AGES: Range<usize> = 672..736;
const LATCH: usize = 768;

/// A file and its report.
pub struct ReportVector {
    pub file: &'static [u8],
    pub report: &'static [u8],
}

/// A file, the tick calls from the idle start, and what came of them.
pub struct RunVector {
    pub file: &'static [u8],
    pub calls: &'static [u8],
    pub outcomes: &'static [u8],
    pub record: &'static [u8],
}

/// All recorded reports of a model: repeatedly length, file, length, report.
pub fn reports(policy: Policy) -> Vec<ReportVector> {
    let recorded: &[&[u8]] = match policy {
        Policy::Preemptive => &REPORTS,
        Policy::HoldOn => &HOLD_REPORTS,
    };
    let mut vectors = Vec::new();
    for recorded in recorded {
        let mut bytes = Cursor(recorded);
        while !bytes.0.is_empty() {
            vectors.push(ReportVector { file: bytes.sized(), report: bytes.sized() });
        }
    }
    vectors
}

/// All recorded runs of a model.
pub fn runs(policy: Policy) -> Vec<RunVector> {
    split_runs(match policy {
        Policy::Preemptive => RUNS,
        Policy::HoldOn => HOLD_RUNS,
    })
}

/// Runs of a model that were recorded before C-15; the record is as [`without_latch`] tells it.
pub fn earlier_runs(policy: Policy) -> Vec<RunVector> {
    split_runs(match policy {
        Policy::Preemptive => EARLIER_RUNS,
        Policy::HoldOn => EARLIER_HOLD_RUNS,
    })
}

/// Runs of document 01, each with its tempo in every call; the record is as [`at_one_tempo`] tells it.
pub fn steady_runs() -> Vec<RunVector> {
    split_runs(STEADY_RUNS)
}

/// Repeatedly file, calls, outcomes and the record after the last call, each with its length
/// before it.
fn split_runs(recorded: &'static [u8]) -> Vec<RunVector> {
    let mut bytes = Cursor(recorded);
    let mut vectors = Vec::new();
    while !bytes.0.is_empty() {
        vectors.push(RunVector {
            file: bytes.sized(),
            calls: bytes.sized(),
            outcomes: bytes.sized(),
            record: bytes.sized(),
        });
    }
    vectors
}

/// A record as it was before C-15, if it has no mark of C-15.
pub fn without_latch(mut record: Vec<u8>) -> Vec<u8> {
    if record[LATCH..].iter().all(|&mark| mark == 0) {
        record.truncate(LATCH);
    }
    record
}

/// A record, left by a run of document 01, as the recorded one is: without marks of C-15, and with ages
/// up to the spacings at the run's tempo, which stands behind them if no other is kept.
pub fn at_one_tempo(record: Vec<u8>, run: &RunVector) -> Vec<u8> {
    let mut record = without_latch(record);
    let tempo = [run.record[AGES.end], run.record[AGES.end + 1]];
    let tenths = u16::from_be_bytes(tempo).into();
    let spacings = Plan::read(run.file).map_or([0; 16], |plan| plan.description.spacings(tenths));
    for (age, spacing) in record[AGES].chunks_exact_mut(4).zip(spacings) {
        // Bytes are in the order of the numbers, the high byte first.
        if *age > spacing.to_be_bytes()[..] {
            age.copy_from_slice(&spacing.to_be_bytes());
        }
    }
    if record[AGES.end..].chunks_exact(2).all(|kept| kept == [0; 2] || kept == tempo) {
        record.truncate(AGES.end);
        record.extend(tempo);
    }
    record
}

struct Cursor(&'static [u8]);

impl Cursor {
    fn take(&mut self, count: usize) -> &'static [u8] {
        let (taken, rest) = self.0.split_at(count);
        self.0 = rest;
        taken
    }

    fn number(&mut self) -> usize {
        let bytes = self.take(2);
        u16::from_be_bytes([bytes[0], bytes[1]]).into()
    }

    fn sized(&mut self) -> &'static [u8] {
        let size = self.number();
        self.take(size)
    }
}

#[cfg(test)]
mod tests {
    use super::*;
    use crate::plain::SIDE;
    use crate::plain::definition::tick;
    use crate::plain::machine::{PreemptiveMachine, read_call};
    use crate::{CALL_BYTES, LONGEST_REPORT, RECORD_BYTES};

    #[test]
    fn plain_reports_agree() {
        for (policy, count) in [(Policy::Preemptive, 379 + 300), (Policy::HoldOn, 300)] {
            let vectors = reports(policy);
            assert_eq!(vectors.len(), count);
            for vector in vectors {
                let mut page = [0; LONGEST_REPORT];
                let written = (SIDE.report)(policy, vector.file, &mut page) as usize;
                assert_eq!(&page[..written], vector.report, "{:02x?}", vector.file);
            }
        }
    }

    /// The record that plain Rust leaves, where its outcomes are the recorded ones.
    fn record_left(policy: Policy, run: &RunVector) -> Vec<u8> {
        let mut outcomes = vec![0; run.outcomes.len()];
        let mut record = vec![0; RECORD_BYTES];
        assert_eq!((SIDE.run)(policy, run.file, run.calls, &mut outcomes, &mut record), 0);
        assert_eq!(outcomes, run.outcomes, "{:02x?}", run.file);
        record
    }

    /// Whether in a run an event comes for a task that is part done.
    fn has_late_event(policy: Policy, run: &RunVector) -> bool {
        let Ok(Plan { description: file, .. }) = Plan::read(run.file) else { return false };
        let mut record = PreemptiveMachine::start(&file).record();
        run.calls.chunks_exact(CALL_BYTES).map(read_call).any(|call| {
            let used = record.used;
            let Ok(ran) = tick(policy, &file, &mut record, call) else { return false };
            file.links.iter().any(|link| {
                let fires = match link.source() {
                    Some(source) => call.0 >> source & 1 == 1,
                    None => ran.is_some_and(|ran| ran.ended && ran.task == usize::from(link.from)),
                };
                fires && used[link.to_index()] > 0
            })
        })
    }

    #[test]
    fn plain_runs_agree() {
        for (policy, late) in [(Policy::Preemptive, 29), (Policy::HoldOn, 28)] {
            let vectors = runs(policy);
            assert_eq!(vectors.len(), 120);
            assert_eq!(vectors.iter().filter(|run| has_late_event(policy, run)).count(), late);
            for run in vectors {
                assert_eq!(record_left(policy, &run), run.record, "{:02x?}", run.file);
            }
        }
    }

    #[test]
    fn plain_earlier_runs_agree() {
        for (policy, count) in [(Policy::Preemptive, 92), (Policy::HoldOn, 94)] {
            let vectors = earlier_runs(policy);
            assert_eq!(vectors.len(), count);
            for run in vectors {
                assert!(!has_late_event(policy, &run));
                assert_eq!(without_latch(record_left(policy, &run)), run.record, "{:02x?}", run.file);
            }
        }
    }

    #[test]
    fn plain_steady_runs_agree() {
        let vectors = steady_runs();
        assert_eq!(vectors.len(), 117);
        for run in vectors {
            assert!(!has_late_event(Policy::Preemptive, &run));
            let record = record_left(Policy::Preemptive, &run);
            assert_eq!(at_one_tempo(record, &run), run.record, "{:02x?}", run.file);
        }
    }
}
