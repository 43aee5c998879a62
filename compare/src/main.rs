//! `compare`: puts the same inputs to the proved library and to plain Rust, on both models, and counts
//! where they agree. Without the proved archive, plain Rust is compared with the recorded answers alone.

use compare::generate::{self, Random, Run};
use compare::plain::machine::{HoldOnMachine, read_call};
use compare::plain::{self, Plan, Policy};
use compare::vectors::{self, ReportVector, RunVector};
use compare::{CALL_BYTES, LONGEST_REPORT, RECORD_BYTES, Side, library};
use std::fmt;
use std::ops::Range;
use std::process::ExitCode;

const USAGE: &str = "usage: compare [--cases N] [--seed S]";
const DEFAULT_CASES: u64 = 20_000;
const DEFAULT_SEED: u64 = 1;
/// Of so many cases one is a run of ticks.
const RUN_EVERY: u64 = 4;
/// What a buffer holds before a call. A byte that a call must not touch still holds it after.
const UNTOUCHED: u8 = 0xA5;
/// The marks of a record: dropped, and again.
const DROPPED: Range<usize> = 416..672;
const AGAIN: Range<usize> = 768..800;

fn main() -> ExitCode {
    let Some((cases, seed)) = arguments() else {
        eprintln!("{USAGE}");
        return ExitCode::from(2);
    };
    let proved = library::side();
    let sides = [Some(plain::SIDE), proved].into_iter().flatten();
    let mut outcome = sides.clone().try_for_each(|side| check_vectors(&side));
    match proved {
        Some(proved) => outcome = outcome.and_then(|()| compare(&proved, cases, seed)),
        None => println!("the proved archive is not linked: recorded answers only"),
    }
    match outcome {
        Ok(()) => ExitCode::SUCCESS,
        Err(difference) => {
            println!("{difference}");
            ExitCode::FAILURE
        }
    }
}

fn arguments() -> Option<(u64, u64)> {
    let (mut cases, mut seed) = (DEFAULT_CASES, DEFAULT_SEED);
    let mut arguments = std::env::args().skip(1);
    while let Some(name) = arguments.next() {
        let value = arguments.next()?.parse().ok()?;
        match name.as_str() {
            "--cases" => cases = value,
            "--seed" => seed = value,
            _ => return None,
        }
    }
    Some((cases, seed))
}

/// The first input on which two answers differ, with both.
struct Difference {
    input: String,
    one: String,
    other: String,
}

impl fmt::Display for Difference {
    fn fmt(&self, f: &mut fmt::Formatter) -> fmt::Result {
        write!(f, "DIFFERENT\n{}\n{}\n{}", self.input, self.one, self.other)
    }
}

/// One side against the recorded answers.
fn check_vectors(side: &Side) -> Result<(), Difference> {
    for policy in Policy::BOTH {
        let (reports, runs) = (vectors::reports(policy), vectors::runs(policy));
        let earlier = vectors::earlier_runs(policy);
        reports.iter().try_for_each(|vector| check_report(policy, side, vector))?;
        runs.iter().try_for_each(|vector| check_run(policy, side, vector, |record| record))?;
        earlier.iter().try_for_each(|vector| check_run(policy, side, vector, vectors::without_latch))?;
        let (name, reports, runs, earlier) = (side.name, reports.len(), runs.len(), earlier.len());
        println!(
            "{name} and the recorded answers, {policy}: {reports} reports, {runs} runs and {earlier} from before C-15 agree"
        );
    }
    let runs = vectors::steady_runs();
    for vector in &runs {
        check_run(Policy::Preemptive, side, vector, |record| vectors::at_one_tempo(record, vector))?;
    }
    println!("{} and the recorded answers, at one tempo: {} runs agree", side.name, runs.len());
    Ok(())
}

fn check_report(policy: Policy, side: &Side, vector: &ReportVector) -> Result<(), Difference> {
    let recorded = Page { code: vector.report.len() as i64, page: padded(vector.report, LONGEST_REPORT) };
    let answer = report(policy, side, vector.file, LONGEST_REPORT);
    let input = || format!("{policy} report on {}", hex(vector.file));
    same(input, ("recorded", recorded), (side.name, answer))
}

/// One side against a recorded run. `terms` puts the record that the side left as the recorded one is.
fn check_run(
    policy: Policy,
    side: &Side,
    vector: &RunVector,
    terms: impl Fn(Vec<u8>) -> Vec<u8>,
) -> Result<(), Difference> {
    let recorded = Ran { code: 0, outcomes: vector.outcomes.to_vec(), record: vector.record.to_vec() };
    let run = Run { file: vector.file.to_vec(), calls: vector.calls.to_vec() };
    let mut answer = ticks(policy, side, &run, vector.outcomes.len(), RECORD_BYTES);
    answer.record = terms(answer.record);
    same(|| run_words(policy, &run), ("recorded", recorded), (side.name, answer))
}

/// How many answers on a model agreed, and of which kinds they were.
#[derive(Default)]
struct Tally {
    reports: u64,
    quotes: u64,
    /// Accepted files beside the same with fixed sources.
    steady: u64,
    runs: u64,
    /// Quotes inside the range, at its ends, and the refusals by number.
    inside: u64,
    slowest: u64,
    fastest: u64,
    refused: [u64; 17],
    /// Calls of runs by their outcomes, 0 for a tick.
    calls: [u64; 17],
    runs_with_drops: u64,
    runs_with_late: u64,
    /// On the hold-on model, ticks that leave a higher task awake than the one that is running.
    held_back: u64,
}

/// The proved side against plain Rust, on every edge and then on random inputs, each on both models.
fn compare(proved: &Side, cases: u64, seed: u64) -> Result<(), Difference> {
    let mut models = Policy::BOTH.map(|policy| Model { policy, proved, tally: Tally::default() });
    let mut random = Random::new(seed);
    compare_clock(proved)?;
    for file in generate::edges() {
        models.iter_mut().try_for_each(|model| model.compare_file(&file, &mut random))?;
    }
    for case in 0..cases {
        if case % RUN_EVERY == 0 {
            let run = generate::run(&mut random);
            models.iter_mut().try_for_each(|model| model.compare_run(&run, &mut random))?;
        } else {
            let file = generate::file(&mut random);
            models.iter_mut().try_for_each(|model| model.compare_file(&file, &mut random))?;
        }
    }
    for Model { policy, tally, .. } in models {
        println!("proved and plain, {policy}: {tally}");
    }
    Ok(())
}

/// The MIDI clock at each tempo of the knob, and beside it.
fn compare_clock(proved: &Side) -> Result<(), Difference> {
    let beside = [u32::MAX, 1 << 16, (1 << 16) + plain::SLOWEST];
    for tempo in (0..2 * plain::FASTEST).chain(beside) {
        let [plain, answer] = [&plain::SIDE, proved].map(|side| Number((side.clock)(tempo)));
        same(|| format!("the clock at {tempo}"), ("plain", plain), (proved.name, answer))?;
    }
    println!("proved and plain, the MIDI clock: every tempo agrees");
    Ok(())
}

/// The comparison on one model.
struct Model<'a> {
    policy: Policy,
    proved: &'a Side,
    tally: Tally,
}

impl Model<'_> {
    fn compare_file(&mut self, file: &[u8], random: &mut Random) -> Result<(), Difference> {
        let (policy, proved) = (self.policy, self.proved);
        let expected = report(policy, &plain::SIDE, file, LONGEST_REPORT);
        // The longest page, one that the report just fits, and one that is too short for it.
        let needed = expected.code as usize;
        for room in [LONGEST_REPORT, needed, random.index(needed)] {
            let input = || format!("{policy} report into {room} bytes on {}", hex(file));
            let [plain, answer] = [&plain::SIDE, proved].map(|side| report(policy, side, file, room));
            same(input, ("plain", plain), (proved.name, answer))?;
        }
        self.tally.reports += 1;

        let quoted = (plain::SIDE.quote)(policy, file);
        let answer = Number((proved.quote)(policy, file));
        let input = || format!("{policy} quote of {}", hex(file));
        same(input, ("plain", Number(quoted)), (proved.name, answer))?;
        self.tally.quotes += 1;
        self.tally.note_quote(quoted);
        self.compare_steady(file, quoted)
    }

    /// A verdict goes by structure and spacings alone: the file with each source fixed at its spacing
    /// at the tempo shown has the same link lines.
    fn compare_steady(&mut self, file: &[u8], quoted: i64) -> Result<(), Difference> {
        let shown = u32::try_from(quoted).unwrap_or(plain::SLOWEST);
        let Some(steady) = generate::steady(file, shown) else {
            return Ok(());
        };
        let policy = self.policy;
        for side in [&plain::SIDE, self.proved] {
            let input = || format!("{policy} links of {} and of {}", hex(file), hex(&steady));
            same(input, (side.name, links(policy, side, file)), ("steady", links(policy, side, &steady)))?;
        }
        self.tally.steady += 1;
        Ok(())
    }

    fn compare_run(&mut self, run: &Run, random: &mut Random) -> Result<(), Difference> {
        let (policy, proved) = (self.policy, self.proved);
        let calls = run.calls.len() / CALL_BYTES;
        let (outcomes, record) = match random.below(20) {
            0 => (random.index(calls + 1), RECORD_BYTES),
            1 => (calls, random.index(RECORD_BYTES)),
            2 => (calls + random.index(5), RECORD_BYTES + random.index(5)),
            _ => (calls, RECORD_BYTES),
        };
        let expected = ticks(policy, &plain::SIDE, run, outcomes, record);
        if expected.code == 0 {
            self.tally.note_run(&expected.outcomes[..calls], &expected.record);
            if policy == Policy::HoldOn {
                self.tally.held_back += held_back(run);
            }
        }
        let input = || format!("{} into {outcomes} and {record} bytes", run_words(policy, run));
        let answer = ticks(policy, proved, run, outcomes, record);
        same(input, ("plain", expected), (proved.name, answer))?;
        self.tally.runs += 1;
        Ok(())
    }
}

/// The ticks of a hold-on run that leave a higher task awake than the one that is running.
fn held_back(run: &Run) -> u64 {
    let Ok(plan) = Plan::read(&run.file) else { return 0 };
    let mut machine = HoldOnMachine::start(&plan.description);
    let calls = run.calls.chunks_exact(CALL_BYTES).map(read_call);
    let ticks = calls.filter(|&(arrivals, tempo, finish)| {
        machine.tick(arrivals, tempo, finish).is_ok() && machine.holds_back()
    });
    ticks.count() as u64
}

impl Tally {
    fn note_quote(&mut self, quoted: i64) {
        match quoted {
            200 => self.slowest += 1,
            3_000 => self.fastest += 1,
            201.. => self.inside += 1,
            _ => self.refused[(-quoted / 10_000) as usize] += 1,
        }
    }

    fn note_run(&mut self, outcomes: &[u8], record: &[u8]) {
        for &outcome in outcomes {
            self.calls[usize::from(outcome)] += 1;
        }
        self.runs_with_drops += u64::from(record[DROPPED].contains(&1));
        self.runs_with_late += u64::from(record[AGAIN].contains(&1));
    }
}

impl fmt::Display for Tally {
    fn fmt(&self, f: &mut fmt::Formatter) -> fmt::Result {
        writeln!(f, "{} reports, {} quotes and {} runs agree", self.reports, self.quotes, self.runs)?;
        writeln!(f, "  links: those of {} files agree with those of fixed sources alike", self.steady)?;
        writeln!(
            f,
            "  quotes: {} inside the range, {} at 20.0, {} at 300.0",
            self.inside, self.slowest, self.fastest
        )?;
        write!(f, "  refusals:")?;
        for (number, count) in self.refused.iter().enumerate().filter(|(_, count)| **count > 0) {
            write!(f, " {number} × {count},")?;
        }
        writeln!(f, " 13 × {} short pages", self.reports)?;
        write!(f, "  calls of runs: {} ticks;", self.calls[0])?;
        for (number, count) in self.calls.iter().enumerate().skip(1).filter(|(_, count)| **count > 0) {
            write!(f, " {number} × {count},")?;
        }
        write!(
            f,
            " and {} runs end with a dropped event, {} with a late one",
            self.runs_with_drops, self.runs_with_late
        )?;
        match self.held_back {
            0 => Ok(()),
            ticks => write!(f, "\n  {ticks} of the ticks leave a higher task awake than the one that runs"),
        }
    }
}

/// What a report call left: the number returned and the whole page.
#[derive(PartialEq)]
struct Page {
    code: i64,
    page: Vec<u8>,
}

/// What a run left.
#[derive(PartialEq)]
struct Ran {
    code: i64,
    outcomes: Vec<u8>,
    record: Vec<u8>,
}

#[derive(PartialEq)]
struct Number(i64);

fn report(policy: Policy, side: &Side, file: &[u8], room: usize) -> Page {
    let mut page = vec![UNTOUCHED; room];
    let code = (side.report)(policy, file, &mut page);
    Page { code, page }
}

/// The link lines of a report.
fn links(policy: Policy, side: &Side, file: &[u8]) -> Page {
    let whole = report(policy, side, file, LONGEST_REPORT);
    let text = &whole.page[..usize::try_from(whole.code).unwrap_or(0)];
    let lines = text.split_inclusive(|&byte| byte == b'\n').filter(|line| line.starts_with(b"link "));
    let page: Vec<u8> = lines.flatten().copied().collect();
    Page { code: page.len() as i64, page }
}

fn ticks(policy: Policy, side: &Side, run: &Run, outcomes: usize, record: usize) -> Ran {
    let mut outcomes = vec![UNTOUCHED; outcomes];
    let mut record = vec![UNTOUCHED; record];
    let code = (side.run)(policy, &run.file, &run.calls, &mut outcomes, &mut record);
    Ran { code, outcomes, record }
}

/// The text at the front of a page that is otherwise untouched.
fn padded(text: &[u8], room: usize) -> Vec<u8> {
    let mut page = vec![UNTOUCHED; room];
    page[..text.len()].copy_from_slice(text);
    page
}

/// An answer in words, for the one time that it is needed.
trait Words: PartialEq {
    fn words(&self) -> String;
}

impl Words for Number {
    fn words(&self) -> String {
        self.0.to_string()
    }
}

impl Words for Page {
    fn words(&self) -> String {
        let written = usize::try_from(self.code).unwrap_or(0).min(self.page.len());
        let touched = self.page[written..].iter().any(|&byte| byte != UNTOUCHED);
        let rest = if touched { "CHANGED" } else { "untouched" };
        format!(
            "returned {}, rest of the page {rest}\n{}",
            self.code,
            String::from_utf8_lossy(&self.page[..written])
        )
    }
}

impl Words for Ran {
    fn words(&self) -> String {
        format!("returned {}, outcomes {}, record {}", self.code, hex(&self.outcomes), hex(&self.record))
    }
}

/// Two answers, each with the name of its side, if they differ.
fn same<A: Words>(input: impl Fn() -> String, one: (&str, A), other: (&str, A)) -> Result<(), Difference> {
    if one.1 == other.1 {
        return Ok(());
    }
    let words = |(name, answer): (&str, A)| format!("{name}: {}", answer.words());
    Err(Difference { input: input(), one: words(one), other: words(other) })
}

fn run_words(policy: Policy, run: &Run) -> String {
    format!("{policy} run of {} with calls {}", hex(&run.file), hex(&run.calls))
}

fn hex(bytes: &[u8]) -> String {
    bytes.iter().map(|byte| format!("{byte:02x}")).collect()
}
