//! What both models promise, tried on the machine of the definitions: in a run up to the quote no
//! critical link is dropped, and no event on one from a source waits longer than the delay printed.
//! Drops and waits are told from the events, each of which is taken by the run of its task that begins
//! next, and the marks of the record must tell the same.

use super::definition::{Ran, due, tick};
use super::description::Source::{Fixed, Paced, Swung};
use super::description::{Description, TASKS};
use super::machine::{PreemptiveMachine, Record};
use super::quote::quote;
use super::verdicts::{Verdict, Verdicts};
use super::{Plan, Policy, SLOWEST};
use crate::generate::{Draft, Random};
use std::collections::HashSet;

/// An event that is not served yet.
#[derive(Clone, PartialEq, Eq, Hash)]
struct Event {
    /// The ticks that it has waited, if it is on a critical link from a source.
    waited: u64,
    /// The run that takes it has begun.
    taken: bool,
}

/// A record, and for each link its last event.
#[derive(Clone, PartialEq, Eq, Hash)]
struct State {
    record: Record,
    events: Vec<Option<Event>>,
}

/// What a control has wrong.
#[derive(Clone, Copy, Debug, PartialEq)]
enum Flaw {
    /// The machine of the hold-on model.
    HoldsOn,
    /// After each tick the marks of C-15 are lost: the run in progress clears every link, as before.
    NoLatch,
    /// "Again" is lost: a late link stays waiting, but its task sleeps.
    NoAgain,
    /// "Late" is lost: a task runs again, but its late links are cleared.
    NoLate,
    /// An event is said to be taken by the run in progress, as before C-15.
    TakenInRun,
}

/// A file with a quote, and what its runs came to.
struct Trial {
    policy: Policy,
    flaw: Option<Flaw>,
    plan: Plan,
    quote: u16,
    /// For each critical link from a source the delay printed; for each link the longest wait.
    delays: Vec<Option<u64>>,
    longest: Vec<u64>,
    dropped: bool,
    /// The marks of each record were those of its events.
    marked: bool,
}

impl Trial {
    fn of(policy: Policy, plan: Plan) -> Option<Trial> {
        let quote = quote(policy, &plan).ok()?;
        let verdicts = Verdicts::at(policy, &plan, quote);
        let delays = plan.description.links.iter().map(|&link| match verdicts.on(link) {
            Verdict::Delay { delay, .. } => delay,
            _ => None,
        });
        let delays: Vec<Option<u64>> = delays.collect();
        let longest = vec![0; delays.len()];
        let quote = quote as u16;
        Some(Trial { policy, flaw: None, plan, quote, delays, longest, dropped: false, marked: true })
    }

    fn start(&self) -> State {
        let record = PreemptiveMachine::start(&self.plan.description).record();
        State { record, events: vec![None; self.delays.len()] }
    }

    /// The state after a call, if it is a tick.
    fn after(&mut self, state: &State, call: (u16, u16, bool)) -> Option<State> {
        let mut next = state.clone();
        let ran = self.tick(&mut next.record, call)?;
        let mut dropped = vec![false; self.delays.len()];
        for (place, link) in self.plan.description.links.iter().enumerate() {
            let event = &mut next.events[place];
            let taken = self.flaw == Some(Flaw::TakenInRun) && state.record.used[link.to_index()] > 0;
            // A source fires before the task that runs is chosen, and a task when its run has ended.
            if link.source().is_some_and(|source| call.0 >> source & 1 == 1) {
                dropped[place] = event.replace(Event { waited: 0, taken }).is_some();
            }
            if let Some(unserved) = event {
                unserved.waited += u64::from(self.delays[place].is_some());
                self.longest[place] = self.longest[place].max(unserved.waited);
                let run = ran.filter(|ran| ran.task == usize::from(link.to));
                unserved.taken |= run.is_some_and(|run| run.began);
                if unserved.taken && run.is_some_and(|run| run.ended) {
                    *event = None;
                }
            }
            if ran.is_some_and(|ran| ran.ended && ran.task == usize::from(link.from)) {
                dropped[place] = event.replace(Event { waited: 0, taken }).is_some();
            }
            self.dropped |= link.critical && dropped[place];
        }
        self.marked &= self.is_marked(&next, &dropped);
        // What has been dropped alters no later tick.
        next.record.dropped.fill(false);
        Some(next)
    }

    /// The machine's tick, or that of a control.
    fn tick(&self, record: &mut Record, call: (u16, u16, bool)) -> Option<Option<Ran>> {
        let policy = if self.flaw == Some(Flaw::HoldsOn) { Policy::HoldOn } else { self.policy };
        let ran = tick(policy, &self.plan.description, record, call).ok()?;
        if matches!(self.flaw, Some(Flaw::NoLatch | Flaw::NoAgain)) {
            record.again.fill(false);
        }
        if matches!(self.flaw, Some(Flaw::NoLatch | Flaw::NoLate)) {
            record.late.fill(false);
        }
        Some(ran)
    }

    /// Whether a record has the marks of its events: an event that is not served waits; it is late if
    /// its task is part done in a run that does not take it, and that task then runs again.
    fn is_marked(&self, State { record, events }: &State, dropped: &[bool]) -> bool {
        let mut again = [false; TASKS];
        let mut marked = true;
        for (place, link) in self.plan.description.links.iter().enumerate() {
            let to = link.to_index();
            let late = record.used[to] > 0 && events[place].as_ref().is_some_and(|event| !event.taken);
            again[to] |= late;
            marked &= record.waiting[place] == events[place].is_some();
            marked &= record.late[place] == late && record.dropped[place] == dropped[place];
        }
        marked && record.again == again
    }

    /// Every run at the quote: all states that calls lead to, until one breaks the promise.
    fn all_runs(&mut self) {
        let mut todo = vec![self.start()];
        let mut seen = HashSet::new();
        let masks = 0..1 << self.plan.description.sources.len();
        let calls: Vec<_> =
            masks.flat_map(|mask| [false, true].map(|finish| (mask, self.quote, finish))).collect();
        while let Some(state) = todo.pop().filter(|_| self.is_kept()) {
            for &call in &calls {
                todo.extend(self.after(&state, call).filter(|next| seen.insert(next.clone())));
            }
        }
    }

    /// One run: the knob rests at the quote or moves below it, and a source that may fire does so at
    /// once or by chance.
    fn random_run(&mut self, ticks: usize, random: &mut Random) {
        let (moves, eager, finish) = (random.chance(50), [100, 90, 30][random.index(3)], random.below(3));
        let mut state = self.start();
        for _ in 0..ticks {
            let slowest = if moves { SLOWEST } else { self.quote.into() };
            let tempo = random.within(slowest..=self.quote.into()) as u16;
            let mut mask = 0;
            for source in 0..self.plan.description.sources.len() {
                let fires = due(&self.plan.description, &state.record, source, tempo) && random.chance(eager);
                mask |= u16::from(fires) << source;
            }
            let call = (mask, tempo, random.chance(finish));
            state = self.after(&state, call).expect("a source that may fire is not refused");
        }
    }

    fn is_kept(&self) -> bool {
        !self.dropped && self.slack().is_some()
    }

    /// The least that a wait fell short of its delay; none where one was longer.
    fn slack(&self) -> Option<u64> {
        let links = self.delays.iter().zip(&self.longest);
        let slacks = links.filter_map(|(delay, longest)| Some(delay.as_ref()?.checked_sub(*longest)));
        slacks.min().flatten()
    }
}

/// The most that random files have of each.
struct Size {
    tasks: u32,
    run: u32,
    sources: u32,
    spacing: u32,
    /// Paced sources, in percent.
    paced: u64,
    /// Only files with a task of more than one tick that two sources wake: events come late.
    shared: bool,
}

/// Few enough states to reach them all.
const SMALL: Size = Size { tasks: 4, run: 4, sources: 3, spacing: 16, paced: 0, shared: false };
const SHARED: Size = Size { shared: true, ..SMALL };
const LARGER: Size = Size { tasks: 6, run: 40, sources: 4, spacing: 400, paced: 50, shared: false };

impl Size {
    fn draft(&self, random: &mut Random) -> Draft {
        let (tasks, sources) = (random.within(1..=self.tasks), random.within(1..=self.sources));
        let mut draft = Draft::default();
        draft.runs.extend((0..tasks).map(|_| random.within(1..=self.run)));
        for _ in 0..sources {
            draft.sources.push(match random.chance(self.paced) {
                true if random.chance(50) => Swung(960, random.within(51..=75) as u8),
                true => Paced(random.within(480..=960) as u16),
                false => Fixed(random.within(1..=self.spacing)),
            });
        }
        for _ in 0..random.within(1..=2 * tasks) {
            let nodes = if random.chance(50) { 33..=32 + sources } else { 1..=tasks };
            let (from, to) = (random.within(nodes), random.within(1..=tasks));
            draft.links.push([from as u8, to as u8, random.chance(60).into()]);
        }
        draft.sorted()
    }

    /// Files that have a quote and a critical link from a source.
    fn trials(&self, policy: Policy, random: &mut Random, count: usize) -> Vec<Trial> {
        let files = std::iter::repeat_with(|| self.draft(random).bytes());
        let plans = files.filter_map(|file| Plan::read(&file).ok());
        let plans = plans.filter(|plan| !self.shared || shares_a_task(&plan.description));
        let trials = plans.filter_map(|plan| Trial::of(policy, plan));
        trials.filter(|trial| trial.delays.iter().any(Option::is_some)).take(count).collect()
    }
}

/// Whether two sources wake a task of more than one tick.
fn shares_a_task(file: &Description) -> bool {
    let from_sources = |j: usize| {
        file.links.iter().filter(move |link| link.source().is_some() && link.to_index() == j).count()
    };
    file.runs.iter().enumerate().any(|(j, &run)| run > 1 && from_sources(j) > 1)
}

/// Makes runs of random files, which must keep the promise and come as close to it as can be.
fn try_files(policy: Policy, size: &Size, count: usize, runs: impl Fn(&mut Trial, &mut Random)) {
    let mut random = Random::new(6);
    let mut closest = u64::MAX;
    for mut trial in size.trials(policy, &mut random, count) {
        runs(&mut trial, &mut random);
        let delays = &trial.delays;
        let told = format!("{policy:?}: {:?}, delays {delays:?}", trial.plan.description.links.to_vec());
        assert!(trial.is_kept(), "{told}, waits {:?}, dropped {}", trial.longest, trial.dropped);
        assert!(trial.marked, "{told}: marks are not those of the events");
        closest = closest.min(trial.slack().unwrap_or(closest));
    }
    // An event that finds a lower task running does not wait for that run's first tick, which the
    // delay on the hold-on model counts.
    assert_eq!(closest, u64::from(policy == Policy::HoldOn));
}

#[test]
fn every_run_of_small_files_keeps_the_promise() {
    for policy in Policy::BOTH {
        try_files(policy, &SMALL, 300, |trial, _| trial.all_runs());
        try_files(policy, &SHARED, 100, |trial, _| trial.all_runs());
    }
}

#[test]
fn random_runs_keep_the_promise() {
    for policy in Policy::BOTH {
        try_files(policy, &LARGER, 400, |trial, random| {
            (0..5).for_each(|_| trial.random_run(2_000, random));
        });
    }
}

/// The trials of a control, each with what breaks: the promise, and the marks.
fn controls(policy: Policy, size: &Size, flaw: Flaw) -> Vec<(bool, bool)> {
    let mut trials = size.trials(policy, &mut Random::new(6), 100);
    for trial in &mut trials {
        trial.flaw = Some(flaw);
        trial.all_runs();
    }
    trials.iter().map(|trial| (!trial.is_kept(), !trial.marked)).collect()
}

/// A control: a hold-on machine breaks what the preemptive model promises.
#[test]
fn the_other_machine_breaks_the_promise() {
    let broken = controls(Policy::Preemptive, &SMALL, Flaw::HoldsOn);
    assert!(broken.iter().any(|&(promise, _)| promise));
    assert!(broken.iter().all(|&(_, marks)| !marks));
}

/// Controls: a machine whose tasks do not run again for what came late breaks the promise. One that
/// forgets which links those are still serves every event, but has other marks than the events; so has
/// the machine itself, where an event is said to be taken by the run in progress.
#[test]
fn a_wrong_latch_is_seen() {
    for policy in Policy::BOTH {
        for (flaw, breaks) in
            [(Flaw::NoLatch, true), (Flaw::NoAgain, true), (Flaw::NoLate, false), (Flaw::TakenInRun, false)]
        {
            let broken = controls(policy, &SHARED, flaw);
            let promises = broken.iter().filter(|&&(promise, _)| promise).count();
            let marks = broken.iter().filter(|&&(_, marks)| marks).count();
            assert!(marks > 0 && (promises > 0) == breaks, "{policy:?}, {flaw:?}: {promises}, {marks}");
        }
    }
}
