//! The tick machine on both models ("The tick machine", C-13 to C-15, refusals 11, 16, 15, 14).

use super::description::{Description, LINKS, SOURCES, Source, Spacings, TASKS};
use super::list::List;
use super::loads::{NODES, members};
use super::refusal::{Refusal, Word};
use super::{FASTEST, SLOWEST};
use crate::RECORD_BYTES;

/// The record of document 01, as it is lent from call to call.
#[derive(Clone, Debug, PartialEq, Eq, Hash)]
pub struct Record {
    pub awake: [bool; TASKS],
    pub used: [u32; TASKS],
    pub waiting: [bool; LINKS],
    pub dropped: [bool; LINKS],
    pub ages: [u32; SOURCES],
    /// The fastest tempo given since the source last fired; 0 before its first firing.
    pub fastest: [u16; SOURCES],
    /// A task that runs once more when its run ends, for the links that came late.
    pub again: [bool; TASKS],
    /// A link whose event came when its task was part done: the run in progress does not take it.
    pub late: [bool; LINKS],
}

impl Record {
    /// The record as bytes, in the order of its fields, numbers high byte first; a tempo has two.
    pub fn write(&self, bytes: &mut [u8]) {
        assert_eq!(bytes.len(), RECORD_BYTES);
        let used = self.used.iter().flat_map(|ticks| ticks.to_be_bytes());
        let ages = self.ages.iter().flat_map(|age| age.to_be_bytes());
        let marks = self.waiting.iter().chain(&self.dropped).map(|&mark| mark.into());
        let awake = self.awake.iter().map(|&awake| awake.into());
        let fastest = self.fastest.iter().flat_map(|tempo| tempo.to_be_bytes());
        let latched = self.again.iter().chain(&self.late).map(|&mark| mark.into());
        let values = awake.chain(used).chain(marks).chain(ages).chain(fastest).chain(latched);
        for (byte, value) in bytes.iter_mut().zip(values) {
            *byte = value;
        }
    }
}

/// A set of links by their places in the file.
#[derive(Clone, Copy, Default)]
struct LinkSet([u64; LINKS / 64]);

impl LinkSet {
    fn of(marks: &[bool; LINKS]) -> LinkSet {
        let mut set = LinkSet::default();
        (0..LINKS).filter(|&link| marks[link]).for_each(|link| set.insert(link));
        set
    }

    fn insert(&mut self, link: usize) {
        self.0[link / 64] |= 1 << (link % 64);
    }

    fn has(&self, link: usize) -> bool {
        self.0[link / 64] >> (link % 64) & 1 == 1
    }

    #[inline]
    fn map(&mut self, other: &LinkSet, with: impl Fn(u64, u64) -> u64) {
        for (word, &other) in self.0.iter_mut().zip(&other.0) {
            *word = with(*word, other);
        }
    }
}

/// A source's spacing at a tempo.
#[derive(Clone, Copy, Default)]
struct Pace {
    tempo: u16,
    spacing: u32,
}

/// A machine for one description, which is judged once for all its ticks. Each model has a type of
/// its own, so that no tick asks which one it is of.
#[derive(Clone)]
pub struct Machine<const HOLD_ON: bool> {
    runs: [u32; TASKS],
    sources: List<Source, SOURCES>,
    /// The spacings at the slowest tempo, which no age exceeds.
    widest: Spacings,
    /// The tasks that each node wakes, the links that it fires, and the links into each task.
    wakes: [u32; NODES],
    out_of: [LinkSet; NODES],
    into: [LinkSet; TASKS],

    awake: u32,
    used: [u32; TASKS],
    /// The tasks whose used is above 0. On the hold-on model that is the one that is running, or none.
    part_done: u32,
    again: u32,
    waiting: LinkSet,
    late: LinkSet,
    dropped: LinkSet,
    /// Ticks made, and for each source the number of the tick in which it last fired. An age is
    /// read off these, so that a tick need not raise every one.
    now: i64,
    fired: [i64; SOURCES],
    /// For each source the fastest tempo since it fired, up to the last arrival of any, and the
    /// fastest tempo since that arrival, which a tick without arrivals raises alone.
    fastest: [u16; SOURCES],
    since_arrival: u16,
    /// Each source's spacing at the tempo for which an arrival last needed it.
    paces: [Pace; SOURCES],
}

pub type PreemptiveMachine = Machine<false>;
pub type HoldOnMachine = Machine<true>;

impl<const HOLD_ON: bool> Machine<HOLD_ON> {
    /// The idle start.
    pub fn start(description: &Description) -> Self {
        let widest = description.spacings(SLOWEST);
        let mut machine = Machine {
            runs: [0; TASKS],
            sources: description.sources.clone(),
            widest,
            wakes: [0; NODES],
            out_of: [LinkSet::default(); NODES],
            into: [LinkSet::default(); TASKS],
            awake: 0,
            used: [0; TASKS],
            part_done: 0,
            again: 0,
            waiting: LinkSet::default(),
            late: LinkSet::default(),
            dropped: LinkSet::default(),
            now: 0,
            fired: widest.map(|spacing| -i64::from(spacing)),
            fastest: [0; SOURCES],
            since_arrival: 0,
            paces: [Pace::default(); SOURCES],
        };
        machine.runs[..description.runs.len()].copy_from_slice(&description.runs);
        for (place, link) in description.links.iter().enumerate() {
            machine.wakes[link.from_index()] |= 1 << link.to_index();
            machine.out_of[link.from_index()].insert(place);
            machine.into[link.to_index()].insert(place);
        }
        machine
    }

    /// The machine that goes on from a record, or refusal 16.
    pub fn resume(description: &Description, record: &Record) -> Result<Self, Refusal> {
        let alone = !HOLD_ON || part_done(record).count_ones() <= 1;
        if !(alone && obeys_rules(record, description)) {
            return Err(Refusal::of(Word::ForeignState));
        }
        let mut machine = Self::start(description);
        machine.used = record.used;
        machine.awake = task_set(|task| record.awake[task]);
        machine.part_done = part_done(record);
        machine.again = task_set(|task| record.again[task]);
        machine.waiting = LinkSet::of(&record.waiting);
        machine.late = LinkSet::of(&record.late);
        machine.dropped = LinkSet::of(&record.dropped);
        machine.fired = record.ages.map(|age| -i64::from(age));
        machine.fastest = record.fastest;
        Ok(machine)
    }

    /// Advances by one tick, or leaves the record as it is with refusal 11, 15 or 14.
    #[inline]
    pub fn tick(&mut self, arrivals: u16, tempo: u16, finish: bool) -> Result<(), Refusal> {
        check_tempo(tempo)?;
        if arrivals != 0 {
            self.arrive(arrivals, tempo)?;
        }
        if tempo > self.since_arrival {
            self.since_arrival = tempo;
        }
        if self.awake != 0 {
            self.run_task(finish);
        }
        self.now += 1;
        Ok(())
    }

    /// Lets the arriving sources fire, or leaves the record as it is with refusal 15 or 14.
    #[inline]
    fn arrive(&mut self, arrivals: u16, tempo: u16) -> Result<(), Refusal> {
        if u32::from(arrivals) >> self.sources.len() != 0 {
            return Err(Refusal::of(Word::Stranger));
        }
        self.fastest = self.fastest_kept();
        self.since_arrival = 0;
        if !members(arrivals.into()).all(|source| self.may_fire(source, tempo)) {
            return Err(Refusal::of(Word::TooSoon));
        }
        let mut fired = LinkSet::default();
        let mut wakes = 0;
        for source in members(arrivals.into()) {
            fired.map(&self.out_of[TASKS + source], |fired, out| fired | out);
            wakes |= self.wakes[TASKS + source];
            self.fired[source] = self.now;
            self.fastest[source] = tempo;
        }
        self.send(&fired, wakes);
        Ok(())
    }

    /// Whether a source's age has reached its spacing at the fastest tempo since it last fired,
    /// this tick's included. The spacing is worked out only if that tempo is another than before.
    #[inline]
    fn may_fire(&mut self, source: usize, tempo: u16) -> bool {
        let fastest = tempo.max(self.fastest[source]);
        let pace = &mut self.paces[source];
        if pace.tempo != fastest {
            *pace = Pace { tempo: fastest, spacing: self.sources[source].spacing(fastest.into()) };
        }
        self.now - self.fired[source] >= pace.spacing.into()
    }

    /// The fastest tempo since each source last fired; 0 before its first firing.
    fn fastest_kept(&self) -> [u16; SOURCES] {
        let since = self.since_arrival;
        self.fastest.map(|fastest| if fastest == 0 { 0 } else { fastest.max(since) })
    }

    /// Sends an event over each of a set of links, and wakes the tasks they lead to; one that is part done runs again. Nodes share
    /// no link, so those that fire together can be joined first.
    #[inline]
    fn send(&mut self, fired: &LinkSet, wakes: u32) {
        let waiting = self.waiting;
        self.waiting.map(fired, |waiting, fired| waiting | fired);
        for (place, dropped) in self.dropped.0.iter_mut().enumerate() {
            *dropped |= waiting.0[place] & fired.0[place];
        }
        self.awake |= wakes;
        let again = wakes & self.part_done;
        if again != 0 {
            self.mark_late(fired, again);
        }
    }

    /// Marks the tasks that are part done and the links that fire into them, which few do.
    #[cold]
    fn mark_late(&mut self, fired: &LinkSet, again: u32) {
        self.again |= again;
        for task in members(again.into()) {
            for (place, late) in self.late.0.iter_mut().enumerate() {
                *late |= fired.0[place] & self.into[task].0[place];
            }
        }
    }

    /// Runs a task for this tick: the highest awake one, or on the hold-on model the one that is
    /// running, if any is. If that ends its run, it fires.
    #[inline]
    fn run_task(&mut self, finish: bool) {
        let choice = if HOLD_ON && self.part_done != 0 { self.part_done } else { self.awake };
        let task = choice.ilog2() as usize;
        self.used[task] += 1;
        if self.used[task] != self.runs[task] && !finish {
            self.part_done |= 1 << task;
            return;
        }
        self.used[task] = 0;
        self.part_done &= !(1 << task);
        self.waiting.map(&self.into[task], |waiting, into| waiting & !into);
        if self.again >> task & 1 == 0 {
            self.awake &= !(1 << task);
        } else {
            self.take_late(task);
        }
        let fired = self.out_of[task];
        self.send(&fired, self.wakes[task]);
    }

    /// A task marked again stays awake for the links that came late.
    #[cold]
    fn take_late(&mut self, task: usize) {
        self.again &= !(1 << task);
        for (place, &into) in self.into[task].0.iter().enumerate() {
            self.waiting.0[place] |= self.late.0[place] & into;
            self.late.0[place] &= !into;
        }
    }

    /// The record as it stands.
    pub fn record(&self) -> Record {
        Record {
            awake: std::array::from_fn(|task| self.awake >> task & 1 == 1),
            used: self.used,
            waiting: std::array::from_fn(|link| self.waiting.has(link)),
            dropped: std::array::from_fn(|link| self.dropped.has(link)),
            ages: std::array::from_fn(|source| self.age(source)),
            fastest: self.fastest_kept(),
            again: std::array::from_fn(|task| self.again >> task & 1 == 1),
            late: std::array::from_fn(|link| self.late.has(link)),
        }
    }

    fn age(&self, source: usize) -> u32 {
        (self.now - self.fired[source]).min(self.widest[source].into()) as u32
    }
}

impl HoldOnMachine {
    /// Whether a higher task waits for the one that is running.
    pub fn holds_back(&self) -> bool {
        self.part_done != 0 && self.awake.ilog2() > self.part_done.ilog2()
    }
}

/// Arrivals, tempo and "finish" of one tick call.
#[inline]
pub fn read_call(bytes: &[u8]) -> (u16, u16, bool) {
    let number = |high: u8, low: u8| u16::from_be_bytes([high, low]);
    (number(bytes[0], bytes[1]), number(bytes[2], bytes[3]), bytes[4] != 0)
}

/// Refusal 11, if a tempo is off the knob.
#[inline]
pub(super) fn check_tempo(tempo: u16) -> Result<(), Refusal> {
    if (SLOWEST..=FASTEST).contains(&tempo.into()) { Ok(()) } else { Err(Refusal::of(Word::OffTheKnob)) }
}

/// The rules of the record: used is below the longest run; a sleeping task has used 0; a waiting
/// link's task is awake; ages do not exceed the spacings at the slowest tempo; a kept tempo is one
/// of the knob, or 0 with the age as at the start; nothing is set for absent nodes or links; "again"
/// is only on a task part done, and "late" only on a waiting link into a task marked "again".
fn obeys_rules(record: &Record, description: &Description) -> bool {
    let tasks = (0..TASKS).all(|task| match description.runs.get(task) {
        Some(&run) if record.awake[task] => record.used[task] < run,
        Some(_) => record.used[task] == 0,
        None => !record.awake[task] && record.used[task] == 0,
    });
    let links = (0..LINKS).all(|place| match description.links.get(place) {
        Some(link) => !record.waiting[place] || record.awake[link.to_index()],
        None => !record.waiting[place] && !record.dropped[place],
    });
    let sources = (0..SOURCES).all(|place| {
        let (age, fastest) = (record.ages[place], record.fastest[place]);
        match description.sources.get(place).map(|source| source.spacing(SLOWEST)) {
            Some(widest) if fastest == 0 => age == widest,
            Some(widest) => age <= widest && check_tempo(fastest).is_ok(),
            None => age == 0 && fastest == 0,
        }
    });
    let again = (0..TASKS).all(|task| !record.again[task] || record.used[task] > 0);
    let late = (0..LINKS).all(|place| match description.links.get(place) {
        Some(link) => !record.late[place] || record.waiting[place] && record.again[link.to_index()],
        None => !record.late[place],
    });
    tasks && links && sources && again && late
}

/// The tasks whose used is above 0.
fn part_done(record: &Record) -> u32 {
    task_set(|task| record.used[task] > 0)
}

fn task_set(has: impl Fn(usize) -> bool) -> u32 {
    (0..TASKS).fold(0, |set, task| set | u32::from(has(task)) << task)
}
