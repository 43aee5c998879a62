//! Runs: a file and a list of tick calls from the idle start, with a tempo in each.

use super::draft::Draft;
use super::files;
use super::random::Random;
use crate::CALL_BYTES;
use crate::plain::description::Source::{self, Fixed};
use crate::plain::{FASTEST, Plan, SLOWEST};

pub struct Run {
    pub file: Vec<u8>,
    /// Six bytes for each call, at times with a rest.
    pub calls: Vec<u8>,
}

/// How the knob moves from call to call.
#[derive(Clone, Copy)]
pub enum Knob {
    /// Not at all.
    Steady,
    /// By a few steps up or down in each call.
    Drifting,
    /// Up for a few calls now and then, and back.
    Bursts,
    /// Anywhere in each call.
    Free,
}

/// How the calls of a run are chosen, in percent and in thousandths.
struct Habit {
    /// The tempo of the first call, and how it moves.
    base: u32,
    knob: Knob,
    /// A source that may fire does.
    eager: u64,
    /// A source that may not fire does all the same, of a thousand: in any tick, and one tick early.
    too_soon: u64,
    early: u64,
    /// A source that does not exist arrives, of a thousand.
    stranger: u64,
    /// The tempo is off the knob, of a thousand.
    off_knob: u64,
    finish: u64,
}

/// A run of any kind: mostly legal arrivals, some too soon, some strangers, some off the knob.
pub fn run(random: &mut Random) -> Run {
    let draft = if random.chance(85) { brisk(random) } else { files::tuned(random) };
    let mut file = draft.bytes();
    if random.chance(3) {
        file.truncate(random.index(file.len() + 1));
    }
    let habit = Habit {
        base: tempo(random),
        knob: [Knob::Steady, Knob::Drifting, Knob::Bursts, Knob::Free][random.index(4)],
        eager: [100, 50, 10, 1][random.index(4)],
        too_soon: [0, 0, 2, 20][random.index(4)],
        early: [0, 20, 200][random.index(3)],
        stranger: [0, 0, 2, 20][random.index(4)],
        off_knob: [0, 0, 2, 20][random.index(4)],
        finish: [0, 0, 5, 50, 100][random.index(5)],
    };
    let count = random.scaled(0..=8_192) as usize;
    let mut calls = calls(&draft.sources, count, &habit, random);
    for call in calls.chunks_exact_mut(CALL_BYTES) {
        if call[4] != 0 {
            call[4] = random.within(1..=255) as u8;
        }
        call[5] = random.bits() as u8;
    }
    if random.chance(10) {
        calls.truncate(calls.len().saturating_sub(random.index(CALL_BYTES)));
    }
    Run { file, calls }
}

/// A file whose tasks end and whose sources fire within a few ticks, or within some hundreds where
/// the tempo counts. In half of the files each source wakes a task, so that tasks meet.
fn brisk(random: &mut Random) -> Draft {
    let mut draft = files::any(random);
    let fixed = [85, 85, 20][random.index(3)];
    let longest = [8, 8, 40][random.index(3)];
    for run in &mut draft.runs {
        *run = random.scaled(1..=longest);
    }
    if random.chance(50) {
        draft.links.truncate(240);
        for source in (33..).take(draft.sources.len()) {
            let task = random.within(1..=draft.runs.len() as u32) as u8;
            draft.links.push([source, task, random.chance(50).into()]);
        }
        draft = draft.sorted();
    }
    for source in &mut draft.sources {
        *source = if random.chance(fixed) {
            Fixed(random.scaled(1..=63))
        } else {
            let pulses = 960 - random.scaled(0..=959);
            files::paced(files::or_clock(pulses, random), 50, random)
        };
    }
    draft
}

/// A tempo of the knob, at times at one of its ends.
fn tempo(random: &mut Random) -> u32 {
    match random.below(20) {
        0 => [200, 201, 2_999, 3_000][random.index(4)],
        _ => random.within(SLOWEST..=FASTEST),
    }
}

/// Legal calls for an accepted file, each source as eager as can be: the benchmarks' run.
pub fn legal_calls(file: &[u8], tempo: u32, knob: Knob, count: usize, seed: u64) -> Vec<u8> {
    let plan = Plan::read(file).unwrap_or_else(|refusal| panic!("a file for a run is accepted: {refusal:?}"));
    let habit =
        Habit { base: tempo, knob, eager: 50, too_soon: 0, early: 0, stranger: 0, off_knob: 0, finish: 2 };
    calls(&plan.description.sources, count, &habit, &mut Random::new(seed))
}

fn calls(sources: &[Source], count: usize, habit: &Habit, random: &mut Random) -> Vec<u8> {
    let mut clocks: Vec<Clock> = sources.iter().map(|&source| Clock { source, last: None }).collect();
    let mut calls = Vec::with_capacity(CALL_BYTES * count);
    let mut turned = habit.base;
    let mut tick = 0;
    for _ in 0..count {
        turned = habit.turn(turned, random);
        let mut tempo = turned;
        let arrivals = arrivals(&clocks, tick, tempo, habit, random);
        // A faster tempo that is given in a refused call is not kept.
        if !is_tick(&clocks, arrivals, tick, tempo) && random.chance(50) {
            tempo = random.within(tempo..=FASTEST);
        }
        if habit.off_knob > 0 && random.below(1_000) < habit.off_knob {
            tempo = [0, 199, 3_001, 65_535][random.index(4)];
        }
        calls.extend(arrivals.to_be_bytes());
        calls.extend((tempo as u16).to_be_bytes());
        calls.extend([random.chance(habit.finish).into(), 0]);
        if is_tick(&clocks, arrivals, tick, tempo) {
            for (source, clock) in clocks.iter_mut().enumerate() {
                clock.pass(tick, tempo, has(arrivals, source));
            }
            tick += 1;
        }
    }
    calls
}

impl Habit {
    /// The tempo of the next call.
    fn turn(&self, tempo: u32, random: &mut Random) -> u32 {
        match self.knob {
            Knob::Steady => tempo,
            Knob::Drifting => (tempo + random.within(0..=40)).saturating_sub(20).clamp(SLOWEST, FASTEST),
            Knob::Bursts if tempo == self.base && random.once_in(50) => random.within(tempo..=FASTEST),
            Knob::Bursts if tempo != self.base && random.once_in(4) => self.base,
            Knob::Bursts => tempo,
            Knob::Free => random.within(SLOWEST..=FASTEST),
        }
    }
}

/// When a source may fire.
struct Clock {
    source: Source,
    /// The tick of the last firing, and the fastest tempo since.
    last: Option<(usize, u32)>,
}

impl Clock {
    /// The first tick in which the source may fire at a tempo.
    fn due(&self, tempo: u32) -> usize {
        self.last.map_or(0, |(fired, fastest)| fired + self.source.spacing(tempo.max(fastest)) as usize)
    }

    fn pass(&mut self, tick: usize, tempo: u32, fires: bool) {
        if fires {
            self.last = Some((tick, tempo));
        } else if let Some((_, fastest)) = &mut self.last {
            *fastest = tempo.max(*fastest);
        }
    }
}

fn has(arrivals: u16, source: usize) -> bool {
    arrivals >> source & 1 == 1
}

/// Whether a call is no refused one.
fn is_tick(clocks: &[Clock], arrivals: u16, tick: usize, tempo: u32) -> bool {
    (SLOWEST..=FASTEST).contains(&tempo)
        && (0..16)
            .filter(|&source| has(arrivals, source))
            .all(|source| clocks.get(source).is_some_and(|clock| clock.due(tempo) <= tick))
}

fn arrivals(clocks: &[Clock], tick: usize, tempo: u32, habit: &Habit, random: &mut Random) -> u16 {
    let mut mask = 0;
    for (source, clock) in clocks.iter().enumerate() {
        let due = clock.due(tempo);
        let fires = if due <= tick {
            random.chance(habit.eager)
        } else {
            random.below(1_000) < if due == tick + 1 { habit.early } else { habit.too_soon }
        };
        mask |= u16::from(fires) << source;
    }
    if random.below(1_000) < habit.stranger {
        mask |= 1 << random.below(16);
    }
    mask
}
