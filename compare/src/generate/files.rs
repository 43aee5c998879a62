//! Files with a right form: random, tuned to a tempo, heavy, dense, and hard on the rounds.

use super::draft::Draft;
use super::random::Random;
use crate::plain::description::Source::{self, Fixed, Paced, Swung};
use crate::plain::quote::quote;
use crate::plain::verdicts::{Verdict, Verdicts};
use crate::plain::{Plan, Policy};

/// How a random file is made.
struct Shape {
    tasks: u32,
    sources: u32,
    links: u32,
    /// In percent: tasks out of the order that links follow, which is otherwise rising or falling.
    shuffled: u64,
    rising: bool,
    /// In percent: critical links, paced sources, and of these the swung ones.
    critical: u64,
    paced: u64,
    swung: u64,
    longest_run: u32,
    /// Links follow a random order of the tasks, so that none closes a loop.
    loop_free: bool,
}

impl Shape {
    fn any(random: &mut Random) -> Shape {
        let small = random.chance(60);
        Shape {
            tasks: random.within(if small { 1..=8 } else { 1..=32 }),
            sources: random.within(if small { 0..=4 } else { 0..=16 }),
            links: if small { random.within(0..=14) } else { random.scaled(0..=256) },
            shuffled: [0, 10, 30, 100][random.index(4)],
            rising: random.chance(60),
            critical: [10, 50, 100][random.index(3)],
            paced: [0, 50, 100][random.index(3)],
            swung: [0, 50, 100][random.index(3)],
            longest_run: [5, 300, 20_000, 10_000_000][random.index(4)],
            loop_free: !random.chance(5),
        }
    }

    fn draft(&self, random: &mut Random) -> Draft {
        let mut draft = Draft {
            runs: (0..self.tasks).map(|_| random.scaled(1..=self.longest_run)).collect(),
            sources: (0..self.sources).map(|_| self.source(random)).collect(),
            links: Vec::new(),
        };
        let order = self.order(random);
        for _ in 0..self.links {
            draft.links.extend(self.link(random, &order));
        }
        draft.sorted()
    }

    fn source(&self, random: &mut Random) -> Source {
        if random.chance(self.paced) {
            let pulses = random.within(1..=960);
            paced(pulses, self.swung, random)
        } else {
            Fixed(random.scaled(1..=1_000_000_000))
        }
    }

    /// The tasks in an order that links follow. Rising links make loads heavy, falling ones doubtful.
    fn order(&self, random: &mut Random) -> Vec<u8> {
        let mut order: Vec<u8> = (1..=self.tasks as u8).collect();
        if !self.rising {
            order.reverse();
        }
        for place in 1..order.len() {
            if random.chance(self.shuffled) {
                order.swap(place, random.index(place + 1));
            }
        }
        order
    }

    fn link(&self, random: &mut Random, order: &[u8]) -> Option<[u8; 3]> {
        let critical = random.chance(self.critical).into();
        let to = random.index(order.len());
        let from_source = self.sources > 0 && random.chance(30);
        let from = if from_source {
            33 + random.index(self.sources as usize) as u8
        } else if !self.loop_free {
            order[random.index(order.len())]
        } else if to > 0 {
            order[random.index(to)]
        } else {
            return None;
        };
        Some([from, order[to], critical])
    }
}

/// A paced source, which has a swing in `swung` of a hundred.
pub fn paced(pulses: u32, swung: u64, random: &mut Random) -> Source {
    if swung > 0 && random.chance(swung) {
        Swung(pulses as u16, random.within(51..=75) as u8)
    } else {
        Paced(pulses as u16)
    }
}

/// Now and then the pulses of the MIDI clock in place of these.
pub fn or_clock(pulses: u32, random: &mut Random) -> u32 {
    if random.chance(20) { 24 } else { pulses }
}

/// A random file of any size, its first source at times one of 24 pulses.
pub fn any(random: &mut Random) -> Draft {
    let shape = Shape::any(random);
    let mut draft = shape.draft(random);
    if let (true, Some(source)) = (random.chance(30), draft.sources.first_mut()) {
        *source = paced(24, shape.swung, random);
    }
    draft
}

/// A file whose quote on one of the models is made to lie inside the range, if that can be had by its
/// longest runs.
pub fn tuned(random: &mut Random) -> Draft {
    let mut shape = Shape::any(random);
    shape.sources = shape.sources.max(1);
    shape.longest_run = 1_000;
    shape.loop_free = true;
    let mut draft = shape.draft(random);
    widen(&mut draft, 960, random);
    // One critical link at least depends on the tempo.
    let pulses = random.scaled(1..=960);
    draft.sources[0] = paced(or_clock(pulses, random), shape.swung, random);
    draft.links.retain(|link| link[0] != 33);
    draft.links.truncate(255);
    draft.links.push([33, random.within(1..=shape.tasks) as u8, 1]);
    draft = draft.sorted();
    if random.chance(90) {
        free_doubtful_orders(&mut draft);
    }
    let tempo = match random.below(10) {
        0 => 200,
        1 => 3_000,
        _ => random.within(201..=2_999),
    };
    tune(&mut draft, Policy::BOTH[random.index(2)], tempo);
    draft
}

/// Gives the sources spacings that leave room for runs of any length.
fn widen(draft: &mut Draft, most_pulses: u32, random: &mut Random) {
    for source in &mut draft.sources {
        *source = match *source {
            Fixed(spacing) => Fixed(spacing.max(100_000)),
            Paced(_) => Paced(random.scaled(1..=most_pulses) as u16),
            Swung(_, swing) => Swung(random.scaled(1..=most_pulses) as u16, swing),
        };
    }
}

/// Makes links between tasks free where no tempo would hold them, on either model.
fn free_doubtful_orders(draft: &mut Draft) {
    let light = Draft { runs: vec![1; draft.runs.len()], ..draft.clone() };
    let Ok(plan) = Plan::read(&light.bytes()) else { return };
    let verdicts = Verdicts::at(Policy::Preemptive, &plan, 200);
    for (link, critical) in plan.description.links.iter().zip(&mut draft.links) {
        if verdicts.on(*link) == (Verdict::Order { held: false }) {
            critical[2] = 0;
        }
    }
}

/// Scales the longest runs so that the quote comes close to `tempo`.
fn tune(draft: &mut Draft, policy: Policy, tempo: u32) {
    let weights = draft.runs.clone();
    let (mut light, mut heavy) = (0u64, 1 << 32);
    for _ in 0..28 {
        let middle = (light + heavy) / 2;
        draft.runs = scale(&weights, middle);
        let quoted = Plan::read(&draft.bytes()).and_then(|plan| quote(policy, &plan));
        match quoted {
            Ok(quoted) if quoted >= tempo => light = middle,
            _ => heavy = middle,
        }
    }
    draft.runs = scale(&weights, light);
}

/// Each weight times `factor` / 2¹⁶, within a run's range.
fn scale(weights: &[u32], factor: u64) -> Vec<u32> {
    let scaled = |&weight: &u32| (u64::from(weight) * factor) >> 16;
    weights.iter().map(|weight| scaled(weight).clamp(1, 10_000_000) as u32).collect()
}

/// A file whose largest load is at 10⁹, one below or one beyond, or somewhere near.
pub fn heavy(random: &mut Random) -> Draft {
    let mut shape = Shape::any(random);
    shape.tasks = random.within(6..=32);
    shape.links = random.within(20..=256);
    (shape.rising, shape.shuffled) = (true, 0);
    shape.longest_run = 10_000;
    shape.loop_free = true;
    let mut draft = shape.draft(random);
    let weights = draft.runs.clone();
    let (mut light, mut heavy) = (0u64, 1 << 32);
    while heavy - light > 1 {
        let middle = (light + heavy) / 2;
        draft.runs = scale(&weights, middle);
        match Plan::read(&draft.bytes()) {
            Ok(_) => light = middle,
            Err(_) => heavy = middle,
        }
    }
    draft.runs = scale(&weights, light);
    top_up(&mut draft, random);
    draft
}

/// Lengthens the run of the lowest task that adds to the largest load, which counts there once.
fn top_up(draft: &mut Draft, random: &mut Random) {
    let Ok(plan) = Plan::read(&draft.bytes()) else { return };
    let lowest = plan.loads.level(0);
    let Some(largest) = lowest.iter().max().copied() else { return };
    let Some(node) = lowest.iter().position(|&load| load == largest) else { return };
    let Some(task) = (0..draft.runs.len()).rev().find(|&task| plan.loads.level(task)[node] == largest) else {
        return;
    };
    let missing = (999_999_999 + random.below(3)).saturating_sub(largest);
    let longer = u64::from(draft.runs[task]) + missing;
    draft.runs[task] = longer.clamp(1, 10_000_000) as u32;
}

/// Each of 32 tasks linked to the next eight above it: 2³⁰ paths for a recursion without a memo.
pub fn dense() -> Draft {
    dense_with(32, 8, |_| 1)
}

/// A dense file of another size, up or down, that may be light enough to be accepted.
pub fn any_dense(random: &mut Random) -> Draft {
    let tasks = random.within(2..=32) as u8;
    let reach = random.within(1..=8) as u8;
    let mut draft = dense_with(tasks, reach, |_| 0);
    draft.runs = draft.runs.iter().map(|_| random.scaled(1..=50)).collect();
    if random.chance(50) {
        for link in &mut draft.links {
            *link = [link[1], link[0], random.chance(30).into()];
        }
    }
    let pulses = random.scaled(1..=960);
    draft.sources = vec![paced(pulses, 30, random), Fixed(random.scaled(1..=1_000_000_000))];
    for source in [33, 34] {
        draft.links.push([source, random.within(1..=tasks.into()) as u8, 1]);
    }
    draft.sorted()
}

fn dense_with(tasks: u8, reach: u8, critical: impl Fn(u8) -> u8) -> Draft {
    let links = (1..=tasks).flat_map(|from| (from + 1..=tasks.min(from + reach)).map(move |to| (from, to)));
    Draft {
        runs: vec![1; tasks.into()],
        sources: Vec::new(),
        links: links.map(|(from, to)| [from, to, critical(from)]).collect(),
    }
}

/// A load of 1 in every tick: bare rounds would raise D by 1 up to 10⁹.
pub fn hostile() -> Draft {
    Draft::new(&[1], &[Fixed(1_000_000_000), Fixed(1)], &[[33, 1, 1], [34, 1, 0]])
}

/// Sources that ask for nearly all the time, all of it, or a little more, so that rounds are many.
/// The critical source's spacing bounds their number. On the hold-on model rounds go by what is above
/// a task, so the critical link may lead to one below.
pub fn nearly_full(random: &mut Random) -> Draft {
    const FULL: [&[u32]; 7] =
        [&[1], &[2, 2], &[3, 3, 3], &[2, 3, 6], &[2, 3, 7], &[2, 3, 7, 43], &[2, 3, 7, 43, 1_807]];
    let spacings = FULL[random.index(FULL.len())];
    let run = random.scaled(1..=100);
    let nudge = random.index(spacings.len());
    let mut sources = vec![Fixed(random.scaled(1_000..=300_000))];
    for (place, spacing) in spacings.iter().enumerate() {
        let change = if place == nudge { random.within(0..=1) } else { 0 };
        sources.push(Fixed(spacing * run + change));
    }
    let mut runs = vec![run];
    if random.chance(50) {
        runs.insert(0, random.scaled(1..=100));
    }
    let mut links = vec![[33, 1, 1]];
    links.extend((1..sources.len()).map(|source| [33 + source as u8, runs.len() as u8, 0]));
    Draft { runs, sources, links }
}

/// An accepted file of the given size with a quote inside the range, for the benchmarks.
fn bench_draft(tasks: u32, sources: u32, links: usize, swung: u64, seed: u64) -> Draft {
    let mut random = Random::new(seed);
    let shape = Shape {
        tasks,
        sources,
        links: 4 * links as u32,
        shuffled: 20,
        rising: false,
        critical: 50,
        paced: 80,
        swung,
        longest_run: 400,
        loop_free: true,
    };
    loop {
        let mut draft = shape.draft(&mut random);
        while draft.links.len() > links {
            draft.links.remove(random.index(draft.links.len()));
        }
        widen(&mut draft, 96, &mut random);
        free_doubtful_orders(&mut draft);
        tune(&mut draft, Policy::Preemptive, 1_500);
        let quoted = Plan::read(&draft.bytes()).and_then(|plan| quote(Policy::Preemptive, &plan));
        let inside = quoted.is_ok_and(|tempo| (1_000..2_500).contains(&tempo));
        if draft.links.len() == links && inside {
            return draft;
        }
    }
}

/// A file of common size: 12 tasks, 5 sources, 30 links.
pub fn bench_typical() -> Vec<u8> {
    bench_draft(12, 5, 30, 0, 12).bytes()
}

/// The same size, each paced source with a swing.
pub fn bench_swung() -> Vec<u8> {
    bench_draft(12, 5, 30, 100, 12).bytes()
}

/// The same size, its first paced source the MIDI clock.
pub fn bench_clocked() -> Vec<u8> {
    let mut draft = bench_draft(12, 5, 30, 0, 12);
    if let Some(source) = draft.sources.iter_mut().find(|source| matches!(source, Paced(_))) {
        *source = Paced(24);
    }
    tune(&mut draft, Policy::Preemptive, 1_500);
    draft.bytes()
}

/// A file of the largest size: 32 tasks, 16 sources, 256 links.
pub fn bench_full() -> Vec<u8> {
    bench_draft(32, 16, 256, 0, 32).bytes()
}
