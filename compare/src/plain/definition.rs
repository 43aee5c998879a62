//! The definitions of document 01 and C-13 to C-15 word by word, slow, and only for tests: what the fast
//! code of this module must equal on small files and in runs.

use super::description::{Description, Link, TASKS};
use super::machine::{PreemptiveMachine, Record, read_call};
use super::quote::quote;
use super::verdicts::{Verdict, Verdicts};
use super::{Plan, Policy, SIDE};
use crate::generate::{self, Random, Run};
use crate::{CALL_BYTES, RECORD_BYTES};

const TEMPOS: [u32; 4] = [200, 777, 1_200, 3_000];

/// W(j): e(j) plus the sum of added(j, k) over tasks k > j.
fn work(file: &Description, j: usize) -> u64 {
    u64::from(file.runs[j - 1]) + (j + 1..=file.runs.len()).map(|k| added(file, j, k)).sum::<u64>()
}

/// W(j) if a link i to j exists; else the largest added(k, j) over links from i to k with k > j; else 0.
fn added(file: &Description, i: usize, j: usize) -> u64 {
    let ends =
        || file.links.iter().filter(|link| usize::from(link.from) == i).map(|link| usize::from(link.to));
    if ends().any(|to| to == j) {
        return work(file, j);
    }
    ends().filter(|&k| k > j).map(|k| added(file, k, j)).max().unwrap_or(0)
}

/// The sum of added(i, k) over k ≥ j.
fn load(file: &Description, i: usize, j: usize) -> u64 {
    (j..=file.runs.len()).map(|k| added(file, i, k)).sum()
}

/// D divided by the spacing, rounded up, and at least 1.
fn spacings(delay: u64, spacing: u64) -> u64 {
    delay.div_ceil(spacing).max(1)
}

/// The first D at task j, the task whose loads a round goes by, and what the delay has beyond D.
fn terms(policy: Policy, file: &Description, j: usize) -> (u64, usize, u64) {
    let run = |k: usize| u64::from(file.runs[k - 1]);
    match policy {
        Policy::Preemptive => ((1..j).map(|k| load(file, k, j)).max().unwrap_or(0), j, 0),
        Policy::HoldOn => ((1..=j).map(|k| run(k) + load(file, k, j + 1)).max().unwrap_or(0), j + 1, run(j)),
    }
}

/// The delay of a link from a source, if it is held.
fn delay(policy: Policy, file: &Description, link: Link, tempo: u32) -> Option<u64> {
    let j = usize::from(link.to);
    let sources = || {
        file.sources.iter().enumerate().map(|(place, source)| (33 + place, u64::from(source.spacing(tempo))))
    };
    let (_, own) = sources().nth(link.source()?)?;
    let (start, level, beyond) = terms(policy, file, j);
    let loads: Vec<(u64, u64)> = sources().map(|(u, spacing)| (load(file, u, level), spacing)).collect();
    let mut d = start;
    while d + beyond < own {
        let next = start + loads.iter().map(|&(load, spacing)| load * spacings(d, spacing)).sum::<u64>();
        if next == d {
            return Some(d + beyond);
        }
        d = next;
    }
    None
}

/// Whether some neighbourhood of i (document 000, C1 to C4) has all its frontier below j. Every
/// pair of disjoint sets of tasks is tried.
fn has_neighbourhood(file: &Description, i: usize, j: usize) -> bool {
    let tasks = file.runs.len() as u32;
    (0..3u32.pow(tasks)).any(|choice| {
        let part = |task: usize| choice / 3u32.pow(task as u32 - 1) % 3;
        let in_frontier = |task: usize| task <= TASKS && part(task) == 1;
        let in_interior = |task: usize| task <= TASKS && part(task) == 2;
        let in_either = |task: usize| in_frontier(task) || in_interior(task);
        let all = || 1..=tasks as usize;
        let ends = |from: usize| {
            let links = file.links.iter().filter(move |link| usize::from(link.from) == from);
            links.filter(|link| in_interior(link.to.into())).count()
        };
        let c1 = in_either(i);
        let c2 = file.links.iter().all(|link| !in_interior(link.to.into()) || in_either(link.from.into()));
        let c3 = all().filter(|&k| in_either(k)).all(|k| ends(k) == usize::from(k != i));
        let c4 = all().filter(|&k| in_frontier(k)).all(|k| all().filter(|&n| in_interior(n)).all(|n| k < n));
        c1 && c2 && c3 && c4 && all().filter(|&k| in_frontier(k)).all(|k| k < j)
    })
}

fn verdict(policy: Policy, file: &Description, link: Link, tempo: u32) -> Verdict {
    match link.source() {
        _ if !link.critical => Verdict::Free,
        None => Verdict::Order { held: has_neighbourhood(file, link.from.into(), link.to.into()) },
        Some(source) => {
            let spacing = file.sources[source].spacing(tempo);
            Verdict::Delay { delay: delay(policy, file, link, tempo), spacing }
        }
    }
}

/// A node fires: for each link out, if waiting, mark dropped; set waiting; wake the task. An event for
/// a task whose used is above 0 sets late too, and "again" on its task.
fn fire(file: &Description, record: &mut Record, node: usize) {
    for (place, link) in file.links.iter().enumerate().filter(|(_, link)| usize::from(link.from) == node) {
        if record.used[link.to_index()] > 0 {
            record.late[place] = true;
            record.again[link.to_index()] = true;
        }
        record.dropped[place] |= record.waiting[place];
        record.waiting[place] = true;
        record.awake[link.to_index()] = true;
    }
}

/// Whether a source's age has reached its spacing at the fastest tempo given since it last fired, its
/// present tick included.
pub fn due(file: &Description, record: &Record, u: usize, tempo: u16) -> bool {
    record.ages[u] >= file.sources[u].spacing(record.fastest[u].max(tempo).into())
}

/// The task that runs: the highest awake one, on the hold-on model only when none is running, which
/// is the one whose used is above 0.
fn chosen(policy: Policy, file: &Description, record: &Record) -> Option<usize> {
    let tasks = || (1..=file.runs.len()).rev();
    let running = tasks().find(|j| policy == Policy::HoldOn && record.used[j - 1] > 0);
    running.or(tasks().find(|j| record.awake[j - 1]))
}

/// The task that ran in a tick, and whether its run began and ended in it.
#[derive(Clone, Copy)]
pub struct Ran {
    pub task: usize,
    pub began: bool,
    pub ended: bool,
}

/// One call on a record that obeys the rules: what ran in its tick, or the number of its refusal.
pub fn tick(
    policy: Policy,
    file: &Description,
    record: &mut Record,
    (arrivals, tempo, finish): (u16, u16, bool),
) -> Result<Option<Ran>, u8> {
    let arriving: Vec<usize> = (0..16).filter(|u| arrivals >> u & 1 == 1).collect();
    if !(200..=3_000).contains(&tempo) {
        return Err(11);
    }
    if arriving.iter().any(|&u| u >= file.sources.len()) {
        return Err(15);
    }
    if !arriving.iter().all(|&u| due(file, record, u, tempo)) {
        return Err(14);
    }
    for &u in &arriving {
        fire(file, record, 33 + u);
        (record.ages[u], record.fastest[u]) = (0, tempo);
    }
    let ran = chosen(policy, file, record).map(|j| {
        let began = record.used[j - 1] == 0;
        record.used[j - 1] += 1;
        let ended = record.used[j - 1] == file.runs[j - 1] || finish;
        if ended {
            // Late links stay waiting and lose "late", other links into the task clear, and a task
            // marked "again" is awake with used 0 and loses the mark.
            (record.awake[j - 1], record.used[j - 1]) = (record.again[j - 1], 0);
            record.again[j - 1] = false;
            for (place, _) in file.links.iter().enumerate().filter(|(_, link)| usize::from(link.to) == j) {
                (record.waiting[place], record.late[place]) = (record.late[place], false);
            }
            fire(file, record, j);
        }
        Ran { task: j, began, ended }
    });
    for (u, source) in file.sources.iter().enumerate() {
        record.ages[u] = (record.ages[u] + 1).min(source.spacing(200));
        if record.fastest[u] != 0 {
            record.fastest[u] = record.fastest[u].max(tempo);
        }
    }
    Ok(ran)
}

/// Accepted files with at most so many tasks.
fn small_plans(seed: u64, tasks: usize, count: usize) -> impl Iterator<Item = Plan> {
    let mut random = Random::new(seed);
    let files = std::iter::repeat_with(move || generate::file(&mut random));
    let plans = files.filter_map(|file| Plan::read(&file).ok());
    plans
        .filter(move |plan| plan.description.runs.len() <= tasks && !plan.description.links.is_empty())
        .take(count)
}

#[test]
fn loads_are_the_defined_ones() {
    for plan in small_plans(1, 9, 400) {
        let file = &plan.description;
        for j in 1..=file.runs.len() {
            let nodes = (1..=file.runs.len()).chain((33..).take(file.sources.len()));
            for i in nodes {
                assert_eq!(plan.loads.level(j - 1)[i - 1], load(file, i, j), "load({i}, {j})");
            }
        }
    }
}

#[test]
fn verdicts_are_the_defined_ones() {
    for plan in small_plans(2, 7, 400) {
        let file = &plan.description;
        for (policy, tempo) in Policy::BOTH.iter().flat_map(|&policy| TEMPOS.map(|tempo| (policy, tempo))) {
            let verdicts = Verdicts::at(policy, &plan, tempo);
            for &link in file.links.iter() {
                let defined = verdict(policy, file, link, tempo);
                assert_eq!(verdicts.on(link), defined, "{policy:?}: {link:?} at {tempo}");
            }
        }
    }
}

/// Every tempo is tried, so the search and the fact it rests on are tried too.
#[test]
fn quotes_are_the_largest_good_tempos() {
    let doubtful = |verdict| match verdict {
        Verdict::Free | Verdict::Order { held: true } => false,
        Verdict::Order { held: false } => true,
        Verdict::Delay { delay, .. } => delay.is_none(),
    };
    for plan in small_plans(3, 32, 150) {
        for policy in Policy::BOTH {
            let good = |tempo: &u32| {
                let verdicts = Verdicts::at(policy, &plan, *tempo);
                !plan.description.links.iter().any(|&link| doubtful(verdicts.on(link)))
            };
            assert_eq!(quote(policy, &plan).ok(), (200..=3_000).rev().find(good), "{policy:?}");
        }
    }
}

#[test]
fn runs_are_the_defined_ones() {
    let mut random = Random::new(4);
    for _ in 0..1_500 {
        let run = generate::run(&mut random);
        for policy in Policy::BOTH {
            assert_defined(policy, &run);
        }
    }
}

fn assert_defined(policy: Policy, run: &Run) {
    let Ok(Plan { description: file, .. }) = Plan::read(&run.file) else { return };
    let mut defined = PreemptiveMachine::start(&file).record();
    let calls = run.calls.chunks_exact(CALL_BYTES);
    let mut outcome = |call| tick(policy, &file, &mut defined, call).err().unwrap_or(0);
    let expected: Vec<u8> = calls.map(|call| outcome(read_call(call))).collect();
    let mut outcomes = vec![0; expected.len()];
    let (mut left, mut record) = ([0; RECORD_BYTES], [0; RECORD_BYTES]);
    assert_eq!((SIDE.run)(policy, &run.file, &run.calls, &mut outcomes, &mut left), 0);
    defined.write(&mut record);
    assert_eq!((outcomes, left), (expected, record), "{policy:?}: {:02x?}", run.file);
}
