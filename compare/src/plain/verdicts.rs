//! Verdicts on critical links ("Verdicts" and C-14).

use super::description::{Link, SOURCES, Spacings, TASKS};
use super::list::List;
use super::loads::{Graph, NODES, below, lowest, members};
use super::{Plan, Policy};

/// A verdict on a link.
#[derive(Clone, Copy, Debug, PartialEq, Eq)]
pub enum Verdict {
    /// The link is not critical.
    Free,
    /// From a task: held if a neighbourhood has all its frontier below the link's end.
    Order { held: bool },
    /// From a source: the delay (response-time bound), or `None` for a doubtful link.
    Delay { delay: Option<u64>, spacing: u32 },
}

/// The level of a task that critical links from sources lead to. Its rounds are those of all
/// these links, which differ only in the spacing that ends them.
pub struct Level {
    pub task: usize,
    /// The sources of those links.
    critical: u16,
    /// The first D: the work that a task below may have left; on the hold-on model the longest that
    /// a task up to this one may hold the processor, with what it wakes above.
    start: u64,
    /// The sources with a load here, on the hold-on model above here, and their loads.
    loads: List<(usize, u64), SOURCES>,
    /// What the delay has beyond D: on the hold-on model the task's own run.
    tail: u64,
}

/// The releases of one source within D.
#[derive(Clone, Copy, Default)]
struct Releases {
    load: u64,
    spacing: u64,
    /// The largest D that the releases counted so far are enough for.
    enough_to: u64,
}

/// Rounds that pass before it is asked whether they can end. Rounds that end mostly take fewer.
const PATIENCE: u32 = 32;

/// The levels that have a verdict to give, from the lowest task up.
pub fn levels(policy: Policy, plan: &Plan) -> impl Iterator<Item = Level> {
    let mut critical = [0u16; TASKS];
    for link in plan.description.links.iter().filter(|link| link.critical) {
        if let Some(source) = link.source() {
            critical[link.to_index()] |= 1 << source;
        }
    }
    let tasks = critical.into_iter().enumerate().filter(|&(_, sources)| sources != 0);
    tasks.map(move |(task, sources)| Level::of(policy, plan, task, sources))
}

impl Level {
    fn of(policy: Policy, plan: &Plan, task: usize, critical: u16) -> Level {
        match policy {
            Policy::Preemptive => {
                let loads = plan.loads.level(task);
                let start = loads[..task].iter().copied().max().unwrap_or(0);
                Level { task, critical, start, loads: of_sources(loads), tail: 0 }
            }
            Policy::HoldOn => {
                let runs = &plan.description.runs[..=task];
                let loads = plan.loads.level(task + 1);
                let held = runs.iter().zip(loads).map(|(&run, load)| u64::from(run) + load);
                let start = held.max().unwrap_or(0);
                Level { task, critical, start, loads: of_sources(loads), tail: runs[task].into() }
            }
        }
    }

    /// Whether all critical links from sources to this level are held.
    pub fn all_held(&self, spacings: &Spacings) -> bool {
        let narrowest = self.critical_spacings(spacings).min();
        narrowest.is_some_and(|spacing| self.delay_below(spacing.into(), spacings).is_some())
    }

    /// The delay, if it is below some critical source's spacing.
    pub fn delay(&self, spacings: &Spacings) -> Option<u64> {
        let widest = self.critical_spacings(spacings).max()?;
        self.delay_below(widest.into(), spacings)
    }

    fn critical_spacings(&self, spacings: &Spacings) -> impl Iterator<Item = u32> {
        members(self.critical.into()).map(|source| spacings[source])
    }

    /// The delay, if it is below `limit`, which is the spacing of a source with a critical link here.
    fn delay_below(&self, limit: u64, spacings: &Spacings) -> Option<u64> {
        let unchanged = self.unchanged_below(limit.checked_sub(self.tail)?, spacings)?;
        Some(unchanged + self.tail)
    }

    /// The D that a round leaves unchanged, if it is below `limit`.
    ///
    /// D is below 10⁹ in each round, so 16 sources with loads and releases of at most 10⁹ each
    /// stay within 64 bits.
    fn unchanged_below(&self, limit: u64, spacings: &Spacings) -> Option<u64> {
        let mut releases = self.first_releases(spacings);
        let mut delay = self.start;
        let mut next = self.start + releases.iter().map(|source| source.load).sum::<u64>();
        let mut rounds = 0;
        while delay < limit {
            for source in releases.iter_mut().filter(|source| source.enough_to < delay) {
                next += source.release_until(delay);
            }
            if next == delay {
                return Some(delay);
            }
            delay = next;
            rounds += 1;
            if rounds == PATIENCE && overloaded(&releases) {
                return None;
            }
        }
        None
    }

    /// One release of each source: even D = 0 has one.
    fn first_releases(&self, spacings: &Spacings) -> List<Releases, SOURCES> {
        let mut releases = List::filled_with(Releases::default());
        for &(source, load) in self.loads.iter() {
            let spacing = spacings[source].into();
            releases.push(Releases { load, spacing, enough_to: spacing });
        }
        releases
    }
}

/// The sources with a load, and their loads.
fn of_sources(loads: &[u64; NODES]) -> List<(usize, u64), SOURCES> {
    let mut loaded = List::filled_with((0, 0));
    for (source, &load) in loads[TASKS..].iter().enumerate() {
        if load > 0 {
            loaded.push((source, load));
        }
    }
    loaded
}

impl Releases {
    /// Counts the releases that `delay` needs beyond those counted, and returns their load.
    #[inline]
    fn release_until(&mut self, delay: u64) -> u64 {
        let more = (delay - self.enough_to).div_ceil(self.spacing);
        self.enough_to += more * self.spacing;
        more * self.load
    }
}

/// Whether the sources ask for all the time there is (document 000's test 6 fails), so that no D
/// below a critical source's spacing is left unchanged.
///
/// The sum of the loads per tick, in units of 2⁻⁶⁴, is rounded down for each of the at most 16
/// sources and compared with 1 less one unit for each. So no sum of 1 or more is missed. A sum
/// that lacks 16 units of 1 is rightly taken too: for D below a spacing of at most 10⁹ the
/// critical source's release in progress exceeds its share of D by 10⁻⁹ or more, and 16 × 10⁹
/// units are less. On the hold-on model that source may have no load, and the first D of 1 or more
/// is what exceeds.
fn overloaded(releases: &[Releases]) -> bool {
    let per_tick = |source: &Releases| (u128::from(source.load) << 64) / u128::from(source.spacing);
    let sum: u128 = releases.iter().map(per_tick).sum();
    sum + releases.len() as u128 >= 1 << 64
}

/// Whether a link between tasks is held. The walk goes back against the links, stops at tasks
/// below `to`, and fails on a source or on a task met twice.
fn in_order(graph: &Graph, from: usize, to: usize) -> bool {
    let frontier = u64::from(below(to));
    let tasks = (1 << TASKS) - 1;
    let mut met = 1u64 << from;
    let mut interior = met & !frontier;
    while let Some(task) = lowest(interior) {
        interior &= interior - 1;
        let waking = graph.predecessors[task];
        if waking & (met | !tasks) != 0 {
            return false;
        }
        met |= waking;
        interior |= waking & !frontier;
    }
    true
}

/// Whether every critical link between tasks is held, which no tempo alters.
pub fn orders_held(plan: &Plan) -> bool {
    let links = plan.description.links.iter();
    links.filter(|link| link.critical && link.source().is_none()).all(|link| order_held(plan, *link))
}

fn order_held(plan: &Plan, link: Link) -> bool {
    in_order(&plan.loads.graph, link.from_index(), link.to_index())
}

/// The verdicts at one tempo.
pub struct Verdicts<'a> {
    plan: &'a Plan,
    spacings: Spacings,
    delays: [Option<u64>; TASKS],
}

impl<'a> Verdicts<'a> {
    pub fn at(policy: Policy, plan: &'a Plan, tempo: u32) -> Verdicts<'a> {
        let spacings = plan.description.spacings(tempo);
        let mut delays = [None; TASKS];
        for level in levels(policy, plan) {
            delays[level.task] = level.delay(&spacings);
        }
        Verdicts { plan, spacings, delays }
    }

    pub fn on(&self, link: Link) -> Verdict {
        if !link.critical {
            return Verdict::Free;
        }
        match link.source() {
            None => Verdict::Order { held: order_held(self.plan, link) },
            Some(source) => {
                let spacing = self.spacings[source];
                let delay = self.delays[link.to_index()].filter(|&delay| delay < spacing.into());
                Verdict::Delay { delay, spacing }
            }
        }
    }
}
