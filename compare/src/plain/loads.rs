//! The precedence graph and its loads ("Loads", refusals 9 and 10).
//!
//! added(i, j) is W(j) or 0: W(j) exactly if some path of links leads from i to j through tasks
//! above j alone. So a set of tasks for each node says which loads it adds, and the whole sheet
//! costs one step for each link and one for each place, where the bare equations would visit every path.

use super::description::{Description, SOURCES, TASKS};
use super::refusal::{Refusal, Word};

pub const NODES: usize = TASKS + SOURCES;
const HEAVIEST: u64 = 1_000_000_000;
/// load(i, n + 1) for n tasks.
static NO_LOADS: [u64; NODES] = [0; NODES];

/// Who wakes whom. A set of tasks has bit t for the task of index t; a set of nodes likewise, with
/// the sources from bit 32.
pub struct Graph {
    pub successors: [u32; NODES],
    pub predecessors: [u64; TASKS],
}

/// The loads of an accepted description.
pub struct Loads {
    pub graph: Graph,
    /// load(i, j) by the index of j, then of i: a level's loads stand together.
    levels: Vec<[u64; NODES]>,
}

impl Loads {
    /// The loads, or refusal 9 or 10.
    pub fn of(description: &Description) -> Result<Loads, Refusal> {
        let graph = Graph::of(description);
        let added = graph.added().ok_or(Refusal::of(Word::Loop))?;
        let levels = levels(&description.runs, &added);
        if levels[0].iter().any(|&load| load > HEAVIEST) {
            return Err(Refusal::of(Word::TooHeavy));
        }
        Ok(Loads { graph, levels })
    }

    /// load(i, j) of every node i, for the task j of this index, or past the last.
    pub fn level(&self, task: usize) -> &[u64; NODES] {
        self.levels.get(task).unwrap_or(&NO_LOADS)
    }
}

impl Graph {
    fn of(description: &Description) -> Graph {
        let mut graph = Graph { successors: [0; NODES], predecessors: [0; TASKS] };
        for link in description.links.iter() {
            graph.successors[link.from_index()] |= 1 << link.to_index();
            graph.predecessors[link.to_index()] |= 1 << link.from_index();
        }
        graph
    }

    /// For each node the tasks whose load it adds, or `None` if the links contain a cycle.
    /// Nodes are settled after all their successors; those on a cycle never are.
    fn added(&self) -> Option<[u32; NODES]> {
        let mut added = [0; NODES];
        let mut settled = self.nodes(|successors| successors == 0);
        let mut ready = self.nodes(|successors| u64::from(successors) & !settled == 0) & !settled;
        while let Some(node) = lowest(ready) {
            settled |= 1 << node;
            ready &= ready - 1;
            added[node] = self.added_by(node, &added);
            let Some(&waking) = self.predecessors.get(node) else { continue };
            for before in members(waking) {
                if u64::from(self.successors[before]) & !settled == 0 {
                    ready |= 1 << before;
                }
            }
        }
        (settled == (1 << NODES) - 1).then_some(added)
    }

    /// The set of the nodes whose successors pass a test.
    fn nodes(&self, test: impl Fn(u32) -> bool) -> u64 {
        let mut set = 0;
        for (node, &successors) in self.successors.iter().enumerate() {
            set |= u64::from(test(successors)) << node;
        }
        set
    }

    /// The tasks that `node` wakes, and below each of them those that it adds in turn.
    fn added_by(&self, node: usize, added: &[u32; NODES]) -> u32 {
        let woken = self.successors[node];
        members(woken.into()).fold(woken, |set, task| set | added[task] & below(task))
    }
}

/// load(i, j) at every level j, from the highest down. W(j) rests on the levels above j alone:
/// it is j's longest run and what j adds there.
fn levels(runs: &[u32], added: &[u32; NODES]) -> Vec<[u64; NODES]> {
    let mut levels = vec![[0; NODES]; runs.len()];
    let mut loads = [0u64; NODES];
    for task in (0..runs.len()).rev() {
        let work = u64::from(runs[task]) + loads[task];
        for (load, set) in loads.iter_mut().zip(added) {
            *load += if set >> task & 1 == 1 { work } else { 0 };
        }
        levels[task] = loads;
    }
    levels
}

/// The set of the tasks of lower priority.
#[inline]
pub fn below(task: usize) -> u32 {
    (1 << task) - 1
}

/// The indices in a set, rising.
#[inline]
pub fn members(mut set: u64) -> impl Iterator<Item = usize> {
    std::iter::from_fn(move || {
        let index = lowest(set)?;
        set &= set - 1;
        Some(index)
    })
}

#[inline]
pub fn lowest(set: u64) -> Option<usize> {
    (set != 0).then(|| set.trailing_zeros() as usize)
}
