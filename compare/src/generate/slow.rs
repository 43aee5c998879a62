//! Files with levels that take many rounds.

use super::draft::Draft;
use crate::plain::description::Source::Fixed;
use crate::plain::description::TASKS;
use crate::rounds::Level;

/// The widest spacing there is.
const WIDEST: u32 = 1_000_000_000;
/// With a run of 1 each, they leave 1 / 3,263,442 of the processor free.
const UNITS: [u32; 5] = [2, 3, 7, 43, 1_807];
const SIXTH: u32 = 3_290_000;

/// Load and spacing of each source of the worst level for jumps alone, the critical one first.
const SMALL_SPACINGS: [(u64, u64); 16] = [
    (1, 1_000_000_000),
    (5, 73),
    (3, 64),
    (3, 74),
    (1, 2),
    (2, 73),
    (1, 51),
    (3, 46),
    (1, 50),
    (2, 71),
    (1, 50),
    (2, 47),
    (1, 54),
    (2, 67),
    (3, 62),
    (1, 41),
];

/// The same for the level that stands for many.
const SMALL_SPACINGS_OF_MANY: [(u64, u64); 16] = [
    (15, 1_000_000_000),
    (5, 89),
    (10, 113),
    (1, 35),
    (2, 159),
    (2, 129),
    (4, 122),
    (27, 60),
    (5, 142),
    (11, 152),
    (6, 115),
    (4, 144),
    (7, 158),
    (1, 78),
    (7, 141),
    (3, 139),
];

/// The same for the worst level on wheels, among those found.
const WORST: [(u64, u64); 16] = [
    (1, 1_000_000_000),
    (3, 92),
    (3, 47),
    (4, 121),
    (15, 157),
    (2, 82),
    (12, 107),
    (4, 53),
    (3, 157),
    (4, 89),
    (4, 33),
    (1, 119),
    (15, 124),
    (7, 128),
    (15, 139),
    (6, 70),
];

/// And for the one that stands for many, which is of another kind.
const WORST_OF_MANY: [(u64, u64); 16] = [
    (15, 1_000_000_000),
    (1, 2),
    (52, 1_670),
    (9, 176),
    (23, 986),
    (50, 1_473),
    (20, 293),
    (94, 1_901),
    (114, 1_643),
    (33, 790),
    (18, 1_976),
    (3, 1_078),
    (7, 1_940),
    (73, 1_568),
    (22, 424),
    (24, 1_360),
];

/// One level: a critical source of the widest spacing beside the five and a sixth, all to task 1.
pub fn level_1807() -> Draft {
    let spacings = [WIDEST].into_iter().chain(UNITS).chain([SIXTH]);
    let sources: Vec<_> = spacings.map(Fixed).collect();
    let links = numbers(sources.len()).map(|source| [source, 1, 1]).collect();
    Draft { runs: vec![1], sources, links }
}

/// Ten such levels: the five and the sixth to task 10, a critical source of the widest spacing to each task.
pub fn ten_levels() -> Draft {
    let spacings = UNITS.into_iter().chain([SIXTH]).chain([WIDEST; 10]);
    let sources: Vec<_> = spacings.map(Fixed).collect();
    let links = numbers(sources.len()).map(|source| match source {
        33..39 => [source, 10, 0],
        _ => [source, source - 38, 1],
    });
    Draft { runs: vec![1; 10], links: links.collect(), sources }
}

/// A level loaded by 1 exactly: three sources of spacing 3 beside the critical one.
pub fn exactly_one() -> Draft {
    let sources = [WIDEST, 3, 3, 3].map(Fixed);
    Draft::new(&[1], &sources, &[[33, 1, 1], [34, 1, 0], [35, 1, 0], [36, 1, 0]])
}

/// The level with the most rounds that was found while jumps were all that there was between them.
pub fn small_spacings() -> Level {
    Level { limit: WIDEST.into(), sources: SMALL_SPACINGS.to_vec() }
}

/// The same where the critical source has a load of 15, about the mean of many levels.
pub fn small_spacings_of_many() -> Level {
    Level { limit: WIDEST.into(), sources: SMALL_SPACINGS_OF_MANY.to_vec() }
}

/// The level that takes longest on wheels of those that `worst` has found.
pub fn worst_level() -> Level {
    Level { limit: WIDEST.into(), sources: WORST.to_vec() }
}

/// The one that takes longest where the critical source has a load of 15 and 32 tasks have it as often as they can.
pub fn worst_of_many() -> Level {
    Level { limit: WIDEST.into(), sources: WORST_OF_MANY.to_vec() }
}

/// A file with this one level, at task 1, which the level's first source wakes by a critical link.
///
/// Above it is a task for each other source, which wakes it: its run is the load.
pub fn one_level(level: &Level) -> Draft {
    let links = numbers(level.sources.len()).map(|source| [source, source - 32, (source == 33).into()]);
    Draft {
        runs: level.sources.iter().map(|&(load, _)| load as u32).collect(),
        sources: level.sources.iter().map(|&(_, spacing)| Fixed(spacing as u32)).collect(),
        links: links.collect(),
    }
}

/// A file of 32 tasks with this level as often as it can have it.
///
/// The highest tasks have runs of which each load is a sum, and a source wakes those that make up
/// its load. The first source wakes all tasks below, whose runs are 1, by critical links. So its
/// load is 1 at the highest of these and grows downwards, and nothing else differs.
pub fn many_levels(level: &Level) -> Draft {
    let mut runs: Vec<u64> = Vec::new();
    let mut loads: Vec<u64> = level.sources[1..].iter().map(|&(load, _)| load).collect();
    loads.sort_unstable();
    for load in loads {
        if summands(&runs, load).is_none() {
            runs.push(load);
        }
    }
    let low = TASKS - runs.len();
    let mut links: Vec<[u8; 3]> = (1..=low as u8).map(|task| [33, task, 1]).collect();
    for (source, &(load, _)) in numbers(level.sources.len()).zip(&level.sources).skip(1) {
        let places = summands(&runs, load).unwrap_or_default();
        links.extend(places.iter().map(|place| [source, (low + place + 1) as u8, 0]));
    }
    Draft {
        runs: [1].repeat(low).into_iter().chain(runs.iter().map(|&run| run as u32)).collect(),
        sources: level.sources.iter().map(|&(_, spacing)| Fixed(spacing as u32)).collect(),
        links,
    }
    .sorted()
}

/// The places of runs that add up to `sum`, if there are any.
fn summands(runs: &[u64], sum: u64) -> Option<Vec<usize>> {
    let chosen = |set: u32| (0..runs.len()).filter(move |place| set >> place & 1 == 1);
    let set = (0..1 << runs.len()).find(|&set| chosen(set).map(|place| runs[place]).sum::<u64>() == sum)?;
    Some(chosen(set).collect())
}

/// The numbers of so many sources.
fn numbers(sources: usize) -> impl Iterator<Item = u8> {
    (33..).take(sources)
}

#[cfg(test)]
mod tests {
    use super::*;
    use crate::plain::Plan;

    /// The samples are the files of this module.
    #[test]
    fn samples_are_these() {
        let samples = [
            ("level-1807", level_1807()),
            ("ten-levels", ten_levels()),
            ("exactly-one", exactly_one()),
            ("small-spacings", one_level(&small_spacings())),
            ("small-spacings-32", many_levels(&small_spacings_of_many())),
            ("worst-level", one_level(&worst_level())),
            ("worst-32", many_levels(&worst_of_many())),
        ];
        for (name, draft) in samples {
            let path = format!("../samples/{name}.bin");
            assert_eq!(std::fs::read(&path).ok(), Some(draft.bytes()), "{path}");
        }
    }

    /// The levels of the files are the given one, but for the load of the critical source.
    #[test]
    fn levels_are_the_given_one() {
        let one = [small_spacings(), worst_level()].map(|level| (one_level(&level), level));
        let many = [small_spacings_of_many(), worst_of_many()].map(|level| (many_levels(&level), level));
        for (draft, level) in one.into_iter().chain(many) {
            let given: Vec<u64> = level.sources.iter().map(|&(load, _)| load).collect();
            let levels = draft.links.iter().filter(|link| link[2] == 1).count();
            let plan = Plan::read(&draft.bytes()).unwrap_or_else(|refusal| panic!("{refusal:?}"));
            for task in 0..levels {
                let loads = &plan.loads.level(task)[TASKS..];
                assert_eq!(loads[0], (levels - task) as u64);
                assert_eq!(loads[1..], given[1..]);
            }
        }
    }
}
