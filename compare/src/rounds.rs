//! The rounds of one level, counted: plain, and between stretches that wheels pass.

mod between;
mod counts;
mod plan;
mod wheels;

use counts::Counts;

/// A level whose start is 0: at most 16 sources, each of a load of 1 at least.
#[derive(Clone, Debug, PartialEq, Eq)]
pub struct Level {
    /// Where the rounds are given up, 10⁹ at most: the spacing of the critical source.
    pub limit: u64,
    /// Load and spacing of each source, the critical one first.
    pub sources: Vec<(u64, u64)>,
}

/// How rounds ended.
#[derive(Clone, Copy, Debug, PartialEq, Eq)]
pub struct Outcome {
    /// The D that a round leaves unchanged, if it is below the limit.
    pub delay: Option<u64>,
    /// The last D that a round was made at, the limit at most.
    pub reached: u64,
    pub work: Work,
}

/// What was done on the way.
#[derive(Clone, Copy, Debug, Default, PartialEq, Eq)]
pub struct Work {
    pub rounds: u64,
    /// Stretches looked at, passed or not.
    pub stretches: u64,
    /// Entries of tables looked up: one for each stretch and wheel.
    pub entries: u64,
    /// Segments between firings and ends of blocks, looked at while tables were filled.
    pub segments: u64,
}

impl Level {
    /// Rounds one after the other, `most` of them at most.
    pub fn plain(&self, most: u64) -> Outcome {
        let mut counts = Counts::first(&self.sources);
        let mut work = Work { rounds: 1, ..Work::default() };
        let mut reached = 0;
        while counts.sum < self.limit && work.rounds < most {
            if counts.sum == reached {
                return Outcome { delay: Some(reached), reached, work };
            }
            reached = counts.sum;
            counts.round(reached);
            work.rounds += 1;
        }
        Outcome { delay: None, reached, work }
    }

    /// Few rounds with jumps, then rounds between stretches without a fixed point: what the proved library does.
    pub fn on_wheels(&self) -> Outcome {
        let mut work = Work::default();
        let reached = between::reach(self, &mut work);
        Outcome { delay: Some(reached).filter(|&delay| delay < self.limit), reached, work }
    }

    /// About how many nanoseconds that takes: rounds and segments look at every source.
    pub fn cost(&self) -> u64 {
        let Work { rounds, stretches, entries, segments } = self.on_wheels().work;
        let sources = self.sources.len() as u64;
        sources * (6 * rounds + 5 * segments / 2) + 3 * stretches + 2 * entries
    }
}

#[cfg(test)]
mod tests {
    use super::*;
    use crate::generate::Random;

    fn random_level(random: &mut Random) -> Level {
        let limit = u64::from(random.within(1..=3_000_000));
        let mut sources = vec![(1, limit)];
        let others = random.within(3..=9);
        for _ in 0..others {
            let spacing = random.within(2..=100);
            sources.push((random.within(1..=(2 * spacing / others).max(1)).into(), spacing.into()));
        }
        Level { limit, sources }
    }

    /// A level of spacings from 10 to 200 that leaves next to nothing of each tick.
    fn tuned_level(random: &mut Random) -> Level {
        let limit = u64::from(random.within(1_000_000..=3_000_000));
        let others = random.within(5..=15);
        let mut source = || {
            let spacing = random.within(10..=200);
            (u64::from(random.within(1..=(2 * spacing / others).max(1))), u64::from(spacing))
        };
        let free = |sources: &[(u64, u64)]| {
            1.0 - sources.iter().map(|&(load, spacing)| load as f64 / spacing as f64).sum::<f64>()
        };
        let mut sources = vec![(1, limit)];
        sources.extend((2..others).map(|_| source()));
        let left = free(&sources);
        let pairs = (0..2_000).map(|_| [source(), source()]);
        let fitting = pairs.filter(|pair| left - 1.0 + free(pair) > 1e-6);
        let closest = fitting.min_by(|one, other| free(one).total_cmp(&free(other)));
        sources.extend(closest.into_iter().flatten());
        Level { limit, sources }
    }

    /// Wheels alter the work and nothing else.
    #[test]
    fn wheels_pass_no_fixed_point() {
        let mut random = Random::new(5);
        let (mut held, mut refused) = (0, 0);
        for turn in 0..20_000 {
            let level = if turn % 2 == 0 { tuned_level(&mut random) } else { random_level(&mut random) };
            let (plain, on_wheels) = (level.plain(u64::MAX), level.on_wheels());
            assert_eq!(plain.delay, on_wheels.delay, "{level:?}");
            if on_wheels.work.stretches > on_wheels.work.rounds {
                held += u32::from(plain.delay.is_some());
                refused += u32::from(plain.delay.is_none());
            }
        }
        assert!(held > 300 && refused > 30, "{held} held and {refused} did not after stretches were passed");
    }

    /// A level that settles soon needs no wheels.
    #[test]
    fn few_rounds_come_first() {
        let level = Level { limit: 1_000, sources: vec![(1, 1_000), (1, 2), (1, 3)] };
        let outcome = level.on_wheels();
        assert_eq!(outcome.delay, level.plain(u64::MAX).delay);
        assert_eq!((outcome.work.stretches, outcome.work.segments), (0, 0));
    }
}
