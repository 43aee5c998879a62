//! How far a level reaches: a few rounds first, and where they do not settle, rounds between stretches.

use super::counts::Counts;
use super::wheels::{STRETCHES, Wheels};
use super::{Level, Work};

/// Rounds before the wheels.
const FEW: u64 = 256;
/// Rounds before the first jump: most levels settle in fewer. From there on, each eighth has one, and between stretches each 64th.
const PATIENCE: u64 = 32;
const JUMP_EVERY: u64 = 8;
const JUMP_SELDOM: u64 = 64;
/// Rounds before stretches are judged, and how many a round is worth.
const TRIAL: u64 = 1_000;
const WORTH: u64 = 11;
/// The widest spacing of a source on a wheel, and the most bits of a block.
const WIDEST: u64 = 1_000_000;
const MOST_BITS: u32 = 16;

/// Where rounds stand.
enum Reached {
    /// At the least D that one leaves unchanged, or at the limit.
    Settled(u64),
    /// At a place that no fixed point is below.
    Open(u64),
}
use Reached::{Open, Settled};

/// Where the rounds come to below the limit: the least D that one leaves unchanged, or else the limit.
pub fn reach(level: &Level, work: &mut Work) -> u64 {
    let mut shift = first_shift(&level.sources);
    let mut reached = few_rounds(level, work);
    loop {
        match reached {
            Settled(place) => return place,
            Open(place) => reached = rounds_between(level, place, shift, work),
        }
        shift = shift.saturating_sub(1);
    }
}

/// Where the first rounds come to; most levels settle in them.
fn few_rounds(level: &Level, work: &mut Work) -> Reached {
    let mut counts = Counts::first(&level.sources);
    let mut place = 0;
    for turn in 0..=FEW {
        if counts.sum >= level.limit {
            return Settled(level.limit);
        }
        if counts.sum <= place {
            return Settled(place);
        }
        if turn < FEW {
            let jumps = turn >= PATIENCE && turn % JUMP_EVERY == 0;
            place = if jumps { counts.jump(level.limit) } else { counts.sum };
            counts.round(place);
            work.rounds += 1;
        }
    }
    Open(place)
}

/// Rounds from a place on, between stretches that are passed; given up where they are passed too seldom.
fn rounds_between(level: &Level, from: u64, shift: u32, work: &mut Work) -> Reached {
    let wheels = Wheels::new(level, shift, work);
    let mut counts = Counts::first(&level.sources);
    counts.round(from);
    let (mut place, mut rounds, mut passed, mut last) = (from, 0, 0, 0);
    while counts.sum < level.limit {
        if counts.sum <= place {
            return Settled(place);
        }
        if shift > 0 && rounds >= TRIAL && passed < rounds * WORTH * wheels.width() {
            return Open(place);
        }
        let jumps = last >= (STRETCHES - 1) * wheels.width() || rounds % JUMP_SELDOM == 0;
        let far = if jumps { counts.jump(level.limit) } else { counts.sum };
        place = wheels.pass(&counts, far, level.limit, work);
        last = place - far;
        passed += last;
        counts.round(place);
        rounds += 1;
        work.rounds += 1;
    }
    Settled(level.limit)
}

/// The bits of the first blocks: as long as the loads that may be on wheels, or up to twice that.
fn first_shift(sources: &[(u64, u64)]) -> u32 {
    let light = sources.iter().filter(|&&(load, spacing)| load <= spacing && spacing <= WIDEST);
    let sum: u64 = light.map(|&(load, _)| load).sum();
    (u64::BITS - sum.leading_zeros()).min(MOST_BITS)
}
