//! Wheels with their tables, and the stretches that they pass.

use super::counts::{Counts, WHOLE};
use super::plan::{Wheel, plan};
use super::{Level, Work};

/// The scale of a wheel's flow, and that of waste in a table.
const FINE: u64 = 1 << 42;
const COARSE: u64 = 1 << 8;
/// Beyond these, waste counts as 0.
const MOST_BROUGHT: u64 = (1 << 21) - 1;
const FARTHEST: u64 = 1 << 21;
/// Stretches after one round.
pub const STRETCHES: u64 = 128;

/// The wheels of a level for one size of blocks.
pub struct Wheels {
    /// The bits of a block.
    shift: u32,
    /// The period of each wheel, and where its table begins.
    wheels: Vec<(u64, usize)>,
    /// For each block of a period, the least that a wheel's sources waste in eight blocks from there on.
    table: Vec<u16>,
    /// What the flow of all wheels leaves of each tick, in units of 1 / `WHOLE`, rounded up.
    slope: u64,
    /// The sources on no wheel.
    aside: Vec<usize>,
}

impl Wheels {
    pub fn new(level: &Level, shift: u32, work: &mut Work) -> Wheels {
        let planned = plan(&level.sources, 1 << shift);
        let (mut wheels, mut table, mut flow) = (Vec::new(), Vec::new(), 0);
        for wheel in &planned {
            let part: Vec<(u64, u64)> = wheel.members.iter().map(|&member| level.sources[member]).collect();
            let share = part.iter().map(|&(load, spacing)| load * FINE / spacing).sum();
            wheels.push((wheel.period, table.len()));
            table.extend(waste_table(wheel, &part, share, shift, work));
            flow += share;
        }
        let on_wheel = |source: &usize| planned.iter().any(|wheel| wheel.members.contains(source));
        let aside = (0..level.sources.len()).filter(|source| !on_wheel(source)).collect();
        Wheels { shift, wheels, table, slope: FINE.saturating_sub(flow).div_ceil(FINE / WHOLE), aside }
    }

    /// How long a stretch is: seven blocks.
    pub fn width(&self) -> u64 {
        7 << self.shift
    }

    /// Goes on from a place, stretch by stretch, as long as no stretch can have a fixed point.
    pub fn pass(&self, counts: &Counts, from: u64, limit: u64, work: &mut Work) -> u64 {
        let rest = counts.brought(&self.aside) * WHOLE;
        let mut turns = [0; 16];
        for (turn, (period, _)) in turns.iter_mut().zip(&self.wheels) {
            *turn = (from - 1) % period;
        }
        let mut place = from;
        for _ in 0..STRETCHES {
            let end = place + self.width();
            if limit < end {
                break;
            }
            work.stretches += 1;
            work.entries += self.wheels.len() as u64;
            if rest + self.waste(&turns) * (WHOLE / COARSE) <= self.slope * end {
                break;
            }
            self.turn_on(&mut turns);
            place = end;
        }
        place
    }

    /// The least waste of all wheels together in the stretch from where they stand.
    #[inline]
    fn waste(&self, turns: &[u64; 16]) -> u64 {
        let entry = |(&turn, &(_, place)): (&u64, &(u64, usize))| {
            u64::from(self.table[place + (turn >> self.shift) as usize])
        };
        turns.iter().zip(&self.wheels).map(entry).sum()
    }

    /// Turns each wheel a stretch on.
    #[inline]
    fn turn_on(&self, turns: &mut [u64; 16]) {
        for (turn, &(period, _)) in turns.iter_mut().zip(&self.wheels) {
            let far = *turn + self.width();
            *turn = match far.checked_sub(period) {
                None => far,
                Some(rest) if rest < period => rest,
                Some(rest) => rest % period,
            };
        }
    }
}

/// The table of one wheel: the waste in each block, then in two, in four, in eight.
fn waste_table(wheel: &Wheel, part: &[(u64, u64)], flow: u64, shift: u32, work: &mut Work) -> Vec<u16> {
    let mut entries = vec![u16::MAX; (wheel.period >> shift) as usize + 8];
    fill(&mut entries, part, flow, 1 << shift, work);
    for many in [1, 2, 4] {
        for place in many..entries.len() {
            entries[place - many] = entries[place - many].min(entries[place]);
        }
    }
    entries
}

/// The least waste in each block, segment by segment: to where a source fires anew, and a 32nd of a block at least.
fn fill(entries: &mut [u16], part: &[(u64, u64)], flow: u64, block: u64, work: &mut Work) {
    let mut counts = Counts::first(part);
    let mut done = 0;
    for (entry, end) in entries.iter_mut().zip((1..).map(|blocks| blocks * block)) {
        while done < end {
            counts.round(done + 1);
            done = counts.quiet_until(end).max(done + block / 32).min(end);
            *entry = (*entry).min(waste(counts.sum, flow, done));
            work.segments += 1;
        }
    }
}

/// What a flow up to a place leaves of what is brought; 0 where it is nothing, or beyond the scale.
fn waste(brought: u64, flow: u64, place: u64) -> u16 {
    if brought > MOST_BROUGHT || flow > FINE || place > FARTHEST {
        return 0;
    }
    let left = (brought * FINE).saturating_sub(flow * place) / (FINE / COARSE);
    u16::try_from(left).unwrap_or(u16::MAX)
}
