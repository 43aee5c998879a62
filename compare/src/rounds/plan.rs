//! Which sources of a level go together on a wheel.

/// Sources whose spacings divide a period.
pub struct Wheel {
    pub period: u64,
    /// The places of the sources.
    pub members: Vec<usize>,
}

/// Entries of all tables less 10 for each of 16 wheels, and ticks of all periods: there are no more.
const BLOCKS: u64 = 65_376;
const TICKS: u64 = 3_000_000;
const WHEELS: usize = 15;

/// The wheels of a level, one after the other as long as there is room. One takes a third of all room at most.
pub fn plan(sources: &[(u64, u64)], block: u64) -> Vec<Wheel> {
    let mut room = (BLOCKS * block).min(TICKS);
    let largest = room / 3;
    let mut free: Vec<usize> = (0..sources.len()).collect();
    let mut wheels = Vec::new();
    while wheels.len() < WHEELS {
        let wheel = fill(sources, &mut free, largest.min(room));
        if wheel.period == 1 {
            break;
        }
        room -= wheel.period;
        wheels.push(wheel);
    }
    wheels
}

/// One wheel: as long as a source can join, the one with which the period is least does.
fn fill(sources: &[(u64, u64)], free: &mut Vec<usize>, most: u64) -> Wheel {
    let mut wheel = Wheel { period: 1, members: Vec::new() };
    loop {
        let joining = free.iter().enumerate().filter_map(|(at, &source)| {
            let (load, spacing) = sources[source];
            let period = joined(load, spacing, wheel.period, most)?;
            Some((period, at))
        });
        let Some((period, at)) = joining.min() else {
            return wheel;
        };
        wheel.members.push(free.remove(at));
        wheel.period = period;
    }
}

/// The period with a source besides, if it may join.
fn joined(load: u64, spacing: u64, period: u64, most: u64) -> Option<u64> {
    let fits = load <= spacing && spacing <= most;
    fits.then(|| period / divisor(period, spacing) * spacing).filter(|&multiple| multiple <= most)
}

/// The greatest common divisor.
fn divisor(large: u64, small: u64) -> u64 {
    if small == 0 { large } else { divisor(small, large % small) }
}
