//! `worst`: a seeded search for the level that takes longest, wheels and all, and files that have it.

use compare::generate::{self, Random};
use compare::rounds::{Level, Outcome, Work};
use std::ops::Range;
use std::path::Path;
use std::time::Instant;
use std::{fs, io};

const USAGE: &str = "usage: worst [--seed S] [--tries N] [--load L] [--out DIR]";
/// The widest spacing, so that the rounds may go on for longest.
const LIMIT: u64 = 1_000_000_000;
const SOURCES: usize = 16;
/// A level is followed no further than this without wheels.
const MOST_PLAIN: u64 = 400_000_000;
/// Tries in a row without a worse level before the search begins anew.
const PATIENCE: u32 = 200;

/// The spacings that levels of one scale mostly have.
const SCALES: [Range<u64>; 3] = [10..160, 100..400, 300..2_000];
const ALL: Range<u64> = 10..2_000;
/// Sources to choose from at one scale.
const POOL: usize = 1_400;

/// Unit fractions that leave next to nothing of 1.
const UNITS: [u64; 6] = [2, 3, 7, 43, 1_807, 3_290_000];

/// The scale of shares in the search: one tick for each tick.
const WHOLE: u128 = 1 << 64;

fn main() -> io::Result<()> {
    let Some(arguments) = arguments() else {
        eprintln!("{USAGE}");
        std::process::exit(2);
    };
    let worst = search(&mut Random::new(arguments.seed), arguments.tries, arguments.load);
    arguments.out.map_or(Ok(()), |folder| write(Path::new(&folder), &worst))
}

struct Arguments {
    seed: u64,
    tries: u64,
    /// The load of the critical source.
    load: u64,
    out: Option<String>,
}

fn arguments() -> Option<Arguments> {
    let mut chosen = Arguments { seed: 1, tries: 1_000, load: 1, out: None };
    let mut arguments = std::env::args().skip(1);
    while let Some(name) = arguments.next() {
        let value = arguments.next()?;
        match name.as_str() {
            "--seed" => chosen.seed = value.parse().ok()?,
            "--tries" => chosen.tries = value.parse().ok()?,
            "--load" => chosen.load = value.parse().ok()?,
            "--out" => chosen.out = Some(value),
            _ => return None,
        }
    }
    Some(chosen)
}

/// Climbs at each scale, then from the worst so far among all spacings; tells what it found and returns the worst.
fn search(random: &mut Random, tries: u64, load: u64) -> Level {
    let known = if load == 1 { generate::worst_level() } else { generate::worst_of_many() };
    let mut found = vec![("known".to_string(), with_load(&known, load))];
    for spacings in SCALES {
        let pairs = Pairs::new(&spacings, random);
        let start = anew(load, &pairs, random);
        let level = climb(random, tries, start, &pairs);
        found.push((format!("of spacings like {} to {}", spacings.start, spacings.end), level));
    }
    let pairs = Pairs::new(&ALL, random);
    let level = climb(random, tries, worst_of(&found), &pairs);
    found.push(("from there".to_string(), level));
    for (origin, level) in &found {
        tell(origin, level);
    }
    worst_of(&found)
}

fn worst_of(found: &[(String, Level)]) -> Level {
    let levels = found.iter().map(|(_, level)| level);
    levels.max_by_key(|level| cost(level)).cloned().unwrap_or_else(generate::worst_level)
}

/// What a file with the level is likely to cost: the level once, or if it stands for many, as often as 32 tasks can
/// have it, with the mean of three loads of the critical source.
fn cost(level: &Level) -> u64 {
    match level.sources[0].0 {
        1 => level.cost(),
        load => {
            let loads = [load.div_ceil(3), load, load * 5 / 3];
            loads.map(|load| with_load(level, load).cost()).iter().sum::<u64>() * levels_of(level) / 3
        }
    }
}

/// What it costs, each level of the file counted.
fn whole_cost(level: &Level) -> u64 {
    (1..=levels_of(level)).map(|load| with_load(level, load).cost()).sum()
}

fn levels_of(level: &Level) -> u64 {
    match level.sources[0].0 {
        1 => 1,
        _ => generate::many_levels(level).links.iter().filter(|link| link[2] == 1).count() as u64,
    }
}

/// The level with another load of the critical source.
fn with_load(level: &Level, load: u64) -> Level {
    let mut level = level.clone();
    level.sources[0].0 = load;
    level
}

/// Climbs from a level, and again and again from random ones or the worst so far, and returns the worst.
fn climb(random: &mut Random, tries: u64, start: Level, pairs: &Pairs) -> Level {
    let load = start.sources[0].0;
    let (mut here, mut height) = (start.clone(), cost(&start));
    let (mut best, mut most) = (start, height);
    let mut failed = 0;
    for _ in 0..tries {
        if failed > PATIENCE {
            here = if random.chance(40) { best.clone() } else { anew(load, pairs, random) };
            height = cost(&here);
            failed = 0;
        }
        let near = neighbour(&here, pairs, random);
        let reached = cost(&near);
        failed = if reached > height { 0 } else { failed + 1 };
        if reached < height {
            continue;
        }
        (here, height) = (near, reached);
        if height > most {
            (best, most) = (here.clone(), height);
            eprintln!("{:.1} ms {}", most as f64 / 1e6, words(&best));
        }
    }
    best
}

/// A level of the unit fractions, of random sources, or of sources of about one scale with a heavy one or without,
/// with a sum just below 1.
fn anew(load: u64, pairs: &Pairs, random: &mut Random) -> Level {
    let mut sources = vec![(load, LIMIT)];
    match random.below(8) {
        0 => sources.extend(UNITS.iter().map(|&spacing| (1, spacing))),
        1 => {
            for _ in 0..random.within(1..=9) {
                let spacing = random.scaled(2..=20_000);
                sources.push((random.scaled(1..=spacing).into(), spacing.into()));
            }
        }
        _ => {
            if random.chance(50) {
                let (_, spacing) = pairs.pool[random.index(pairs.pool.len())];
                sources.push((spacing * u64::from(random.within(15..=60)) / 100, spacing));
            }
            for _ in 0..random.within(5..=SOURCES as u32 - 3) {
                sources.push(pairs.pool[random.index(pairs.pool.len())]);
            }
        }
    }
    let mut level = Level { limit: LIMIT, sources };
    while free(&level) <= 0 && level.sources.len() > 1 {
        level.sources.pop();
    }
    level.sources.push((random.scaled(1..=100).into(), LIMIT));
    let last = level.sources.len() - 1;
    fill(&mut level, last, random);
    level
}

/// A level that differs in some sources.
fn neighbour(level: &Level, pairs: &Pairs, random: &mut Random) -> Level {
    let mut near = level.clone();
    if near.sources.len() > 4 && random.chance(70) {
        pairs.renew(&mut near, random);
        return near;
    }
    for _ in 0..random.within(1..=3) {
        let place = random.index(near.sources.len() - 1) + 1;
        match random.below(10) {
            0 if near.sources.len() < SOURCES => {
                near.sources.push((random.scaled(1..=1_000).into(), random.scaled(2..=10_000_000).into()));
            }
            1 if near.sources.len() > 3 => {
                near.sources.swap_remove(place);
            }
            2..=5 => near.sources[place].0 = nudged(near.sources[place].0, random).min(10_000_000),
            _ => near.sources[place].1 = nudged(near.sources[place].1, random).min(LIMIT),
        }
    }
    let place = random.index(near.sources.len() - 1) + 1;
    fill(&mut near, place, random);
    near
}

/// Sources of about one scale, and two of them by the sum of their shares.
struct Pairs {
    pool: Vec<(u64, u64)>,
    sums: Vec<(f64, usize, usize)>,
}

impl Pairs {
    fn new(spacings: &Range<u64>, random: &mut Random) -> Pairs {
        let source = |_| {
            let spacing = spacings.start + random.below(spacings.end - spacings.start);
            (1 + random.below(spacing / 8), spacing)
        };
        let pool: Vec<(u64, u64)> = (0..POOL).map(source).collect();
        let mut sums: Vec<(f64, usize, usize)> = (0..POOL)
            .flat_map(|one| (0..=one).map(move |other| (one, other)))
            .map(|(one, other)| (share(pool[one]) + share(pool[other]), one, other))
            .collect();
        sums.sort_by(|one, other| one.0.total_cmp(&other.0));
        Pairs { pool, sums }
    }

    /// Replaces three sources so that the sum comes close to 1, by a distance like that before or of a random size.
    fn renew(&self, level: &mut Level, random: &mut Random) {
        let before = free(level).max(1) as f64 / WHOLE as f64;
        for _ in 0..3 {
            let place = random.index(level.sources.len() - 1) + 1;
            level.sources.swap_remove(place);
        }
        if level.sources.len() + 4 <= SOURCES && random.chance(20) {
            level.sources.push(self.pool[random.index(self.pool.len())]);
        }
        let spare = match random.below(2) {
            0 => before * 2f64.powf(random.below(9) as f64 / 4.0 - 1.0),
            _ => 1e-9 * 2f64.powi(random.below(12) as i32),
        };
        let left = 1.0 - level.sources.iter().map(|&source| share(source)).sum::<f64>() - spare;
        let closest = |&third: &(u64, u64)| {
            let sum = left - share(third);
            let place = self.sums.partition_point(|pair| pair.0 <= sum);
            let (pair, one, other) = *self.sums[..place].last()?;
            Some((sum - pair, [third, self.pool[one], self.pool[other]]))
        };
        let found = self.pool.iter().filter_map(closest).min_by(|one, other| one.0.total_cmp(&other.0));
        level.sources.extend(found.map(|(_, three)| three).into_iter().flatten());
    }
}

fn share((load, spacing): (u64, u64)) -> f64 {
    load as f64 / spacing as f64
}

/// A number near, by one or by a fraction.
fn nudged(number: u64, random: &mut Random) -> u64 {
    let reach = if random.chance(50) { 2 } else { 1 + (number >> random.within(0..=6)) };
    (number + random.below(2 * reach + 1)).saturating_sub(reach).max(1)
}

/// What the sources leave of each tick, in units of 1 / `WHOLE`.
fn free(level: &Level) -> i128 {
    let share = |&(load, spacing): &(u64, u64)| ((u128::from(load) * WHOLE) / u128::from(spacing)) as i128;
    WHOLE as i128 - level.sources.iter().map(share).sum::<i128>()
}

/// Gives a source about the narrowest spacing that leaves the sum below 1.
fn fill(level: &mut Level, place: usize, random: &mut Random) {
    let (load, spacing) = level.sources[place];
    level.sources[place].0 = 0;
    let left = free(level);
    level.sources[place] = (load, spacing);
    if left > 0 {
        let narrowest = u128::from(load) * WHOLE / left as u128 + 1;
        let wider = if random.chance(70) { 0 } else { random.scaled(0..=1_000) };
        level.sources[place].1 = (narrowest + u128::from(wider)).min(LIMIT.into()) as u64;
    }
}

fn words(level: &Level) -> String {
    let sources = level.sources.iter().map(|(load, spacing)| format!("{load}/{spacing}"));
    sources.collect::<Vec<_>>().join(" ")
}

fn tell(origin: &str, level: &Level) {
    println!("{origin}: {} (load/spacing, the critical source first)", words(level));
    println!("  about {:.1} ms for a file with {} of it", whole_cost(level) as f64 / 1e6, levels_of(level));
    println!("  on wheels: {}", timed(level, Level::on_wheels));
    println!("  without:   {}", timed(level, |level| level.plain(MOST_PLAIN)));
}

fn timed(level: &Level, settle: impl Fn(&Level) -> Outcome) -> String {
    let start = Instant::now();
    let Outcome { delay, reached, work } = settle(level);
    let milliseconds = start.elapsed().as_secs_f64() * 1e3;
    let end = delay.map_or(format!("no delay up to {reached}"), |delay| format!("delay {delay}"));
    let Work { rounds, stretches, entries, segments } = work;
    format!(
        "{end}, {rounds} rounds, {stretches} stretches ({entries} entries), {segments} segments, {milliseconds:.1} ms"
    )
}

/// Writes the level as one, and as often as 32 tasks can have it.
fn write(folder: &Path, level: &Level) -> io::Result<()> {
    fs::create_dir_all(folder)?;
    fs::write(folder.join("worst-level.bin"), generate::one_level(level).bytes())?;
    fs::write(folder.join("worst-32.bin"), generate::many_levels(level).bytes())
}
