//! `bench`: the time of each call, proved and plain Rust on the same inputs in the same run, on both
//! models. Without the proved archive it times plain Rust alone.

use compare::generate::{self, Draft, Knob};
use compare::plain::{self, Policy};
use compare::{CALL_BYTES, LONGEST_REPORT, RECORD_BYTES, Side, library};
use std::hint::black_box;
use std::sync::mpsc;
use std::thread;
use std::time::{Duration, Instant};

/// Timings of which the median is told. Sides take turns, so that a slow moment meets both.
const REPETITIONS: usize = 101;
/// A repetition makes so many calls that it lasts about this long: shorter than a turn on a busy
/// processor, so that the median is of repetitions that nothing interrupted.
const REPETITION: Duration = Duration::from_micros(400);
/// A case with slow calls ends after about this long, with three repetitions or more.
const PATIENCE: Duration = Duration::from_secs(3);
/// A report on slow levels is timed once, and not waited for longer than this.
const GIVE_UP: Duration = Duration::from_secs(60);
const TICKS: usize = 100_000;
const TEMPO: u32 = 1_200;

/// The models that a call is timed on.
const ONE: &[Policy] = &[Policy::Preemptive];
const BOTH: &[Policy] = &Policy::BOTH;

/// One line of the table: a call, and how many units of work (calls, or ticks) it is.
struct Case {
    name: &'static str,
    policy: Policy,
    units: usize,
    call: Box<dyn FnMut(&Side) -> i64>,
}

fn main() {
    let sides: Vec<Side> = [Some(plain::SIDE), library::side()].into_iter().flatten().collect();
    println!("time per call, or per tick in a run; median of up to {REPETITIONS} repetitions\n");
    print_head(&sides);
    for mut cases in rows() {
        cases.iter_mut().for_each(|case| assert_same(case, &sides));
        let times = medians_in_turns(&mut cases, &sides);
        for (case, case_times) in cases.iter().zip(&times) {
            print_line(case, case_times, &times[0]);
        }
    }
    println!("\ncost of one more tempo tried in a quote\n");
    print_head(&sides);
    for (name, file) in samples() {
        print_tempo(name, &file, &sides);
    }
    println!("\ntime of one report on levels that take many rounds\n");
    print_head(&sides);
    for (name, policy, file) in slow_files() {
        let timed: Vec<_> = sides.iter().map(|side| time_once(policy, *side, &file)).collect();
        let mut answers = timed.iter().flatten().map(|(_, answer)| answer);
        let first = answers.next();
        assert!(answers.all(|answer| Some(answer) == first), "{name}: answers differ");
        print_slow(name, &timed);
    }
}

/// The files that quotes are timed on.
fn samples() -> Vec<(&'static str, Vec<u8>)> {
    vec![
        ("small", generate::boxed().bytes()),
        ("typical", generate::bench_typical()),
        ("typical with swing", generate::bench_swung()),
        ("typical with the MIDI clock", generate::bench_clocked()),
        ("full", generate::bench_full()),
    ]
}

/// What each tempo tried adds to a quote: the quote of a file less that of the same file with its
/// sources fixed at their spacings at the quote, which settles the same levels and tries none.
fn print_tempo(name: &'static str, file: &[u8], sides: &[Side]) {
    let plan = plain::Plan::read(file).unwrap_or_else(|_| panic!("{name}: refused"));
    let mut tried = 0;
    let quoted = plain::quote::quote_telling(Policy::Preemptive, &plan, |_| tried += 1);
    let steady = quoted.ok().and_then(|tempo| generate::steady(file, tempo));
    let steady = steady.unwrap_or_else(|| panic!("{name}: no tempo"));
    let mut cases: Vec<Case> = [file, &steady].into_iter().flat_map(|file| quote(name, file, ONE)).collect();
    let times = medians_in_turns(&mut cases, sides);
    let times: Vec<f64> =
        times[0].iter().zip(&times[1]).map(|(with, without)| (with - without) / f64::from(tried)).collect();
    print!("{:<46}", format!("{name}, {tried} tempos tried"));
    for &time in &times {
        print!("{:>12}", words(time));
    }
    if let [plain, proved] = times[..] {
        print!("{:>17.2}", proved / plain);
    }
    println!();
}

/// Files with slow levels, two of them on the hold-on model too: its rounds at a task are those of the
/// level above it. The last is the slowest for plain Rust: a report that is given up goes on beside
/// what follows.
fn slow_files() -> Vec<(&'static str, Policy, Vec<u8>)> {
    use Policy::{HoldOn, Preemptive};
    let worst = generate::one_level(&generate::worst_level()).bytes();
    let worst_of_many = generate::many_levels(&generate::worst_of_many()).bytes();
    let small = generate::one_level(&generate::small_spacings()).bytes();
    let small_of_many = generate::many_levels(&generate::small_spacings_of_many()).bytes();
    vec![
        ("one level (2, 3, 7, 43, 1807, 3290000)", Preemptive, generate::level_1807().bytes()),
        ("ten such levels", Preemptive, generate::ten_levels().bytes()),
        ("the worst level found", Preemptive, worst.clone()),
        ("  the same, hold-on", HoldOn, worst),
        ("the worst of many found (32 tasks)", Preemptive, worst_of_many.clone()),
        ("  the same, hold-on", HoldOn, worst_of_many),
        ("the worst level for jumps alone", Preemptive, small),
        ("the worst of many for jumps alone (32 tasks)", Preemptive, small_of_many),
    ]
}

/// The time of a report in nanoseconds, and the report; none if it takes too long.
fn time_once(policy: Policy, side: Side, file: &[u8]) -> Option<(f64, Vec<u8>)> {
    let file = file.to_vec();
    let (sender, receiver) = mpsc::channel();
    thread::spawn(move || {
        let mut page = vec![0; LONGEST_REPORT];
        let start = Instant::now();
        let written = (side.report)(policy, &file, &mut page);
        let time = start.elapsed().as_nanos() as f64;
        page.truncate(usize::try_from(written).unwrap_or(0));
        // Nobody listens once it is given up.
        let _ = sender.send((time, page));
    });
    receiver.recv_timeout(GIVE_UP).ok()
}

/// The rows of the table: a call on each model that it is timed on.
fn rows() -> Vec<Vec<Case>> {
    let small = generate::boxed().bytes();
    let typical = generate::bench_typical();
    let swung = generate::bench_swung();
    let clocked = generate::bench_clocked();
    let full = generate::bench_full();
    vec![
        report("report, small (3 tasks, 2 sources, 4 links)", &small, BOTH),
        report("report, typical (12, 5, 30)", &typical, BOTH),
        report("report, typical with swing", &swung, BOTH),
        report("report, typical with the MIDI clock", &clocked, BOTH),
        report("report, full (32, 16, 256)", &full, BOTH),
        quote("quote, small", &small, BOTH),
        quote("quote, typical", &typical, BOTH),
        quote("quote, typical with swing", &swung, BOTH),
        quote("quote, typical with the MIDI clock", &clocked, BOTH),
        quote("quote, full", &full, BOTH),
        read("reading accepted, typical (run of no ticks)", &typical),
        read("reading accepted, full (run of no ticks)", &full),
        quote("reading refused at the last field, full", &refused_late(&full), ONE),
        report("report, dense (2^30 paths)", &generate::dense().bytes(), ONE),
        report("report, hostile (10^9 bare rounds)", &generate::hostile().bytes(), ONE),
        report("report, loaded by 1 exactly (3, 3, 3)", &generate::exactly_one().bytes(), ONE),
        ticks("tick, small", &small, Knob::Steady),
        ticks("tick, typical", &typical, Knob::Steady),
        ticks("tick, typical with swing", &swung, Knob::Steady),
        ticks("tick, full", &full, Knob::Steady),
        ticks("tick, a source in every second tick", &busy(), Knob::Steady),
        ticks("tick, small, the knob moving", &small, Knob::Free),
        ticks("tick, typical, the knob moving", &typical, Knob::Free),
        ticks("tick, typical with swing, the knob moving", &swung, Knob::Free),
        ticks("tick, full, the knob moving", &full, Knob::Free),
        ticks("tick, every second tick, the knob moving", &busy(), Knob::Free),
    ]
}

fn report(name: &'static str, file: &[u8], models: &[Policy]) -> Vec<Case> {
    let case = |&policy| {
        let (file, mut page) = (file.to_vec(), [0; LONGEST_REPORT]);
        let call = move |side: &Side| {
            let written = (side.report)(policy, black_box(&file), &mut page);
            black_box(&page);
            written
        };
        Case { name, policy, units: 1, call: Box::new(call) }
    };
    models.iter().map(case).collect()
}

fn quote(name: &'static str, file: &[u8], models: &[Policy]) -> Vec<Case> {
    let case = |&policy| {
        let file = file.to_vec();
        Case { name, policy, units: 1, call: Box::new(move |side| (side.quote)(policy, black_box(&file))) }
    };
    models.iter().map(case).collect()
}

/// The reading alone has no call of its own: a run without ticks reads, judges and starts.
fn read(name: &'static str, file: &[u8]) -> Vec<Case> {
    runs(name, file, Vec::new(), ONE)
}

/// A long run, in which reading the file once does not count. A knob that moves has another tempo
/// in every call.
fn ticks(name: &'static str, file: &[u8], knob: Knob) -> Vec<Case> {
    runs(name, file, generate::legal_calls(file, TEMPO, knob, TICKS, 7), BOTH)
}

fn runs(name: &'static str, file: &[u8], calls: Vec<u8>, models: &[Policy]) -> Vec<Case> {
    let count = calls.len() / CALL_BYTES;
    let case = |&policy| {
        let (file, calls, mut outcomes) = (file.to_vec(), calls.clone(), vec![0; count]);
        let call = move |side: &Side| {
            let mut record = [0; RECORD_BYTES];
            let code = (side.run)(policy, black_box(&file), black_box(&calls), &mut outcomes, &mut record);
            black_box((&outcomes, &record));
            code
        };
        Case { name, policy, units: count.max(1), call: Box::new(call) }
    };
    models.iter().map(case).collect()
}

/// The file with a last link that names no critical number.
fn refused_late(file: &[u8]) -> Vec<u8> {
    let mut file = file.to_vec();
    if let Some(critical) = file.last_mut() {
        *critical = 2;
    }
    file
}

/// Short runs and spacings: something fires, ends or is dropped in nearly every tick.
fn busy() -> Vec<u8> {
    use compare::plain::description::Source::Fixed;
    let links = [[1, 3, 1], [1, 4, 0], [2, 4, 1], [3, 4, 0], [33, 1, 1], [33, 2, 1], [34, 2, 0], [35, 4, 0]];
    Draft::new(&[2, 1, 1, 1], &[Fixed(9), Fixed(4), Fixed(2)], &links).bytes()
}

fn assert_same(case: &mut Case, sides: &[Side]) {
    let answers: Vec<i64> = sides.iter().map(|side| (case.call)(side)).collect();
    let same = answers.iter().all(|answer| *answer == answers[0]);
    assert!(same, "{}, {}: answers differ: {answers:?}", case.name, case.policy);
}

/// The median time of one unit of each case on each side, in nanoseconds. Cases are timed in turns, so
/// that their differences can be told.
fn medians_in_turns(cases: &mut [Case], sides: &[Side]) -> Vec<Vec<f64>> {
    let counts: Vec<Vec<u32>> = cases
        .iter_mut()
        .map(|case| sides.iter().map(|side| calls_to_fill(REPETITION, case, side)).collect())
        .collect();
    let mut times = vec![vec![Vec::new(); sides.len()]; cases.len()];
    let start = Instant::now();
    for repetition in 0..REPETITIONS {
        if repetition >= 3 && start.elapsed() > PATIENCE {
            break;
        }
        for ((case, counts), times) in cases.iter_mut().zip(&counts).zip(&mut times) {
            for ((side, &count), times) in sides.iter().zip(counts).zip(times) {
                let time = time_of(count, case, side).as_nanos() as f64;
                times.push(time / f64::from(count) / case.units as f64);
            }
        }
    }
    times.iter_mut().map(|sides| sides.iter_mut().map(|times| median(times)).collect()).collect()
}

fn calls_to_fill(time: Duration, case: &mut Case, side: &Side) -> u32 {
    let mut count = 1;
    while time_of(count, case, side) < time && count < 1 << 24 {
        count *= 2;
    }
    count
}

fn time_of(count: u32, case: &mut Case, side: &Side) -> Duration {
    let start = Instant::now();
    for _ in 0..count {
        black_box((case.call)(side));
    }
    start.elapsed()
}

fn median(times: &mut [f64]) -> f64 {
    times.sort_by(f64::total_cmp);
    times[times.len() / 2]
}

fn print_head(sides: &[Side]) {
    print!("{:<46}", "");
    for side in sides {
        print!("{:>12}", side.name);
    }
    println!("{}", if sides.len() > 1 { "   proved / plain" } else { "" });
}

/// A row's line for one model. That of the hold-on model has its times by those of the preemptive one.
fn print_line(case: &Case, times: &[f64], preemptive: &[f64]) {
    let hold_on = case.policy == Policy::HoldOn;
    print!("{:<46}", if hold_on { "  the same, hold-on" } else { case.name });
    for &time in times {
        print!("{:>12}", words(time));
    }
    if let [plain, proved] = times {
        print!("{:>17.2}", proved / plain);
    }
    if case.units > 1 {
        let rates: Vec<String> = times.iter().map(|time| format!("{:.1}", 1e3 / time)).collect();
        print!("   {} million ticks a second", rates.join(", "));
    }
    if hold_on {
        let ratios = times.iter().zip(preemptive).map(|(time, other)| format!("{:.2}", time / other));
        print!("   hold-on / preemptive {}", ratios.collect::<Vec<_>>().join(", "));
    }
    println!();
}

fn print_slow(name: &str, timed: &[Option<(f64, Vec<u8>)>]) {
    print!("{name:<46}");
    for once in timed {
        let given_up = || format!("> {} s", GIVE_UP.as_secs());
        print!("{:>12}", once.as_ref().map_or_else(given_up, |(time, _)| words(*time)));
    }
    if let [Some((plain, _)), Some((proved, _))] = timed {
        print!("{:>17.4}", proved / plain);
    }
    println!();
}

fn words(nanoseconds: f64) -> String {
    match nanoseconds {
        time if time < 1e3 => format!("{time:.1} ns"),
        time if time < 1e6 => format!("{:.2} µs", time / 1e3),
        time if time < 1e9 => format!("{:.2} ms", time / 1e6),
        time => format!("{:.2} s", time / 1e9),
    }
}
