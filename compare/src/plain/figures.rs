//! The figures P1 to P10 of document 01, those of the requests, document 000's printed example, and
//! the record's rules.

use super::Policy::{self, HoldOn, Preemptive};
use super::definition::{self, Ran};
use super::description::Source::{self, Fixed, Paced, Swung};
use super::machine::{Machine, PreemptiveMachine, Record, check_tempo};
use super::refusal::{Refusal, Word};
use super::verdicts::{Verdict, Verdicts};
use super::{Plan, quote::quote, report::report};
use crate::generate::{Draft, boxed, swung_box};

fn plan(runs: &[u32], sources: &[Source], links: &[[u8; 3]]) -> Plan {
    Plan::read(&Draft::new(runs, sources, links).bytes()).unwrap_or_else(|refusal| panic!("{refusal:?}"))
}

fn twin(spacing: u32) -> Plan {
    plan(&[2; 3], &[Fixed(spacing)], &[[1, 3, 1], [2, 3, 1], [33, 1, 1], [33, 2, 1]])
}

/// load(i, j) by the file's numbers.
fn load(plan: &Plan, i: usize, j: usize) -> u64 {
    plan.loads.level(j - 1)[i - 1]
}

fn verdict(policy: Policy, plan: &Plan, place: usize, tempo: u32) -> Verdict {
    Verdicts::at(policy, plan, tempo).on(plan.description.links[place - 1])
}

fn delay(policy: Policy, plan: &Plan, place: usize, tempo: u32) -> Option<u64> {
    match verdict(policy, plan, place, tempo) {
        Verdict::Delay { delay, .. } => delay,
        other => panic!("not a source's verdict: {other:?}"),
    }
}

#[test]
fn p1_empty_and_alone() {
    assert_eq!(report(Preemptive, &[]), b"refused 8 at 0\n");
    assert_eq!(report(Preemptive, &Draft::new(&[1], &[], &[]).bytes()), b"tempo 300.0\n");
}

#[test]
fn p2_p3_box() {
    let file = boxed().bytes();
    assert_eq!(file.len(), 57);
    let text = "tempo 178.3\nlink 1 2>1 free\nlink 2 2>3 held order\nlink 3 33>2 held 700 of 701\nlink 4 34>3 held 400 of 2000\n";
    assert_eq!(report(Preemptive, &file), text.as_bytes());
    let plan = Plan::read(&file).unwrap();
    assert_eq!((load(&plan, 33, 1), load(&plan, 2, 3)), (900, 200));
    assert_eq!(verdict(Preemptive, &plan, 3, 1_783), Verdict::Delay { delay: Some(700), spacing: 701 });
    assert_eq!(verdict(Preemptive, &plan, 3, 1_784), Verdict::Delay { delay: None, spacing: 700 });
}

#[test]
fn p4_twin() {
    assert_eq!(load(&twin(9), 33, 1), 8);
    assert_eq!(
        (delay(Preemptive, &twin(9), 3, 200), delay(Preemptive, &twin(9), 4, 200)),
        (Some(8), Some(6))
    );
    assert_eq!(delay(Preemptive, &twin(8), 3, 200), None);
}

#[test]
fn p5_twin_drops() {
    let mut machine = PreemptiveMachine::start(&twin(7).description);
    for tick in 0..22 {
        assert!(!machine.record().dropped[2], "dropped before tick {tick}");
        machine.tick((tick % 7 == 0).into(), 200, false).unwrap();
    }
    assert!(machine.record().dropped[2]);
}

#[test]
fn p6_p7_neighbourhoods() {
    let without = plan(&[1; 3], &[], &[[1, 3, 0], [3, 2, 1]]);
    let with_source = plan(&[1; 3], &[Fixed(9)], &[[1, 3, 0], [3, 2, 1], [33, 3, 0]]);
    let twice = plan(&[1; 4], &[], &[[1, 3, 0], [1, 4, 0], [3, 4, 0], [4, 2, 1]]);
    assert_eq!(verdict(Preemptive, &without, 2, 200), Verdict::Order { held: true });
    assert_eq!(verdict(Preemptive, &with_source, 2, 200), Verdict::Order { held: false });
    assert_eq!(verdict(Preemptive, &twice, 4, 200), Verdict::Order { held: false });
}

#[test]
fn p8_spacings() {
    assert_eq!((Paced(480).spacing(1_200), Paced(24).spacing(1_200)), (1_041, 20_833));
    assert_eq!((Paced(24).spacing(200), Paced(24).spacing(3_000)), (125_000, 8_333));
}

/// C-11: the spacings, the scale, the lengths, and Box with a swing of 66.
#[test]
fn swing() {
    assert_eq!((Swung(480, 66).spacing(1_200), Swung(480, 75).spacing(1_200)), (708, 520));
    assert_eq!((Swung(960, 75).spacing(3_000), Swung(1, 51).spacing(200)), (104, 2_940_000));
    for (swing, read) in [(49, false), (50, false), (51, true), (75, true), (76, false)] {
        let answer = report(Preemptive, &Draft::new(&[1], &[Swung(24, swing)], &[]).bytes());
        assert_eq!(answer, if read { &b"tempo 300.0\n"[..] } else { b"refused 6 at 7\n" });
    }
    assert_eq!(report(Preemptive, &[1, 0, 4, 0, 0, 0, 1, 3, 0, 4, 0, 24, 66, 66]), b"refused 3 at 7\n");
    assert_eq!(report(Preemptive, &[1, 0, 4, 0, 0, 0, 1, 3, 0, 3, 0, 24]), b"refused 1 at 7\n");
    assert!(report(Preemptive, &swung_box().bytes()).starts_with(b"tempo 121.2\n"));
    assert_eq!(std::fs::read("../samples/box-swing.bin").ok(), Some(swung_box().bytes()));
}

#[test]
fn p9_too_soon() {
    let plan = plan(&[1], &[Fixed(5)], &[[33, 1, 1]]);
    for (second, outcome) in [(4, Err(Refusal::of(Word::TooSoon))), (5, Ok(()))] {
        let mut machine = PreemptiveMachine::start(&plan.description);
        machine.tick(1, 200, false).unwrap();
        (1..second).for_each(|_| machine.tick(0, 200, false).unwrap());
        let before = machine.record();
        assert_eq!(machine.tick(1, 200, false), outcome);
        assert_eq!(machine.record() == before, outcome.is_err());
    }
}

/// C-13. A source of 480 pulses has the spacings 6,250 at 20.0, 1,041 at 120.0, 961 at 130.0 and
/// 892 at 140.0.
#[test]
fn the_fastest_tempo_since_the_last_firing_counts() {
    let plan = plan(&[1], &[Paced(480)], &[[33, 1, 1]]);
    let mut machine = PreemptiveMachine::start(&plan.description);
    let too_soon = Err(Refusal::of(Word::TooSoon));
    let kept = |machine: &PreemptiveMachine| (machine.record().ages[0], machine.record().fastest[0]);
    machine.tick(0, 3_000, false).unwrap();
    assert_eq!(kept(&machine), (6_250, 0));
    machine.tick(1, 1_200, false).unwrap();
    assert_eq!(kept(&machine), (1, 1_200));
    machine.tick(0, 1_300, false).unwrap();
    // What a refused call gives is not kept.
    assert_eq!(machine.tick(1, 1_400, false), too_soon);
    assert_eq!(machine.tick(2, 3_000, false), Err(Refusal::of(Word::Stranger)));
    (2..960).for_each(|_| machine.tick(0, 1_200, false).unwrap());
    assert_eq!(kept(&machine), (960, 1_300));
    assert_eq!(machine.tick(1, 1_200, false), too_soon);
    // The tempo of the present tick counts, and that of the firing from then on.
    machine.clone().tick(1, 1_400, false).unwrap();
    machine.tick(0, 1_200, false).unwrap();
    machine.tick(1, 1_200, false).unwrap();
    assert_eq!(kept(&machine), (1, 1_200));
    (1..1_040).for_each(|_| machine.tick(0, 200, false).unwrap());
    assert_eq!(machine.tick(1, 1_200, false), too_soon);
    (1_040..9_999).for_each(|_| machine.tick(0, 200, false).unwrap());
    assert_eq!(kept(&machine), (6_250, 1_200));
}

#[test]
fn p10_same_link_twice() {
    let file = Draft::new(&[1], &[Fixed(5)], &[[33, 1, 1], [33, 1, 1]]).bytes();
    assert_eq!(report(Preemptive, &file), b"refused 4 at 20\n");
}

/// Document 000, figure 1: task 7 is source 33 here and task 6 source 34. All of 10 to 14 as the
/// spacing of task 6 give the printed 19.
#[test]
fn printed_example() {
    let links = [[1, 2, 1], [1, 5, 0], [2, 4, 0], [4, 3, 0], [5, 4, 0], [33, 1, 1], [34, 2, 0]];
    for spacing in 10..=14 {
        let plan = plan(&[2, 1, 2, 1, 2], &[Fixed(20), Fixed(spacing)], &links);
        assert_eq!((load(&plan, 33, 1), load(&plan, 34, 1)), (11, 4));
        assert_eq!(delay(Preemptive, &plan, 6, 200), Some(19));
    }
}

/// The tick call on a lent record.
fn tick<const HOLD_ON: bool>(
    plan: &Plan,
    record: &mut Record,
    arrivals: u16,
    tempo: u16,
    finish: bool,
) -> Result<(), Refusal> {
    check_tempo(tempo)?;
    let mut machine = Machine::<HOLD_ON>::resume(&plan.description, record)?;
    machine.tick(arrivals, tempo, finish)?;
    *record = machine.record();
    Ok(())
}

#[test]
fn orders_of_refusals_in_calls() {
    orders_of_refusals::<false>();
    orders_of_refusals::<true>();
}

fn orders_of_refusals<const HOLD_ON: bool>() {
    let plan = plan(&[3], &[Fixed(5)], &[[33, 1, 1]]);
    let start = Machine::<HOLD_ON>::start(&plan.description).record();
    let refusal = |record: &Record, arrivals, tempo| {
        let mut left = record.clone();
        let outcome = tick::<HOLD_ON>(&plan, &mut left, arrivals, tempo, false);
        assert_eq!(&left == record, outcome.is_err());
        outcome.err().map(|refusal| refusal.word)
    };
    let foreign = Record { ages: [6; 16], ..start.clone() };
    let mut fired = start.clone();
    (fired.ages[0], fired.fastest[0]) = (4, 200);
    for tempo in [0, 199, 3_001, 65_535] {
        assert_eq!(refusal(&foreign, 3, tempo), Some(Word::OffTheKnob));
    }
    assert_eq!(refusal(&foreign, 3, 200), Some(Word::ForeignState));
    assert_eq!(refusal(&fired, 3, 200), Some(Word::Stranger));
    assert_eq!(refusal(&fired, 1, 200), Some(Word::TooSoon));
    assert_eq!(refusal(&fired, 0, 200), None);
    assert_eq!(refusal(&start, 1, 3_000), None);
}

#[test]
fn rules_of_the_record() {
    rules::<false>();
    rules::<true>();
}

fn rules<const HOLD_ON: bool>() {
    let plan = plan(&[3, 2], &[Fixed(5), Paced(480)], &[[33, 1, 1]]);
    let start = Machine::<HOLD_ON>::start(&plan.description).record();
    let foreign = |edit: fn(&mut Record)| {
        let mut record = start.clone();
        edit(&mut record);
        Machine::<HOLD_ON>::resume(&plan.description, &record).is_err()
    };
    assert!(foreign(|record| record.used[0] = 1));
    assert!(foreign(|record| (record.awake[0], record.used[0]) = (true, 3)));
    assert!(!foreign(|record| (record.awake[0], record.used[0]) = (true, 2)));
    assert!(foreign(|record| record.waiting[0] = true));
    assert!(!foreign(|record| (record.awake[0], record.waiting[0]) = (true, true)));
    assert!(!foreign(|record| record.dropped[0] = true));
    assert!(foreign(|record| record.dropped[1] = true));
    assert!(foreign(|record| record.awake[2] = true));
    for (age, fastest, allowed) in [
        (6_250, 0, true),
        (6_249, 0, false),
        (0, 0, false),
        (0, 199, false),
        (0, 200, true),
        (6_250, 3_000, true),
        (6_250, 3_001, false),
        (6_251, 3_000, false),
    ] {
        let mut record = start.clone();
        (record.ages[1], record.fastest[1]) = (age, fastest);
        let resumed = Machine::<HOLD_ON>::resume(&plan.description, &record);
        assert_eq!(resumed.is_ok(), allowed, "{age} and {fastest}");
    }
    assert!(foreign(|record| record.ages[0] = 4));
    assert!(foreign(|record| record.ages[2] = 1));
    assert!(foreign(|record| record.fastest[2] = 200));
    let part_done = |used| {
        let mut record = start.clone();
        record.awake[..2].fill(true);
        record.used[..2].copy_from_slice(used);
        Machine::<HOLD_ON>::resume(&plan.description, &record).is_ok()
    };
    assert!(part_done(&[0, 0]) && part_done(&[2, 0]) && part_done(&[0, 1]));
    assert_eq!(part_done(&[2, 1]), !HOLD_ON);
    latch_rules::<HOLD_ON>();
}

/// C-15: "again" only on a task part done, with or without a late link; "late" only on a waiting link
/// into a task marked "again".
fn latch_rules<const HOLD_ON: bool>() {
    let plan = scan(3);
    let mut part_done = Machine::<HOLD_ON>::start(&plan.description).record();
    (part_done.awake[0], part_done.used[0], part_done.waiting[0]) = (true, 1, true);
    let foreign = |edit: fn(&mut Record)| {
        let mut record = part_done.clone();
        edit(&mut record);
        Machine::<HOLD_ON>::resume(&plan.description, &record).is_err()
    };
    assert!(!foreign(|record| record.again[0] = true));
    assert!(foreign(|record| (record.again[0], record.used[0]) = (true, 0)));
    assert!(foreign(|record| record.again[1] = true));
    assert!(foreign(|record| record.again[31] = true));
    assert!(!foreign(|record| (record.again[0], record.late[0]) = (true, true)));
    assert!(foreign(|record| record.late[0] = true));
    assert!(foreign(|record| (record.again[0], record.late[1]) = (true, true)));
    assert!(!foreign(|record| (record.again[0], record.late[1], record.waiting[1]) = (true, true, true)));
    assert!(foreign(|record| (record.again[0], record.late[2]) = (true, true)));
    assert!(foreign(|record| (record.again[0], record.late[2], record.waiting[2]) = (true, true, true)));
    assert!(foreign(|record| (record.again[0], record.late[255]) = (true, true)));
}

/// A machine that goes on from its record at any tick is the machine that went on without a break.
#[test]
fn resuming_changes_nothing() {
    resuming::<false>();
    resuming::<true>();
}

fn resuming<const HOLD_ON: bool>() {
    let plan = plan(&[2, 3, 2], &[Paced(960), Fixed(3)], &[[1, 3, 1], [2, 3, 1], [33, 1, 1], [34, 2, 1]]);
    let mut machine = Machine::<HOLD_ON>::start(&plan.description);
    let mut record = machine.record();
    let mut late = 0;
    for now in 0..2_000u32 {
        let arrivals = u16::from(now % 50 == 0) | u16::from(now % 3 == 0) << 1;
        let (tempo, finish) = (150 + (now * 37 % 2_900) as u16, now % 11 == 0);
        let outcome = tick::<HOLD_ON>(&plan, &mut record, arrivals, tempo, finish);
        assert_eq!(machine.tick(arrivals, tempo, finish), outcome);
        assert_eq!(machine.record(), record);
        late += u32::from(record.late[3]);
    }
    assert!(late > 0);
}

/// C-14, Box: 33>2 has D = 500 + 200 and its run of 300 after it, 34>3 has D = 400 and 200.
#[test]
fn box_on_the_hold_on_model() {
    let file = boxed().bytes();
    let text = "hold\ntempo 124.8\nlink 1 2>1 free\nlink 2 2>3 held order\nlink 3 33>2 held 1000 of 1001\nlink 4 34>3 held 600 of 2000\n";
    assert_eq!(report(HoldOn, &file), text.as_bytes());
    let plan = Plan::read(&file).unwrap();
    assert_eq!(verdict(HoldOn, &plan, 3, 1_249), Verdict::Delay { delay: None, spacing: 1_000 });
}

#[test]
fn twin_on_the_hold_on_model() {
    let delays = |spacing| [3, 4].map(|place| delay(HoldOn, &twin(spacing), place, 200));
    assert_eq!(delays(11), [Some(10), Some(6)]);
    assert_eq!(delays(10), [None, Some(6)]);
    assert_eq!(quote(HoldOn, &twin(11)), Ok(3_000));
    assert_eq!(quote(HoldOn, &twin(10)), Err(Refusal::of(Word::NoTempo)));
}

/// The line `hold` comes first, whatever follows.
#[test]
fn hold_precedes_every_report() {
    let heavy = Draft::new(&[9], &[Fixed(9)], &[[33, 1, 1]]).bytes();
    assert_eq!(report(HoldOn, &heavy), b"hold\ntempo none\nlink 1 33>1 doubt of 9\n");
    assert_eq!(report(HoldOn, &[]), b"hold\nrefused 8 at 0\n");
    assert_eq!(report(HoldOn, &[1, 0]), b"hold\nrefused 1 at 0\n");
}

/// The tasks that run in each of four ticks: task 1 needs three of them, task 2 one. Source 33 wakes
/// task 1 in the first, and source 34 task 2 in the given one.
fn ran<const HOLD_ON: bool>(second: u16) -> [usize; 4] {
    let plan = plan(&[3, 1], &[Fixed(9), Fixed(9)], &[[33, 1, 1], [34, 2, 1]]);
    let mut machine = Machine::<HOLD_ON>::start(&plan.description);
    [0, 1, 2, 3].map(|now| {
        let arrivals = u16::from(now == 0) | u16::from(now == second) << 1;
        let was_awake = machine.record().awake[1] || now == second;
        machine.tick(arrivals, 200, false).unwrap();
        if was_awake && !machine.record().awake[1] { 2 } else { 1 }
    })
}

/// A task that runs is not interrupted; an arrival in the tick of choice is seen before the choice.
#[test]
fn the_task_that_runs_holds_on() {
    assert_eq!((ran::<false>(1), ran::<true>(1)), ([1, 2, 1, 1], [1, 1, 1, 2]));
    assert_eq!((ran::<false>(0), ran::<true>(0)), ([2, 1, 1, 1], [2, 1, 1, 1]));
    assert_eq!((ran::<false>(3), ran::<true>(3)), ([1, 1, 1, 2], [1, 1, 1, 2]));
}

/// What ran in each tick, from the start at 20.0 with the given arrivals.
fn history(policy: Policy, plan: &Plan, arrivals: &[u16]) -> Vec<Option<Ran>> {
    let file = &plan.description;
    let mut record = PreemptiveMachine::start(file).record();
    let calls = arrivals.iter().map(|&mask| (mask, 200, false));
    calls.map(|call| definition::tick(policy, file, &mut record, call).unwrap()).collect()
}

/// The ticks that an event for a task waits, from its own tick to the one in which the run that begins next
/// ends, or else to the last.
fn wait(history: &[Option<Ran>], task: usize, event: usize) -> usize {
    let mut taken = false;
    let served = history[event..].iter().position(|ran| {
        let run = ran.filter(|ran| ran.task == task);
        taken |= run.is_some_and(|run| run.began);
        taken && run.is_some_and(|run| run.ended)
    });
    served.map_or(history.len() - event, |ticks| ticks + 1)
}

/// Twin with one arrival: task 2 runs in ticks 0 and 1, task 3 in 2 and 3, task 1 in 4 and 5.
#[test]
fn waits_of_twin() {
    let ran = history(Preemptive, &twin(9), &[1, 0, 0, 0, 0, 0, 0, 0, 0]);
    assert_eq!((wait(&ran, 2, 0), wait(&ran, 1, 0), wait(&ran[..4], 1, 0)), (2, 6, 4));
}

/// A task of run 4 and a source that comes in every second tick.
fn quick() -> Plan {
    plan(&[4], &[Fixed(2)], &[[33, 1, 0]])
}

/// An event of tick 2 finds its task part done and waits for the run of ticks 4 to 7, which takes one of
/// tick 4 too. One of the last tick waits one.
#[test]
fn an_event_is_taken_by_the_run_that_begins_next() {
    for policy in Policy::BOTH {
        let ran = history(policy, &quick(), &[1, 0, 1, 0, 1, 0, 1, 0, 1]);
        assert_eq!([0, 2, 4, 6, 8].map(|event| wait(&ran, 1, event)), [4, 6, 4, 3, 1], "{policy}");
    }
}

/// A task of some run that two sources wake.
fn scan(run: u32) -> Plan {
    plan(&[run], &[Fixed(10), Fixed(10)], &[[33, 1, 1], [34, 1, 1]])
}

/// A source comes at the second tick of a run of two, which has read its inputs: the event waits for the
/// run of ticks 2 and 3.
#[test]
fn a_task_reads_its_inputs_when_it_begins() {
    for policy in Policy::BOTH {
        let ran = history(policy, &scan(2), &[1, 2, 0, 0]);
        assert_eq!((wait(&ran, 1, 0), wait(&ran, 1, 1)), (2, 3), "{policy}");
        assert_eq!([1, 2].map(|place| delay(policy, &scan(2), place, 200)), [Some(4), Some(4)]);
    }
}

/// Of task 1: awake, the ticks that it has used, again. Of the first two links: waiting, late.
type Marks = ((bool, u32, bool), [bool; 2], [bool; 2]);

/// The marks after each tick at 20.0 from the start.
fn marks<const HOLD_ON: bool>(plan: &Plan, arrivals: &[u16]) -> Vec<Marks> {
    let mut machine = Machine::<HOLD_ON>::start(&plan.description);
    let mut after = |&mask| {
        machine.tick(mask, 200, false).unwrap();
        let Record { awake, used, again, waiting, late, .. } = machine.record();
        ((awake[0], used[0], again[0]), [waiting[0], waiting[1]], [late[0], late[1]])
    };
    arrivals.iter().map(&mut after).collect()
}

/// Source 34 comes at the second tick of a run of three, and in another run at its last tick.
#[test]
fn marks_of_late_events() {
    let served = ((false, 0, false), [false; 2], [false; 2]);
    let expected = [
        ((true, 1, false), [true, false], [false; 2]),
        ((true, 2, true), [true; 2], [false, true]),
        ((true, 0, false), [false, true], [false; 2]),
        ((true, 1, false), [false, true], [false; 2]),
        ((true, 2, false), [false, true], [false; 2]),
        served,
    ];
    let second = [1, 2, 0, 0, 0, 0];
    assert_eq!(
        (marks::<false>(&scan(3), &second), marks::<true>(&scan(3), &second)),
        (expected.into(), expected.into())
    );
    // At the last tick an event is late and put right in one.
    let last = [1, 0, 2, 0, 0, 0];
    let expected = [
        expected[0],
        ((true, 2, false), [true, false], [false; 2]),
        expected[2],
        expected[3],
        expected[4],
        served,
    ];
    assert_eq!(
        (marks::<false>(&scan(3), &last), marks::<true>(&scan(3), &last)),
        (expected.into(), expected.into())
    );
}

/// A second firing while waiting is a drop, and late where its task is part done.
#[test]
fn a_drop_may_be_late() {
    a_late_drop::<false>();
    a_late_drop::<true>();
}

fn a_late_drop<const HOLD_ON: bool>() {
    let mut machine = Machine::<HOLD_ON>::start(&quick().description);
    [1, 0, 1].iter().for_each(|&mask| machine.tick(mask, 200, false).unwrap());
    let record = machine.record();
    assert!(record.dropped[0] && record.late[0] && record.again[0] && record.used[0] == 3);
    machine.tick(0, 200, false).unwrap();
    let record = machine.record();
    assert!(
        record.waiting[0] && !record.late[0] && !record.again[0] && record.awake[0] && record.used[0] == 0
    );
}

/// An event from a task, for one that it interrupted.
#[test]
fn an_interrupted_task_runs_again() {
    let plan = plan(&[3, 1], &[Fixed(10), Fixed(10)], &[[2, 1, 0], [33, 1, 0], [34, 2, 0]]);
    let marks = marks::<false>(&plan, &[1, 2]);
    assert_eq!(marks[1], ((true, 1, true), [true, true], [true, false]));
}

/// "Again" without a late link breaks no rule: the task runs once more.
#[test]
fn again_alone_is_kept() {
    let plan = scan(3);
    let mut record = PreemptiveMachine::start(&plan.description).record();
    (record.awake[0], record.used[0], record.again[0]) = (true, 2, true);
    assert_eq!(tick::<false>(&plan, &mut record, 0, 200, false), Ok(()));
    assert!(record.awake[0] && record.used[0] == 0 && !record.again[0]);
}

#[test]
fn hostile_file_is_settled() {
    let plan = Plan::read(&crate::generate::hostile().bytes()).unwrap();
    assert_eq!(quote(Preemptive, &plan), Err(Refusal::of(Word::NoTempo)));
    assert_eq!(delay(Preemptive, &plan, 1, 200), None);
}
