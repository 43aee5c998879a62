//! Each range of document 01 at both ends and one beyond, and orders of checks.

use super::draft::{Draft, field};
use crate::plain::description::Source::{Fixed, Paced, Swung};

/// All these files. They are few, so every comparison takes them all.
pub fn edges() -> Vec<Vec<u8>> {
    let mut files = vec![Vec::new(), Draft::new(&[], &[Fixed(1)], &[]).bytes()];
    files.extend(numbers().iter().map(Draft::bytes));
    files.extend(counts().iter().map(Draft::bytes));
    files.extend(ends().iter().map(Draft::bytes));
    files.extend(turns());
    files.extend(headers());
    files.extend(figures().iter().map(Draft::bytes));
    files
}

/// Every number at its ends and beyond.
fn numbers() -> Vec<Draft> {
    let mut drafts = Vec::new();
    for run in [0, 1, 10_000_000, 10_000_001, u32::MAX] {
        drafts.push(Draft::new(&[run], &[], &[]));
    }
    for spacing in [0, 1, 2, 1_000_000_000, 1_000_000_001, u32::MAX] {
        drafts.push(Draft::new(&[1], &[Fixed(spacing)], &[[33, 1, 1]]));
    }
    for pulses in [0, 1, 960, 961, u16::MAX] {
        drafts.push(Draft::new(&[1], &[Paced(pulses)], &[[33, 1, 1]]));
        drafts.push(Draft::new(&[10_000_000], &[Paced(pulses)], &[[33, 1, 1]]));
    }
    for pulses in [0, 1, 480, 960, 961] {
        for swing in [0, 49, 50, 51, 66, 75, 76, 255] {
            drafts.push(Draft::new(&[1], &[Swung(pulses, swing)], &[[33, 1, 1]]));
            drafts.push(Draft::new(&[10_000], &[Swung(pulses, swing)], &[[33, 1, 1]]));
        }
    }
    for critical in [0, 1, 2, 255] {
        drafts.push(Draft::new(&[1], &[Fixed(9)], &[[33, 1, critical]]));
    }
    drafts
}

/// Every count at its limit and beyond.
fn counts() -> Vec<Draft> {
    let mut drafts = Vec::new();
    for tasks in [0, 1, 31, 32, 33, 34] {
        drafts.push(Draft { runs: vec![1; tasks], ..Draft::default() });
        drafts.push(Draft::new(&vec![1; tasks], &[Fixed(7)], &[[33, tasks as u8, 1]]));
    }
    for sources in [0, 1, 15, 16, 17] {
        drafts.push(Draft::new(&[1], &vec![Paced(24); sources], &[]));
        drafts.push(Draft::new(&[1], &vec![Swung(24, 66); sources], &[]));
        drafts.push(Draft::new(&[1], &vec![Fixed(100); sources], &[[32 + sources as u8, 1, 1]]));
    }
    for links in [255, 256, 257, 300] {
        let pairs = (1..=32).flat_map(|from| (from + 1..=32).map(move |to| [from, to, 0]));
        drafts.push(Draft::new(&[1; 32], &[], &pairs.take(links).collect::<Vec<_>>()));
        let falling = (1..=32).flat_map(|from| (1..from).map(move |to| [from, to, 1]));
        drafts.push(Draft::new(&[1; 32], &[Fixed(1)], &falling.take(links).collect::<Vec<_>>()));
    }
    drafts
}

/// Ends of links around every border of the numbering, and loops.
fn ends() -> Vec<Draft> {
    let mut drafts = Vec::new();
    for (tasks, sources) in [(1, 0), (1, 1), (3, 2), (31, 1), (32, 0), (32, 16)] {
        let draft = Draft::new(&vec![1; tasks], &vec![Fixed(1_000); sources], &[]);
        for end in [0, 1, tasks, tasks + 1, 32, 33, 32 + sources, 33 + sources, 48, 49, 255] {
            for links in [[end as u8, 1, 1], [1, end as u8, 1], [33, end as u8, 0]] {
                drafts.push(Draft { links: vec![links], ..draft.clone() });
            }
        }
    }
    drafts.push(Draft::new(&[1, 1], &[], &[[1, 2, 0], [2, 1, 0]]));
    drafts.push(Draft::new(&[1, 1, 1], &[], &[[1, 2, 0], [2, 3, 0], [3, 1, 0]]));
    drafts
}

/// Fields out of turn, and what is told first where two things are wrong.
fn turns() -> Vec<Vec<u8>> {
    let task = || field(1, &[0, 0, 0, 1]);
    let fixed = || field(2, &[0, 0, 0, 9]);
    let paced = || field(3, &[0, 24]);
    let swung = || field(3, &[0, 24, 66]);
    let link = |from, to| field(4, &[from, to, 1]);
    vec![
        [task(), fixed(), task()].concat(),
        [task(), task(), link(1, 2), task()].concat(),
        [task(), task(), link(1, 2), fixed()].concat(),
        [task(), link(33, 1), fixed()].concat(),
        [task(), link(1, 2), task()].concat(),
        [fixed(), paced(), task()].concat(),
        [task(), swung(), task()].concat(),
        [task(), task(), link(1, 2), swung()].concat(),
        [task(), task(), link(1, 2), field(3, &[0, 24, 50])].concat(),
        [task(), fixed(), link(33, 1), link(33, 1)].concat(),
        [task(), task(), fixed(), link(33, 2), link(33, 1)].concat(),
        [task(), task(), fixed(), link(33, 1), link(1, 2)].concat(),
        [task(), fixed(), link(33, 1), field(4, &[33, 1, 9])].concat(),
        [task(), fixed(), field(4, &[99, 99, 2])].concat(),
        [task(), fixed(), link(33, 1), field(1, &[0; 4])].concat(),
        [field(2, &[0; 4]), link(1, 1)].concat(),
        link(1, 1),
    ]
}

/// Headers and bodies that are cut, strange or of a wrong length.
fn headers() -> Vec<Vec<u8>> {
    let mut files = Vec::new();
    let whole = Draft::new(&[1], &[Fixed(7), Paced(24), Swung(24, 66)], &[[33, 1, 1]]).bytes();
    files.extend((0..whole.len()).map(|length| whole[..length].to_vec()));
    for tag in [0, 1, 2, 3, 4, 5, 255] {
        for length in [0, 1, 2, 3, 4, 5, 256, 65_535u16] {
            let [high, low] = length.to_be_bytes();
            files.push(vec![tag, high, low, 0, 0, 0, 1]);
            files.push(vec![1, 0, 4, 0, 0, 0, 1, tag, high, low]);
            files.push(vec![1, 0, 4, 0, 0, 0, 1, tag, high, low, 0, 24, 66]);
            files.push(vec![1, 0, 4, 0, 0, 0, 1, tag, high, low, 0, 24, 66, 0]);
        }
    }
    files
}

/// The files of document 01's figures.
fn figures() -> Vec<Draft> {
    let twin =
        |spacing| Draft::new(&[2; 3], &[Fixed(spacing)], &[[1, 3, 1], [2, 3, 1], [33, 1, 1], [33, 2, 1]]);
    let mut drafts = vec![super::files::dense(), super::files::hostile(), boxed(), swung_box()];
    drafts.extend((1..=12).map(twin));
    drafts.push(Draft::new(&[1; 3], &[], &[[1, 3, 1], [3, 2, 1]]));
    drafts.push(Draft::new(&[1; 3], &[Fixed(50)], &[[1, 3, 1], [3, 2, 1], [33, 3, 0]]));
    drafts.push(Draft::new(&[1; 4], &[], &[[1, 3, 1], [1, 4, 1], [3, 4, 1], [4, 2, 1]]));
    drafts
}

/// Box, the example of the report.
pub fn boxed() -> Draft {
    let links = [[2, 1, 0], [2, 3, 1], [33, 2, 1], [34, 3, 1]];
    Draft::new(&[400, 300, 200], &[Paced(480), Fixed(2_000)], &links)
}

/// Box with a swing of 66.
pub fn swung_box() -> Draft {
    Draft { sources: vec![Swung(480, 66), Fixed(2_000)], ..boxed() }
}
