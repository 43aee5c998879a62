//! Files that are damaged, too long, or no files at all.

use super::draft::Draft;
use super::files;
use super::random::Random;
use crate::plain::description::Source::Fixed;

/// A right file with one or two wounds.
pub fn damaged(random: &mut Random) -> Vec<u8> {
    let draft = if random.chance(50) { files::any(random) } else { files::tuned(random) };
    let mut file = wounded(&draft, random);
    if random.chance(20) {
        change_byte(&mut file, random);
    }
    file
}

fn wounded(draft: &Draft, random: &mut Random) -> Vec<u8> {
    let mut fields = draft.fields();
    if fields.is_empty() {
        return Vec::new();
    }
    let one = random.index(fields.len());
    let other = random.index(fields.len());
    let next = (one + 1).min(fields.len() - 1);
    match random.below(8) {
        0 => {
            let mut file = fields.concat();
            file.truncate(random.index(file.len()));
            return file;
        }
        1 => {
            let mut file = fields.concat();
            change_byte(&mut file, random);
            return file;
        }
        2 => fields.swap(one, other),
        3 => fields.swap(one, next),
        4 => fields.insert(one, fields[other].clone()),
        5 => {
            fields.remove(one);
        }
        6 => fields[one][1 + random.index(2)] ^= 1 << random.below(8),
        _ => fields[one].push(random.bits() as u8),
    }
    fields.concat()
}

/// Changes a byte, more often by one or by a bit than to anything.
fn change_byte(file: &mut [u8], random: &mut Random) {
    if file.is_empty() {
        return;
    }
    let byte = &mut file[random.index(file.len())];
    *byte = match random.below(4) {
        0 => byte.wrapping_add(1),
        1 => byte.wrapping_sub(1),
        2 => *byte ^ 1 << random.below(8),
        _ => random.bits() as u8,
    };
}

/// More than the 4,096 bytes that the program reads.
pub fn long(random: &mut Random) -> Vec<u8> {
    let length = 4_097 + random.index(2_000);
    let mut file = match random.below(3) {
        0 => files::any(random).bytes(),
        1 => Draft { runs: vec![1; 32], sources: Vec::new(), links: Vec::new() }.bytes(),
        _ => longest(random).bytes(),
    };
    match random.below(3) {
        // The same field again and again, from the last one on.
        0 => {
            let last = file.split_off(file.len().saturating_sub(7));
            while file.len() < length {
                file.extend_from_slice(&last);
                file.push(0);
            }
        }
        1 => file.resize(length, 0),
        _ => file.resize_with(length, || random.bits() as u8),
    }
    file
}

/// A file of 1,872 bytes: no field can follow it.
fn longest(random: &mut Random) -> Draft {
    let pairs = (1..=32).flat_map(|from| (1..from).map(move |to| [from, to, 0]));
    Draft {
        runs: (0..32).map(|_| random.scaled(1..=1_000)).collect(),
        sources: vec![Fixed(50_000); 16],
        links: pairs.take(256).collect(),
    }
}

/// Bytes, or fields, without any plan.
pub fn noise(random: &mut Random) -> Vec<u8> {
    let mut file = Vec::new();
    for _ in 0..random.below(40) {
        match random.below(7) {
            0 => file.push(random.bits() as u8),
            1 => file.extend([random.below(6) as u8, 0, random.below(6) as u8]),
            2 => file.extend([1, 0, 4, 0, 0, 0, random.bits() as u8]),
            3 => file.extend([2, 0, 4, 0, 0, random.bits() as u8, 1]),
            4 => file.extend([3, 0, 2, random.below(5) as u8, random.bits() as u8]),
            5 => file.extend([
                3,
                0,
                3,
                random.below(5) as u8,
                random.bits() as u8,
                random.within(49..=77) as u8,
            ]),
            _ => {
                file.extend([4, 0, 3, random.below(50) as u8, random.below(34) as u8, random.below(3) as u8])
            }
        }
    }
    file
}
