//! Descriptions and their files ("The description file"): the reader, refusals 1 to 8.

use std::ops::RangeInclusive;

use super::list::List;
use super::refusal::{Refusal, Word};
use super::{SLOWEST, clock};

pub const TASKS: usize = 32;
pub const SOURCES: usize = 16;
pub const LINKS: usize = 256;

const LONGEST_RUN: u32 = 10_000_000;
const WIDEST_SPACING: u32 = 1_000_000_000;
const MOST_PULSES: u16 = 960;
/// The swing in percent, and what straight time counts as.
const SWINGS: RangeInclusive<u8> = 51..=75;
pub const STRAIGHT: u8 = 50;
/// The number of the first source, whatever the count of tasks.
const FIRST_SOURCE: u8 = 33;

/// What releases tasks from outside.
#[derive(Clone, Copy, Debug, PartialEq, Eq)]
pub enum Source {
    /// Least spacing in ticks.
    Fixed(u32),
    /// Pulses per quarter note, in straight time.
    Paced(u16),
    /// Pulses per quarter note, and the swing in percent.
    Swung(u16, u8),
}

impl Source {
    /// The least spacing (minimum inter-arrival time) in ticks at a tempo.
    #[inline]
    pub fn spacing(self, tempo: u32) -> u32 {
        match self {
            Source::Fixed(spacing) => spacing,
            Source::Paced(clock::PULSES) => clock::SPACINGS[(tempo - SLOWEST) as usize],
            Source::Paced(pulses) => paced_spacing(pulses, STRAIGHT, tempo),
            Source::Swung(pulses, swing) => paced_spacing(pulses, swing, tempo),
        }
    }
}

#[inline]
pub const fn paced_spacing(pulses: u16, swing: u8, tempo: u32) -> u32 {
    12_000_000 * (100 - swing as u32) / (tempo * pulses as u32)
}

/// A spacing for each source.
pub type Spacings = [u32; SOURCES];

/// A link wakes the task `to` when the node `from` fires. Numbers are the file's.
#[derive(Clone, Copy, Debug, PartialEq, Eq)]
pub struct Link {
    pub from: u8,
    pub to: u8,
    pub critical: bool,
}

impl Link {
    /// Where `from` stands in tables of nodes: tasks at 0 to 31, sources at 32 to 47.
    #[inline]
    pub fn from_index(self) -> usize {
        usize::from(self.from) - 1
    }

    /// Where `to` stands in tables of tasks.
    #[inline]
    pub fn to_index(self) -> usize {
        usize::from(self.to) - 1
    }

    /// The index of the source that fires this link, if no task does.
    #[inline]
    pub fn source(self) -> Option<usize> {
        self.from_index().checked_sub(TASKS)
    }
}

/// A description: longest runs of the tasks from the lowest priority up, sources, links in order.
#[derive(Clone)]
pub struct Description {
    pub runs: List<u32, TASKS>,
    pub sources: List<Source, SOURCES>,
    pub links: List<Link, LINKS>,
}

impl Description {
    /// Reads a file field by field; the first field that is not right ends the reading.
    pub fn read(file: &[u8]) -> Result<Description, Refusal> {
        let mut description = Description::empty();
        let mut place = 0;
        while place < file.len() {
            match description.take_field(&file[place..]) {
                Ok(size) => place += size,
                Err(word) => return Err(Refusal { word, place }),
            }
        }
        if description.runs.is_empty() {
            return Err(Refusal::of(Word::NoTask));
        }
        Ok(description)
    }

    /// The spacing of each source at a tempo; entries past the count are 0.
    pub fn spacings(&self, tempo: u32) -> Spacings {
        let mut spacings = [0; SOURCES];
        for (spacing, source) in spacings.iter_mut().zip(self.sources.iter()) {
            *spacing = source.spacing(tempo);
        }
        spacings
    }

    fn empty() -> Description {
        Description {
            runs: List::filled_with(0),
            sources: List::filled_with(Source::Fixed(0)),
            links: List::filled_with(Link { from: 0, to: 0, critical: false }),
        }
    }

    /// Takes the field at the front of `bytes` and returns its size.
    #[inline]
    fn take_field(&mut self, bytes: &[u8]) -> Result<usize, Word> {
        let &[tag, high, low, ref rest @ ..] = bytes else { return Err(Word::CutShort) };
        let length = usize::from(u16::from_be_bytes([high, low]));
        if !length_fits(tag, length).ok_or(Word::StrangeTag)? {
            return Err(Word::WrongLength);
        }
        match *rest.get(..length).ok_or(Word::CutShort)? {
            [a, b, c, d] if tag == 1 => self.add_task(u32::from_be_bytes([a, b, c, d]))?,
            [a, b, c, d] => self.add_fixed(u32::from_be_bytes([a, b, c, d]))?,
            [a, b] => self.add_paced(u16::from_be_bytes([a, b]))?,
            [a, b, swing] if tag == 3 => self.add_swung(u16::from_be_bytes([a, b]), swing)?,
            [from, to, critical] => self.add_link(from, to, critical)?,
            _ => unreachable!("a length that fits is 2, 3 or 4"),
        }
        Ok(3 + length)
    }

    fn add_task(&mut self, run: u32) -> Result<(), Word> {
        let in_turn = self.sources.is_empty() && self.links.is_empty();
        check(in_turn, Word::OutOfTurn)?;
        check(!self.runs.is_full(), Word::TooMany)?;
        check((1..=LONGEST_RUN).contains(&run), Word::OffScale)?;
        self.runs.push(run);
        Ok(())
    }

    fn add_fixed(&mut self, spacing: u32) -> Result<(), Word> {
        self.add_source(Source::Fixed(spacing), (1..=WIDEST_SPACING).contains(&spacing))
    }

    fn add_paced(&mut self, pulses: u16) -> Result<(), Word> {
        self.add_source(Source::Paced(pulses), (1..=MOST_PULSES).contains(&pulses))
    }

    fn add_swung(&mut self, pulses: u16, swing: u8) -> Result<(), Word> {
        let on_scale = (1..=MOST_PULSES).contains(&pulses) && SWINGS.contains(&swing);
        self.add_source(Source::Swung(pulses, swing), on_scale)
    }

    fn add_source(&mut self, source: Source, on_scale: bool) -> Result<(), Word> {
        check(self.links.is_empty(), Word::OutOfTurn)?;
        check(!self.sources.is_full(), Word::TooMany)?;
        check(on_scale, Word::OffScale)?;
        self.sources.push(source);
        Ok(())
    }

    fn add_link(&mut self, from: u8, to: u8, critical: u8) -> Result<(), Word> {
        let in_turn = self.links.last().is_none_or(|last| (last.from, last.to) < (from, to));
        check(in_turn, Word::OutOfTurn)?;
        check(!self.links.is_full(), Word::TooMany)?;
        check(critical <= 1, Word::OffScale)?;
        check(self.has_task(to) && (self.has_task(from) || self.has_source(from)), Word::NoSuchEnd)?;
        self.links.push(Link { from, to, critical: critical == 1 });
        Ok(())
    }

    fn has_task(&self, number: u8) -> bool {
        (1..=self.runs.len()).contains(&usize::from(number))
    }

    fn has_source(&self, number: u8) -> bool {
        number >= FIRST_SOURCE && usize::from(number - FIRST_SOURCE) < self.sources.len()
    }
}

/// Whether a length is the tag's, if there is such a tag.
#[inline]
fn length_fits(tag: u8, length: usize) -> Option<bool> {
    match tag {
        1 | 2 => Some(length == 4),
        3 => Some(length == 2 || length == 3),
        4 => Some(length == 3),
        _ => None,
    }
}

#[inline]
fn check(right: bool, word: Word) -> Result<(), Word> {
    if right { Ok(()) } else { Err(word) }
}
