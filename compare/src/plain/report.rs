//! The report on both models ("The report" and C-14).

use super::description::Link;
use super::quote::quote;
use super::refusal::Refusal;
use super::verdicts::{Verdict, Verdicts};
use super::{Plan, Policy, SLOWEST};

/// Enough for most link lines.
const LINE: usize = 40;

/// The report on a file, refused or not.
pub fn report(policy: Policy, file: &[u8]) -> Vec<u8> {
    match Plan::read(file) {
        Ok(plan) => report_on(policy, &plan),
        Err(refusal) => refused(policy, refusal),
    }
}

fn report_on(policy: Policy, plan: &Plan) -> Vec<u8> {
    let mut text = text_of(policy, 1 + plan.description.links.len());
    let quoted = quote(policy, plan).ok();
    tempo_line(&mut text, quoted);
    let verdicts = Verdicts::at(policy, plan, quoted.unwrap_or(SLOWEST));
    for (place, &link) in plan.description.links.iter().enumerate() {
        link_line(&mut text, place + 1, link, verdicts.on(link));
    }
    text
}

fn refused(policy: Policy, refusal: Refusal) -> Vec<u8> {
    let mut text = text_of(policy, 1);
    text.extend_from_slice(b"refused ");
    decimal(&mut text, refusal.word as u64);
    text.extend_from_slice(b" at ");
    decimal(&mut text, refusal.place as u64);
    text.push(b'\n');
    text
}

/// A text with room for so many lines. That of the hold-on model says so before its first.
fn text_of(policy: Policy, lines: usize) -> Vec<u8> {
    let mut text = Vec::with_capacity(LINE * lines);
    if policy == Policy::HoldOn {
        text.extend_from_slice(b"hold\n");
    }
    text
}

fn tempo_line(text: &mut Vec<u8>, quoted: Option<u32>) {
    text.extend_from_slice(b"tempo ");
    match quoted {
        Some(tempo) => {
            decimal(text, u64::from(tempo) / 10);
            text.push(b'.');
            decimal(text, u64::from(tempo) % 10);
        }
        None => text.extend_from_slice(b"none"),
    }
    text.push(b'\n');
}

fn link_line(text: &mut Vec<u8>, place: usize, link: Link, verdict: Verdict) {
    text.extend_from_slice(b"link ");
    decimal(text, place as u64);
    text.push(b' ');
    decimal(text, link.from.into());
    text.push(b'>');
    decimal(text, link.to.into());
    match verdict {
        Verdict::Free => text.extend_from_slice(b" free"),
        Verdict::Order { held: true } => text.extend_from_slice(b" held order"),
        Verdict::Order { held: false } => text.extend_from_slice(b" doubt order"),
        Verdict::Delay { delay, spacing } => delay_words(text, delay, spacing),
    }
    text.push(b'\n');
}

fn delay_words(text: &mut Vec<u8>, delay: Option<u64>, spacing: u32) {
    match delay {
        Some(delay) => {
            text.extend_from_slice(b" held ");
            decimal(text, delay);
        }
        None => text.extend_from_slice(b" doubt"),
    }
    text.extend_from_slice(b" of ");
    decimal(text, spacing.into());
}

/// A number's digits. The formatting machinery would be most of a report's time.
fn decimal(text: &mut Vec<u8>, mut number: u64) {
    let mut digits = [0; 20];
    let mut first = digits.len();
    loop {
        first -= 1;
        digits[first] = b'0' + (number % 10) as u8;
        number /= 10;
        if number == 0 {
            break;
        }
    }
    text.extend_from_slice(&digits[first..]);
}
