//! The quote: the largest tempo at which every critical link is held.

use super::refusal::{Refusal, Word};
use super::verdicts::{self, Level};
use super::{FASTEST, Plan, Policy, SLOWEST};

/// The quoted tempo, or refusal 12.
///
/// A link that is held stays held at slower tempos, where spacings are wider. So each level is
/// tried at the best tempo that the levels before it left, and searched only if it fails there.
pub fn quote(policy: Policy, plan: &Plan) -> Result<u32, Refusal> {
    quote_telling(policy, plan, |_| {})
}

/// The same, telling each tempo that a search tries.
pub fn quote_telling(policy: Policy, plan: &Plan, mut tried: impl FnMut(u32)) -> Result<u32, Refusal> {
    let no_tempo = Refusal::of(Word::NoTempo);
    if !verdicts::orders_held(plan) {
        return Err(no_tempo);
    }
    let mut best = FASTEST;
    let mut spacings = plan.description.spacings(best);
    for level in verdicts::levels(policy, plan) {
        if !level.all_held(&spacings) {
            best = fastest_below(best, plan, &level, &mut tried).ok_or(no_tempo)?;
            spacings = plan.description.spacings(best);
        }
    }
    Ok(best)
}

/// The largest tempo at which this level is held, given one at which it is not.
fn fastest_below(doubtful: u32, plan: &Plan, level: &Level, tried: &mut impl FnMut(u32)) -> Option<u32> {
    let mut is_held = |tempo| {
        tried(tempo);
        level.all_held(&plan.description.spacings(tempo))
    };
    if !is_held(SLOWEST) {
        return None;
    }
    let (mut held, mut doubtful) = (SLOWEST, doubtful);
    while doubtful - held > 1 {
        let middle = (held + doubtful) / 2;
        if is_held(middle) {
            held = middle;
        } else {
            doubtful = middle;
        }
    }
    Some(held)
}
