//! Inputs from a seed: files of every kind that document 01 tells apart, and runs of ticks.

mod damage;
mod draft;
mod edges;
mod files;
mod random;
mod runs;
mod slow;
mod steady;

pub use draft::Draft;
pub use edges::{boxed, edges, swung_box};
pub use files::{bench_clocked, bench_full, bench_swung, bench_typical, dense, hostile};
pub use random::Random;
pub use runs::{Knob, Run, legal_calls, run};
pub use slow::{
    exactly_one, level_1807, many_levels, one_level, small_spacings, small_spacings_of_many, ten_levels,
    worst_level, worst_of_many,
};
pub use steady::steady;

/// A file of a kind chosen by chance.
pub fn file(random: &mut Random) -> Vec<u8> {
    match random.below(100) {
        0..20 => files::any(random).bytes(),
        20..50 => files::tuned(random).bytes(),
        50..58 => files::heavy(random).bytes(),
        58..62 => files::any_dense(random).bytes(),
        62..66 => files::nearly_full(random).bytes(),
        66..90 => damage::damaged(random),
        90..94 => damage::long(random),
        94..97 => damage::noise(random),
        _ => {
            let edges = edges();
            edges[random.index(edges.len())].clone()
        }
    }
}
