//! A file with its tempo taken out.

use super::Draft;
use crate::plain::Plan;
use crate::plain::description::Source;

/// An accepted file with each source fixed at its spacing at a tempo; none of a file that is
/// refused. Tasks and links are the same, so its verdicts at every tempo are those of the file at
/// that one.
pub fn steady(file: &[u8], tempo: u32) -> Option<Vec<u8>> {
    let description = Plan::read(file).ok()?.description;
    let runs: Vec<u32> = description.runs.iter().copied().collect();
    let spacings = description.spacings(tempo);
    let sources: Vec<Source> =
        description.sources.iter().zip(spacings).map(|(_, spacing)| Source::Fixed(spacing)).collect();
    let links: Vec<[u8; 3]> =
        description.links.iter().map(|link| [link.from, link.to, link.critical.into()]).collect();
    Some(Draft::new(&runs, &sources, &links).bytes())
}
