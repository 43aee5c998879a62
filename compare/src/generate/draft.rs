//! A description in the making, and its file, right or wrong.

use crate::plain::description::Source;

/// What a file is to say. Nothing here is checked: a draft may be off every scale.
#[derive(Clone, Default)]
pub struct Draft {
    pub runs: Vec<u32>,
    pub sources: Vec<Source>,
    /// From, to, critical.
    pub links: Vec<[u8; 3]>,
}

impl Draft {
    pub fn new(runs: &[u32], sources: &[Source], links: &[[u8; 3]]) -> Draft {
        Draft { runs: runs.to_vec(), sources: sources.to_vec(), links: links.to_vec() }
    }

    /// Brings the links into the file's order, each at most once.
    pub fn sorted(mut self) -> Draft {
        self.links.sort_unstable();
        self.links.dedup_by_key(|link| (link[0], link[1]));
        self
    }

    /// The fields in the file's order, each whole.
    pub fn fields(&self) -> Vec<Vec<u8>> {
        let tasks = self.runs.iter().map(|run| field(1, &run.to_be_bytes()));
        let sources = self.sources.iter().map(|source| match source {
            Source::Fixed(spacing) => field(2, &spacing.to_be_bytes()),
            Source::Paced(pulses) => field(3, &pulses.to_be_bytes()),
            Source::Swung(pulses, swing) => field(3, &[&pulses.to_be_bytes()[..], &[*swing]].concat()),
        });
        let links = self.links.iter().map(|link| field(4, link));
        tasks.chain(sources).chain(links).collect()
    }

    pub fn bytes(&self) -> Vec<u8> {
        self.fields().concat()
    }
}

/// A field: tag, length, body.
pub fn field(tag: u8, body: &[u8]) -> Vec<u8> {
    let length = (body.len() as u16).to_be_bytes();
    [&[tag], &length[..], body].concat()
}
