//! The firings counted so far: a round counts more of them, and a flow bounds what rounds may come to.

/// The scale of shares: one tick for each tick.
pub const WHOLE: u64 = 1 << 33;

/// A source with the firings counted so far.
struct Counted {
    load: u64,
    spacing: u64,
    /// The load per tick, in units of 1 / `WHOLE`, rounded down; all shares above a tick count alike.
    share: u64,
    /// What the counted firings bring.
    brought: u64,
    /// The largest D that they are enough for.
    end: u64,
}

impl Counted {
    /// One firing: even D = 0 has one.
    fn first(load: u64, spacing: u64) -> Counted {
        let share = (load * WHOLE / spacing).min(WHOLE + 1);
        Counted { load, spacing, share, brought: load, end: spacing }
    }

    /// Counts the firings that `delay` needs beyond those counted, and returns their load.
    #[inline]
    fn count_until(&mut self, delay: u64) -> u64 {
        if delay <= self.end {
            return 0;
        }
        let beyond = delay - self.end;
        let more = if beyond <= self.spacing { 1 } else { beyond.div_ceil(self.spacing) };
        self.end += more * self.spacing;
        self.brought += more * self.load;
        more * self.load
    }
}

/// The sources of a level, or of a wheel, and what their counted firings bring together.
pub struct Counts {
    sources: Vec<Counted>,
    pub sum: u64,
}

impl Counts {
    /// The round at 0.
    pub fn first(sources: &[(u64, u64)]) -> Counts {
        let sources: Vec<Counted> =
            sources.iter().map(|&(load, spacing)| Counted::first(load, spacing)).collect();
        Counts { sum: sources.iter().map(|source| source.load).sum(), sources }
    }

    /// The round at a D above the last.
    #[inline]
    pub fn round(&mut self, delay: u64) {
        self.sum += self.sources.iter_mut().map(|source| source.count_until(delay)).sum::<u64>();
    }

    /// How far the counted firings are enough, and to an end at most.
    #[inline]
    pub fn quiet_until(&self, end: u64) -> u64 {
        self.sources.iter().fold(end, |near, source| near.min(source.end))
    }

    /// What these sources bring.
    #[inline]
    pub fn brought(&self, places: &[usize]) -> u64 {
        places.iter().map(|&place| self.sources[place].brought).sum()
    }

    /// A D that no fixed point is below, the limit at most.
    ///
    /// A fixed point L takes from each source what is counted at least, and at least its share of L.
    /// Shares are taken of the sources whose counted firings end before the bound found so far, the
    /// rest as counted.
    pub fn jump(&self, limit: u64) -> u64 {
        let mut far = self.sum;
        loop {
            let next = self.flow_bound(far, limit);
            if next <= far {
                return far;
            }
            far = next;
        }
    }

    fn flow_bound(&self, far: u64, limit: u64) -> u64 {
        let (mut rest, mut flow) = (0, 0);
        for source in &self.sources {
            if source.end < far {
                flow += source.share;
            } else {
                rest += source.brought;
            }
        }
        match WHOLE.checked_sub(flow) {
            Some(free) if free > 0 => (rest * WHOLE).div_ceil(free).min(limit),
            _ if flow + rest > WHOLE => limit,
            _ => 0,
        }
    }
}
