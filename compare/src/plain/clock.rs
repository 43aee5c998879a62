//! The clock table (C-16): the spacings of the MIDI clock, worked out when this is compiled, and the list
//! of them that players look up.

use super::description::{STRAIGHT, paced_spacing};
use super::{FASTEST, SLOWEST};

/// The MIDI clock's pulses per quarter note, in straight time.
pub const PULSES: u16 = 24;

const TEMPOS: usize = (FASTEST - SLOWEST) as usize + 1;

/// The spacing at each tempo of the knob.
pub static SPACINGS: [u32; TEMPOS] = {
    let mut spacings = [0; TEMPOS];
    let mut place = 0;
    while place < TEMPOS {
        spacings[place] = paced_spacing(PULSES, STRAIGHT, SLOWEST + place as u32);
        place += 1;
    }
    spacings
};

/// A line for each tempo: `20.0 125000`.
pub fn list() -> String {
    let line = |(tempo, spacing)| format!("{}.{} {spacing}\n", tempo / 10, tempo % 10);
    (SLOWEST..).zip(SPACINGS).map(line).collect()
}

#[cfg(test)]
mod tests {
    use super::*;

    #[test]
    fn ends_are_those_of_the_request() {
        assert_eq!((SPACINGS[0], SPACINGS[TEMPOS - 1]), (125_000, 8_333));
        assert!(list().starts_with("20.0 125000\n") && list().ends_with("\n300.0 8333\n"));
        assert_eq!((list().lines().count(), list().len()), (2_801, 32_363));
    }

    #[test]
    fn no_spacing_is_above_the_one_before() {
        assert!(SPACINGS.is_sorted_by(|slower, faster| slower >= faster));
    }
}
