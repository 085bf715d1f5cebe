//! Which calls were made, and what they answered.

use std::collections::BTreeMap;

#[derive(Clone, Copy, Debug, PartialEq, Eq, PartialOrd, Ord)]
pub enum Call {
    Open,
    BrickKind,
    BrickView,
    ReadRaw,
    ReadFloat,
    Write,
    Position,
    String,
    Make,
    ToPlain,
    ToSubtiled,
}

impl Call {
    /// The refusals that FORMAT lists for the call.
    pub fn refusals(self) -> &'static [u32] {
        match self {
            Call::Open => &[1, 2, 3, 4, 5, 6, 7, 8, 9, 10, 11, 12, 13],
            Call::BrickKind => &[14, 16, 12],
            Call::BrickView => &[14, 16, 12, 18, 17],
            Call::ReadRaw | Call::ReadFloat => &[14, 15, 16, 18, 12],
            Call::Write => &[14, 15, 16, 18, 12, 19],
            Call::Position => &[14, 16],
            Call::String => &[14, 11],
            Call::Make => &[4, 5, 6, 7, 8, 9, 11, 18],
            Call::ToPlain | Call::ToSubtiled => &[20, 18],
        }
    }
}

/// How often each call gave each number, 0 being taken.
#[derive(Debug, Default)]
pub struct Tally {
    counts: BTreeMap<(Call, u32), u64>,
}

impl Tally {
    pub fn count(&mut self, call: Call, number: u32) {
        *self.counts.entry((call, number)).or_default() += 1;
    }

    /// The cubes, good and damaged, that were opened.
    pub fn cubes(&self) -> u64 {
        self.sum(|call| call == Call::Open)
    }

    /// The calls other than openings.
    pub fn calls(&self) -> u64 {
        self.sum(|call| call != Call::Open)
    }

    fn sum(&self, wanted: impl Fn(Call) -> bool) -> u64 {
        self.counts.iter().filter(|((call, _), _)| wanted(*call)).map(|(_, count)| count).sum()
    }

    /// Asserts that each of the calls was taken, and refused by every number of its list, at least so many times.
    pub fn assert_all_met(&self, calls: &[Call], times: u64) {
        for &call in calls {
            self.assert_numbers_met(&[call], &[0], times);
            self.assert_numbers_met(&[call], call.refusals(), times);
        }
    }

    /// Asserts that each of the calls gave each of the numbers at least so many times.
    pub fn assert_numbers_met(&self, calls: &[Call], numbers: &[u32], times: u64) {
        for (call, number) in calls.iter().flat_map(|&call| numbers.iter().map(move |&number| (call, number))) {
            let met = self.counts.get(&(call, number)).copied().unwrap_or(0);
            assert!(met >= times, "{call:?} gave {number} only {met} times of {times}");
        }
    }
}
