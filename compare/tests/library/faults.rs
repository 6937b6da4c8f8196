//! Everything that the calls on planes refuse.

use crate::random::Random;
use crate::same::Case;
use compare::reference::{counters, greatest, places, Settings};
use std::fmt::Display;

/// Widths and heights that are refused, depths, and transforms.
pub const SIDES: [u32; 5] = [0, 8193, 65_536, 1 << 31, u32::MAX];
pub const DEPTHS: [u32; 8] = [0, 1, 17, 31, 32, 34, 256 + 8, u32::MAX];
const TRANSFORMS: [u32; 5] = [4, 5, 256, 1 << 16, u32::MAX];

/// A fault in a case and the refusal that it causes.
pub struct Fault<C> {
    pub number: u32,
    pub make: Box<dyn Fn(&mut C)>,
}

/// A call on planes.
#[derive(Clone, Copy, PartialEq)]
pub enum Call {
    Forward,
    Inverse,
    ForwardWrapped,
    InverseWrapped,
    Estimate,
    Search,
    EstimateInPlace,
    SearchInPlace,
}

/// Every call, and whether it is the one with bands.
pub const CALLS: [(Call, bool); 12] = [
    (Call::Forward, false),
    (Call::Inverse, false),
    (Call::ForwardWrapped, false),
    (Call::InverseWrapped, false),
    (Call::Estimate, false),
    (Call::Search, false),
    (Call::EstimateInPlace, false),
    (Call::SearchInPlace, false),
    (Call::Forward, true),
    (Call::Inverse, true),
    (Call::ForwardWrapped, true),
    (Call::InverseWrapped, true),
];

impl Call {
    pub fn is_wrapped(self) -> bool {
        matches!(self, Call::ForwardWrapped | Call::InverseWrapped)
    }

    fn is_search(self) -> bool {
        matches!(self, Call::Search | Call::SearchInPlace)
    }

    pub fn has_trial_planes(self) -> bool {
        matches!(self, Call::Estimate | Call::Search)
    }

    fn has_counters(self) -> bool {
        self.has_trial_planes() || matches!(self, Call::EstimateInPlace | Call::SearchInPlace)
    }

    /// The number that the call answers; everything else is compared on the way.
    pub fn answer(self, case: &Case) -> u32 {
        match self {
            Call::Forward => case.forward().0,
            Call::Inverse => case.inverse().0,
            Call::ForwardWrapped => case.forward_wrapped().0,
            Call::InverseWrapped => case.inverse_wrapped().0,
            Call::Estimate => case.estimate().refusal,
            Call::Search => case.search().0.refusal,
            Call::EstimateInPlace => case.estimate_in_place().refusal,
            Call::SearchInPlace => case.search_in_place().0.refusal,
        }
    }
}

/// Faults, in the order of the tests.
pub struct Faults<C>(pub Vec<Fault<C>>);

impl<C: 'static> Faults<C> {
    pub fn add(&mut self, number: u32, make: impl Fn(&mut C) + 'static) {
        self.0.push(Fault { number, make: Box::new(make) });
    }

    /// 5.
    pub fn add_depths(&mut self, depths: impl Fn(&mut C) -> &mut [u32; 3] + Copy + 'static) {
        for depth in DEPTHS {
            self.add(5, move |case| *depths(case) = [depth; 3]);
            for plane in 0..3 {
                self.add(5, move |case| depths(case)[plane] = depth);
            }
        }
    }

    /// 6.
    pub fn add_transforms(&mut self, transform: impl Fn(&mut C) -> &mut u32 + Copy + 'static) {
        for refused in TRANSFORMS {
            self.add(6, move |case| *transform(case) = refused);
        }
    }
}

impl<C> Faults<C> {
    /// Makes one to four of the faults in the case.
    pub fn make_some(&self, random: &mut Random, case: &mut C) {
        for _ in 0..1 + random.below(4) {
            (self.0[random.below(self.0.len())].make)(case);
        }
    }
}

impl<C: Clone + Display> Faults<C> {
    /// Each fault alone, and with each later one of another number: the first in the order of the tests is answered.
    pub fn one_and_two(&self, case: &C, answer: impl Fn(&C) -> u32) {
        for (i, first) in self.0.iter().enumerate() {
            let mut one = case.clone();
            (first.make)(&mut one);
            assert_eq!(answer(&one), first.number, "{one}");
            for second in self.0[i + 1..].iter().filter(|second| second.number != first.number) {
                // The earlier fault last: it may make what the later one changes pointless.
                let mut two = case.clone();
                (second.make)(&mut two);
                (first.make)(&mut two);
                assert_eq!(answer(&two), first.number, "{two}");
            }
        }
    }
}

impl Faults<Case> {
    /// 2, 5, 16 where the call is of a wrapped form, and 6.
    fn add_settings(&mut self, call: Call, depth: u32) {
        for side in SIDES {
            self.add(2, move |case| case.settings.width = side);
            self.add(2, move |case| case.settings.height = side);
        }
        self.add(2, |case| (case.settings.width, case.settings.height) = (65_536, 65_536));
        self.add_depths(|case| &mut case.settings.depths);
        if call.is_wrapped() {
            for other in [2, 3, 9, 15, 16].into_iter().filter(|&other| other != depth) {
                for plane in 0..3 {
                    self.add(16, move |case| case.settings.depths[plane] = other);
                }
            }
            self.add(16, |case| case.settings.depths = [4, 6, 11]);
        }
        self.add_transforms(|case| &mut case.settings.transform);
    }

    /// 17, and 7 for as many choices as other bands need, and for one, a whole set or many too few or too many.
    fn add_bands(&mut self, case: &Case, rows: u32) {
        let (height, set) = (case.settings.height, places(case.settings.transform));
        for refused in [0, height + 1, height + 2, 256 + rows, 65_536 + rows, 1 << 31, u32::MAX] {
            self.add(17, move |case| case.band_height = Some(refused));
        }
        for other in (1..=height).filter(|&other| height.div_ceil(other) != height.div_ceil(rows)) {
            self.add(7, move |case| case.band_height = Some(other));
        }
        self.add(7, move |case| case.choices.truncate(case.choices.len().saturating_sub(1)));
        self.add(7, move |case| case.choices.truncate(case.choices.len().saturating_sub(set)));
        for more in [set, 256, 65_536] {
            self.add(7, move |case| case.choices.resize(case.choices.len() + more, 0));
        }
    }

    /// 7 and 8.
    fn add_lengths(&mut self, call: Call, choices: usize) {
        self.add(7, |case| case.choices.truncate(1));
        self.add(7, |case| case.choices.push(0));
        self.add(7, |case| case.choices.clear());
        if !call.is_search() {
            for place in 0..choices {
                for filter in [13, 128, 255] {
                    self.add(7, move |case| {
                        case.choices.get_mut(place).into_iter().for_each(|choice| *choice = filter)
                    });
                }
            }
        }
        for plane in 0..3 {
            self.add(8, move |case| case.planes[plane].truncate(1));
            self.add(8, move |case| case.planes[plane].push(0));
            self.add(8, move |case| case.planes[plane].clear());
        }
    }

    /// 9, and 10 where the call is a search.
    fn add_scratch(&mut self, call: Call, samples: usize, needed: usize) {
        if call.has_trial_planes() {
            for plane in 0..3 {
                self.add(9, move |case| case.trial[plane].truncate(samples - 1));
                self.add(9, move |case| case.trial[plane].clear());
            }
        }
        self.add(9, move |case| case.counters.truncate(needed - 1));
        self.add(9, move |case| case.counters.clear());
        if call.is_search() {
            for rounds in [0, 5, 256 + 1, u32::MAX] {
                self.add(10, move |case| case.rounds = rounds);
            }
        }
    }

    /// 12 where the call is the plain inverse, else 11.
    fn add_samples(&mut self, call: Call, depths: [u32; 3]) {
        for (plane, greatest) in greatest(depths).into_iter().enumerate() {
            let (number, samples) = match call {
                Call::Inverse => (12, [i32::MIN, i32::MAX, 1 << 20, -(1 << 20)]),
                _ => (11, [-1, greatest as i32 + 1, i32::MIN, i32::MAX]),
            };
            for sample in samples {
                let set = move |sample_at: Option<&mut i32>| sample_at.into_iter().for_each(|at| *at = sample);
                self.add(number, move |case| set(case.planes[plane].first_mut()));
                self.add(number, move |case| set(case.planes[plane].last_mut()));
            }
        }
    }
}

/// All faults that the call tests for, in the order of the tests.
pub fn faults(call: Call, case: &Case) -> Faults<Case> {
    let Settings { depths, transform, .. } = case.settings;
    let mut faults = Faults(Vec::new());
    faults.add_settings(call, depths[0]);
    if let Some(rows) = case.band_height {
        faults.add_bands(case, rows);
    }
    faults.add_lengths(call, case.choices.len());
    if call.has_counters() {
        faults.add_scratch(call, case.samples(), counters(depths, transform));
    }
    faults.add_samples(call, depths);
    faults
}
