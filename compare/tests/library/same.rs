//! One call of the library, held to the reference: answer, lent memory and guard words.

use crate::lent::{Lent, Word};
use crate::library::c::{self, RulantipEstimated};
use compare::reference::{self, places, Answer, Estimated, Found, RefusalNumber, Scratch, Settings};
use std::fmt;
use std::ops::Range;

/// A call that changes planes in place: the function without bands, and the one with them.
pub struct InPlace {
    name: &'static str,
    plain: c::InPlace,
    banded: c::InPlaceBanded,
}

pub const FORWARD: InPlace =
    InPlace { name: "rulantip_forward", plain: c::rulantip_forward, banded: c::rulantip_forward_banded };
pub const INVERSE: InPlace =
    InPlace { name: "rulantip_inverse", plain: c::rulantip_inverse, banded: c::rulantip_inverse_banded };
pub const FORWARD_WRAPPED: InPlace = InPlace {
    name: "rulantip_forward_wrapped",
    plain: c::rulantip_forward_wrapped,
    banded: c::rulantip_forward_wrapped_banded,
};
pub const INVERSE_WRAPPED: InPlace = InPlace {
    name: "rulantip_inverse_wrapped",
    plain: c::rulantip_inverse_wrapped,
    banded: c::rulantip_inverse_wrapped_banded,
};

impl InPlace {
    /// The function's answer, with bands where there is a band height.
    ///
    /// # Safety
    /// Every pointer points to as many elements as said, and no two overlap.
    pub unsafe fn answer(
        &self,
        settings: Settings,
        band_height: Option<u32>,
        (choices, count): (*const u8, usize),
        [(c1, len1), (c2, len2), (c3, len3)]: [(*mut i32, usize); 3],
    ) -> u32 {
        let Settings { width, height, depths: [b1, b2, b3], transform } = settings;
        let (plain, banded) = (self.plain, self.banded);
        match band_height {
            None => plain(width, height, b1, b2, b3, transform, choices, count, c1, len1, c2, len2, c3, len3),
            Some(rows) => {
                banded(width, height, b1, b2, b3, transform, rows, choices, count, c1, len1, c2, len2, c3, len3)
            }
        }
    }

    fn name(&self, band_height: Option<u32>) -> String {
        let end = if band_height.is_some() { "_banded" } else { "" };
        format!("{}{end}", self.name)
    }
}

/// The estimate or the search, with trial planes or in place.
#[derive(Clone, Copy)]
pub enum Estimator {
    Estimate,
    Search,
    EstimateInPlace,
    SearchInPlace,
}

/// The choices after an estimate or a search and its answer, or why it refuses.
type Expected = Result<(Vec<u8>, Estimated), RefusalNumber>;

/// What is lent to an estimate or a search; in place no trial planes.
struct Memory {
    choices: Lent<u8>,
    planes: [Lent<i32>; 3],
    trial: [Lent<i32>; 3],
    counters: Lent<u32>,
}

impl Estimator {
    fn name(self) -> &'static str {
        match self {
            Estimator::Estimate => "rulantip_estimate",
            Estimator::Search => "rulantip_search",
            Estimator::EstimateInPlace => "rulantip_estimate_in_place",
            Estimator::SearchInPlace => "rulantip_search_in_place",
        }
    }

    fn has_trial_planes(self) -> bool {
        matches!(self, Estimator::Estimate | Estimator::Search)
    }

    /// The function's answer on the lent memory.
    #[rustfmt::skip]
    fn answer(self, settings: Settings, rounds: u32, lent: &mut Memory) -> RulantipEstimated {
        let Settings { width, height, depths: [b1, b2, b3], transform } = settings;
        let (choices, count) = (lent.choices.pointer(), lent.choices.len());
        let [(c1, len1), (c2, len2), (c3, len3)] = lent.planes.each_mut().map(|plane| (plane.pointer(), plane.len()));
        let [(t1, room1), (t2, room2), (t3, room3)] = lent.trial.each_mut().map(|plane| (plane.pointer(), plane.len()));
        let (counters, room) = (lent.counters.pointer(), lent.counters.len());
        // SAFETY: every pointer points to as many elements as said, and no two overlap.
        unsafe {
            match self {
                Estimator::Estimate => c::rulantip_estimate(
                    width, height, b1, b2, b3, transform, choices, count,
                    c1, len1, c2, len2, c3, len3, t1, room1, t2, room2, t3, room3, counters, room,
                ),
                Estimator::Search => c::rulantip_search(
                    width, height, b1, b2, b3, transform, rounds, choices, count,
                    c1, len1, c2, len2, c3, len3, t1, room1, t2, room2, t3, room3, counters, room,
                ),
                Estimator::EstimateInPlace => c::rulantip_estimate_in_place(
                    width, height, b1, b2, b3, transform, choices, count,
                    c1, len1, c2, len2, c3, len3, counters, room,
                ),
                Estimator::SearchInPlace => c::rulantip_search_in_place(
                    width, height, b1, b2, b3, transform, rounds, choices, count,
                    c1, len1, c2, len2, c3, len3, counters, room,
                ),
            }
        }
    }
}

/// Everything that a call on planes is given.
#[derive(Clone)]
pub struct Case {
    pub settings: Settings,
    /// Of the calls with bands; those without are made where there is none.
    pub band_height: Option<u32>,
    pub rounds: u32,
    pub choices: Vec<u8>,
    pub planes: [Vec<i32>; 3],
    pub trial: [Vec<i32>; 3],
    pub counters: Vec<u32>,
    /// Where the lent memory starts.
    pub alignment: usize,
    /// How to make the case again.
    pub origin: String,
}

impl fmt::Display for Case {
    fn fmt(&self, f: &mut fmt::Formatter<'_>) -> fmt::Result {
        let Settings { width, height, depths, transform } = self.settings;
        writeln!(f, "{}", self.origin)?;
        writeln!(f, "width {width} height {height} depths {depths:?} transform {transform} rounds {}", self.rounds)?;
        writeln!(f, "band height {:?} alignment {}", self.band_height, self.alignment)?;
        let first = &self.choices[..self.choices.len().min(100)];
        writeln!(f, "{} choices: {first:?}", self.choices.len())?;
        writeln!(f, "trial planes {:?} counters {}", self.trial.each_ref().map(Vec::len), self.counters.len())?;
        for (plane, number) in self.planes.iter().zip(1..) {
            let first = &plane[..plane.len().min(100)];
            writeln!(f, "plane {number}, {} samples: {first:?}", plane.len())?;
        }
        Ok(())
    }
}

impl Case {
    pub fn samples(&self) -> usize {
        self.settings.width as usize * self.settings.height as usize
    }

    /// The case with other planes.
    pub fn with(&self, planes: [Vec<i32>; 3]) -> Case {
        Case { planes, ..self.clone() }
    }

    /// The case with bands of so many rows, and their sets of choices.
    pub fn with_bands(&self, rows: u32, choices: Vec<u8>) -> Case {
        Case { band_height: Some(rows), choices, ..self.clone() }
    }

    /// The set of choices of a row.
    pub fn set_of(&self, row: usize) -> &[u8] {
        let places = places(self.settings.transform);
        let band = self.band_height.map_or(0, |rows| row / rows as usize);
        &self.choices[band * places..][..places]
    }

    /// The choices of some rows: with bands, every row's own set in bands of one row.
    pub fn choices_of(&self, rows: Range<usize>) -> (Option<u32>, Vec<u8>) {
        match self.band_height {
            None => (None, self.choices.clone()),
            Some(_) => (Some(1), rows.flat_map(|row| self.set_of(row)).copied().collect()),
        }
    }

    /// The case for the wrapped forms: the deepest of its depths for all planes, and no scratch.
    pub fn wrapped(&self) -> Case {
        let deepest = self.settings.depths.into_iter().max().unwrap();
        Case {
            settings: Settings { depths: [deepest; 3], ..self.settings },
            band_height: self.band_height,
            rounds: self.rounds,
            choices: self.choices.clone(),
            planes: self.planes.clone(),
            trial: Default::default(),
            counters: Vec::new(),
            alignment: self.alignment,
            origin: self.origin.clone(),
        }
    }

    /// Null at the places whose bit is set, another filter at each of the others.
    pub fn set_nulls(&mut self, nulls: u32, mut other: impl FnMut() -> u8) {
        for (place, choice) in self.choices.iter_mut().enumerate() {
            *choice = if nulls >> place & 1 == 1 { 12 } else { other() };
        }
    }

    fn lent_planes(&self) -> [Lent<i32>; 3] {
        [0, 1, 2].map(|i| Lent::new(&self.planes[i], self.alignment + i))
    }

    fn slices(&self) -> [&[i32]; 3] {
        self.planes.each_ref().map(Vec::as_slice)
    }

    fn scratch(&self) -> Scratch {
        Scratch { trial: self.trial.each_ref().map(Vec::len), counters: self.counters.len() }
    }

    fn fail(&self, call: &str, problem: &str) -> ! {
        panic!("{call}: {problem}\n{self}")
    }

    /// The forward call; its answer and the planes after it.
    pub fn forward(&self) -> (u32, [Vec<i32>; 3]) {
        self.in_place(&FORWARD, self.expected(reference::forward))
    }

    /// The inverse call; its answer and the planes after it.
    pub fn inverse(&self) -> (u32, [Vec<i32>; 3]) {
        self.in_place(&INVERSE, self.expected(reference::inverse))
    }

    /// The inverse call where the expected answer is known already.
    pub fn inverse_as(&self, expected: Answer) {
        self.in_place(&INVERSE, expected);
    }

    /// The forward call of the wrapped form; its answer and the planes after it.
    pub fn forward_wrapped(&self) -> (u32, [Vec<i32>; 3]) {
        self.in_place(&FORWARD_WRAPPED, self.expected(reference::forward_wrapped))
    }

    /// The inverse call of the wrapped form; its answer and the planes after it.
    pub fn inverse_wrapped(&self) -> (u32, [Vec<i32>; 3]) {
        self.in_place(&INVERSE_WRAPPED, self.expected(reference::inverse_wrapped))
    }

    fn expected(&self, call: reference::Call) -> Answer {
        call(self.settings, self.band_height, &self.choices, self.slices())
    }

    fn in_place(&self, call: &InPlace, expected: Answer) -> (u32, [Vec<i32>; 3]) {
        let name = &call.name(self.band_height);
        let mut choices = Lent::new(&self.choices, self.alignment);
        let mut planes = self.lent_planes();
        let lent_choices = (choices.pointer().cast_const(), choices.len());
        let lent_planes = planes.each_mut().map(|plane| (plane.pointer(), plane.len()));
        // SAFETY: every pointer points to as many elements as said, and no two overlap.
        let answer = unsafe { call.answer(self.settings, self.band_height, lent_choices, lent_planes) };
        let (number, after) = match expected {
            Ok(planes) => (0, planes),
            Err(number) => (number, self.planes.clone()),
        };
        if answer != number {
            self.fail(name, &format!("the answer is {answer}, expected {number}"));
        }
        self.compare(name, &[("choices", &choices, &self.choices)]);
        for (i, plane) in ["c1", "c2", "c3"].iter().enumerate() {
            self.compare(name, &[(plane, &planes[i], &after[i])]);
        }
        (answer, after)
    }

    fn compare<T: Word>(&self, call: &str, lent: &[(&str, &Lent<T>, &[T])]) {
        for (name, memory, expected) in lent {
            if let Some(problem) = memory.differs(name, expected) {
                self.fail(call, &problem);
            }
        }
    }

    /// The estimate.
    pub fn estimate(&self) -> RulantipEstimated {
        self.answer_of(Estimator::Estimate).0
    }

    /// The search; its answer and the choices after it.
    pub fn search(&self) -> (RulantipEstimated, Vec<u8>) {
        self.answer_of(Estimator::Search)
    }

    /// The estimate in place.
    pub fn estimate_in_place(&self) -> RulantipEstimated {
        self.answer_of(Estimator::EstimateInPlace).0
    }

    /// The search in place; its answer and the choices after it.
    pub fn search_in_place(&self) -> (RulantipEstimated, Vec<u8>) {
        self.answer_of(Estimator::SearchInPlace)
    }

    /// The estimate, with trial planes, none of them short, and in place: one answer.
    pub fn both_estimates(&self) -> RulantipEstimated {
        self.both(Estimator::Estimate, Estimator::EstimateInPlace).0
    }

    /// The search in both ways; the one answer and the choices after it.
    pub fn both_searches(&self) -> (RulantipEstimated, Vec<u8>) {
        self.both(Estimator::Search, Estimator::SearchInPlace)
    }

    fn both(&self, first: Estimator, in_place: Estimator) -> (RulantipEstimated, Vec<u8>) {
        let expected = self.expected_of(first);
        self.estimate_as(in_place, expected.clone());
        self.estimate_as(first, expected)
    }

    fn answer_of(&self, call: Estimator) -> (RulantipEstimated, Vec<u8>) {
        self.estimate_as(call, self.expected_of(call))
    }

    fn expected_of(&self, call: Estimator) -> Expected {
        let Case { settings, rounds, choices, .. } = self;
        let (count, planes, counters) = (choices.len(), self.slices(), self.counters.len());
        let kept = |estimated: Estimated| (choices.clone(), estimated);
        let found = |found: Found| (found.filters, found.estimated);
        match call {
            Estimator::Estimate => reference::estimate(*settings, choices, planes, self.scratch()).map(kept),
            Estimator::Search => reference::search(*settings, *rounds, count, planes, self.scratch()).map(found),
            Estimator::EstimateInPlace => reference::estimate_in_place(*settings, choices, planes, counters).map(kept),
            Estimator::SearchInPlace => {
                reference::search_in_place(*settings, *rounds, count, planes, counters).map(found)
            }
        }
    }

    /// An estimate or a search where the choices after it and the answer are known.
    pub fn estimate_as(&self, call: Estimator, expected: Expected) -> (RulantipEstimated, Vec<u8>) {
        let name = call.name();
        let mut lent = Memory {
            choices: Lent::new(&self.choices, self.alignment),
            planes: self.lent_planes(),
            trial: [0, 1, 2].map(|i| Lent::new(&self.trial[i], self.alignment + 2 * i)),
            counters: Lent::new(&self.counters, self.alignment + 5),
        };
        let answer = call.answer(self.settings, self.rounds, &mut lent);
        let success = expected.is_ok();
        let (right, filters) = match expected {
            Ok((filters, Estimated { estimate, samples })) => {
                (RulantipEstimated { refusal: 0, estimate, samples }, filters)
            }
            Err(refusal) => (RulantipEstimated { refusal, estimate: 0, samples: 0 }, self.choices.clone()),
        };
        if answer != right {
            self.fail(name, &format!("the answer is {answer:?}, expected {right:?} with {filters:?}"));
        }
        self.compare(name, &[("choices", &lent.choices, &filters)]);
        for (plane, memory) in ["c1", "c2", "c3"].iter().zip(&lent.planes) {
            self.compare(name, &[(plane, memory, memory.entry())]);
        }
        for (trial, memory) in ["t1", "t2", "t3"].iter().zip(&lent.trial) {
            let zero = vec![0; memory.len()];
            let cleared = success && call.has_trial_planes();
            self.compare(name, &[(trial, memory, if cleared { &zero } else { memory.entry() })]);
        }
        let zero = vec![0; lent.counters.len()];
        self.compare(name, &[("counters", &lent.counters, if success { &zero } else { lent.counters.entry() })]);
        (answer, filters)
    }
}
