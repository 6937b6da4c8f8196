//! Sixteen threads at once on memory of their own get what one thread gets, and a thread needs little stack.

use crate::files::pixmap;
use crate::graymaps::through_files;
use crate::library;
use crate::previews::pixel;
use crate::random::{self, each_round};
use crate::same::{Case, Estimator};
use crate::transforms::there_and_back;
use crate::wrapped;
use compare::generator;
use compare::reference::{self, Scratch, Settings, SPACES};
use std::sync::Barrier;
use std::thread;

const THREADS: usize = 16;

/// A thread's case with its answers, found before the threads start.
struct Known {
    case: Case,
    banded: Case,
    finished: [Vec<i32>; 3],
    found: (Vec<u8>, reference::Estimated),
    /// With one byte a sample, and with two.
    files: [Vec<u8>; 2],
}

impl Known {
    fn new(case: Case, banded: Case) -> Known {
        let planes = case.planes.each_ref().map(Vec::as_slice);
        let scratch = Scratch { trial: case.trial.each_ref().map(Vec::len), counters: case.counters.len() };
        let finished = reference::forward(case.settings, None, &case.choices, planes).unwrap();
        let found = reference::search(case.settings, case.rounds, case.choices.len(), planes, scratch).unwrap();
        let Settings { width, height, depths, .. } = case.settings;
        let deepest = depths.into_iter().max().unwrap();
        let files = [deepest, deepest + 8].map(|depth| generator::pixmap(width, height, depth, &case.planes));
        Known { finished, found: (found.filters, found.estimated), files, case, banded }
    }

    /// Every call once.
    fn calls(&self) {
        let (answer, finished) = self.case.forward();
        assert_eq!((answer, &finished), (0, &self.finished));
        through_files(&self.case, &finished);
        wrapped::both_ways(&self.case.wrapped());
        there_and_back(&self.banded);
        self.case.estimate_as(Estimator::Search, Ok(self.found.clone()));
        self.case.estimate_as(Estimator::SearchInPlace, Ok(self.found.clone()));
        self.case.both_estimates();
        for file in &self.files {
            pixmap(file, b"", [0; 3], &self.case.origin);
        }
        for space in SPACES {
            pixel(space, 8, self.case.planes.each_ref().map(|plane| plane[0])).there_and_back();
        }
    }
}

#[test]
fn sixteen_threads() {
    each_round("sixteen_threads", 2, |random, origin| {
        let known: Vec<Known> = (0..THREADS)
            .map(|number| {
                let settings = Settings {
                    width: 20 + random.below(20) as u32,
                    height: 20 + random.below(20) as u32,
                    depths: random::depths_to(random, 8),
                    transform: number as u32 % 4,
                };
                let mut case = random::case_of(random, settings, origin);
                case.rounds = 1;
                let banded = random::banded(random, &case);
                Known::new(case, banded)
            })
            .collect();
        let start = Barrier::new(THREADS);
        thread::scope(|scope| {
            for one in &known {
                let start = &start;
                scope.spawn(move || {
                    start.wait();
                    for _ in 0..8 {
                        one.calls();
                    }
                });
            }
        });
    });
}

/// What a thread with a stack of 64 KiB gets. One that needs more ends the program.
fn with_small_stack<T: Send>(call: impl FnOnce() -> T + Send) -> T {
    let small = thread::Builder::new().stack_size(64 * 1024);
    thread::scope(|scope| small.spawn_scoped(scope, call).unwrap().join().unwrap())
}

/// The searches keep most on the stack: with a full sample the table of logarithms and the numbers of 4,096 counters.
#[test]
fn small_stacks() {
    each_round("small_stacks", 1, |random, origin| {
        for transform in 0..4 {
            let (width, height, depths) = (64, 65, [16; 3]);
            let case = random::case_of(random, Settings { width, height, depths, transform }, origin);
            let settings = library::Settings { width, height, depths, transform };
            let Case { mut planes, mut choices, mut trial, mut counters, .. } = case.clone();
            let [c1, c2, c3] = planes.each_ref().map(Vec::as_slice);
            let scratch = library::Scratch { trial: trial.each_mut().map(Vec::as_mut_slice), counters: &mut counters };
            let first = with_small_stack(|| library::search(settings, 1, &mut choices, [c1, c2, c3], scratch));
            let lent = planes.each_mut().map(Vec::as_mut_slice);
            let found = with_small_stack(|| library::search_in_place(settings, 1, &mut choices, lent, &mut counters));
            assert_eq!(found.expect(origin), first.expect(origin), "{case}");
            assert_eq!(planes, case.planes, "{case}");
        }
    });
}
