//! The estimate and the search in place: lent counters and no trial planes, they give what the first ones give.

use crate::estimates::search_then_estimate;
use crate::library::{self, c};
use crate::random::{self, each_round, Random};
use crate::same::Case;
use compare::reference::{counters, greatest, Settings, TRANSFORMS};
use std::ptr::null_mut;

/// A case of few pixels.
fn small(random: &mut Random, origin: &str) -> Case {
    let mut settings = random::settings(random);
    (settings.width, settings.height) = (settings.width.min(7), settings.height.min(6));
    random::case_of(random, settings, origin)
}

/// The same case without trial planes.
fn bare(case: &Case) -> Case {
    Case { trial: Default::default(), ..case.clone() }
}

/// Without trial planes the first calls refuse, and those in place answer what the first do with them.
#[test]
fn no_trial_planes() {
    each_round("no_trial_planes", 300, |random, origin| {
        let case = small(random, origin);
        let bare = bare(&case);
        assert_eq!((bare.estimate().refusal, bare.search().0.refusal), (9, 9), "{case}");
        assert_eq!(bare.estimate_in_place(), case.estimate(), "{case}");
        assert_eq!(bare.search_in_place(), case.search(), "{case}");
    });
}

/// As many counters as needed are enough, fewer are refused, and all that are lent are 0 after success alone.
#[test]
fn counters_alone() {
    each_round("in_place::counters_alone", 200, |random, origin| {
        let mut case = bare(&small(random, origin));
        let needed = counters(case.settings.depths, case.settings.transform);
        let fewer = random.below(needed);
        for (length, refusal) in [
            (0, 9),
            (1, 9),
            (fewer, 9),
            (needed - 1, 9),
            (needed, 0),
            (needed + 1, 0),
            (2 * needed + random.below(3000), 0),
        ] {
            case.counters = (0..length).map(|_| random.number() as u32).collect();
            assert_eq!(case.estimate_in_place().refusal, refusal, "{case}");
            assert_eq!(case.search_in_place().0.refusal, refusal, "{case}");
        }
    });
}

const KINDS: usize = 6;

/// Black, white, one colour, a chessboard of extremes, extremes anywhere, or noise.
fn special(random: &mut Random, settings: Settings, kind: usize) -> [Vec<i32>; 3] {
    let (width, height) = (settings.width as usize, settings.height as usize);
    greatest(settings.depths).map(|greatest| {
        let level = random.between(0, greatest);
        let mut sample = |i: usize| match kind {
            0 => 0,
            1 => greatest,
            2 => level,
            3 => greatest * ((i % width + i / width) % 2) as i64,
            4 => greatest * random.between(0, 1),
            _ => random.between(0, greatest),
        };
        (0..width * height).map(|i| sample(i) as i32).collect()
    })
}

/// Every transform and number of rounds, at equal and at different depths.
#[test]
fn special_pictures() {
    each_round("special_pictures", 1, |random, origin| {
        for transform in 0..TRANSFORMS {
            for depths in [[2; 3], [8; 3], [16; 3], [5, 6, 5], [9, 2, 13]] {
                for (kind, rounds) in (0..KINDS).flat_map(|kind| (1..=4).map(move |rounds| (kind, rounds))) {
                    let (width, height) = random.one_of(&[(1, 1), (5, 1), (1, 4), (2, 2), (3, 3), (7, 5)]);
                    let settings = Settings { width, height, depths, transform };
                    let mut case = random::case_of(random, settings, origin);
                    case.planes = special(random, settings, kind);
                    case.rounds = rounds;
                    search_then_estimate(&case);
                }
            }
        }
    });
}

/// Every picture of one pixel and of two at depth 2.
#[test]
fn every_small_picture() {
    each_round("every_small_picture", 1, |random, origin| {
        for (width, height) in [(1, 1), (2, 1), (1, 2)] {
            for transform in 0..TRANSFORMS {
                let settings = Settings { width, height, depths: [2; 3], transform };
                let mut case = random::case_of(random, settings, origin);
                let samples = case.samples();
                for code in 0..1 << (6 * samples) {
                    let plane = |plane| (0..samples).map(|i| code >> (2 * (plane * samples + i)) & 3).collect();
                    case.planes = [0, 1, 2].map(plane);
                    case.rounds = 1 + code as u32 % 4;
                    case.both_searches();
                }
            }
        }
    });
}

#[test]
fn larger_picture() {
    each_round("in_place::larger_picture", 1, |random, origin| {
        for transform in 0..TRANSFORMS {
            let depths = random::depths(random);
            let settings = Settings { width: 300, height: 200, depths, transform };
            let mut case = bare(&random::case_of(random, settings, origin));
            case.rounds = 1;
            let (found, filters) = case.search_in_place();
            assert_eq!((found.refusal, found.samples), (0, 4096), "{case}");
            let again = Case { choices: filters, ..case };
            assert_eq!(again.estimate_in_place(), found, "{again}");
        }
    });
}

fn lent(planes: &mut [Vec<i32>; 3]) -> [&mut [i32]; 3] {
    planes.each_mut().map(Vec::as_mut_slice)
}

/// One call after another on the same memory: each finds the picture there that the first was lent.
#[test]
fn same_memory_again() {
    each_round("same_memory_again", 300, |random, origin| {
        let case = small(random, origin);
        let Settings { width, height, depths, transform } = case.settings;
        let settings = library::Settings { width, height, depths, transform };
        let Case { mut planes, mut choices, mut counters, rounds, .. } = case.clone();
        let given = library::estimate_in_place(settings, &choices, lent(&mut planes), &mut counters).expect(origin);
        let found =
            library::search_in_place(settings, rounds, &mut choices, lent(&mut planes), &mut counters).expect(origin);
        let again = library::estimate_in_place(settings, &choices, lent(&mut planes), &mut counters).expect(origin);
        library::forward(settings, &choices, lent(&mut planes)).expect(origin);
        let first = case.estimate();
        assert_eq!((given.estimate, given.samples), (first.estimate, first.samples), "{case}");
        let (first, filters) = case.search();
        assert_eq!((found.estimate, found.samples, &choices), (first.estimate, first.samples, &filters), "{case}");
        assert_eq!(again, found, "{case}");
        assert_eq!(planes, Case { choices, ..case.clone() }.forward().1, "{case}");
    });
}

/// Null pointers of length 0 are allowed for the choices, the planes and the counters.
#[test]
fn null_pointers() {
    let (mut choices, mut planes) = ([7u8; 4], [[1i32]; 3]);
    let (choice, plane) = (choices.as_mut_ptr(), planes.each_mut().map(|plane| plane.as_mut_ptr()));
    let (no_choice, no_plane) = (null_mut::<u8>(), [null_mut::<i32>(); 3]);
    #[rustfmt::skip]
    let answers = |width, choices: *mut u8, count, [c1, c2, c3]: [*mut i32; 3], length| {
        // SAFETY: every pointer points to as many elements as said, and no two overlap.
        let (estimated, found) = unsafe {
            (
                c::rulantip_estimate_in_place(
                    width, 1, 5, 6, 5, 0, choices, count, c1, length, c2, length, c3, length, null_mut(), 0,
                ),
                c::rulantip_search_in_place(
                    width, 1, 5, 6, 5, 0, 1, choices, count, c1, length, c2, length, c3, length, null_mut(), 0,
                ),
            )
        };
        [estimated.refusal, found.refusal]
    };
    assert_eq!(answers(0, no_choice, 0, no_plane, 0), [2; 2]);
    assert_eq!(answers(1, no_choice, 0, no_plane, 0), [7; 2]);
    assert_eq!(answers(1, choice, 4, no_plane, 0), [8; 2]);
    assert_eq!(answers(1, choice, 4, plane, 1), [9; 2]);
    assert_eq!((choices, planes), ([7; 4], [[1]; 3]));
}
