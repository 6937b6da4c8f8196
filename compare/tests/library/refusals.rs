//! Every refusal, alone and with others: the first in the order of the tests wins.

use crate::faults::{faults, Call, CALLS};
use crate::library::c;
use crate::random::{self, each_round, Random};
use crate::same::{Case, FORWARD, FORWARD_WRAPPED, INVERSE, INVERSE_WRAPPED};
use crate::wrapped;
use compare::reference::{greatest, places, Settings, TRANSFORMS};
use std::ptr::null_mut;

/// A case with no fault for the call, which has bands or not. Two pixels or more, so that every length can be short and
/// not empty.
fn sound(random: &mut Random, (call, banded): (Call, bool), transform: u32, origin: &str) -> Case {
    let depths = random.one_of(&[[2; 3], [5; 3], [8; 3], [5, 6, 5], [8, 2, 5], [2, 9, 3]]);
    let (width, height) = if banded { (1, 3) } else { (2, 1) };
    let mut case = random::case_of(random, Settings { width, height, depths, transform }, origin);
    if banded {
        let rows = random.one_of(&[1, 2, 3]);
        case = random::banded_by(random, &case, rows);
    }
    if call == Call::Inverse {
        case.planes = case.forward().1;
    }
    if call.is_wrapped() {
        case = case.wrapped();
    }
    if !call.has_trial_planes() {
        case.trial = Default::default();
    }
    assert_eq!(call.answer(&case), 0, "{case}");
    case
}

#[test]
fn one_fault_and_two() {
    each_round("one_fault_and_two", 1, |random, origin| {
        for (call, banded) in CALLS {
            for transform in 0..TRANSFORMS {
                let case = sound(random, (call, banded), transform, origin);
                faults(call, &case).one_and_two(&case, |case| call.answer(case));
            }
        }
    });
}

/// Any number of faults at once; the reference says which comes first.
#[test]
fn several_faults() {
    each_round("several_faults", 4800, |random, origin| {
        let (call, banded) = random.one_of(&CALLS);
        let transform = random.below(TRANSFORMS as usize) as u32;
        let mut case = sound(random, (call, banded), transform, origin);
        faults(call, &case).make_some(random, &mut case);
        call.answer(&case);
    });
}

/// The last settings on the right side of every limit are taken.
#[test]
fn limits_pass() {
    each_round("limits_pass", 1, |random, origin| {
        for (width, height, depths) in [
            (8192, 1, [8; 3]),
            (1, 8192, [8; 3]),
            (1, 1, [2; 3]),
            (1, 1, [16; 3]),
            (1, 1, [2, 16, 2]),
            (1, 1, [16, 2, 16]),
        ] {
            for transform in 0..TRANSFORMS {
                let mut case = random::case_of(random, Settings { width, height, depths, transform }, origin);
                case.choices = vec![12; places(transform)];
                let [highest1, _, highest3] = greatest(depths);
                case.planes = [highest1, 0, highest3].map(|sample| vec![sample as i32; case.samples()]);
                assert_eq!(case.forward().0, 0, "{case}");
                assert_eq!(case.both_estimates().refusal, 0, "{case}");
                wrapped::both_ways(&case.wrapped());
                for rounds in if case.samples() == 1 { 1..=4 } else { 1..=1 } {
                    case.rounds = rounds;
                    assert_eq!(case.both_searches().0.refusal, 0, "{case}");
                }
            }
        }
    });
}

/// The search takes choices that hold anything.
#[test]
fn search_ignores_lent_choices() {
    each_round("search_ignores_lent_choices", 300, |random, origin| {
        let mut case = random::case(random, origin);
        (case.settings.width, case.settings.height) = (3, 2);
        case = random::case_of(random, case.settings, origin);
        case.choices.iter_mut().for_each(|choice| *choice = random.below(256) as u8);
        assert_eq!(case.both_searches().0.refusal, 0, "{case}");
    });
}

/// Null pointers of length 0 are allowed everywhere.
#[test]
#[rustfmt::skip]
fn null_pointers() {
    let none32 = null_mut::<i32>();
    let choices = [0u8; 4];
    let choice = choices.as_ptr();
    let mut found = [7u8; 4];
    let plane = [0i32; 1];
    let p = plane.as_ptr();
    let mut trial = [[1i32; 1]; 3];
    let [t1, t2, t3] = trial.each_mut().map(|plane| plane.as_mut_ptr());
    // SAFETY: every pointer points to as many elements as said, and no two overlap.
    unsafe {
        let settings = |width| Settings { width, height: 1, depths: [6; 3], transform: 0 };
        for call in [FORWARD, INVERSE, FORWARD_WRAPPED, INVERSE_WRAPPED] {
            for band_height in [None, Some(1)] {
                let answer = |width, choices| call.answer(settings(width), band_height, choices, [(none32, 0); 3]);
                assert_eq!(answer(0, (null_mut(), 0)), 2);
                assert_eq!(answer(1, (null_mut(), 0)), 7);
                assert_eq!(answer(1, (choice, 4)), 8);
            }
            assert_eq!(call.answer(settings(1), Some(2), (null_mut(), 0), [(none32, 0); 3]), 17);
        }
        let estimate = |choices, count, plane, samples, t1, t2, t3, trial| {
            let answer = c::rulantip_estimate(
                1, 1, 5, 6, 5, 0, choices, count, plane, samples, plane, samples, plane, samples,
                t1, trial, t2, trial, t3, trial, null_mut(), 0,
            );
            answer.refusal
        };
        assert_eq!(estimate(null_mut(), 0, none32 as *const i32, 0, none32, none32, none32, 0), 7);
        assert_eq!(estimate(choice, 4, none32 as *const i32, 0, none32, none32, none32, 0), 8);
        assert_eq!(estimate(choice, 4, p, 1, none32, none32, none32, 0), 9);
        assert_eq!(estimate(choice, 4, p, 1, t1, t2, t3, 1), 9);
        let mut search = |count: usize, samples: usize| {
            let choices = if count == 0 { null_mut() } else { found.as_mut_ptr() };
            let plane = if samples == 0 { none32 as *const i32 } else { p };
            let answer = c::rulantip_search(
                1, 1, 5, 6, 5, 0, 1, choices, count, plane, samples, plane, samples, plane, samples,
                none32, 0, none32, 0, none32, 0, null_mut(), 0,
            );
            answer.refusal
        };
        assert_eq!([search(0, 0), search(4, 0), search(4, 1)], [7, 8, 9]);
    }
    assert_eq!((found, trial), ([7; 4], [[1]; 3]));
}

/// The same of the calls on files.
#[test]
fn null_pointers_and_files() {
    let none = null_mut::<i32>();
    let plane = [0i32; 1];
    // SAFETY: every pointer points to as many elements as said, and no two overlap.
    unsafe {
        assert_eq!(c::rulantip_p6_header(null_mut(), 0).refusal, 1);
        assert_eq!(c::rulantip_p6_planes(null_mut(), 0, none, 0, none, 0, none, 0), 1);
        let file = b"P6 1 1 3 abc";
        assert_eq!(c::rulantip_p6_planes(file.as_ptr(), file.len(), none, 0, none, 0, none, 0), 8);
        let write = |samples, count| c::rulantip_p5_write(1, 1, 5, 6, 5, 0, 1, samples, count, null_mut(), 0).refusal;
        assert_eq!([write(none, 0), write(plane.as_ptr(), 1)], [8, 14]);
        let read = |file, length| c::rulantip_p5_read(5, 6, 5, 0, 1, file, length, none, 0).refusal;
        let file = b"P5 1 1 94 a";
        assert_eq!([read(null_mut(), 0), read(file.as_ptr(), file.len())], [1, 8]);
    }
}
