//! The wrapped forms. `transforms.rs` runs them on its pictures too, `small.rs` on all planes of few pixels, and
//! `refusals.rs` tries their refusals.

use crate::random::{self, each_round, Random};
use crate::same::Case;
use compare::reference::{all_depths, greatest, places, Settings, TRANSFORMS};

/// There and back, and back and there: three planes of 0 to M are a picture, and also what some picture goes to.
pub fn both_ways(case: &Case) {
    let (answer, finished) = case.forward_wrapped();
    assert_eq!(answer, 0, "{case}");
    assert_eq!(case.with(finished).inverse_wrapped(), (0, case.planes.clone()), "{case}");
    let (answer, picture) = case.inverse_wrapped();
    assert_eq!(answer, 0, "{case}");
    assert_eq!(case.with(picture).forward_wrapped(), (0, case.planes.clone()), "{case}");
}

/// A case of that size, depth and transform.
fn case_of(random: &mut Random, size: (u32, u32), depth: u32, transform: u32, origin: &str) -> Case {
    let settings = Settings { width: size.0, height: size.1, depths: [depth; 3], transform };
    random::case_without_scratch(random, settings, origin)
}

/// M.
fn highest(case: &Case) -> i32 {
    greatest(case.settings.depths)[0] as i32
}

/// Planes of 0 to M of no kind.
fn noise(random: &mut Random, case: &Case) -> [Vec<i32>; 3] {
    let highest = i64::from(highest(case));
    [(); 3].map(|()| (0..case.samples()).map(|_| random.between(0, highest) as i32).collect())
}

/// Calls `test` with every depth and transform.
fn each_depth_and_transform(mut test: impl FnMut(u32, u32)) {
    (2..=16).for_each(|depth| (0..TRANSFORMS).for_each(|transform| test(depth, transform)));
}

/// The second paper's pixel. RCT: 10 - 200 is 66 and 60 - 200 is 116 modulo 256; 200 + (66 + 116)/4 = 200 + 45.
/// YCoCg-R: 10 - 60 is 206; 60 + 206/2 = 163; 200 - 163 = 37; 163 + 37/2 = 163 + 18.
#[test]
fn one_pixel() {
    const FINISHED: [[i32; 3]; 4] = [[66, 245, 116], [206, 37, 181], [10, 66, 140], [233, 66, 83]];
    for (transform, finished) in (0..TRANSFORMS).zip(FINISHED) {
        let mut case = case_of(&mut Random::new(1), (1, 1), 8, transform, "");
        case.choices.fill(0);
        case.planes = [10, 200, 60].map(|sample| vec![sample]);
        assert_eq!(case.forward_wrapped(), (0, finished.map(|number| vec![number])), "{case}");
        both_ways(&case);
    }
}

/// Pictures of all kinds, and planes of no kind, with many places null.
#[test]
fn every_depth() {
    const SIZES: [(u32, u32); 7] = [(1, 1), (1, 9), (8, 1), (2, 2), (3, 3), (6, 5), (33, 18)];
    each_round("wrapped::every_depth", 5, |random, origin| {
        each_depth_and_transform(|depth, transform| {
            for size in SIZES {
                let mut case = case_of(random, size, depth, transform, origin);
                case.set_nulls(random.below(16) as u32, || random.below(13) as u8);
                both_ways(&case);
                both_ways(&case.with(noise(random, &case)));
            }
        });
    });
}

/// Planes of 0 alone, of M alone, and both checkerboards of 0 and M, in every combination.
#[test]
fn ends_of_the_range() {
    let mut random = Random::new(1);
    each_depth_and_transform(|depth, transform| {
        let mut case = case_of(&mut random, (5, 4), depth, transform, "");
        let highest = highest(&case);
        let kinds: [fn(usize) -> bool; 4] = [|_| false, |_| true, |i| (i + i / 5) % 2 == 0, |i| (i + i / 5) % 2 == 1];
        let kinds = kinds.map(|at_end| (0..20).map(|i| if at_end(i) { highest } else { 0 }).collect::<Vec<i32>>());
        for filter in [0, 1, 4, 11] {
            case.choices.fill(filter);
            for code in 0..64 {
                case.planes = [code % 4, code / 4 % 4, code / 16].map(|kind| kinds[kind].clone());
                both_ways(&case);
            }
        }
    });
}

/// "RCT's sum of two filtered values is divided before anything is reduced": M + M, where each other rule gives less.
#[test]
fn sum_divided_before_it_is_reduced() {
    for depth in 2..=16 {
        let (modulus, half) = (1 << depth, 1 << (depth - 1));
        let highest = modulus - 1;
        let quarter = 2 * highest / 4;
        assert_eq!(quarter, half - 1);
        assert!(2 * highest % modulus / 4 < quarter && 2 * (highest / 4) < quarter);
        for filter in 0..12 {
            let mut case = case_of(&mut Random::new(1), (3, 3), depth, 0, "");
            case.choices = vec![filter; 4];
            case.planes = [highest, 0, highest].map(|sample| vec![sample; 9]);
            let finished = [highest, half - 1, highest].map(|number| vec![number; 9]);
            assert_eq!(case.forward_wrapped(), (0, finished), "{case}");
            // Back, plane 2 becomes 0 - (half - 1), which is half + 1, and half + 1 + M is half.
            let picture = [half, half + 1, half].map(|sample| vec![sample; 9]);
            assert_eq!(case.inverse_wrapped(), (0, picture), "{case}");
        }
    }
}

/// The planes that one step changes, or none, by a filtered plane of the picture itself.
pub const BY_ONE_STEP: [&[usize]; 4] = [&[0, 2], &[0], &[0, 1, 2], &[1]];

/// Such a plane is the plain form's modulo 2^b.
#[test]
fn plain_form_modulo() {
    each_round("plain_form_modulo", 10, |random, origin| {
        each_depth_and_transform(|depth, transform| {
            let case = case_of(random, (7, 6), depth, transform, origin);
            let ((_, plain), (_, wrapped)) = (case.forward(), case.forward_wrapped());
            for &plane in BY_ONE_STEP[transform as usize] {
                let modulo: Vec<i32> = plain[plane].iter().map(|number| number.rem_euclid(1 << depth)).collect();
                assert_eq!(wrapped[plane], modulo, "{case}");
            }
        });
    });
}

/// Ranges of R, G and B in which no step leaves 0 to M, whatever the filters. RCT: G is 0. YCoCg-R: B is 0, so plane 3 is at
/// most M/2, and G is M. RDgDb: from B to G to R every sample is above those before. LDgEb: R is above M/2, no G is above
/// an R, so plane 1 is R less at most M/2, and B is M.
pub fn staying(transform: u32, m: i64) -> [(i64, i64); 3] {
    match transform {
        0 => [(0, m), (0, 0), (0, m)],
        1 => [(0, m), (m, m), (0, 0)],
        2 => [(m - m / 3, m), (m / 3, m - m / 3), (0, m / 3)],
        _ => [(m - m / 2, m), (0, m - m / 2), (m, m)],
    }
}

/// Where no step leaves 0 to M both forms give the same.
#[test]
fn nothing_to_wrap() {
    each_round("nothing_to_wrap", 10, |random, origin| {
        each_depth_and_transform(|depth, transform| {
            let mut case = case_of(random, (6, 7), depth, transform, origin);
            let m = highest(&case);
            case.planes = staying(transform, m.into())
                .map(|(low, high)| (0..42).map(|_| random.between(low, high) as i32).collect());
            let (_, plain) = case.forward();
            assert!(plain.iter().flatten().all(|number| (0..=m).contains(number)), "{case}");
            assert_eq!(case.forward_wrapped(), (0, plain.clone()), "{case}");
            let finished = case.with(plain);
            assert_eq!(finished.inverse_wrapped(), finished.inverse(), "{case}");
            let zeros = case.with([(); 3].map(|()| vec![0; 42]));
            assert_eq!(zeros.forward_wrapped(), zeros.forward(), "{zeros}");
        });
    });
}

/// Planes of M alone: the plain inverse refuses them, under every filter but null.
#[test]
fn planes_that_only_the_wrapped_form_reaches() {
    each_depth_and_transform(|depth, transform| {
        for filter in 0..12 {
            let mut case = case_of(&mut Random::new(1), (3, 2), depth, transform, "");
            case.choices = vec![filter; places(transform)];
            case.planes = [(); 3].map(|()| vec![highest(&case); 6]);
            assert_eq!(case.inverse().0, 12, "{case}");
            both_ways(&case);
        }
    });
}

/// One number outside 0 to M, at every index of every plane; also numbers that are the sample there modulo 2^b.
#[test]
fn samples_outside() {
    let mut random = Random::new(1);
    each_depth_and_transform(|depth, transform| {
        let case = case_of(&mut random, (3, 3), depth, transform, "");
        let (m, modulus) = (highest(&case), 1 << depth);
        for (plane, index) in (0..3).flat_map(|plane| (0..9).map(move |index| (plane, index))) {
            let sample = case.planes[plane][index];
            for outside in [-1, m + 1, i32::MIN, i32::MAX, sample + modulus, sample - modulus] {
                let mut case = case.clone();
                case.planes[plane][index] = outside;
                assert_eq!([case.forward_wrapped().0, case.inverse_wrapped().0], [11; 2], "{case}");
            }
        }
    });
}

/// Every three depths: 16 exactly where they differ.
#[test]
fn depths_that_differ() {
    for depths in all_depths() {
        let mut case = case_of(&mut Random::new(1), (1, 1), 2, 2, "");
        case.settings.depths = depths;
        let number = if depths[0] == depths[1] && depths[1] == depths[2] { 0 } else { 16 };
        assert_eq!([case.forward_wrapped().0, case.inverse_wrapped().0], [number; 2], "{case}");
    }
}
