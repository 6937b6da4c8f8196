//! "A plane's estimate differs by less than N from 64 times N times the exact memoryless entropy of its counted
//! residuals": the library's estimates, held to the counts themselves. The table of logarithms has no part here.

use crate::library::{self, Estimated};
use crate::random::{self, each_round, Random};
use crate::same::Case;
use compare::reference::{self, run, Form, Natural, Settings, TRANSFORMS};

/// How often each residual that occurs does so, in each of the three finished planes.
fn counts(case: &Case) -> [Vec<u32>; 3] {
    let Settings { width, height, transform, .. } = case.settings;
    let picture = case.planes.each_ref().map(|plane| plane.iter().map(|&sample| sample.into()).collect());
    let finished = run(Form::Plain, transform, width as usize, height as usize, None, &case.choices, picture);
    finished.map(|plane| reference::counts(&plane, width as usize))
}

/// What the library answers, which must be no refusal.
fn estimated(case: &Case) -> Estimated {
    let Settings { width, height, depths, transform } = case.settings;
    let settings = library::Settings { width, height, depths, transform };
    let (mut trial, mut counters) = (case.trial.clone(), case.counters.clone());
    let scratch = library::Scratch { trial: trial.each_mut().map(Vec::as_mut_slice), counters: &mut counters };
    let answer = library::estimate(settings, &case.choices, case.planes.each_ref().map(Vec::as_slice), scratch);
    answer.unwrap_or_else(|refusal| panic!("{refusal}\n{case}"))
}

/// The two inequalities of a plane; of several planes with one N they are multiplied, and E is the estimates' sum.
struct Exact {
    /// N, as often as there are planes.
    samples: u32,
    /// N^(64 × N) for each plane.
    whole: Natural,
    /// P^64, P being the product of c^c over the residuals that occur in each plane.
    parts: Natural,
}

impl Exact {
    fn of(planes: &[Vec<u32>]) -> Exact {
        let n = planes[0].iter().sum();
        let samples = n * planes.len() as u32;
        let own = |product: Natural, &count: &u32| product.times(&Natural::new(count).power(count));
        let product = planes.iter().flatten().fold(Natural::new(1), own);
        Exact { samples, whole: Natural::new(n).power(64 * samples), parts: product.power(64) }
    }

    /// "2^E × P^64 is below 2^N × N^(64 × N)".
    fn is_below(&self, estimate: u32) -> bool {
        let two = Natural::new(2);
        two.power(estimate).times(&self.parts) < two.power(self.samples).times(&self.whole)
    }

    /// "N^(64 × N) is below 2^(E + N) × P^64", of E + N.
    fn is_above(&self, sum: u32) -> bool {
        self.whole < Natural::new(2).power(sum).times(&self.parts)
    }

    fn hold(&self, estimate: u32) -> bool {
        self.is_below(estimate) && self.is_above(estimate + self.samples)
    }
}

/// Samples below 2^13 of one row or column: one number, residuals that all differ, few numbers, any.
fn kinds(random: &mut Random, samples: usize) -> [Vec<i32>; 5] {
    let mut noise = |below: usize| (0..samples).map(|_| random.below(below) as i32).collect();
    let sums = (0..samples as i32).map(|i| i * (i + 1) / 2).collect();
    [vec![0; samples], vec![60; samples], sums, noise(3), noise(1 << 13)]
}

/// A grey picture of one row or column with these samples, and the counts of its first plane's residuals. RDgDb makes the
/// second and third plane 0, and so their estimates: the library answers the first plane's alone.
fn grey_case(random: &mut Random, grey: Vec<i32>, origin: &str) -> (Case, Vec<u32>) {
    let samples = grey.len() as u32;
    let (width, height) = random.one_of(&[(samples, 1), (1, samples)]);
    let case = random::case_of(random, Settings { width, height, depths: [13; 3], transform: 2 }, origin);
    let case = Case { choices: vec![0; 2], planes: [grey.clone(), grey.clone(), grey], ..case };
    let [first, others @ ..] = counts(&case);
    assert_eq!(others, [[samples]; 2], "{case}");
    (case, first)
}

/// Calls `test` with grey pictures of so many samples.
fn each_grey(random: &mut Random, samples: usize, origin: &str, test: impl Fn(&Case, &Exact)) {
    for grey in kinds(random, samples) {
        let (case, counts) = grey_case(random, grey, origin);
        test(&case, &Exact::of(&[counts]));
    }
}

#[test]
fn one_plane_exactly() {
    each_round("one_plane_exactly", 1, |random, origin| {
        for samples in 1..=100 {
            each_grey(random, samples, origin, |case, exact| {
                let answer = estimated(case);
                assert_eq!(answer.samples, exact.samples, "{case}");
                assert!(exact.hold(answer.estimate), "{answer:?}\n{case}");
            });
        }
    });
}

/// Of one sample the bounds leave one estimate: one more is not below, and without N it is not above.
#[test]
fn one_sample() {
    each_round("entropy::one_sample", 5, |random, origin| {
        each_grey(random, 1, origin, |case, exact| {
            let Estimated { estimate, .. } = estimated(case);
            assert!(exact.is_below(estimate) && !exact.is_below(estimate + 1), "{case}");
            assert!(exact.is_above(estimate + 1) && !exact.is_above(estimate), "{case}");
        });
    });
}

#[test]
fn three_planes_exactly() {
    each_round("three_planes_exactly", 300, |random, origin| {
        let mut settings = random::settings(random);
        (settings.width, settings.height) = (settings.width.min(8), settings.height.min(8));
        let case = random::case_of(random, settings, origin);
        let answer = estimated(&case);
        let exact = Exact::of(&counts(&case));
        assert_eq!(exact.samples, 3 * answer.samples, "{case}");
        assert!(exact.hold(answer.estimate), "{answer:?}\n{case}");
    });
}

/// The entropy of a plane's counted residuals, in bits.
fn entropy(counts: &[u32]) -> f64 {
    let n: u32 = counts.iter().sum();
    let part = |&count: &u32| f64::from(count) / f64::from(n);
    counts.iter().map(part).map(|part| -part * part.log2()).sum()
}

/// In floating point, whose error here is far below one sixty-fourth of a bit.
#[test]
fn larger_pictures() {
    each_round("entropy::larger_pictures", 8, |random, origin| {
        for (width, height) in [(64, 64), (65, 63), (300, 200)] {
            for (transform, depth) in (0..TRANSFORMS).flat_map(|transform| [(transform, 8), (transform, 16)]) {
                let settings = Settings { width, height, depths: [depth; 3], transform };
                let case = random::case_of(random, settings, origin);
                let answer = estimated(&case);
                assert_eq!(answer.samples, (width * height).min(4096), "{case}");
                let n = f64::from(answer.samples);
                let bits: f64 = counts(&case).iter().map(|counts| entropy(counts)).sum();
                let difference = f64::from(answer.estimate) - 64.0 * n * bits;
                assert!(difference.abs() < 3.0 * n, "{answer:?}, {bits} bits\n{case}");
            }
        }
    });
}

/// Of all counts that add up to 4,096 or less, these are the furthest off, calculated: 2,599 that are all 1, whose estimate
/// is too low, and six, whose estimate is too high.
#[test]
fn bounds_nearly_met() {
    let different = (1..2599).map(|i| if i % 2 == 0 { i } else { -i }).collect();
    let few = [(0, 1231), (1, 939), (-1, 939), (2, 501), (-2, 485)];
    let few = few.into_iter().flat_map(|(residual, count)| vec![residual; count]).collect();
    let cases: [(Vec<i32>, _); 2] = [(different, -1.0..-0.999), (few, 0.998..1.0)];
    each_round("bounds_nearly_met", 1, |random, origin| {
        for (residuals, off) in cases.clone() {
            // The first residual is the first sample.
            let next = |sample: &mut i32, residual| {
                *sample += residual;
                Some(*sample)
            };
            let grey = std::iter::once(0).chain(residuals).scan(4096, next).collect();
            let (case, counts) = grey_case(random, grey, origin);
            let Estimated { estimate, samples } = estimated(&case);
            let difference = f64::from(estimate) / f64::from(samples) - 64.0 * entropy(&counts);
            assert!(off.contains(&difference), "{difference} × N\n{case}");
        }
    });
}
