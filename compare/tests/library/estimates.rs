//! The estimate and the search, with trial planes and in place; scratch holds noise.

use crate::random::{self, each_round, Random};
use crate::same::Case;
use compare::reference::{self, counters, greatest, places, Scratch, Settings, TRANSFORMS};

#[test]
fn random_estimates() {
    each_round("random_estimates", 4000, |random, origin| {
        let case = random::case(random, origin);
        assert_eq!(case.both_estimates().refusal, 0, "{case}");
    });
}

#[test]
fn random_searches() {
    each_round("random_searches", 900, |random, origin| {
        let mut case = random::case(random, origin);
        if case.samples() > 200 {
            case.settings.height = 1 + 200 / case.settings.width;
            case = random::case_of(random, case.settings, origin);
        }
        search_then_estimate(&case);
    });
}

/// The search, and the estimate under what it found: the same answer.
pub fn search_then_estimate(case: &Case) {
    let (found, filters) = case.both_searches();
    assert_eq!(found.refusal, 0, "{case}");
    let again = Case { choices: filters, ..case.clone() };
    assert_eq!(again.both_estimates(), found, "{case}");
}

/// Scratch exactly enough, one short in each part, and much longer than needed. In place the trial planes do not matter.
#[test]
fn scratch_lengths() {
    each_round("scratch_lengths", 200, |random, origin| {
        let mut settings = random::settings(random);
        settings.width = settings.width.min(6);
        settings.height = settings.height.min(6);
        let mut exact = random::case_of(random, settings, origin);
        let samples = exact.samples();
        exact.trial.iter_mut().for_each(|plane| plane.truncate(samples));
        exact.counters.truncate(counters(settings.depths, settings.transform));
        let answers = |case: &Case, first, in_place| {
            assert_eq!((case.estimate().refusal, case.search().0.refusal), (first, first), "{case}");
            let answers = (case.estimate_in_place().refusal, case.search_in_place().0.refusal);
            assert_eq!(answers, (in_place, in_place), "{case}");
        };
        answers(&exact, 0, 0);
        for plane in 0..3 {
            let mut short = exact.clone();
            short.trial[plane].pop();
            answers(&short, 9, 0);
        }
        let mut short = exact.clone();
        short.counters.pop();
        answers(&short, 9, 9);
        let mut long = exact;
        long.trial.iter_mut().for_each(|plane| plane.extend((0..random.below(300)).map(|i| i as i32 - 7)));
        long.counters.extend((0..random.below(3000)).map(|i| u32::MAX - i as u32));
        answers(&long, 0, 0);
    });
}

/// Every transform and depth with all counters at their need: the residuals at the ends of the widest range.
#[test]
fn every_depth() {
    each_round("every_depth", 3, |random, origin| {
        for transform in 0..TRANSFORMS {
            for depths in random::many_depths(random) {
                let (width, height) = random.one_of(&[(4, 3), (1, 5), (6, 1)]);
                let mut case = random::case_of(random, Settings { width, height, depths, transform }, origin);
                let mut end = |greatest: i64| random.one_of(&[0, greatest as i32]);
                case.planes = greatest(depths).map(|greatest| (0..case.samples()).map(|_| end(greatest)).collect());
                case.both_estimates();
                if random.one_in(3) {
                    case.both_searches();
                }
            }
        }
    });
}

/// More samples than are counted: those just at the limits, widths that do not divide 4,096, and
/// narrow planes, where the next counted sample is a whole row further or more.
#[test]
fn larger_pictures() {
    const SIZES: [(u32, u32); 17] = [
        (64, 64),
        (17, 241),
        (4097, 1),
        (1, 4097),
        (1, 8192),
        (8192, 1),
        (5, 1639),
        (128, 96),
        (111, 111),
        (150, 151),
        (4096, 5),
        (7, 4681),
        (2, 2500),
        (3, 8000),
        (5, 4915),
        (8191, 3),
        (4095, 2),
    ];
    each_round("estimates::larger_pictures", 2, |random, origin| {
        for (width, height) in SIZES {
            for transform in 0..TRANSFORMS {
                let depths = random::depths(random);
                let case = random::case_of(random, Settings { width, height, depths, transform }, origin);
                let answer = case.both_estimates();
                assert_eq!((answer.refusal, answer.samples), (0, 4096), "{case}");
            }
        }
    });
}

#[test]
fn larger_searches() {
    const SIZES: [(u32, u32); 6] = [(1, 8192), (8192, 1), (64, 65), (97, 101), (130, 120), (17, 241)];
    each_round("larger_searches", 1, |random, origin| {
        for (i, (width, height)) in SIZES.into_iter().enumerate() {
            let transform = i as u32 % TRANSFORMS;
            let depths = random::depths_to(random, 8);
            let mut case = random::case_of(random, Settings { width, height, depths, transform }, origin);
            case.rounds = 2;
            search_then_estimate(&case);
        }
    });
}

/// Every entry of the table of logarithms: 4,096 samples of which n have one residual and the rest
/// another, for all n; then fewer samples.
#[test]
fn every_logarithm() {
    each_round("every_logarithm", 1, |random, origin| {
        let settings = Settings { width: 4096, height: 1, depths: [13, 16, 14], transform: 2 };
        let mut case = random::case_of(random, settings, origin);
        case.choices = vec![12; 2];
        for first in (0..=2048).step_by(3) {
            case.planes = [first, first + 1, first + 2].map(|count| slope(count, 4096));
            assert_eq!(case.both_estimates().samples, 4096, "{case}");
        }
        for samples in (1..4096).step_by(7) {
            case.settings.width = samples as u32;
            case.planes = [0, 1, samples / 2].map(|count| slope(count, samples));
            assert_eq!(case.both_estimates().samples, samples as u32, "{case}");
        }
    });
}

/// A row whose residuals are 1 as often as `count` says, then 0.
fn slope(count: usize, samples: usize) -> Vec<i32> {
    (1..=samples).map(|sample| sample.min(count) as i32).collect()
}

/// Searches in which the tie rules matter: a present filter that ties with a lower number and stays,
/// and a tie of several filters that beat the present one. Both must be met often.
#[test]
fn ties() {
    let (mut stays, mut shared) = (0, 0);
    each_round("ties", 600, |random, origin| {
        let width = random.one_of(&[2, 3, 4]);
        let height = random.one_of(&[1, 2, 3]);
        let most = random.one_of(&[2, 3, 8]);
        let depths = random::depths_to(random, most);
        let transform = random.below(TRANSFORMS as usize) as u32;
        let case = random::case_of(random, Settings { width, height, depths, transform }, origin);
        let (one, two) = tie_kinds(&case);
        stays += one;
        shared += two;
        search_then_estimate(&case);
    });
    eprintln!("{stays} times a present filter above 0 tied, {shared} times several new ones");
    if std::env::var_os("RULANTIP_ROUNDS").is_none() {
        assert!(stays > 15 && shared > 50, "too few ties: {stays} and {shared}");
    }
}

/// How often, in the case's search, the present filter ties with a lower number for the lowest
/// estimate, and how often several others tie below the present one.
fn tie_kinds(case: &Case) -> (usize, usize) {
    let planes = case.planes.each_ref().map(Vec::as_slice);
    let ample = Scratch { trial: [usize::MAX; 3], counters: usize::MAX };
    let places = places(case.settings.transform);
    let (mut stays, mut shared) = (0, 0);
    let mut filters = vec![0u8; places];
    for _ in 0..case.rounds {
        for place in 0..places {
            let estimates: Vec<u32> = (0..=12)
                .map(|filter| {
                    let mut trial = filters.clone();
                    trial[place] = filter;
                    reference::estimate(case.settings, &trial, planes, ample).unwrap().estimate
                })
                .collect();
            let lowest = *estimates.iter().min().unwrap();
            let winners: Vec<usize> = (0..=12).filter(|&filter| estimates[filter] == lowest).collect();
            let present = filters[place] as usize;
            if winners.contains(&present) {
                stays += usize::from(winners[0] < present);
            } else {
                shared += usize::from(winners.len() > 1);
                filters[place] = winners[0] as u8;
            }
        }
    }
    (stays, shared)
}

/// The search does not depend on what the scratch holds.
#[test]
fn scratch_content() {
    each_round("scratch_content", 150, |random, origin| {
        let mut settings = random::settings(random);
        (settings.width, settings.height) = (settings.width.min(8), settings.height.min(8));
        let case = random::case_of(random, settings, origin);
        let answers: Vec<_> = fills(random)
            .into_iter()
            .map(|(trial, counter)| {
                let mut filled = case.clone();
                filled.trial.iter_mut().for_each(|plane| plane.fill(trial));
                filled.counters.fill(counter);
                (filled.both_estimates(), filled.both_searches())
            })
            .collect();
        assert!(answers.windows(2).all(|pair| pair[0] == pair[1]), "{case}");
    });
}

fn fills(random: &mut Random) -> [(i32, u32); 3] {
    [(0, 0), (i32::MIN, u32::MAX), (random.number() as i32, 1 + random.below(5000) as u32)]
}
