//! "No bricks in the rock": what a call leaves at a spot depends on what it is lent near that spot, there and back.

use crate::random::{self, each_round, sample, Random};
use crate::same::Case;
use compare::reference::{greatest, Settings, TRANSFORMS};
use std::ops::Range;

/// How far planes 1, 2 and 3 reach once a transform's steps have run. Before, each plane reaches 0. A filtered value
/// reaches one row and one column further than the plane that it is taken of, and the plane that a step changes as far
/// as before or as the filtered values, whichever is more. RCT: C1 1 and C3 1, both from C2 0; C2 2 from these.
/// YCoCg-R: C1 1, C3 2, C2 3, C3 4, each from the one before. RDgDb: C3 1 from C2 0; C2 1 from C1 0; C1 stays 0.
/// LDgEb: C2 1, C1 2, C3 3, each from the one before.
const RUN: [[usize; 3]; 4] = [[1, 2, 1], [1, 3, 4], [0, 1, 1], [2, 1, 3]];

/// The same for the steps undone, the last one first. RCT: C2 1 from C1 and C3 0; C3 2 and C1 2 from C2. YCoCg-R: C3 1
/// from C2 0; C2 2 from C3; C3 still 1, now from C1 0; C1 2 from C3. RDgDb: C2 1 from C1 0; C3 2 from C2; C1 stays 0.
/// LDgEb: C3 1 from C1 0; C1 1 from C2 0; C2 2 from C1.
const UNDONE: [[usize; 3]; 4] = [[2, 1, 2], [2, 2, 1], [0, 1, 2], [1, 2, 1]];

/// A call; for each transform, the distance that serves all planes, and each plane's own.
struct Way {
    call: fn(&Case) -> (u32, [Vec<i32>; 3]),
    wrapped: bool,
    farthest: [usize; 4],
    own: [[usize; 3]; 4],
}

const FORWARD: Way = Way { call: Case::forward, wrapped: false, farthest: [2, 4, 1, 3], own: RUN };
const FORWARD_WRAPPED: Way = Way { call: Case::forward_wrapped, wrapped: true, ..FORWARD };
const INVERSE: Way = Way { call: Case::inverse, wrapped: false, farthest: [2; 4], own: UNDONE };
const INVERSE_WRAPPED: Way = Way { call: Case::inverse_wrapped, wrapped: true, ..INVERSE };

/// The ways that are open to all samples.
const OPEN: [Way; 3] = [FORWARD, FORWARD_WRAPPED, INVERSE_WRAPPED];

impl Way {
    fn own(&self, case: &Case) -> [usize; 3] {
        self.own[case.settings.transform as usize]
    }

    /// The planes after the call, or none where no picture reaches those lent.
    fn planes(&self, case: &Case) -> Option<[Vec<i32>; 3]> {
        let (answer, planes) = (self.call)(case);
        assert!([0, 12].contains(&answer), "the answer is {answer}\n{case}");
        (answer == 0).then_some(planes)
    }

    /// Compares what the call leaves of two cases: each plane's numbers at all spots within whose distance both agree.
    /// The other case may be a part of the size; its first pixel stands at pixel `first` of the case. The answer is how
    /// many numbers were compared, or 0 if the cases are the same or one is refused.
    fn agree(&self, case: &Case, other: &Case, first: usize) -> usize {
        let [width, other_width] = [case, other].map(|case| case.settings.width as usize);
        let pixel = |index| first + index / other_width * width + index % other_width;
        let same = |index: &usize| (0..3).all(|i| other.planes[i][*index] == case.planes[i][pixel(*index)]);
        let agreed: Vec<usize> = (0..other.samples()).filter(same).map(pixel).collect();
        let differ: Vec<usize> = (0..case.samples()).filter(|pixel| !agreed.contains(pixel)).collect();
        let (Some(after), Some(after_other)) = (self.planes(case), self.planes(other)) else { return 0 };
        let mut compared = 0;
        for (plane, distance) in self.own(case).into_iter().enumerate() {
            let clear = |index: &usize| differ.iter().all(|&other| apart(case, pixel(*index), other) > distance);
            for index in (0..other.samples()).filter(clear) {
                let (number, number_other) = (after[plane][pixel(index)], after_other[plane][index]);
                assert_eq!(number, number_other, "plane {} at {index}, {distance}\n{case}{other}", plane + 1);
                compared += usize::from(!differ.is_empty());
            }
        }
        compared
    }
}

/// The rows or the columns from one pixel to another, whichever are more.
fn apart(case: &Case, one: usize, other: usize) -> usize {
    let width = case.settings.width as usize;
    (one / width).abs_diff(other / width).max((one % width).abs_diff(other % width))
}

/// Calls `test` with cases for the way: all depths, all transforms, sizes and choices of many kinds, half of them with
/// bands. `test` answers how many numbers it compared; for each transform, with bands and without, there must be some.
fn each_case(name: &str, rounds: u64, way: &Way, mut test: impl FnMut(&mut Random, &Case) -> usize) {
    const SIZES: [(u32, u32); 11] =
        [(1, 1), (1, 6), (1, 20), (5, 1), (19, 1), (2, 2), (3, 3), (2, 11), (7, 4), (10, 9), (20, 17)];
    let mut compared = [[0; 4]; 2];
    each_round(name, rounds, |random, origin| {
        for depths in random::many_depths(random) {
            for transform in 0..TRANSFORMS {
                let (width, height) = random.one_of(&SIZES);
                let settings = Settings { width, height, depths, transform };
                let mut case = random::case_without_scratch(random, settings, origin);
                match random.below(3) {
                    0 => case.choices.fill(1),
                    1 => case.set_nulls(random.below(16) as u32, || random.below(12) as u8),
                    _ => {}
                }
                let banded = random.one_in(2);
                let case = if banded { random::banded(random, &case) } else { case };
                let case = if way.wrapped { case.wrapped() } else { case };
                compared[usize::from(banded)][transform as usize] += test(random, &case);
            }
        }
    });
    assert!(!compared.concat().contains(&0), "{name} compared {compared:?}");
}

/// The case with other numbers at the pixels told, each made of its plane's M and the number there.
fn changed(case: &Case, at: impl Fn(usize) -> bool, mut other: impl FnMut(i64, i64) -> i64) -> Case {
    let mut changed = case.clone();
    for (plane, greatest) in changed.planes.iter_mut().zip(greatest(case.settings.depths)) {
        for (_, number) in plane.iter_mut().enumerate().filter(|(pixel, _)| at(*pixel)) {
            *number = other(greatest, i64::from(*number)) as i32;
        }
    }
    changed
}

/// The case with other samples at the pixels told: the far end of the range, or any.
fn other_samples(random: &mut Random, case: &Case, at: impl Fn(usize) -> bool) -> Case {
    changed(case, at, |greatest, sample| {
        let far_end = if 2 * sample > greatest { 0 } else { greatest };
        let any = (sample + random.between(1, greatest)) % (greatest + 1);
        random.one_of(&[far_end, any])
    })
}

/// Whether a pixel is farther than some plane's own distance from a spot that is in a corner, at a border or inside.
fn far_from_a_spot<'a>(random: &mut Random, way: &Way, case: &'a Case) -> impl Fn(usize) -> bool + 'a {
    let [column, row] = [case.settings.width, case.settings.height].map(|side| {
        let inside = random.below(side as usize);
        random.one_of(&[0, inside, side as usize - 1])
    });
    let spot = row * case.settings.width as usize + column;
    let distance = random.one_of(&way.own(case));
    move |pixel| apart(case, spot, pixel) > distance
}

/// Cases that differ in all samples but for those near a spot.
fn agree_near_a_spot(name: &str, way: &Way) {
    each_case(name, 40, way, |random, case| {
        let far = far_from_a_spot(random, way, case);
        way.agree(case, &other_samples(random, case, far), 0)
    });
}

/// The second paper's distances, and 2 for the way back.
#[test]
fn all_planes_by_one_distance() {
    for way in OPEN {
        let own = way.farthest.map(|distance| [distance; 3]);
        agree_near_a_spot("all_planes_by_one_distance", &Way { own, ..way });
    }
}

#[test]
fn each_plane_by_its_own_distance() {
    OPEN.iter().for_each(|way| agree_near_a_spot("each_plane_by_its_own_distance", way));
}

/// The case of the way back: the planes that the picture goes to.
fn finished(picture: &Case) -> Case {
    picture.with(FORWARD.planes(picture).unwrap())
}

/// Calls `test` with pictures for the plain way back. Half of them have samples near the middle of their ranges: planes
/// that are almost their finished ones come back too.
fn each_picture(name: &str, rounds: u64, mut test: impl FnMut(&mut Random, &Case) -> usize) {
    each_case(name, rounds, &INVERSE, |random, case| {
        let middle = |greatest: i64, _| greatest / 2 + random.between(-greatest / 16, greatest / 16);
        let picture = changed(case, |_| true, middle);
        [case, &picture].into_iter().map(|picture| test(random, picture)).sum()
    });
}

/// Two pictures that differ at some pixels agree at each spot near which their finished planes agree.
#[test]
fn back_to_two_pictures() {
    each_picture("back_to_two_pictures", 24, |random, picture| {
        let chances = random.one_of(&[3, 30]);
        let nudged = |greatest: i64, sample: i64| match random.below(chances) {
            0 => (sample + random.one_of(&[-1, 1])).clamp(0, greatest),
            _ => sample,
        };
        let other = &changed(picture, |_| true, nudged);
        let [case, other_case] = [picture, other].map(finished);
        assert_eq!(INVERSE.planes(&case).as_ref(), Some(&picture.planes), "{case}");
        assert_eq!(INVERSE.planes(&other_case).as_ref(), Some(&other.planes), "{other_case}");
        INVERSE.agree(&case, &other_case, 0)
    });
}

/// Finished planes with all numbers changed a little but for those near a spot, where the inverse accepts them.
#[test]
fn back_from_planes_that_agree_near_a_spot() {
    each_picture("back_from_planes_that_agree_near_a_spot", 24, |random, picture| {
        let (case, most) = (finished(picture), 1 << random.below(12));
        let far = far_from_a_spot(random, &INVERSE, &case);
        let other = changed(&case, far, |_, number| number + random.one_of(&[-1, 1]) * random.between(1, most));
        INVERSE.agree(&case, &other, 0)
    });
}

/// One damaged number: where the inverse still accepts the planes only samples near the damage differ.
#[test]
fn one_damaged_number() {
    each_picture("one_damaged_number", 80, |random, picture| {
        let (case, by) = (finished(picture), 1 << random.below(14));
        let mut other = case.clone();
        *sample(random, &mut other) += random.one_of(&[-by, by]);
        INVERSE.agree(&case, &other, 0)
    });
}

/// Positions along a side, its first and its last among them or not.
fn stretch(random: &mut Random, side: u32, first: bool, last: bool) -> Range<usize> {
    let side = side as usize;
    let start = if first || side < 3 { 0 } else { 1 + random.below(side - 2) };
    let end = if last || side < 3 { side } else { start + 1 + random.below(side - 1 - start) };
    start..end
}

/// Rectangles cut out of the case, each a case of its own with the same choices for its rows: one for each set of
/// borders to touch, and a single pixel. Where the call accepts them they must agree with the whole case away from the
/// cuts.
fn cut_out(random: &mut Random, way: &Way, case: &Case) -> usize {
    let Settings { width, height, .. } = case.settings;
    let mut rectangles = vec![[width, height].map(|side| random.below(side as usize)).map(|at| at..at + 1)];
    for borders in 0..16 {
        let columns = stretch(random, width, borders & 1 != 0, borders & 2 != 0);
        rectangles.push([columns, stretch(random, height, borders & 4 != 0, borders & 8 != 0)]);
    }
    let agrees = |[columns, rows]: [Range<usize>; 2]| {
        let row = |plane: &[i32], row: usize| plane[row * width as usize..][columns.clone()].to_vec();
        let cut = case.planes.each_ref().map(|plane| rows.clone().flat_map(|number| row(plane, number)).collect());
        let settings = Settings { width: columns.len() as u32, height: rows.len() as u32, ..case.settings };
        let (band_height, choices) = case.choices_of(rows.clone());
        let part = Case { settings, band_height, choices, ..case.with(cut) };
        way.agree(case, &part, rows.start * width as usize + columns.start)
    };
    rectangles.into_iter().map(agrees).sum()
}

#[test]
fn cut_out_of_a_picture() {
    for way in &OPEN {
        each_case("cut_out_of_a_picture", 8, way, |random, case| cut_out(random, way, case));
    }
}

#[test]
fn cut_out_of_finished_planes() {
    each_picture("cut_out_of_finished_planes", 12, |random, picture| cut_out(random, &INVERSE, &finished(picture)));
}

/// Eleven pixels in a row or in a column, with filter 1 at all places: if one pixel is raised as far away as a plane
/// reaches, and all others stay, the plane's number in the middle changes.
#[test]
fn no_distance_is_too_large() {
    for transform in 0..TRANSFORMS {
        for (width, height) in [(11, 1), (1, 11)] {
            let settings = Settings { width, height, depths: [16; 3], transform };
            let mut grey = random::case_without_scratch(&mut Random::new(1), settings, "");
            grey.choices.fill(1);
            grey.planes = [(); 3].map(|()| vec![1 << 15; 11]);
            [FORWARD, FORWARD_WRAPPED].iter().for_each(|way| reaches_its_distances(way, &grey));
            [INVERSE, INVERSE_WRAPPED].iter().for_each(|way| reaches_its_distances(way, &finished(&grey)));
        }
    }
}

/// Each plane's own distance is reached, and the greatest of them is the one that serves all.
fn reaches_its_distances(way: &Way, case: &Case) {
    let own = way.own(case);
    assert_eq!(own.into_iter().max(), Some(way.farthest[case.settings.transform as usize]));
    for (plane, distance) in own.into_iter().enumerate() {
        for pixel in [5 - distance, 5 + distance] {
            assert_eq!(apart(case, 5, pixel), distance);
            let raised = changed(case, |at| at == pixel, |_, number| number + (1 << 13));
            let [one, other] = [case, &raised].map(|case| way.planes(case).unwrap()[plane][5]);
            assert_ne!(one, other, "plane {}, pixel {pixel}\n{case}{raised}", plane + 1);
        }
    }
}
