//! The calls with their refusals, in the order in which they are tested.

use super::{are_depths, counters, greatest, is_side, places, plane_estimate, run, undo};
use super::{Form, Plane, Planes, RefusalNumber, TRANSFORMS};

/// What every call on planes is told.
#[derive(Clone, Copy, Debug, PartialEq, Eq)]
pub struct Settings {
    pub width: u32,
    pub height: u32,
    /// Of planes 1, 2 and 3.
    pub depths: [u32; 3],
    pub transform: u32,
}

/// How long the scratch is that is lent to the estimate and the search.
#[derive(Clone, Copy, Debug)]
pub struct Scratch {
    pub trial: [usize; 3],
    pub counters: usize,
}

impl Scratch {
    /// What is lent in place: "9 then concerns the counters alone", as no trial plane is short.
    fn counters_alone(counters: usize) -> Scratch {
        Scratch { trial: [usize::MAX; 3], counters }
    }
}

/// An estimate in sixty-fourths of a bit, and the number of samples counted in a plane.
#[derive(Clone, Copy, Debug, PartialEq, Eq)]
pub struct Estimated {
    pub estimate: u32,
    pub samples: u32,
}

impl Estimated {
    /// "The estimate divided by N, rounded down"; N is at least 1.
    pub fn each(self) -> u32 {
        self.estimate / self.samples
    }

    /// "The exact remainder."
    pub fn rest(self) -> u32 {
        self.estimate % self.samples
    }
}

/// What a search finds.
#[derive(Clone, Debug, PartialEq, Eq)]
pub struct Found {
    pub filters: Vec<u8>,
    pub estimated: Estimated,
}

/// The planes after a call, or why it refuses.
pub type Answer = Result<[Vec<i32>; 3], RefusalNumber>;

/// One of the calls that change planes.
pub type Call = fn(Settings, Option<u32>, &[u8], [&[i32]; 3]) -> Answer;

/// `run` or `undo`.
type Steps = fn(Form, u32, usize, usize, Option<u32>, &[u8], Planes) -> Planes;

impl Settings {
    fn samples(&self) -> usize {
        self.width as usize * self.height as usize
    }

    /// Refusals 2, 5, 6, 17 and the part of 7 on the number of choices.
    fn test(&self, band_height: Option<u32>, choices: usize) -> Result<(), RefusalNumber> {
        self.test_size_and_depths()?;
        self.test_transform(band_height, choices)
    }

    /// Refusals 2 and 5.
    fn test_size_and_depths(&self) -> Result<(), RefusalNumber> {
        if !is_side(self.width) || !is_side(self.height) {
            return Err(2);
        }
        if !are_depths(self.depths) {
            return Err(5);
        }
        Ok(())
    }

    /// Refusal 16, or the wrapped form at the one depth.
    fn wrapped(&self) -> Result<Form, RefusalNumber> {
        let [depth, ..] = self.depths;
        if self.depths == [depth; 3] {
            Ok(Form::Wrapped(depth))
        } else {
            Err(16)
        }
    }

    /// Refusals 6, 17 and the part of 7 on the number of choices.
    fn test_transform(&self, band_height: Option<u32>, choices: usize) -> Result<(), RefusalNumber> {
        if self.transform >= TRANSFORMS {
            return Err(6);
        }
        if choices != places(self.transform) * self.bands(band_height)? {
            return Err(7);
        }
        Ok(())
    }

    /// Refusal 17, or the number of bands, "the last band possibly shorter"; one where there is no band height.
    fn bands(&self, band_height: Option<u32>) -> Result<usize, RefusalNumber> {
        match band_height {
            None => Ok(1),
            Some(rows) if (1..=self.height).contains(&rows) => Ok(self.height.div_ceil(rows) as usize),
            Some(_) => Err(17),
        }
    }

    /// The part of refusal 7 on the choices themselves.
    fn test_choices(&self, choices: &[u8]) -> Result<(), RefusalNumber> {
        if choices.iter().any(|&filter| filter > 12) {
            Err(7)
        } else {
            Ok(())
        }
    }

    /// Refusal 8.
    fn test_planes(&self, planes: &[&[i32]; 3]) -> Result<(), RefusalNumber> {
        if planes.iter().any(|plane| plane.len() != self.samples()) {
            Err(8)
        } else {
            Ok(())
        }
    }

    /// Refusal 9.
    fn test_scratch(&self, scratch: &Scratch) -> Result<(), RefusalNumber> {
        let planes_short = scratch.trial.iter().any(|&length| length < self.samples());
        let counters_short = scratch.counters < counters(self.depths, self.transform);
        if planes_short || counters_short {
            Err(9)
        } else {
            Ok(())
        }
    }

    /// Whether every sample of each plane is 0 to the plane's M.
    fn is_picture(&self, planes: &Planes) -> bool {
        let within = |(plane, greatest): (&Plane, i64)| plane.iter().all(|sample| (0..=greatest).contains(sample));
        planes.iter().zip(greatest(self.depths)).all(within)
    }

    /// Refusal 11, or the picture in whole numbers.
    fn picture(&self, planes: [&[i32]; 3]) -> Result<Planes, RefusalNumber> {
        let picture = whole(planes);
        if self.is_picture(&picture) {
            Ok(picture)
        } else {
            Err(11)
        }
    }

    fn lift(&self, steps: Steps, form: Form, band_height: Option<u32>, filters: &[u8], planes: Planes) -> Planes {
        steps(form, self.transform, self.width as usize, self.height as usize, band_height, filters, planes)
    }

    /// The sum of the estimates of the three finished planes.
    fn estimate(&self, filters: &[u8], picture: &Planes) -> Estimated {
        let finished = self.lift(run, Form::Plain, None, filters, picture.clone());
        let each = finished.each_ref().map(|plane| plane_estimate(plane, self.width as usize));
        Estimated { estimate: each.iter().map(|(estimate, _)| estimate).sum(), samples: each[0].1 }
    }
}

fn whole(planes: [&[i32]; 3]) -> Planes {
    planes.map(|plane| plane.iter().map(|&sample| i64::from(sample)).collect())
}

fn lent(planes: Planes) -> [Vec<i32>; 3] {
    let number = |sample: i64| i32::try_from(sample).expect("a number of 32 bits");
    planes.map(|plane: Plane| plane.into_iter().map(number).collect())
}

/// The planes that the picture goes to. Refusals 2, 5, 6, 17, 7, 8, 11.
pub fn forward(settings: Settings, band_height: Option<u32>, choices: &[u8], planes: [&[i32]; 3]) -> Answer {
    settings.test(band_height, choices.len())?;
    settings.test_choices(choices)?;
    settings.test_planes(&planes)?;
    let picture = settings.picture(planes)?;
    Ok(lent(settings.lift(run, Form::Plain, band_height, choices, picture)))
}

/// The picture that goes to the planes. Refusals 2, 5, 6, 17, 7, 8, 12.
pub fn inverse(settings: Settings, band_height: Option<u32>, choices: &[u8], planes: [&[i32]; 3]) -> Answer {
    settings.test(band_height, choices.len())?;
    settings.test_choices(choices)?;
    settings.test_planes(&planes)?;
    let before = settings.lift(undo, Form::Plain, band_height, choices, whole(planes));
    if settings.is_picture(&before) {
        Ok(lent(before))
    } else {
        Err(12)
    }
}

/// The planes that the picture goes to in the wrapped form. Refusals 2, 5, 16, 6, 17, 7, 8, 11.
pub fn forward_wrapped(settings: Settings, band_height: Option<u32>, choices: &[u8], planes: [&[i32]; 3]) -> Answer {
    in_wrapped_form(run, settings, band_height, choices, planes)
}

/// The picture that goes to the planes in the wrapped form. Refusals 2, 5, 16, 6, 17, 7, 8, 11.
pub fn inverse_wrapped(settings: Settings, band_height: Option<u32>, choices: &[u8], planes: [&[i32]; 3]) -> Answer {
    in_wrapped_form(undo, settings, band_height, choices, planes)
}

/// "16 if the three depths differ, after 5; 11 for a sample outside 0 to M, either way."
fn in_wrapped_form(
    steps: Steps,
    settings: Settings,
    band_height: Option<u32>,
    choices: &[u8],
    planes: [&[i32]; 3],
) -> Answer {
    settings.test_size_and_depths()?;
    let form = settings.wrapped()?;
    settings.test_transform(band_height, choices.len())?;
    settings.test_choices(choices)?;
    settings.test_planes(&planes)?;
    let before = settings.picture(planes)?;
    Ok(lent(settings.lift(steps, form, band_height, choices, before)))
}

/// The estimate under the choices. Refusals 2, 5, 6, 7, 8, 9, 11.
pub fn estimate(
    settings: Settings,
    choices: &[u8],
    planes: [&[i32]; 3],
    scratch: Scratch,
) -> Result<Estimated, RefusalNumber> {
    settings.test(None, choices.len())?;
    settings.test_choices(choices)?;
    settings.test_planes(&planes)?;
    settings.test_scratch(&scratch)?;
    let picture = settings.picture(planes)?;
    Ok(settings.estimate(choices, &picture))
}

/// The estimate that is lent only counters; the planes are as lent after it. Refusals as in `estimate`.
pub fn estimate_in_place(
    settings: Settings,
    choices: &[u8],
    planes: [&[i32]; 3],
    counters: usize,
) -> Result<Estimated, RefusalNumber> {
    estimate(settings, choices, planes, Scratch::counters_alone(counters))
}

/// The filters that the search finds; of the lent choices only their number matters.
/// Refusals 2, 5, 6, 7, 8, 9, 10, 11.
pub fn search(
    settings: Settings,
    rounds: u32,
    choices: usize,
    planes: [&[i32]; 3],
    scratch: Scratch,
) -> Result<Found, RefusalNumber> {
    settings.test(None, choices)?;
    settings.test_planes(&planes)?;
    settings.test_scratch(&scratch)?;
    if !(1..=4).contains(&rounds) {
        return Err(10);
    }
    let picture = settings.picture(planes)?;

    let mut filters = vec![0u8; choices];
    for _ in 0..rounds {
        for place in 0..choices {
            let mut winner = filters[place];
            let mut lowest = settings.estimate(&filters, &picture).estimate;
            for filter in 0..=12 {
                let mut trial = filters.clone();
                trial[place] = filter;
                let estimate = settings.estimate(&trial, &picture).estimate;
                if estimate < lowest {
                    (winner, lowest) = (filter, estimate);
                }
            }
            filters[place] = winner;
        }
    }
    let estimated = settings.estimate(&filters, &picture);
    Ok(Found { filters, estimated })
}

/// The search that is lent only counters: "Filters, estimate and N equal those of the first search on every picture."
/// The planes are as lent after it. Refusals as in `search`.
pub fn search_in_place(
    settings: Settings,
    rounds: u32,
    choices: usize,
    planes: [&[i32]; 3],
    counters: usize,
) -> Result<Found, RefusalNumber> {
    search(settings, rounds, choices, planes, Scratch::counters_alone(counters))
}
