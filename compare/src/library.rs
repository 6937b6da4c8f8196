//! The proved library for Rust programs: safe functions over the C functions of librulantip.a.
//!
//! Take this file in by path (`#[path = "…/library.rs"] mod library;`) and have the linker search
//! the folder of librulantip.a. `include/rulantip.h` says what each parameter means.

#![allow(dead_code)]

use std::fmt;

/// Why a call refuses. Its number is the one of the C functions.
#[derive(Clone, Copy, Debug, PartialEq, Eq)]
pub enum Refusal {
    Header = 1,
    Size = 2,
    Maxval = 3,
    Raster = 4,
    Depth = 5,
    Transform = 6,
    Choices = 7,
    Plane = 8,
    Scratch = 9,
    Rounds = 10,
    Sample = 11,
    Unreached = 12,
    Wide = 13,
    Buffer = 14,
    Preview = 15,
    Unequal = 16,
    Band = 17,
}

impl Refusal {
    /// Every refusal, in the order of the numbers.
    pub const ALL: [Refusal; 17] = [
        Refusal::Header,
        Refusal::Size,
        Refusal::Maxval,
        Refusal::Raster,
        Refusal::Depth,
        Refusal::Transform,
        Refusal::Choices,
        Refusal::Plane,
        Refusal::Scratch,
        Refusal::Rounds,
        Refusal::Sample,
        Refusal::Unreached,
        Refusal::Wide,
        Refusal::Buffer,
        Refusal::Preview,
        Refusal::Unequal,
        Refusal::Band,
    ];

    pub fn number(self) -> u32 {
        self as u32
    }
}

impl fmt::Display for Refusal {
    fn fmt(&self, f: &mut fmt::Formatter<'_>) -> fmt::Result {
        f.write_str(match self {
            Refusal::Header => "the header does not have the form of P6, or of P5",
            Refusal::Size => "width or height is outside 1 to 8,192",
            Refusal::Maxval => "maxval is not 2^b - 1 for a depth b of 2 to 16, or in P5 not the plane's",
            Refusal::Raster => "other than the bytes of width * height pixels follow the header",
            Refusal::Depth => "a depth is outside 2 to 16",
            Refusal::Transform => "the transform is above 3, or the plane's number outside 1 to 3",
            Refusal::Choices => "the number of choices is wrong, or a choice is above 12",
            Refusal::Plane => "a plane's length is not width * height",
            Refusal::Scratch => "a trial plane is short, or there are too few counters",
            Refusal::Rounds => "the rounds are outside 1 to 4",
            Refusal::Sample => "a sample is outside its plane's depth",
            Refusal::Unreached => "no picture goes to these planes, or a graymap's sample is outside its plane's range",
            Refusal::Wide => "the plane's highest number less its lowest is above 65,535",
            Refusal::Buffer => "the buffer is shorter than the file",
            Refusal::Preview => "no pixel of the depth has these floats in the space, or there is no such space",
            Refusal::Unequal => "the three depths differ",
            Refusal::Band => "the band height is 0 or above the picture's",
        })
    }
}

impl std::error::Error for Refusal {}

/// What every call on planes is told.
#[derive(Clone, Copy, Debug)]
pub struct Settings {
    pub width: u32,
    pub height: u32,
    /// The bits of a sample in planes 1, 2 and 3: R, G and B.
    pub depths: [u32; 3],
    pub transform: u32,
}

/// Scratch lent to the estimate and the search; all of it is 0 after success.
pub struct Scratch<'a> {
    pub trial: [&'a mut [i32]; 3],
    pub counters: &'a mut [u32],
}

/// An estimate in sixty-fourths of a bit, and the number of samples counted in each plane.
#[derive(Clone, Copy, Debug, PartialEq, Eq)]
pub struct Estimated {
    pub estimate: u32,
    pub samples: u32,
}

/// What the header of a P6 file says, and the raster: the part of the file behind the header.
#[derive(Clone, Copy, Debug, PartialEq, Eq)]
pub struct Pixmap<'a> {
    pub width: u32,
    pub height: u32,
    /// Of all three planes.
    pub depth: u32,
    pub raster: &'a [u8],
}

/// A finished plane, 1 to 3, of the plain form of the transform at the depths.
#[derive(Clone, Copy, Debug)]
pub struct FinishedPlane {
    pub depths: [u32; 3],
    pub transform: u32,
    pub plane: u32,
}

/// What the header of a P5 file says.
#[derive(Clone, Copy, Debug, PartialEq, Eq)]
pub struct Graymap {
    pub width: u32,
    pub height: u32,
}

/// A preview pixel in one of the two lossy spaces: Y, Cd and Ce, or Y, Co and Cg.
#[derive(Clone, Copy, Debug, PartialEq)]
pub enum Preview {
    Hvsct([f64; 3]),
    Ycocg([f64; 3]),
}

/// How many counters the estimate and the search need; None where they would refuse a depth or the transform.
pub fn counters(depths: [u32; 3], transform: u32) -> Option<usize> {
    let [depth1, depth2, depth3] = depths;
    // SAFETY: the function is given numbers alone.
    match unsafe { c::rulantip_counters(depth1, depth2, depth3, transform) } {
        0 => None,
        needed => Some(needed as usize),
    }
}

/// How many places the transform has, which is 0 to 3.
pub fn places(transform: u32) -> usize {
    [4, 4, 2, 3][transform as usize]
}

/// Changes a picture to what it goes to, in place.
pub fn forward(settings: Settings, choices: &[u8], planes: [&mut [i32]; 3]) -> Result<(), Refusal> {
    in_place(c::rulantip_forward, settings, choices, planes)
}

/// Changes planes to the picture that goes to them, in place.
pub fn inverse(settings: Settings, choices: &[u8], planes: [&mut [i32]; 3]) -> Result<(), Refusal> {
    in_place(c::rulantip_inverse, settings, choices, planes)
}

/// Changes a picture to what it goes to in the wrapped form of the transform, in place. The depths must be equal.
pub fn forward_wrapped(settings: Settings, choices: &[u8], planes: [&mut [i32]; 3]) -> Result<(), Refusal> {
    in_place(c::rulantip_forward_wrapped, settings, choices, planes)
}

/// Changes planes to the picture that goes to them in the wrapped form, in place. The depths must be equal.
pub fn inverse_wrapped(settings: Settings, choices: &[u8], planes: [&mut [i32]; 3]) -> Result<(), Refusal> {
    in_place(c::rulantip_inverse_wrapped, settings, choices, planes)
}

/// As `forward`, with a set of choices for each band of that many rows, set after set from the top; the last band may
/// be shorter.
pub fn forward_banded(
    settings: Settings,
    band_height: u32,
    choices: &[u8],
    planes: [&mut [i32]; 3],
) -> Result<(), Refusal> {
    in_place_banded(c::rulantip_forward_banded, settings, band_height, choices, planes)
}

/// As `inverse`, with bands as in `forward_banded`.
pub fn inverse_banded(
    settings: Settings,
    band_height: u32,
    choices: &[u8],
    planes: [&mut [i32]; 3],
) -> Result<(), Refusal> {
    in_place_banded(c::rulantip_inverse_banded, settings, band_height, choices, planes)
}

/// As `forward_wrapped`, with bands as in `forward_banded`.
pub fn forward_wrapped_banded(
    settings: Settings,
    band_height: u32,
    choices: &[u8],
    planes: [&mut [i32]; 3],
) -> Result<(), Refusal> {
    in_place_banded(c::rulantip_forward_wrapped_banded, settings, band_height, choices, planes)
}

/// As `inverse_wrapped`, with bands as in `forward_banded`.
pub fn inverse_wrapped_banded(
    settings: Settings,
    band_height: u32,
    choices: &[u8],
    planes: [&mut [i32]; 3],
) -> Result<(), Refusal> {
    in_place_banded(c::rulantip_inverse_wrapped_banded, settings, band_height, choices, planes)
}

/// The estimate of a picture under the choices.
pub fn estimate(
    settings: Settings,
    choices: &[u8],
    planes: [&[i32]; 3],
    scratch: Scratch<'_>,
) -> Result<Estimated, Refusal> {
    let Settings { width, height, depths: [depth1, depth2, depth3], transform } = settings;
    let [c1, c2, c3] = planes;
    let Scratch { trial: [t1, t2, t3], counters } = scratch;
    // SAFETY: every pointer and length is a slice's; what is written is lent as &mut.
    #[rustfmt::skip]
    let answer = unsafe {
        c::rulantip_estimate(
            width, height, depth1, depth2, depth3, transform,
            choices.as_ptr(), choices.len(),
            c1.as_ptr(), c1.len(), c2.as_ptr(), c2.len(), c3.as_ptr(), c3.len(),
            t1.as_mut_ptr(), t1.len(), t2.as_mut_ptr(), t2.len(), t3.as_mut_ptr(), t3.len(),
            counters.as_mut_ptr(), counters.len(),
        )
    };
    estimated(answer)
}

/// The search for the filters of the lowest estimate, which the choices hold after success.
pub fn search(
    settings: Settings,
    rounds: u32,
    choices: &mut [u8],
    planes: [&[i32]; 3],
    scratch: Scratch<'_>,
) -> Result<Estimated, Refusal> {
    let Settings { width, height, depths: [depth1, depth2, depth3], transform } = settings;
    let [c1, c2, c3] = planes;
    let Scratch { trial: [t1, t2, t3], counters } = scratch;
    // SAFETY: every pointer and length is a slice's; what is written is lent as &mut.
    #[rustfmt::skip]
    let answer = unsafe {
        c::rulantip_search(
            width, height, depth1, depth2, depth3, transform, rounds,
            choices.as_mut_ptr(), choices.len(),
            c1.as_ptr(), c1.len(), c2.as_ptr(), c2.len(), c3.as_ptr(), c3.len(),
            t1.as_mut_ptr(), t1.len(), t2.as_mut_ptr(), t2.len(), t3.as_mut_ptr(), t3.len(),
            counters.as_mut_ptr(), counters.len(),
        )
    };
    estimated(answer)
}

/// As `estimate`, lent counters alone, which are 0 after success. The planes are changed while the call runs, and are as
/// lent after it.
pub fn estimate_in_place(
    settings: Settings,
    choices: &[u8],
    planes: [&mut [i32]; 3],
    counters: &mut [u32],
) -> Result<Estimated, Refusal> {
    let Settings { width, height, depths: [depth1, depth2, depth3], transform } = settings;
    let [c1, c2, c3] = planes;
    // SAFETY: every pointer and length is a slice's; what is written is lent as &mut.
    #[rustfmt::skip]
    let answer = unsafe {
        c::rulantip_estimate_in_place(
            width, height, depth1, depth2, depth3, transform,
            choices.as_ptr(), choices.len(),
            c1.as_mut_ptr(), c1.len(), c2.as_mut_ptr(), c2.len(), c3.as_mut_ptr(), c3.len(),
            counters.as_mut_ptr(), counters.len(),
        )
    };
    estimated(answer)
}

/// As `search`, lent counters and planes as `estimate_in_place`.
pub fn search_in_place(
    settings: Settings,
    rounds: u32,
    choices: &mut [u8],
    planes: [&mut [i32]; 3],
    counters: &mut [u32],
) -> Result<Estimated, Refusal> {
    let Settings { width, height, depths: [depth1, depth2, depth3], transform } = settings;
    let [c1, c2, c3] = planes;
    // SAFETY: every pointer and length is a slice's; what is written is lent as &mut.
    #[rustfmt::skip]
    let answer = unsafe {
        c::rulantip_search_in_place(
            width, height, depth1, depth2, depth3, transform, rounds,
            choices.as_mut_ptr(), choices.len(),
            c1.as_mut_ptr(), c1.len(), c2.as_mut_ptr(), c2.len(), c3.as_mut_ptr(), c3.len(),
            counters.as_mut_ptr(), counters.len(),
        )
    };
    estimated(answer)
}

/// The header of a P6 file and its raster.
pub fn pixmap(file: &[u8]) -> Result<Pixmap<'_>, Refusal> {
    // SAFETY: pointer and length are a slice's.
    let answer = unsafe { c::rulantip_p6_header(file.as_ptr(), file.len()) };
    refusal(answer.refusal)?;
    let bytes = if answer.depth <= 8 { 3 } else { 6 };
    let raster = bytes * answer.width as usize * answer.height as usize;
    Ok(Pixmap { width: answer.width, height: answer.height, depth: answer.depth, raster: &file[file.len() - raster..] })
}

/// Writes the raster of a P6 file to three planes.
pub fn pixmap_planes(file: &[u8], planes: [&mut [i32]; 3]) -> Result<(), Refusal> {
    let [c1, c2, c3] = planes;
    // SAFETY: every pointer and length is a slice's; what is written is lent as &mut.
    #[rustfmt::skip]
    let answer = unsafe {
        c::rulantip_p6_planes(
            file.as_ptr(), file.len(),
            c1.as_mut_ptr(), c1.len(), c2.as_mut_ptr(), c2.len(), c3.as_mut_ptr(), c3.len(),
        )
    };
    refusal(answer)
}

/// A buffer of so many bytes is long enough for a plane's P5 file.
pub fn graymap_length(width: u32, height: u32) -> usize {
    19 + 2 * width as usize * height as usize
}

/// Writes a finished plane as a P5 file. The answer is its length; the bytes behind it are left as they are.
pub fn write_graymap(
    width: u32,
    height: u32,
    of: FinishedPlane,
    samples: &[i32],
    file: &mut [u8],
) -> Result<usize, Refusal> {
    let FinishedPlane { depths: [depth1, depth2, depth3], transform, plane } = of;
    // SAFETY: every pointer and length is a slice's; what is written is lent as &mut.
    #[rustfmt::skip]
    let answer = unsafe {
        c::rulantip_p5_write(
            width, height, depth1, depth2, depth3, transform, plane,
            samples.as_ptr(), samples.len(), file.as_mut_ptr(), file.len(),
        )
    };
    refusal(answer.refusal).map(|()| answer.length as usize)
}

/// Reads the P5 file of a finished plane.
pub fn read_graymap(of: FinishedPlane, file: &[u8], samples: &mut [i32]) -> Result<Graymap, Refusal> {
    let FinishedPlane { depths: [depth1, depth2, depth3], transform, plane } = of;
    // SAFETY: every pointer and length is a slice's; what is written is lent as &mut.
    #[rustfmt::skip]
    let answer = unsafe {
        c::rulantip_p5_read(
            depth1, depth2, depth3, transform, plane,
            file.as_ptr(), file.len(), samples.as_mut_ptr(), samples.len(),
        )
    };
    refusal(answer.refusal).map(|()| Graymap { width: answer.width, height: answer.height })
}

/// The preview pixel of R, G and B in HVSCT, exact.
pub fn hvsct(depth: u32, samples: [i32; 3]) -> Result<Preview, Refusal> {
    preview(c::rulantip_hvsct, depth, samples)
}

/// The preview pixel of R, G and B in YCoCg, exact.
pub fn ycocg(depth: u32, samples: [i32; 3]) -> Result<Preview, Refusal> {
    preview(c::rulantip_ycocg, depth, samples)
}

/// R, G and B of the one pixel of this depth that has the preview pixel. -0.0 does for 0.0.
pub fn preview_back(depth: u32, pixel: Preview) -> Result<[i32; 3], Refusal> {
    let (space, [v1, v2, v3]) = match pixel {
        Preview::Hvsct(values) => (1, values),
        Preview::Ycocg(values) => (2, values),
    };
    // SAFETY: the function is given numbers alone.
    let answer = unsafe { c::rulantip_preview_back(depth, space, v1, v2, v3) };
    refusal(answer.refusal).map(|()| [answer.r, answer.g, answer.b])
}

fn refusal(number: u32) -> Result<(), Refusal> {
    if number == 0 {
        return Ok(());
    }
    let refusal = Refusal::ALL.into_iter().find(|refusal| refusal.number() == number);
    Err(refusal.unwrap_or_else(|| panic!("{number} is no refusal")))
}

fn estimated(answer: c::RulantipEstimated) -> Result<Estimated, Refusal> {
    refusal(answer.refusal).map(|()| Estimated { estimate: answer.estimate, samples: answer.samples })
}

fn preview(call: c::ToPreview, depth: u32, [r, g, b]: [i32; 3]) -> Result<Preview, Refusal> {
    // SAFETY: the function is given numbers alone.
    let answer = unsafe { call(depth, r, g, b) };
    refusal(answer.refusal)?;
    let values = [answer.v1, answer.v2, answer.v3];
    match answer.space {
        1 => Ok(Preview::Hvsct(values)),
        2 => Ok(Preview::Ycocg(values)),
        other => panic!("{other} is no space"),
    }
}

fn in_place(call: c::InPlace, settings: Settings, choices: &[u8], planes: [&mut [i32]; 3]) -> Result<(), Refusal> {
    let Settings { width, height, depths: [depth1, depth2, depth3], transform } = settings;
    let [c1, c2, c3] = planes;
    // SAFETY: every pointer and length is a slice's; what is written is lent as &mut.
    #[rustfmt::skip]
    let answer = unsafe {
        call(
            width, height, depth1, depth2, depth3, transform,
            choices.as_ptr(), choices.len(),
            c1.as_mut_ptr(), c1.len(), c2.as_mut_ptr(), c2.len(), c3.as_mut_ptr(), c3.len(),
        )
    };
    refusal(answer)
}

fn in_place_banded(
    call: c::InPlaceBanded,
    settings: Settings,
    band_height: u32,
    choices: &[u8],
    planes: [&mut [i32]; 3],
) -> Result<(), Refusal> {
    let Settings { width, height, depths: [depth1, depth2, depth3], transform } = settings;
    let [c1, c2, c3] = planes;
    // SAFETY: every pointer and length is a slice's; what is written is lent as &mut.
    #[rustfmt::skip]
    let answer = unsafe {
        call(
            width, height, depth1, depth2, depth3, transform, band_height,
            choices.as_ptr(), choices.len(),
            c1.as_mut_ptr(), c1.len(), c2.as_mut_ptr(), c2.len(), c3.as_mut_ptr(), c3.len(),
        )
    };
    refusal(answer)
}

/// The C functions as `include/rulantip.h` declares them.
pub mod c {
    #[repr(C)]
    #[derive(Clone, Copy, Debug, PartialEq, Eq)]
    pub struct RulantipEstimated {
        pub refusal: u32,
        pub estimate: u32,
        pub samples: u32,
    }

    #[repr(C)]
    #[derive(Clone, Copy, Debug, PartialEq, Eq)]
    pub struct RulantipPixmap {
        pub refusal: u32,
        pub width: u32,
        pub height: u32,
        pub depth: u32,
    }

    #[repr(C)]
    #[derive(Clone, Copy, Debug, PartialEq, Eq)]
    pub struct RulantipWritten {
        pub refusal: u32,
        pub length: u32,
    }

    #[repr(C)]
    #[derive(Clone, Copy, Debug, PartialEq, Eq)]
    pub struct RulantipGraymap {
        pub refusal: u32,
        pub width: u32,
        pub height: u32,
    }

    #[repr(C)]
    #[derive(Clone, Copy, Debug, PartialEq)]
    pub struct RulantipPreview {
        pub refusal: u32,
        pub space: u32,
        pub v1: f64,
        pub v2: f64,
        pub v3: f64,
    }

    #[repr(C)]
    #[derive(Clone, Copy, Debug, PartialEq, Eq)]
    pub struct RulantipRgb {
        pub refusal: u32,
        pub r: i32,
        pub g: i32,
        pub b: i32,
    }

    /// The type of the four calls that change planes in place, without bands.
    #[rustfmt::skip]
    pub type InPlace = unsafe extern "C" fn(
        u32, u32, u32, u32, u32, u32,
        *const u8, usize,
        *mut i32, usize, *mut i32, usize, *mut i32, usize,
    ) -> u32;

    /// The type of the same four with bands.
    #[rustfmt::skip]
    pub type InPlaceBanded = unsafe extern "C" fn(
        u32, u32, u32, u32, u32, u32, u32,
        *const u8, usize,
        *mut i32, usize, *mut i32, usize, *mut i32, usize,
    ) -> u32;

    /// The type of the two calls that give a preview pixel.
    pub type ToPreview = unsafe extern "C" fn(u32, i32, i32, i32) -> RulantipPreview;

    #[link(name = "rulantip", kind = "static")]
    #[rustfmt::skip]
    extern "C" {
        pub fn rulantip_forward(
            width: u32, height: u32, depth1: u32, depth2: u32, depth3: u32, transform: u32,
            choices: *const u8, choices_len: usize,
            c1: *mut i32, c1_len: usize, c2: *mut i32, c2_len: usize, c3: *mut i32, c3_len: usize,
        ) -> u32;

        pub fn rulantip_inverse(
            width: u32, height: u32, depth1: u32, depth2: u32, depth3: u32, transform: u32,
            choices: *const u8, choices_len: usize,
            c1: *mut i32, c1_len: usize, c2: *mut i32, c2_len: usize, c3: *mut i32, c3_len: usize,
        ) -> u32;

        pub fn rulantip_forward_wrapped(
            width: u32, height: u32, depth1: u32, depth2: u32, depth3: u32, transform: u32,
            choices: *const u8, choices_len: usize,
            c1: *mut i32, c1_len: usize, c2: *mut i32, c2_len: usize, c3: *mut i32, c3_len: usize,
        ) -> u32;

        pub fn rulantip_inverse_wrapped(
            width: u32, height: u32, depth1: u32, depth2: u32, depth3: u32, transform: u32,
            choices: *const u8, choices_len: usize,
            c1: *mut i32, c1_len: usize, c2: *mut i32, c2_len: usize, c3: *mut i32, c3_len: usize,
        ) -> u32;

        pub fn rulantip_forward_banded(
            width: u32, height: u32, depth1: u32, depth2: u32, depth3: u32, transform: u32,
            band_height: u32,
            choices: *const u8, choices_len: usize,
            c1: *mut i32, c1_len: usize, c2: *mut i32, c2_len: usize, c3: *mut i32, c3_len: usize,
        ) -> u32;

        pub fn rulantip_inverse_banded(
            width: u32, height: u32, depth1: u32, depth2: u32, depth3: u32, transform: u32,
            band_height: u32,
            choices: *const u8, choices_len: usize,
            c1: *mut i32, c1_len: usize, c2: *mut i32, c2_len: usize, c3: *mut i32, c3_len: usize,
        ) -> u32;

        pub fn rulantip_forward_wrapped_banded(
            width: u32, height: u32, depth1: u32, depth2: u32, depth3: u32, transform: u32,
            band_height: u32,
            choices: *const u8, choices_len: usize,
            c1: *mut i32, c1_len: usize, c2: *mut i32, c2_len: usize, c3: *mut i32, c3_len: usize,
        ) -> u32;

        pub fn rulantip_inverse_wrapped_banded(
            width: u32, height: u32, depth1: u32, depth2: u32, depth3: u32, transform: u32,
            band_height: u32,
            choices: *const u8, choices_len: usize,
            c1: *mut i32, c1_len: usize, c2: *mut i32, c2_len: usize, c3: *mut i32, c3_len: usize,
        ) -> u32;

        pub fn rulantip_counters(depth1: u32, depth2: u32, depth3: u32, transform: u32) -> u32;

        pub fn rulantip_estimate(
            width: u32, height: u32, depth1: u32, depth2: u32, depth3: u32, transform: u32,
            choices: *const u8, choices_len: usize,
            c1: *const i32, c1_len: usize, c2: *const i32, c2_len: usize, c3: *const i32, c3_len: usize,
            t1: *mut i32, t1_len: usize, t2: *mut i32, t2_len: usize, t3: *mut i32, t3_len: usize,
            counters: *mut u32, counters_len: usize,
        ) -> RulantipEstimated;

        pub fn rulantip_search(
            width: u32, height: u32, depth1: u32, depth2: u32, depth3: u32, transform: u32,
            rounds: u32,
            choices: *mut u8, choices_len: usize,
            c1: *const i32, c1_len: usize, c2: *const i32, c2_len: usize, c3: *const i32, c3_len: usize,
            t1: *mut i32, t1_len: usize, t2: *mut i32, t2_len: usize, t3: *mut i32, t3_len: usize,
            counters: *mut u32, counters_len: usize,
        ) -> RulantipEstimated;

        pub fn rulantip_estimate_in_place(
            width: u32, height: u32, depth1: u32, depth2: u32, depth3: u32, transform: u32,
            choices: *const u8, choices_len: usize,
            c1: *mut i32, c1_len: usize, c2: *mut i32, c2_len: usize, c3: *mut i32, c3_len: usize,
            counters: *mut u32, counters_len: usize,
        ) -> RulantipEstimated;

        pub fn rulantip_search_in_place(
            width: u32, height: u32, depth1: u32, depth2: u32, depth3: u32, transform: u32,
            rounds: u32,
            choices: *mut u8, choices_len: usize,
            c1: *mut i32, c1_len: usize, c2: *mut i32, c2_len: usize, c3: *mut i32, c3_len: usize,
            counters: *mut u32, counters_len: usize,
        ) -> RulantipEstimated;

        pub fn rulantip_p6_header(file: *const u8, file_len: usize) -> RulantipPixmap;

        pub fn rulantip_p6_planes(
            file: *const u8, file_len: usize,
            c1: *mut i32, c1_len: usize, c2: *mut i32, c2_len: usize, c3: *mut i32, c3_len: usize,
        ) -> u32;

        pub fn rulantip_p5_write(
            width: u32, height: u32, depth1: u32, depth2: u32, depth3: u32, transform: u32,
            plane: u32,
            samples: *const i32, samples_len: usize,
            file: *mut u8, file_len: usize,
        ) -> RulantipWritten;

        pub fn rulantip_p5_read(
            depth1: u32, depth2: u32, depth3: u32, transform: u32, plane: u32,
            file: *const u8, file_len: usize,
            samples: *mut i32, samples_len: usize,
        ) -> RulantipGraymap;

        pub fn rulantip_hvsct(depth: u32, r: i32, g: i32, b: i32) -> RulantipPreview;

        pub fn rulantip_ycocg(depth: u32, r: i32, g: i32, b: i32) -> RulantipPreview;

        pub fn rulantip_preview_back(depth: u32, space: u32, v1: f64, v2: f64, v3: f64) -> RulantipRgb;
    }
}
