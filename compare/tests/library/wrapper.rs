//! The safe module over the C functions gives what they give.

use crate::library::{self, Estimated, FinishedPlane, Graymap, Preview, Refusal, Scratch, Settings};

const SETTINGS: Settings = Settings { width: 2, height: 1, depths: [5, 7, 4], transform: 2 };
const PICTURE: Planes = [[10, 20], [100, 101], [7, 9]];
const FINISHED: Planes = [[10, 20], [-85, -86], [94, 92]];

type Planes = [[i32; 2]; 3];

/// One of the calls that change planes in place.
type Call = fn(Settings, &[u8], [&mut [i32]; 3]) -> Result<(), Refusal>;

fn after(call: Call, settings: Settings, choices: &[u8], mut planes: Planes) -> Result<Planes, Refusal> {
    call(settings, choices, planes.each_mut().map(|plane| plane.as_mut_slice())).map(|()| planes)
}

fn forward(settings: Settings, choices: &[u8], planes: Planes) -> Result<Planes, Refusal> {
    after(library::forward, settings, choices, planes)
}

fn inverse(choices: &[u8], planes: Planes) -> Result<Planes, Refusal> {
    after(library::inverse, SETTINGS, choices, planes)
}

fn planes_of(file: &[u8]) -> Result<[[i32; 1]; 3], Refusal> {
    let mut planes = [[-1]; 3];
    library::pixmap_planes(file, planes.each_mut().map(|plane| plane.as_mut_slice())).map(|()| planes)
}

#[test]
fn transforms() {
    assert_eq!(forward(SETTINGS, &[1, 1], PICTURE), Ok(FINISHED));
    assert_eq!(inverse(&[1, 1], FINISHED), Ok(PICTURE));
    // R 0 and G 0, B 16.
    assert_eq!(inverse(&[1, 1], [[0, 0], [0, 0], [-16, -16]]), Err(Refusal::Unreached));
    assert_eq!(forward(Settings { width: 0, ..SETTINGS }, &[1, 1], PICTURE), Err(Refusal::Size));
    assert_eq!(forward(Settings { depths: [5, 7, 1], ..SETTINGS }, &[1, 1], PICTURE), Err(Refusal::Depth));
    assert_eq!(forward(Settings { depths: [4, 7, 4], ..SETTINGS }, &[1, 1], PICTURE), Err(Refusal::Sample));
    assert_eq!(forward(Settings { transform: 4, ..SETTINGS }, &[1, 1], PICTURE), Err(Refusal::Transform));
    assert_eq!(forward(SETTINGS, &[], PICTURE), Err(Refusal::Choices));
    assert_eq!(forward(Settings { width: 3, ..SETTINGS }, &[1, 1], PICTURE), Err(Refusal::Plane));
    assert_eq!(forward(SETTINGS, &[1, 1], FINISHED), Err(Refusal::Sample));
}

/// With 7 bits -85 is kept as 43 and -86 as 42.
#[test]
fn wrapped_forms() {
    let one_depth = Settings { depths: [7; 3], ..SETTINGS };
    let finished = [[10, 20], [43, 42], [94, 92]];
    assert_eq!(after(library::forward_wrapped, one_depth, &[1, 1], PICTURE), Ok(finished));
    assert_eq!(after(library::inverse_wrapped, one_depth, &[1, 1], finished), Ok(PICTURE));
    for call in [library::forward_wrapped, library::inverse_wrapped] {
        assert_eq!(after(call, SETTINGS, &[1, 1], PICTURE), Err(Refusal::Unequal));
        assert_eq!(after(call, one_depth, &[1, 1], FINISHED), Err(Refusal::Sample));
    }
}

/// One column. The first row has filter 1 at both places, the second at place 2 alone, so its 9 stays.
#[test]
fn bands() {
    type Banded = fn(Settings, u32, &[u8], [&mut [i32]; 3]) -> Result<(), Refusal>;
    let column = Settings { width: 1, height: 2, ..SETTINGS };
    let one_depth = Settings { depths: [7; 3], ..column };
    let after = |call: Banded, settings, rows, choices: &[u8], mut planes: Planes| {
        call(settings, rows, choices, planes.each_mut().map(|plane| plane.as_mut_slice())).map(|()| planes)
    };
    let sets = [1, 1, 12, 1];
    let calls: [(Banded, Banded, Settings, Planes); 2] = [
        (library::forward_banded, library::inverse_banded, column, [[10, 20], [-85, -86], [94, 9]]),
        (library::forward_wrapped_banded, library::inverse_wrapped_banded, one_depth, [[10, 20], [43, 42], [94, 9]]),
    ];
    for (there, back, settings, finished) in calls {
        assert_eq!(after(there, settings, 1, &sets, PICTURE), Ok(finished));
        assert_eq!(after(back, settings, 1, &sets, finished), Ok(PICTURE));
        for call in [there, back] {
            assert_eq!(after(call, settings, 0, &sets, PICTURE), Err(Refusal::Band));
            assert_eq!(after(call, settings, 3, &sets, PICTURE), Err(Refusal::Band));
            assert_eq!(after(call, settings, 2, &sets, PICTURE), Err(Refusal::Choices));
        }
    }
    assert_eq!(after(library::inverse_banded, column, 1, &sets, [[0, 0], [0, 0], [0, -1]]), Err(Refusal::Unreached));
    assert_eq!(after(library::inverse_wrapped_banded, column, 1, &sets, PICTURE), Err(Refusal::Unequal));
}

/// The report's example in the papers.
#[test]
fn estimate_and_search() {
    let [c1, c2, c3] = [[10, 10], [10, 10], [60, 60]];
    let planes = [&c1[..], &c2[..], &c3[..]];
    for (transform, estimate) in [256, 384, 256, 256].into_iter().enumerate() {
        let settings = Settings { depths: [4, 5, 6], transform: transform as u32, ..SETTINGS };
        let mut choices = vec![9; library::places(settings.transform)];
        let mut trial = [[5; 2]; 3];
        let mut counters = vec![3; library::counters(settings.depths, settings.transform).unwrap()];
        let right = Ok(Estimated { estimate, samples: 2 });
        let mut call = |rounds: u32, short: usize, counters: &mut [u32]| {
            let end = counters.len() - short;
            let trial = trial.each_mut().map(|plane| plane.as_mut_slice());
            let scratch = Scratch { trial, counters: &mut counters[..end] };
            match rounds {
                9 => library::estimate(settings, &choices, planes, scratch),
                _ => library::search(settings, rounds, &mut choices, planes, scratch),
            }
        };
        assert_eq!(call(5, 0, &mut counters), Err(Refusal::Rounds));
        assert_eq!(call(2, 1, &mut counters), Err(Refusal::Scratch));
        assert_eq!(call(2, 0, &mut counters), right);
        assert_eq!(call(9, 0, &mut counters), right);
        assert_eq!(choices, vec![0; choices.len()]);
        assert!(counters.iter().all(|&counter| counter == 0));
    }
}

/// The same example in place; the planes are as lent after every call.
#[test]
fn estimate_and_search_in_place() {
    let picture: Planes = [[10, 10], [10, 10], [60, 60]];
    for (transform, estimate) in [256, 384, 256, 256].into_iter().enumerate() {
        let settings = Settings { depths: [4, 5, 6], transform: transform as u32, ..SETTINGS };
        let mut choices = vec![9; library::places(settings.transform)];
        let mut counters = vec![3; library::counters(settings.depths, settings.transform).unwrap()];
        let mut call = |rounds: u32, short: usize, counters: &mut [u32]| {
            let end = counters.len() - short;
            let (counters, mut planes) = (&mut counters[..end], picture);
            let lent = planes.each_mut().map(|plane| plane.as_mut_slice());
            let answer = match rounds {
                9 => library::estimate_in_place(settings, &choices, lent, counters),
                _ => library::search_in_place(settings, rounds, &mut choices, lent, counters),
            };
            assert_eq!(planes, picture);
            answer
        };
        assert_eq!(call(5, 0, &mut counters), Err(Refusal::Rounds));
        assert_eq!([2, 9].map(|rounds| call(rounds, 1, &mut counters)), [Err(Refusal::Scratch); 2]);
        assert!(counters.iter().all(|&counter| counter == 3));
        let right = Ok(Estimated { estimate, samples: 2 });
        assert_eq!([2, 9].map(|rounds| call(rounds, 0, &mut counters)), [right; 2]);
        assert_eq!(choices, vec![0; choices.len()]);
        assert!(counters.iter().all(|&counter| counter == 0));
    }
}

#[test]
fn counters() {
    assert_eq!([0, 1, 2, 3].map(|transform| library::counters([5, 6, 5], transform).unwrap()), [221, 251, 253, 253]);
    assert_eq!(library::counters([5, 6, 5], 4), None);
    assert_eq!(library::counters([5, 17, 5], 0), None);
}

#[test]
fn pixmaps() {
    let file = b"P6 1 1 255 abc";
    let pixmap = library::pixmap(file).unwrap();
    assert_eq!((pixmap.width, pixmap.height, pixmap.depth, pixmap.raster), (1, 1, 8, &b"abc"[..]));
    assert_eq!(pixmap.raster.as_ptr(), file[11..].as_ptr());
    assert_eq!(planes_of(file), Ok([[97], [98], [99]]));
    for (file, refusal) in [
        (&b"P5 1 1 255 abc"[..], Refusal::Header),
        (b"P6 1 0 255 ", Refusal::Size),
        (b"P6 1 1 1 abc", Refusal::Maxval),
        (b"P6 1 1 255 ab", Refusal::Raster),
    ] {
        assert_eq!(library::pixmap(file), Err(refusal));
        assert_eq!(planes_of(file), Err(refusal));
    }
    assert_eq!(planes_of(b"P6 2 1 255 abcdef"), Err(Refusal::Plane));
}

/// Two bytes a sample, the greater part first: 1 × 256 + 255, 2, 256 and, above maxval, 65,535.
#[test]
fn deep_pixmaps() {
    let file = b"P6 1 1 511 \x01\xff\x00\x02\x01\x00";
    let pixmap = library::pixmap(file).unwrap();
    assert_eq!((pixmap.width, pixmap.height, pixmap.depth, pixmap.raster), (1, 1, 9, &file[11..]));
    assert_eq!(planes_of(file), Ok([[511], [2], [256]]));
    assert_eq!(planes_of(b"P6 1 1 511 \xff\xff\x00\x02\x01\x00"), Ok([[65_535], [2], [256]]));
    assert_eq!(planes_of(b"P6 1 1 65535 \xff\xff\x80\x00\x00\x80"), Ok([[65_535], [32_768], [128]]));
    assert_eq!(planes_of(b"P6 1 1 511 \x01\xff\x00\x02\x01"), Err(Refusal::Raster));
    assert_eq!(planes_of(b"P6 1 1 512 \x01\xff\x00\x02\x01\x00"), Err(Refusal::Maxval));
}

/// Plane, numbers and file.
type Written<'a> = (FinishedPlane, [i32; 2], &'a [u8]);

/// The lowest numbers are 0, -64, -64, -255, -255 and -16,384.
fn written() -> [Written<'static>; 6] {
    let plane = |depths, transform, plane| FinishedPlane { depths, transform, plane };
    [
        (plane([8; 3], 2, 1), [10, 200], b"P5\n2 1\n255\n\x0a\xc8"),
        (plane([2, 7, 8], 0, 2), [-64, 191], b"P5\n2 1\n255\n\x00\xff"),
        (plane([8, 7, 3], 0, 2), [-64, 192], b"P5\n2 1\n256\n\x00\x00\x01\x00"),
        (plane([8; 3], 2, 2), [-190, 255], b"P5\n2 1\n510\n\x00\x41\x01\xfe"),
        (plane([8; 3], 2, 3), [140, -255], b"P5\n2 1\n510\n\x01\x8b\x00\x00"),
        (plane([2, 15, 16], 0, 2), [49_151, -16_128], b"P5\n2 1\n65535\n\xff\xff\x01\x00"),
    ]
}

#[test]
fn graymaps() {
    for (of, numbers, file) in written() {
        let mut buffer = vec![7; library::graymap_length(2, 1)];
        assert_eq!(library::write_graymap(2, 1, of, &numbers, &mut buffer), Ok(file.len()));
        assert_eq!(buffer[..file.len()], *file);
        assert!(buffer[file.len()..].iter().all(|&byte| byte == 7));
        let mut plane = [3; 2];
        assert_eq!(library::read_graymap(of, file, &mut plane), Ok(Graymap { width: 2, height: 1 }));
        assert_eq!(plane, numbers);
    }
    assert_eq!(library::graymap_length(8192, 8192), "P5\n8192 8192\n65535\n".len() + 2 * 8192 * 8192);
}

#[test]
fn refused_graymaps() {
    let of = FinishedPlane { depths: [5, 6, 5], transform: 0, plane: 1 }; // -63 to 31
    let write =
        |width, of, numbers: &[i32], room: usize| library::write_graymap(width, 1, of, numbers, &mut [7; 99][..room]);
    let length = "P5\n2 1\n94\n".len() + 2;
    assert_eq!(write(2, of, &[-63, 31], length), Ok(length));
    assert_eq!(write(0, of, &[-63, 31], length), Err(Refusal::Size));
    assert_eq!(write(2, FinishedPlane { depths: [5, 6, 1], ..of }, &[-63, 31], length), Err(Refusal::Depth));
    assert_eq!(write(2, FinishedPlane { plane: 0, ..of }, &[-63, 31], length), Err(Refusal::Transform));
    assert_eq!(write(2, of, &[-63], length), Err(Refusal::Plane));
    assert_eq!(write(2, FinishedPlane { depths: [16; 3], ..of }, &[0, 0], 99), Err(Refusal::Wide));
    assert_eq!(write(2, of, &[-64, 31], length - 1), Err(Refusal::Buffer));
    assert_eq!(write(2, of, &[-64, 31], length), Err(Refusal::Unreached));
    let read = |of, file: &[u8]| library::read_graymap(of, file, &mut [0; 2]).err();
    assert_eq!(read(FinishedPlane { plane: 4, ..of }, b""), Some(Refusal::Transform));
    assert_eq!(read(of, b"P6 2 1 94 ab"), Some(Refusal::Header));
    assert_eq!(read(of, b"P5 2 1 95 ab"), Some(Refusal::Maxval));
    assert_eq!(read(of, b"P5 2 1 94 abc"), Some(Refusal::Raster));
    assert_eq!(read(of, b"P5 1 1 94 a"), Some(Refusal::Plane));
    assert_eq!(read(of, b"P5 2 1 94 a\x00"), Some(Refusal::Unreached));
    assert_eq!(read(of, b"P5 2 1 94 \x5e\x00"), None);
}

#[test]
fn previews() {
    let pixel = [10, 200, 60];
    let [hvsct, ycocg] = [Preview::Hvsct([105.0, -95.0, -22.5]), Preview::Ycocg([117.5, -25.0, 82.5])];
    assert_eq!((library::hvsct(8, pixel), library::ycocg(8, pixel)), (Ok(hvsct), Ok(ycocg)));
    assert_eq!([hvsct, ycocg].map(|preview| library::preview_back(8, preview)), [Ok(pixel); 2]);
    for call in [library::hvsct, library::ycocg] {
        assert_eq!(call(7, pixel), Err(Refusal::Sample));
        assert_eq!(call(1, pixel), Err(Refusal::Depth));
    }
    assert_eq!([hvsct, ycocg].map(|preview| library::preview_back(7, preview)), [Err(Refusal::Preview); 2]);
    assert_eq!([hvsct, ycocg].map(|preview| library::preview_back(17, preview)), [Err(Refusal::Depth); 2]);
    assert_eq!(library::preview_back(8, Preview::Hvsct([105.0, -95.0, f64::NAN])), Err(Refusal::Preview));
    assert_eq!(library::preview_back(8, Preview::Ycocg([105.0, -95.0, -22.5])), Err(Refusal::Preview));
    assert_eq!(library::preview_back(8, Preview::Ycocg([-0.0; 3])), Ok([0; 3]));
}

#[test]
fn refusals_by_number() {
    assert_eq!(Refusal::ALL.map(Refusal::number), [1, 2, 3, 4, 5, 6, 7, 8, 9, 10, 11, 12, 13, 14, 15, 16, 17]);
    assert!(Refusal::ALL.iter().all(|refusal| !refusal.to_string().is_empty()));
}
