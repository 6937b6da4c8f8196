//! One call on a file, held to the reference: answer, lent memory and guard words.

use crate::lent::{Lent, Word};
use crate::library::c::{self, RulantipGraymap, RulantipPixmap, RulantipWritten};
use compare::reference::{self, FinishedPlane};
use std::fmt::{self, Debug, Display};

/// Stops where the answer is not right, or where some memory differs from what it must hold.
fn hold<A: PartialEq + Debug>(call: &str, answer: A, right: A, differs: &[Option<String>], case: &dyn Display) {
    if answer != right {
        panic!("{call}: the answer is {answer:?}, expected {right:?}\n{case}");
    }
    if let Some(problem) = differs.iter().flatten().next() {
        panic!("{call}: {problem}\n{case}");
    }
}

/// A file in a failure's words.
struct Shown<'a> {
    file: &'a [u8],
    origin: &'a str,
}

impl Display for Shown<'_> {
    fn fmt(&self, f: &mut fmt::Formatter<'_>) -> fmt::Result {
        let first = &self.file[..self.file.len().min(300)];
        writeln!(f, "{}\nfile, {} bytes: {}", self.origin, self.file.len(), first.escape_ascii())
    }
}

/// Memory of this length that holds anything.
pub fn anything<T: Word>(length: usize) -> Vec<T> {
    (0..length).map(T::guard).collect()
}

/// Both calls on a P6 file, held to the reference. The planes are lent with the lengths that the
/// file asks for plus `longer`. The bytes of `beyond` stand right behind the file and are not part of it.
pub fn pixmap(file: &[u8], beyond: &[u8], longer: [isize; 3], origin: &str) -> RulantipPixmap {
    let whole = [file, beyond].concat();
    let mut memory = Lent::new(&whole, file.len());
    let right = match reference::pixmap_header(file) {
        Ok(header) => RulantipPixmap { refusal: 0, width: header.width, height: header.height, depth: header.depth },
        Err(refusal) => RulantipPixmap { refusal, width: 0, height: 0, depth: 0 },
    };
    // SAFETY: the pointer points to as many elements as said.
    let answer = unsafe { c::rulantip_p6_header(memory.pointer(), file.len()) };
    hold("rulantip_p6_header", answer, right, &[memory.differs("file", &whole)], &Shown { file, origin });
    pixmap_planes(file, &mut memory, longer, right.width as usize * right.height as usize, origin);
    right
}

/// The call that writes planes, of so many samples and `longer`. The file is the first part of the memory.
fn pixmap_planes(file: &[u8], memory: &mut Lent<u8>, longer: [isize; 3], samples: usize, origin: &str) {
    let planes = longer.map(|more| anything::<i32>(samples.saturating_add_signed(more)));
    let mut lent = planes.each_ref().map(|plane| Lent::new(plane, file.len()));
    let [(c1, len1), (c2, len2), (c3, len3)] = lent.each_mut().map(|plane| (plane.pointer(), plane.len()));
    // SAFETY: every pointer points to as many elements as said, and no two overlap.
    let answer = unsafe { c::rulantip_p6_planes(memory.pointer(), file.len(), c1, len1, c2, len2, c3, len3) };
    let (number, after) = match reference::pixmap_planes(file, planes.each_ref().map(Vec::len)) {
        Ok(planes) => (0, planes),
        Err(number) => (number, planes),
    };
    let [c1, c2, c3] = [0, 1, 2].map(|i| lent[i].differs(["c1", "c2", "c3"][i], &after[i]));
    let differs = [c1, c2, c3, memory.differs("file", memory.entry())];
    hold("rulantip_p6_planes", answer, number, &differs, &Shown { file, origin });
}

/// Everything that writing a plane is given.
#[derive(Clone)]
pub struct Writing {
    pub width: u32,
    pub height: u32,
    pub of: FinishedPlane,
    pub samples: Vec<i32>,
    /// What the lent buffer holds.
    pub buffer: Vec<u8>,
    /// How to make the case again.
    pub origin: String,
}

impl Display for Writing {
    fn fmt(&self, f: &mut fmt::Formatter<'_>) -> fmt::Result {
        let first = &self.samples[..self.samples.len().min(100)];
        writeln!(f, "{}\nwidth {} height {} {:?}", self.origin, self.width, self.height, self.of)?;
        writeln!(f, "buffer of {} bytes, {} samples: {first:?}", self.buffer.len(), self.samples.len())
    }
}

impl Writing {
    /// The answer, and the buffer after the call.
    pub fn call(&self) -> (RulantipWritten, Vec<u8>) {
        let FinishedPlane { depths: [depth1, depth2, depth3], transform, plane } = self.of;
        let mut samples = Lent::new(&self.samples, self.buffer.len());
        let mut buffer = Lent::new(&self.buffer, self.samples.len());
        // SAFETY: every pointer points to as many elements as said, and no two overlap.
        #[rustfmt::skip]
        let answer = unsafe {
            c::rulantip_p5_write(
                self.width, self.height, depth1, depth2, depth3, transform, plane,
                samples.pointer(), samples.len(), buffer.pointer(), buffer.len(),
            )
        };
        let file = reference::graymap_file(self.width, self.height, self.of, &self.samples, self.buffer.len());
        let (right, after) = match file {
            Ok(file) => {
                let behind = &self.buffer[file.len()..];
                (RulantipWritten { refusal: 0, length: file.len() as u32 }, [&file, behind].concat())
            }
            Err(refusal) => (RulantipWritten { refusal, length: 0 }, self.buffer.clone()),
        };
        let differs = [samples.differs("samples", &self.samples), buffer.differs("file", &after)];
        hold("rulantip_p5_write", answer, right, &differs, self);
        (right, after)
    }
}

/// Everything that reading a plane is given.
#[derive(Clone)]
pub struct Reading {
    pub of: FinishedPlane,
    pub file: Vec<u8>,
    /// Stands right behind the file and is not part of it.
    pub beyond: Vec<u8>,
    /// Of the lent plane.
    pub length: usize,
    /// How to make the case again.
    pub origin: String,
}

impl Display for Reading {
    fn fmt(&self, f: &mut fmt::Formatter<'_>) -> fmt::Result {
        writeln!(f, "{:?}, a plane of {} samples", self.of, self.length)?;
        Shown { file: &self.file, origin: &self.origin }.fmt(f)
    }
}

impl Reading {
    /// The answer, and the plane after the call.
    pub fn call(&self) -> (RulantipGraymap, Vec<i32>) {
        let FinishedPlane { depths: [depth1, depth2, depth3], transform, plane } = self.of;
        let whole = [&self.file[..], &self.beyond].concat();
        let mut file = Lent::new(&whole, self.length);
        let mut samples = Lent::new(&anything::<i32>(self.length), self.file.len());
        // SAFETY: every pointer points to as many elements as said, and no two overlap.
        #[rustfmt::skip]
        let answer = unsafe {
            c::rulantip_p5_read(
                depth1, depth2, depth3, transform, plane,
                file.pointer(), self.file.len(), samples.pointer(), samples.len(),
            )
        };
        let (right, after) = match reference::graymap_plane(self.of, &self.file, self.length) {
            Ok(read) => (RulantipGraymap { refusal: 0, width: read.width, height: read.height }, read.samples),
            Err(refusal) => (RulantipGraymap { refusal, width: 0, height: 0 }, samples.entry().to_vec()),
        };
        let differs = [samples.differs("samples", &after), file.differs("file", &whole)];
        hold("rulantip_p5_read", answer, right, &differs, self);
        (right, after)
    }
}
