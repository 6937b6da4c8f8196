//! The rules of the colour stage in plain whole numbers, written to be read, not to be fast.
//!
//! Every call takes what the caller lends by value or as lengths and gives the refusal's number,
//! or what the lent memory holds afterwards. Every number is an `i64`, which nothing here exceeds:
//! a sample is below 2^31 and no step more than doubles or triples it. Floats of any size, which
//! preview pixels may be handed in with, take an `i128` at one place, and powers are a `Natural`.

mod calls;
mod entropy;
mod filter;
mod graymap;
mod header;
mod natural;
mod pixmap;
mod preview;
mod ranges;
mod report;
mod transform;

#[cfg(test)]
mod band_cases;
#[cfg(test)]
mod cases;
#[cfg(test)]
mod depth_cases;
#[cfg(test)]
mod file_cases;
#[cfg(test)]
mod preview_cases;
#[cfg(test)]
mod wrapped_cases;

pub use calls::{estimate, estimate_in_place, search, search_in_place};
pub use calls::{forward, forward_wrapped, inverse, inverse_wrapped};
pub use calls::{Answer, Call, Estimated, Found, Scratch, Settings};
pub use entropy::{counted_indices, counts, logarithm, med, plane_estimate, residual};
pub use filter::{filtered_at, window};
pub use graymap::{graymap_file, graymap_plane, FinishedPlane, Graymap};
pub use header::sample_bytes;
pub use natural::Natural;
pub use pixmap::{pixmap_header, pixmap_planes, Header};
pub use preview::{preview, preview_back, quarters, Space, SPACES};
pub use ranges::{all_depths, are_depths, counters, greatest, is_side, ranges, Interval};
pub use report::{report, report_line, NAMES, REPORT_HEAD};
pub use transform::{places, run, undo, Form, TRANSFORMS};

/// A plane or three of them, in whole numbers.
pub type Plane = Vec<i64>;
pub type Planes = [Plane; 3];

/// The number that tells why a call refuses, 1 to 17.
pub type RefusalNumber = u32;
