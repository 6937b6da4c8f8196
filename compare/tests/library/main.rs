//! Holds the proved library to the reference: the same answers and the same content of all lent
//! memory, guard words around it included.
//!
//! RULANTIP_SEED sets the first seed (default 1) and RULANTIP_ROUNDS the number of rounds of every
//! test with random cases (default: the test's own). Round r uses the seed RULANTIP_SEED + r, so the
//! seed that a failure prints repeats its case with RULANTIP_ROUNDS=1.

#[path = "../../src/library.rs"]
mod library;

mod bands;
mod depths;
mod edges;
mod entropy;
mod estimates;
mod faults;
mod files;
mod graymap_files;
mod graymap_refusals;
mod graymaps;
mod headers;
mod in_place;
mod inverses;
mod lent;
mod locality;
mod pixmaps;
mod preview_refusals;
mod previews;
mod random;
mod refusals;
mod same;
mod small;
mod threads;
mod transforms;
mod wrapped;
mod wrapper;
