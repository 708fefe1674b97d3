//! The tests of the second program: expected values typed from document 01, Items 3, 5 and 7 of
//! document 02 and CASES.md, or derived from them by exact arithmetic.

mod bench;
mod binary;
mod cases;
mod collected;
mod edges;
mod flash;
mod id_check;
mod mismatches;
mod packets;
mod plan_batches;
mod plan_rounding;
mod plans;
mod program_erase;
mod random;
mod ranges;
mod refusals;
mod runs;
mod sessions;
mod support;
mod waking;
