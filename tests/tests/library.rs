//! Tests of the proved library through its C interface, each call against the model.

#![allow(
    unused_must_use,
    reason = "a call here is a check, which has looked at the answer that it gives back"
)]

#[path = "library/convert.rs"]
mod convert;
#[path = "library/judge.rs"]
mod judge;
#[path = "library/planners.rs"]
mod planners;
#[path = "library/price.rs"]
mod price;
#[path = "library/read_archive.rs"]
mod read_archive;
#[path = "library/read_tree.rs"]
mod read_tree;
#[path = "library/sheets.rs"]
mod sheets;
#[path = "library/write_archive.rs"]
mod write_archive;
