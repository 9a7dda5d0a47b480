//! A model of document 01 with requests One to Eight of document 02: every entry with its answers
//! and the buffers it leaves behind.
//!
//! It follows the documents' words closely and is not meant to be fast. The entries have the same
//! shape as the library's, so that a test can run both on the same input.

mod archive;
mod best;
mod greedy;
mod plan;
mod planners;
mod price;
mod quick;
mod sheets;
mod tree;

/// The words of an answer, which model and library share; all that they say is the model's own.
pub use balduqen::doors::{Answer, Price, Saving};

pub use archive::{
    archive_bytes, archive_length, convert_to_1, convert_to_2, read_archive, read_archive2,
    write_archive, write_archive2, Edition, ARCHIVE_NODES, EDITIONS, FIRST, SECOND,
};
pub use plan::{judge, pages, verdict, Page};
pub use planners::{
    plan_best, plan_depth_first, plan_level, plan_pair, plan_rightmost, plan_single, scratch_length,
};
pub use price::{price, saving};
pub use sheets::{print_sheets, sheets_bytes, sheets_length};
pub use tree::{read, read_as_before, read_sound, read_tree, word, Tree, MAX_LIMIT, MAX_NODES};

/// A planner, of the model or of the library: table, marks, scratch.
pub type Planner = fn(&[u8], &mut [u8], &mut [u32]) -> Answer;
