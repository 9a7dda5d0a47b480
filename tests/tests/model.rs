//! Tests of the model itself: against document 01's own cases and, for small trees, against
//! exhaustive search over plans and runs and against lists of all shapes and archives.

#[path = "model/archive.rs"]
mod archive;
#[path = "model/cases.rs"]
mod cases;
#[path = "model/planners.rs"]
mod planners;
#[path = "model/plans.rs"]
mod plans;
#[path = "model/price.rs"]
mod price;
#[path = "model/quick.rs"]
mod quick;
#[path = "model/sheets.rs"]
mod sheets;
#[path = "model/tree.rs"]
mod tree;

use balduqen_tests::cases::Kind;
use balduqen_tests::model::{scratch_length, word, Answer};

/// Runs a planner of the model with good buffers that hold something else on entry.
fn plan(kind: Kind, table: &[u8]) -> (Answer, Vec<u8>) {
    let count = word(table, 0);
    let mut marks = vec![9; count];
    let mut scratch = vec![9; scratch_length(count, word(table, 1)) + 1];
    let answer = kind.model()(table, &mut marks, &mut scratch);
    assert!(
        scratch.iter().all(|&word| word == 0),
        "scratch is left behind"
    );
    (answer, marks)
}
