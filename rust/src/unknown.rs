//! Names that stand for nothing, as errors that quote them.

use std::error::Error;
use std::fmt;

/// How many signs of a name an error repeats.
const SIGNS: usize = 60;

/// A name as it is quoted: where it is longer, its beginning and two dots, so that an error never
/// repeats megabytes; and a control sign by its number, so that none reaches a terminal.
fn quoted(name: &str) -> String {
    let mut quoted = String::new();
    for sign in name.chars().take(SIGNS) {
        match sign.is_control() {
            true => quoted.extend(sign.escape_default()),
            false => quoted.push(sign),
        }
    }
    match name.chars().nth(SIGNS) {
        None => quoted,
        Some(_) => quoted + "..",
    }
}

/// What is no planner's name: the error of a `Planner` from text.
#[derive(Clone, Debug, PartialEq, Eq)]
pub struct UnknownPlanner {
    name: String,
}

impl UnknownPlanner {
    pub(crate) fn new(name: &str) -> UnknownPlanner {
        UnknownPlanner { name: quoted(name) }
    }
}

impl fmt::Display for UnknownPlanner {
    fn fmt(&self, f: &mut fmt::Formatter) -> fmt::Result {
        write!(f, "there is no planner '{}'", self.name)
    }
}

impl Error for UnknownPlanner {}

/// What is no edition's number: the error of an `Edition` from text.
#[derive(Clone, Debug, PartialEq, Eq)]
pub struct UnknownEdition {
    name: String,
}

impl UnknownEdition {
    pub(crate) fn new(name: &str) -> UnknownEdition {
        UnknownEdition { name: quoted(name) }
    }
}

impl fmt::Display for UnknownEdition {
    fn fmt(&self, f: &mut fmt::Formatter) -> fmt::Result {
        write!(f, "there is no edition '{}'", self.name)
    }
}

impl Error for UnknownEdition {}
