//! What keeps a command from its end.

use crate::quote::shown;
use std::panic::{catch_unwind, UnwindSafe};
use std::{fmt, io};

/// The exit status of a run, which is 2 also where the program itself is at fault.
pub fn status_of(run: impl FnOnce() -> u8 + UnwindSafe) -> u8 {
    catch_unwind(run).unwrap_or(2)
}

#[derive(Clone, Debug, PartialEq, Eq)]
pub enum Stop {
    /// What was given is refused: why, and what had been found by then.
    Refused { found: String, why: String },
    /// The command is not as it should be, or a file cannot be read or written.
    Trouble(String),
}

impl Stop {
    pub fn refused(why: impl fmt::Display) -> Stop {
        Stop::Refused {
            found: String::new(),
            why: why.to_string(),
        }
    }

    /// A file that has not the form of what it should be, for which the list has no number; and what
    /// that form is.
    pub fn bad_form(file: &str, fault: impl fmt::Display, form: &str) -> Stop {
        Stop::refused(format!("{}: refused: {fault}\n    {form}", name(file)))
    }

    /// A file that cannot be read or written.
    pub fn of_file(file: &str, error: &io::Error) -> Stop {
        let error = error.to_string();
        let words = error.split(" (os error").next().unwrap_or(&error);
        Stop::trouble(format!("{}: {words}", name(file)))
    }

    /// A refusal with what had been found by then.
    pub fn with(self, found: String) -> Stop {
        match self {
            Stop::Refused { why, .. } => Stop::Refused { found, why },
            trouble => trouble,
        }
    }

    pub fn trouble(why: impl fmt::Display) -> Stop {
        Stop::Trouble(why.to_string())
    }
}

/// A file as it is called in words.
pub fn name(file: &str) -> String {
    match file {
        "-" => "standard input".to_string(),
        "" => "''".to_string(),
        _ => shown(file),
    }
}

#[cfg(test)]
mod tests {
    use super::*;

    #[test]
    fn a_fault_of_the_program_has_a_status() {
        assert_eq!([0, 1, 2].map(|status| status_of(|| status)), [0, 1, 2]);
        assert_eq!(status_of(|| panic!("a fault, on purpose")), 2);
    }
}
