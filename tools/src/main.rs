//! balduqen COMMAND ..: files are written first, then the report or the refusal.

use balduqen_tools::commands;
use balduqen_tools::output::write_all;
use balduqen_tools::quote::short;
use balduqen_tools::stop::{status_of, Stop};
use std::env;
use std::fs::File;
use std::io::{self, ErrorKind, Write};
use std::os::fd::AsFd;
use std::panic;
use std::process::ExitCode;

fn main() -> ExitCode {
    panic::set_hook(Box::new(|fault| {
        tell(&format!("balduqen: a fault of the program: {fault}"));
    }));
    ExitCode::from(status_of(status))
}

/// Runs the command, and tells the exit status.
fn status() -> u8 {
    let words = env::args_os().skip(1).map(|word| word.into_string());
    let words: Result<Vec<String>, _> = words.collect();
    let words = words.map_err(|word| {
        let word = short(&format!("{word:?}"));
        Stop::trouble(format!(
            "the word {word} is not in UTF-8, as names have to be"
        ))
    });
    match words.and_then(|words| run(&words)) {
        Ok(()) => 0,
        Err(Stop::Refused { found, why }) => {
            // The refusal is what counts, wherever its report goes.
            let _ = put(found.as_bytes());
            tell(why.trim_end());
            1
        }
        Err(Stop::Trouble(why)) => {
            tell(&format!("balduqen: {}", why.trim_end()));
            2
        }
    }
}

fn run(words: &[String]) -> Result<(), Stop> {
    let made = commands::run(words)?;
    write_all(&made.files)?;
    put(&made.report).map_err(|error| Stop::of_file("standard output", &error))
}

/// Whoever reads may stop early. Written as a file: what Rust has for standard output takes what
/// cannot be written at all for written.
fn put(bytes: &[u8]) -> io::Result<()> {
    let mut out = File::from(io::stdout().as_fd().try_clone_to_owned()?);
    match out.write_all(bytes) {
        Err(error) if error.kind() == ErrorKind::BrokenPipe => Ok(()),
        done => done,
    }
}

/// On standard error. Where it cannot be written, the exit status still tells.
fn tell(line: &str) {
    let _ = writeln!(io::stderr(), "{line}");
}
