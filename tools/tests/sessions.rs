//! The commands as they are called: the sessions beside this file, and the README's tour. Below each
//! command stands all that it writes, on standard output and standard error, and then, where it is
//! not 0, its exit status in brackets. A session has a folder of its own, with the samples in it.

mod room;

use room::Room;
use std::fs;
use std::os::unix::fs::symlink;
use std::path::{Path, PathBuf};
use std::process::{Command, Stdio};

const PROGRAM: &str = env!("CARGO_BIN_EXE_balduqen");
const SESSIONS: &str = concat!(env!("CARGO_MANIFEST_DIR"), "/tests/sessions");
const ROOT: &str = concat!(env!("CARGO_MANIFEST_DIR"), "/..");

/// What stands in a session's folder, by its name alone and, as from the root, by its path.
const FILES: [&str; 5] = [
    "tools/samples/e.txt",
    "tools/samples/e.table",
    "tools/samples/e.plan",
    "docs/case-e.svg",
    "examples/case_e.sheet",
];

/// The program, and what sessions make damaged files with.
fn commands() -> [(&'static str, PathBuf); 3] {
    let beside = |name: &'static str| (name, Path::new(SESSIONS).join(name));
    [
        ("balduqen", PathBuf::from(PROGRAM)),
        beside("put"),
        beside("bytes"),
    ]
}

fn make_folder(name: &str) -> Room {
    let folder = Room::new(name);
    fs::create_dir_all(folder.join("bin")).expect("a folder");
    for file in FILES {
        let (from, to) = (Path::new(ROOT).join(file), folder.join(file));
        fs::create_dir_all(to.parent().expect("a folder")).expect("a folder");
        fs::copy(&from, folder.join(from.file_name().expect("a name"))).expect(file);
        fs::copy(&from, to).expect(file);
    }
    for (name, from) in commands() {
        symlink(from, folder.join("bin").join(name)).expect("a link");
    }
    // As it is called from the root.
    symlink(PROGRAM, folder.join("balduqen")).expect("a link");
    folder
}

/// All that a command writes, and its exit status where it is not 0.
fn answer(folder: &Path, command: &str) -> String {
    let path = std::env::var("PATH").expect("a path");
    let bin = folder.join("bin");
    let both = format!("{{ {command}\n}} 2>&1");
    let output = Command::new("bash")
        .args(["-o", "pipefail", "-c", &both])
        .current_dir(folder)
        .env("PATH", format!("{}:{path}", bin.display()))
        .env("LC_ALL", "C")
        .stdin(Stdio::null())
        .output()
        .expect("a shell");
    let mut text = String::from_utf8_lossy(&output.stdout).into_owned();
    if !text.is_empty() && !text.ends_with('\n') {
        text += "\n";
    }
    match output.status.code() {
        Some(0) => text,
        Some(status) => format!("{text}[{status}]\n"),
        None => format!("{text}[ended by a signal]\n"),
    }
}

/// Runs each command of a session and compares. Lines that begin with '# ' are for who reads it.
fn run(name: &str, session: &str) -> usize {
    let folder = make_folder(name);
    let mut lines = session
        .lines()
        .filter(|line| !line.starts_with("# "))
        .peekable();
    let mut count = 0;
    while let Some(line) = lines.next() {
        let command = line.strip_prefix("$ ");
        let command = command.unwrap_or_else(|| panic!("{name}: no command writes {line:?}"));
        let mut wanted = String::new();
        while let Some(line) = lines.next_if(|line| !line.starts_with("$ ")) {
            wanted += &format!("{line}\n");
        }
        let answer = answer(&folder, command);
        assert!(
            answer == wanted,
            "{name}: {command}\n--- it writes\n{answer}--- and should write\n{wanted}"
        );
        count += 1;
    }
    count
}

macro_rules! sessions {
    ($($name:ident)*) => {
        $(
            #[test]
            fn $name() {
                let session = include_str!(concat!("sessions/", stringify!($name), ".txt"));
                assert!(run(stringify!($name), session) > 1);
            }
        )*

        const NAMES: &[&str] = &[$(stringify!($name)),*];
    };
}

sessions! { convert dump files judge plan price read saving sheet svg table text usage verify write }

/// No session is left out, and each command has one. Two are of what all commands do alike.
#[test]
fn every_command_has_its_session() {
    let entries = fs::read_dir(SESSIONS).expect("the sessions");
    let names = entries.map(|entry| entry.expect("a file").file_name());
    let names = names.map(|name| name.to_string_lossy().into_owned());
    let mut found: Vec<String> = names
        .filter_map(|name| Some(name.strip_suffix(".txt")?.to_string()))
        .collect();
    found.sort();
    assert_eq!(found, NAMES);
    let folder = make_folder("every_command");
    let help = answer(&folder, "balduqen --help");
    let listed = help
        .lines()
        .filter_map(|line| line.strip_prefix("  balduqen "));
    let mut listed: Vec<&str> = listed.filter_map(|line| line.split(' ').next()).collect();
    listed.extend(["files", "usage"]);
    listed.sort_unstable();
    assert_eq!(listed, NAMES);
}

/// The README's tour: each indented part with commands is a session, all in one folder.
#[test]
fn readme_tour() {
    let readme = fs::read_to_string(Path::new(ROOT).join("README.md")).expect("the README");
    let mut session = String::new();
    let mut part = String::new();
    for line in readme.lines().chain([""]) {
        match line.strip_prefix("    ") {
            Some(line) => part += &format!("{line}\n"),
            None => {
                if part.starts_with("$ ") {
                    session += &part;
                }
                part.clear();
            }
        }
    }
    assert!(run("readme_tour", &session) >= 14, "{session}");
    let commands = NAMES
        .iter()
        .filter(|name| !["files", "usage"].contains(name));
    for name in commands {
        let call = format!("$ ./balduqen {name} ");
        assert!(session.contains(&call), "the tour leaves out {name}");
    }
}
