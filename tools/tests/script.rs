//! The script at the root, in a folder of its own with stand-ins for what proves and builds: it builds
//! what is not there or older than its sources, shows each crate as it is proved, and then runs.

mod room;

use room::Room;
use std::fs;
use std::os::unix::fs::PermissionsExt;
use std::process::{Command, Output};
use std::thread::sleep;
use std::time::Duration;

const SCRIPT: &str = include_str!("../../balduqen");
const BUILD: &str = include_str!("../build-library.sh");

/// Proves, as the kit's command writes it.
const RT: &str = r#"echo "rt $*" >> ../../calls
echo 'rt: chose --jobs 2 for embed'
echo 'struct model::Answer: proved'
echo 'crate model: modules loaded=25 checked=0'
echo 'logic=proved functions=0 sum=0'
echo 'library model: modules loaded=25 checked=0'
echo 'crate theory: modules loaded=0 checked=25'
echo 'logic=proved functions=2 sum=0'
echo 'crate embed: modules loaded=0 checked=25'
echo 'axioms std: none reached of the 2 declared'
mkdir -p out && echo library > out/libembed.a
echo 'logic=proved functions=19 sum=0'
"#;

/// Builds a program that tells its words.
const CARGO: &str = r#"cd "$(dirname "$0")/.." && echo "cargo $*" >> calls
mkdir -p target/tools/release
printf '#!/bin/sh\nfor word; do echo "word: $word"; done\nexit 1\n' > target/tools/release/balduqen
chmod +x target/tools/release/balduqen
"#;

struct Root(Room);

impl Root {
    fn new(name: &str, rt: &str, cargo: &str) -> Root {
        let root = Room::new(name);
        for folder in [
            "bin",
            "crates/embed/src",
            "crates/model/specs",
            "rust",
            "tools/src",
            "elsewhere",
        ] {
            fs::create_dir_all(root.join(folder)).expect("a folder");
        }
        for file in [
            "crates.txt",
            "crates/embed/src/lib.rt",
            "tools/Cargo.toml",
            "tools/src/main.rs",
        ] {
            fs::write(root.join(file), "").expect("a file");
        }
        let root = Root(root);
        root.put("balduqen", SCRIPT);
        root.put("tools/build-library.sh", BUILD);
        root.put("bin/rt", &format!("#!/usr/bin/env bash\n{rt}"));
        root.put("bin/cargo", &format!("#!/usr/bin/env bash\n{cargo}"));
        root
    }

    fn put(&self, file: &str, text: &str) {
        let path = self.0.join(file);
        fs::write(&path, text).expect("a file");
        fs::set_permissions(&path, fs::Permissions::from_mode(0o755)).expect("it can be run");
    }

    /// Calls the script from another folder, as a shell does it.
    fn call(&self, command: &str) -> Output {
        let path = std::env::var("PATH").expect("a path");
        Command::new("bash")
            .args(["-c", command])
            .current_dir(self.0.join("elsewhere"))
            .env("PATH", format!("{}:{path}", self.0.join("bin").display()))
            .env("LC_ALL", "C")
            .output()
            .expect("the script runs")
    }

    /// Exit status, standard output and standard error.
    fn run(&self) -> (Option<i32>, String, String) {
        let Output {
            status,
            stdout,
            stderr,
        } = self.call("../balduqen plan 'a b'");
        let text = |bytes| String::from_utf8(bytes).expect("a text");
        (status.code(), text(stdout), text(stderr))
    }

    fn calls(&self) -> String {
        fs::read_to_string(self.0.join("calls")).unwrap_or_default()
    }

    /// A source is changed after what was built from it.
    fn change(&self, file: &str) {
        sleep(Duration::from_millis(20));
        fs::write(self.0.join(file), "changed").expect("a file");
    }
}

const PROVED: &str = "\
The library is proved and built first; from nothing this takes a few minutes.
  model proved
  theory proved
  embed proved
  target/staticlib/libembed.a is written
The commands are built.
";

#[test]
fn builds_once_and_runs() {
    let root = Root::new("builds", RT, CARGO);
    let called = "word: plan\nword: a b\n".to_string();
    // The program's own exit status is the script's.
    assert_eq!(root.run(), (Some(1), called.clone(), PROVED.to_string()));
    let calls = root.calls();
    assert_eq!(calls.lines().count(), 2, "{calls}");
    assert!(calls.starts_with("rt lib\ncargo build "), "{calls}");
    assert_eq!(root.run(), (Some(1), called.clone(), String::new()));
    assert_eq!(root.calls(), calls);

    root.change("tools/src/main.rs");
    let built = "The commands are built.\n".to_string();
    assert_eq!(root.run(), (Some(1), called.clone(), built));
    assert_eq!(root.run(), (Some(1), called.clone(), String::new()));
    for source in [
        "crates/embed/src/lib.rt",
        "crates/model/specs/Lib.antt",
        "crates.txt",
    ] {
        root.change(source);
        assert_eq!(root.run(), (Some(1), called.clone(), PROVED.to_string()));
        assert_eq!(root.run(), (Some(1), called.clone(), String::new()));
    }
    // What the kit keeps beside the sources is none.
    root.change("crates/embed/out/kept");
    assert_eq!(root.run(), (Some(1), called, String::new()));
}

#[test]
fn says_what_fails() {
    let root = Root::new(
        "not_proved",
        "echo fault; echo 'crate model: modules loaded=1 checked=2'; echo logic=not-proved; exit 1",
        CARGO,
    );
    let (status, out, err) = root.run();
    assert_eq!((status, out.as_str()), (Some(2), ""));
    let wanted = "fault\nlogic=not-proved\nbalduqen: the library is not proved\n";
    assert!(err.ends_with(wanted), "{err}");
    assert_eq!(root.calls(), "");

    let root = Root::new("not_built", RT, "echo 'error: fault'; exit 101");
    let (status, out, err) = root.run();
    assert_eq!((status, out.as_str()), (Some(2), ""));
    let wanted = "error: fault\nbalduqen: the commands are not built\n";
    assert!(err.ends_with(wanted), "{err}");
    // The next call tries again.
    root.put("bin/cargo", &format!("#!/usr/bin/env bash\n{CARGO}"));
    assert_eq!(root.run().0, Some(1));
}

/// What is in the way of the build, or of the program, and what is said of it.
#[test]
fn says_what_is_in_the_way() {
    let said = |root: &Root| {
        let (status, out, err) = root.run();
        assert_eq!((status, out.as_str()), (Some(2), ""));
        err
    };
    let root = Root::new("no_lock", RT, CARGO);
    fs::create_dir_all(root.0.join("target/balduqen.lock")).expect("a folder");
    let lock = "/target/balduqen.lock cannot be written, and the library or the commands have to be built\n";
    assert!(said(&root).ends_with(lock));

    let root = Root::new("no_log", RT, CARGO);
    fs::create_dir_all(root.0.join("target/balduqen.log")).expect("a folder");
    let log = "/target/balduqen.log cannot be written, to which all that is built is told\n";
    assert!(said(&root).ends_with(log));
    assert_eq!(root.calls(), "");

    let root = Root::new("no_target", RT, CARGO);
    root.put("target", "");
    assert!(said(&root).ends_with("/target cannot be made, and what it is for has to be built\n"));

    let root = Root::new("no_program", RT, CARGO);
    assert_eq!(root.run().0, Some(1));
    let program = root.0.join("target/tools/release/balduqen");
    fs::remove_file(&program).expect("a program");
    fs::create_dir(&program).expect("a folder");
    assert!(said(&root).ends_with("/target/tools/release/balduqen cannot be run\n"));
}

/// What the command itself cannot see or keep from happening.
#[test]
fn streams_and_limits() {
    let root = Root::new("streams", RT, CARGO);
    assert_eq!(root.run().0, Some(1));
    let closed = root.call("../balduqen plan 'a b' >&-");
    assert_eq!(closed.status.code(), Some(2));
    assert_eq!(closed.stderr, b"balduqen: standard output is closed\n");
    // A file that would be too long is a failure, and no signal.
    let program = root.0.join("target/tools/release/balduqen");
    let writes = "#!/bin/sh\nhead -c 4096 /dev/zero > long\nexit 2\n";
    fs::write(&program, writes).expect("a program");
    let long = root.call("ulimit -f 1; ../balduqen write");
    assert_eq!(long.status.code(), Some(2));
    let said = String::from_utf8_lossy(&long.stderr);
    assert!(said.contains("File too large"), "{said}");
}

/// The build goes on, and the exit status is the same.
#[test]
fn standard_error_may_be_full_or_closed() {
    for (name, to) in [("full", "/dev/full"), ("closed", "&-")] {
        let root = Root::new(name, RT, CARGO);
        let output = root.call(&format!("../balduqen plan 'a b' 2>{to}"));
        assert_eq!(output.status.code(), Some(1), "{to}");
        assert_eq!(output.stdout, b"word: plan\nword: a b\n", "{to}");
        let root = Root::new(&format!("not_proved_{name}"), "exit 1", CARGO);
        let output = root.call(&format!("../balduqen plan 'a b' 2>{to}"));
        assert_eq!(output.status.code(), Some(2), "{to}");
    }
}
