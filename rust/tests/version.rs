//! One version number wherever it is told, with one for each request that has landed.

use balduqen::VERSION;
use std::fs;

/// The root of the repository.
const ROOT: &str = concat!(env!("CARGO_MANIFEST_DIR"), "/..");

/// The folders of the packages, and how many of them each builds.
const FOLDERS: [(&str, usize); 4] = [("rust", 1), ("tools", 2), ("tests", 3), ("bench", 2)];

fn file(name: &str) -> String {
    fs::read_to_string(format!("{ROOT}/{name}")).expect(name)
}

/// The value of a key on its line: `name = "balduqen"` tells `balduqen` of `name`.
fn told<'a>(line: &'a str, key: &str) -> Option<&'a str> {
    let value = line.strip_prefix(key)?.strip_prefix(" = \"")?;
    value.strip_suffix('"')
}

/// The versions of our own packages, each on the line after its name.
fn versions(text: &str) -> Vec<&str> {
    let version = |(name, version)| {
        let is_ours = told(name, "name")?.starts_with("balduqen");
        told(version, "version").filter(|_| is_ours)
    };
    let lines = text.lines().zip(text.lines().skip(1));
    lines.filter_map(version).collect()
}

/// The versions that CHANGELOG.md heads: `## 0.7.1 (2026-11-17)` tells `0.7.1`.
fn changes() -> Vec<String> {
    let text = file("CHANGELOG.md");
    let headings = text.lines().filter_map(|line| line.strip_prefix("## "));
    let versions = headings.filter_map(|heading| heading.split(' ').next());
    versions.map(str::to_string).collect()
}

#[test]
fn one_number_for_all() {
    for (folder, packages) in FOLDERS {
        let manifest = file(&format!("{folder}/Cargo.toml"));
        assert_eq!(versions(&manifest), [VERSION], "{folder}/Cargo.toml");
        let lock = file(&format!("{folder}/Cargo.lock"));
        assert_eq!(
            versions(&lock),
            vec![VERSION; packages],
            "{folder}/Cargo.lock"
        );
    }
    let header = file("include/balduqen.h");
    let defines = header.lines().filter(|line| line.contains("_VERSION"));
    let wanted = format!("#define BALDUQEN_VERSION \"{VERSION}\"");
    assert_eq!(defines.collect::<Vec<&str>>(), [wanted]);
    assert_eq!(changes()[0], VERSION);
}

/// The middle numbers of the changes go down to 1, from the number of requests.
#[test]
fn one_version_for_each_request() {
    let middle = |version: &String| version.split('.').nth(1)?.parse().ok();
    let mut middles: Vec<Option<usize>> = changes().iter().map(middle).collect();
    middles.dedup();
    let notes = fs::read_dir(format!("{ROOT}/docs/requests")).expect("the requests' notes");
    let requests: Vec<Option<usize>> = (1..=notes.count()).rev().map(Some).collect();
    assert_eq!(middles, requests);
}
