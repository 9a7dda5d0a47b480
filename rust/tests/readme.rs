//! The README's lines in Rust stand in the example, which is built and run.

const README: &str = include_str!("../../README.md");
const EXAMPLE: &str = include_str!("../examples/case_e.rs");

#[test]
fn the_readme_shows_lines_of_the_example() {
    let (_, rest) = README.split_once("```rust\n").expect("lines in Rust");
    let (shown, _) = rest.split_once("```").expect("their end");
    assert!(shown.lines().count() >= 3);
    let mut lines = EXAMPLE.lines().map(str::trim);
    for line in shown.lines() {
        assert!(lines.any(|other| other == line), "{line:?} is not next");
    }
}
