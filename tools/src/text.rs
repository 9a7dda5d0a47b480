//! A tree as an indented text: `limit K`, then a node a line, `weight label`, two spaces a level.
//! Blank lines are passed over, and so is a byte-order mark, and a '#' with the rest of its line.

use crate::quote::{quote, short};
use crate::tree::{Tree, WORDS};
use balduqen::{MAX_LIMIT, MAX_NODES};
use std::ops::RangeInclusive;

pub const FORM: &str =
    "A tree is 'limit K', then a node a line, 'weight label', two spaces of indent a level.";

/// A tree, and the lines of the text that tell it.
#[derive(Debug, PartialEq, Eq)]
pub struct Text {
    pub tree: Tree,
    pub lines: Lines,
}

/// The line of the limit, and that of each node.
#[derive(Clone, Debug, PartialEq, Eq)]
pub struct Lines {
    pub limit: usize,
    pub nodes: Vec<usize>,
}

/// The lines that say something, each with its number: no byte-order mark, no comment, no blank line.
pub fn lines(text: &str) -> impl Iterator<Item = (usize, &str)> {
    let text = text.strip_prefix('\u{feff}').unwrap_or(text);
    let lines = (1..).zip(text.lines());
    let lines = lines.map(|(place, line)| (place, line.split('#').next().unwrap_or(line)));
    lines.filter(|(_, line)| !line.trim().is_empty())
}

/// A limit or a count that no table has is read, as far as a table has room for it, for the library
/// to refuse.
pub fn read(text: &str) -> Result<Text, String> {
    let mut lines = lines(text);
    let at = |place: usize| move |fault: String| format!("line {place}: {fault}");
    let Some((first, line)) = lines.next() else {
        return Err("'limit K' is missing".to_string());
    };
    let mut tree = Tree::new(read_limit(line).map_err(at(first))?);
    let mut nodes = vec![];
    for (place, line) in lines {
        add_node(&mut tree, line).map_err(at(place))?;
        nodes.push(place);
    }
    match nodes.is_empty() {
        true => Err("the root is missing".to_string()),
        false => Ok(Text {
            tree,
            lines: Lines {
                limit: first,
                nodes,
            },
        }),
    }
}

pub fn write(tree: &Tree) -> String {
    let mut text = format!("limit {}\n", tree.limit);
    for number in tree.numbers() {
        let node = tree.node(number);
        let indent = "  ".repeat(node.depth);
        text += &format!("{indent}{} {}\n", node.weight, node.label);
    }
    text
}

/// The words of a line, and how far it is indented.
fn read_words(line: &str) -> Result<(usize, Vec<&str>), String> {
    if let Some(blank) = line.chars().find(|&sign| sign != ' ' && is_blank(sign)) {
        return Err(match blank {
            '\t' => "a tab; indent and separate with spaces".to_string(),
            '\r' => "a carriage return; end each line with a newline".to_string(),
            _ => {
                let number = u32::from(blank);
                format!("a blank of number {number:04X}; indent and separate with spaces")
            }
        });
    }
    let words = line.split(' ').filter(|word| !word.is_empty());
    let indent = line.len() - line.trim_start_matches(' ').len();
    Ok((indent, words.collect()))
}

/// Whether a sign looks like a space, or like nothing.
fn is_blank(sign: char) -> bool {
    sign.is_whitespace() || ('\u{200b}'..='\u{200d}').contains(&sign) || sign == '\u{feff}'
}

fn read_limit(line: &str) -> Result<u32, String> {
    let (indent, words) = read_words(line)?;
    match words[..] {
        ["limit", limit] if indent == 0 => read_number("limit", limit, 1..=MAX_LIMIT as u32),
        _ => Err(format!(
            "{} is not 'limit K', which comes first",
            quote(line)
        )),
    }
}

fn add_node(tree: &mut Tree, line: &str) -> Result<(), String> {
    let (indent, words) = read_words(line)?;
    let [weight, label] = words[..] else {
        return Err("a node is two numbers, 'weight label'".to_string());
    };
    let weight = read_number("weight", weight, WORDS)?;
    let label = read_number("label", label, WORDS)?;
    let depth = read_depth(tree, indent)?;
    if tree.count() as u32 == *WORDS.end() {
        return Err(format!("too many nodes; a tree has at most {MAX_NODES}"));
    }
    tree.add(depth, weight, label);
    Ok(())
}

fn read_depth(tree: &Tree, indent: usize) -> Result<usize, String> {
    if indent % 2 == 1 {
        return Err(format!("indent of {indent}; a level is 2 spaces"));
    }
    let depth = indent / 2;
    let Some(last) = tree.numbers().last() else {
        return match depth {
            0 => Ok(0),
            _ => Err("the root has no indent".to_string()),
        };
    };
    let most = tree.node(last).depth + 1;
    match depth {
        0 => Err("a second root; every node but the first is indented".to_string()),
        _ if depth > most => Err(format!(
            "indent of {indent}; after the node above it is at most {}",
            2 * most
        )),
        _ => Ok(depth),
    }
}

/// A number that a word has room for; where it has none, what the number should be is told. Digits
/// only: Rust's own reading would take a plus sign.
pub fn read_number(name: &str, word: &str, range: RangeInclusive<u32>) -> Result<u32, String> {
    if word.is_empty() || !word.bytes().all(|byte| byte.is_ascii_digit()) {
        return Err(format!("{name} {} is not a number", quote(word)));
    }
    // What is too long to be read is out of every range.
    let number = word.parse().ok().filter(|number| WORDS.contains(number));
    let (least, most) = (range.start(), range.end());
    number.ok_or_else(|| format!("{name} {} is not in {least} to {most}", short(word)))
}

#[cfg(test)]
mod tests {
    use super::*;
    use crate::tree::tests::{case_e, random_tree};

    const E: &str = include_str!("../samples/e.txt");

    fn read(text: &str) -> Result<Tree, String> {
        super::read(text).map(|text| text.tree)
    }

    fn fault(text: &str) -> String {
        read(text).expect_err(text)
    }

    #[test]
    fn case_e_both_ways() {
        assert_eq!(read(E), Ok(case_e()));
        assert_eq!(write(&case_e()), E);
    }

    #[test]
    fn reads_what_it_writes() {
        for seed in 0..200 {
            let tree = random_tree(seed, 1 + seed as usize % 70);
            assert_eq!(read(&write(&tree)), Ok(tree));
        }
    }

    #[test]
    fn blanks_make_no_difference() {
        let loose = "\nlimit  5 \r\n5 01\r\n\r\n  2   2\n  1 3  \n    2 4\n    2 5\n  1 6\n \n";
        assert_eq!(read(loose), Ok(case_e()));
        assert_eq!(read(E.trim_end()), Ok(case_e()));
    }

    #[test]
    fn notes_weigh_0() {
        let noted = "limit 1\n0 7\n  0 8\n    1 9\n  0 10\n";
        let tree = read(noted).expect("a tree");
        let weights: Vec<u32> = tree.numbers().map(|n| tree.node(n).weight).collect();
        assert_eq!(weights, [0, 0, 1, 0]);
        assert_eq!(write(&tree), noted);
    }

    #[test]
    fn bad_limits() {
        assert_eq!(fault(""), "'limit K' is missing");
        assert_eq!(
            fault("limit 65536\n1 1"),
            "line 1: limit 65536 is not in 1 to 1024"
        );
        assert_eq!(read("limit 0\n1 1").map(|tree| tree.limit), Ok(0));
        assert_eq!(fault("limit x"), "line 1: limit \"x\" is not a number");
        for first in ["5 1", "  limit 5", "limit 5 5", "limit"] {
            let wanted = format!("line 1: \"{first}\" is not 'limit K', which comes first");
            assert_eq!(fault(&format!("{first}\nlimit 5\n")), wanted);
        }
    }

    #[test]
    fn bad_numbers() {
        let node = |line: &str| fault(&format!("limit 5\n1 1\n{line}\n"));
        assert_eq!(node("  x 1"), "line 3: weight \"x\" is not a number");
        assert_eq!(node("  1 +1"), "line 3: label \"+1\" is not a number");
        assert_eq!(node("  1 -1"), "line 3: label \"-1\" is not a number");
        assert_eq!(node("  -1 1"), "line 3: weight \"-1\" is not a number");
        assert_eq!(
            node("  65536 1"),
            "line 3: weight 65536 is not in 0 to 65535"
        );
        assert_eq!(
            node("  1 65536"),
            "line 3: label 65536 is not in 0 to 65535"
        );
        let long = "99999999999999999999";
        let wanted = format!("line 3: label {long} is not in 0 to 65535");
        assert_eq!(node(&format!("  1 {long}")), wanted);
        let two = "line 3: a node is two numbers, 'weight label'";
        assert_eq!(node("  1"), two);
        assert_eq!(node("  1 1 1"), two);
    }

    #[test]
    fn bad_indents() {
        let node = |line: &str| fault(&format!("limit 5\n1 1\n\n{line}\n"));
        assert_eq!(node(" 1 2"), "line 4: indent of 1; a level is 2 spaces");
        assert_eq!(
            node("    1 2"),
            "line 4: indent of 4; after the node above it is at most 2"
        );
        let tab = "line 4: a tab; indent and separate with spaces";
        assert_eq!(node("\t1 2"), tab);
        assert_eq!(node("  1\t2"), tab);
        assert_eq!(
            node("1 2"),
            "line 4: a second root; every node but the first is indented"
        );
        assert_eq!(fault("limit 5\n  1 1"), "line 2: the root has no indent");
        assert_eq!(fault("limit 5\n"), "the root is missing");
        let blank = "line 4: a blank of number 00A0; indent and separate with spaces";
        assert_eq!(node("\u{a0}\u{a0}1 2"), blank);
        assert_eq!(node("  1\u{a0}2"), blank);
        let nothing = "line 4: a blank of number 200B; indent and separate with spaces";
        assert_eq!(node("  1 2\u{200b}"), nothing);
        let ends = "line 1: a carriage return; end each line with a newline";
        assert_eq!(fault("limit 5\r5 1\r"), ends);
    }

    #[test]
    fn comments_and_a_byte_order_mark() {
        let noted = "\u{feff}# the shift of case E\nlimit 5 # a page\n5 1#root\n  2 2\n  1 3\n#\n\n    2 4\n\
                     \x20   2 5 # 9 9\n  1 6\n";
        assert_eq!(read(noted), Ok(case_e()));
        assert_eq!(fault("# limit 5\n"), "'limit K' is missing");
        assert_eq!(
            fault("limit 5\n1 # 1\n"),
            "line 2: a node is two numbers, 'weight label'"
        );
        // Only the first sign of a text is a byte-order mark.
        assert!(fault("limit 5\n\u{feff}1 1\n").starts_with("line 2: a blank of number FEFF"));
    }

    #[test]
    fn each_node_has_its_line() {
        let noted = "\u{feff}# shift 7\n\nlimit 5\n5 1\n\t\n  2 2 # lot\n#\n  1 3";
        let lines = super::read(noted).expect("a tree").lines;
        assert_eq!((lines.limit, lines.nodes), (3, vec![4, 6, 8]));
    }

    #[test]
    fn long_words_are_cut() {
        let (x, nine) = ("x".repeat(61), "9".repeat(61));
        let wanted = format!("line 2: weight \"{}\".. is not a number", &x[1..]);
        assert_eq!(fault(&format!("limit 5\n{x} 1")), wanted);
        let wanted = format!("line 1: limit {}.. is not in 1 to 1024", &nine[1..]);
        assert_eq!(fault(&format!("limit {nine}\n1 1")), wanted);
    }

    /// More nodes than a table has are for the library to refuse; more than a word counts are not.
    #[test]
    fn node_limit() {
        let most = format!("limit 5\n1 1\n{}", "  1 1\n".repeat(65534));
        assert_eq!(read(&most).map(|tree| tree.count()), Ok(65535));
        let wanted = "line 65537: too many nodes; a tree has at most 2048";
        assert_eq!(fault(&(most + "  1 1\n")), wanted);
    }
}
