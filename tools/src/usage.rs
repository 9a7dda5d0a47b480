//! The words of a command line: which command, its operands and its options. What is not known is
//! named.

use crate::quote::{short, shown};
use crate::same_file::{are_one, are_one_stream, is_standard_output, overwrites};
use crate::stop::{name, Stop};

/// What an option's value names.
#[derive(Clone, Copy, Debug, PartialEq, Eq)]
pub enum Role {
    Word,
    Input,
    Output,
}

/// An option, which takes a value.
pub struct Choice {
    pub name: &'static str,
    pub value: &'static str,
    pub role: Role,
    pub needed: bool,
}

/// What a command takes, and what it does. Operands are files that it reads.
pub struct Usage {
    pub name: &'static str,
    pub operands: &'static [&'static str],
    pub choices: &'static [Choice],
    /// For the list of all commands, and for the help of this one.
    pub about: &'static str,
    pub help: &'static str,
}

/// What a command was given.
#[derive(Debug, PartialEq, Eq)]
pub struct Given {
    operands: Vec<String>,
    chosen: Vec<(&'static str, String)>,
}

/// A command line that was read.
#[derive(Debug, PartialEq, Eq)]
pub enum Asked {
    Run(Given),
    Help,
}

impl Given {
    pub fn operand(&self, index: usize) -> &str {
        &self.operands[index]
    }

    /// The value of an option, where it was given.
    pub fn chosen(&self, name: &str) -> Option<&str> {
        let mut all = self.chosen.iter();
        all.find(|chosen| chosen.0 == name)
            .map(|chosen| chosen.1.as_str())
    }
}

impl Usage {
    /// The command with what it takes, as it is called.
    pub fn line(&self) -> String {
        let mut line = self.name.to_string();
        for operand in self.operands {
            line += &format!(" {operand}");
        }
        for Choice {
            name,
            value,
            needed,
            ..
        } in self.choices
        {
            line += &match needed {
                true => format!(" {name} {value}"),
                false => format!(" [{name} {value}]"),
            };
        }
        line
    }

    /// How it is called, and what it does.
    pub fn help_text(&self) -> String {
        format!("balduqen {}\n\n{}", self.line(), self.help)
    }

    /// Reads the words after the command's name. Behind '--' all of them are operands.
    pub fn read(&self, words: &[&str]) -> Result<Asked, Stop> {
        let end = words.iter().position(|&word| word == "--");
        let (words, operands) = match end {
            Some(end) => (&words[..end], &words[end + 1..]),
            None => (words, &[][..]),
        };
        if words.iter().any(|&word| word == "--help" || word == "-h") {
            return Ok(Asked::Help);
        }
        let mut given = Given {
            operands: vec![],
            chosen: vec![],
        };
        let mut words = words.iter().copied();
        while let Some(word) = words.next() {
            if word == "-" || !word.starts_with('-') {
                given.operands.push(word.to_string());
                continue;
            }
            let (name, value) = match word.split_once('=') {
                Some((name, value)) => (name, Some(value)),
                None => (word, None),
            };
            let choice = self.choice(name)?;
            // What begins as an option does is none's value, unless it stands behind '='.
            let is_value = |word: &&str| *word == "-" || !word.starts_with('-');
            let value = value.or_else(|| words.next().filter(is_value));
            let value = value.ok_or_else(|| {
                self.trouble(format!("{name} needs a value: {name} {}", choice.value))
            })?;
            if given.chosen(choice.name).is_some() {
                return Err(self.trouble(format!("{name} is given twice")));
            }
            given.chosen.push((choice.name, value.to_string()));
        }
        given
            .operands
            .extend(operands.iter().map(|word| word.to_string()));
        self.check(&given)?;
        Ok(Asked::Run(given))
    }

    fn choice(&self, name: &str) -> Result<&'static Choice, Stop> {
        let names: Vec<&str> = self.choices.iter().map(|choice| choice.name).collect();
        let known = self.choices.iter().find(|choice| choice.name == name);
        known.ok_or_else(|| {
            let (shown, near) = (short(name), near(name, &names));
            self.trouble(format!("unknown option '{shown}'{near}"))
        })
    }

    fn check(&self, given: &Given) -> Result<(), Stop> {
        if let Some(more) = given.operands.get(self.operands.len()) {
            return Err(self.trouble(format!("one word too many: '{}'", short(more))));
        }
        if let Some(missing) = self.operands.get(given.operands.len()) {
            return Err(self.trouble(format!("{missing} is missing")));
        }
        for choice in self.choices.iter().filter(|choice| choice.needed) {
            let Choice { name, value, .. } = choice;
            if given.chosen(name).is_none() {
                return Err(self.trouble(format!("{name} {value} is missing")));
            }
        }
        self.check_files(given)
    }

    /// Standard input is read once, and each output is a file of its own, which is not read.
    fn check_files(&self, given: &Given) -> Result<(), Stop> {
        let chosen = |role: Role| {
            let choices = self
                .choices
                .iter()
                .filter(move |choice| choice.role == role);
            choices.filter_map(|choice| given.chosen(choice.name))
        };
        let operands = given.operands.iter().map(String::as_str);
        let inputs: Vec<&str> = operands.chain(chosen(Role::Input)).collect();
        for (index, input) in inputs.iter().enumerate() {
            if inputs[..index]
                .iter()
                .any(|other| are_one_stream(input, other))
            {
                return Err(self.trouble(format!("{} can be read once only", name(input))));
            }
        }
        let mut outputs: Vec<&str> = chosen(Role::Output).collect();
        // The report is one more, where none takes its place.
        if !outputs.iter().any(|output| is_standard_output(output)) {
            outputs.insert(0, "-");
        }
        for (index, &output) in outputs.iter().enumerate() {
            if let Some(input) = inputs.iter().find(|input| overwrites(output, input)) {
                let file = both(output, input, "standard input");
                let fault = format!("{file} is read, and would be overwritten");
                return Err(self.trouble(fault));
            }
            if let Some(other) = outputs[..index].iter().find(|other| are_one(output, other)) {
                let file = both(output, other, "standard output");
                let fault = format!("{file} is named for two outputs");
                return Err(self.trouble(fault));
            }
        }
        Ok(())
    }

    /// A fault of the command line, and where to find how it should be.
    pub fn trouble(&self, fault: String) -> Stop {
        let Usage { name, .. } = self;
        Stop::trouble(format!(
            "{name}: {fault}\n    balduqen {}\n    'balduqen {name} --help' tells more.",
            self.line()
        ))
    }
}

/// An output by its name, and by its other name where it was given two; and what '-' is there.
fn both(output: &str, other: &str, standard: &str) -> String {
    let output = match output {
        "-" => "standard output".to_string(),
        _ => format!("'{}'", shown(output)),
    };
    let other = match other {
        "-" => standard.to_string(),
        _ => format!("'{}'", shown(other)),
    };
    match output == other {
        true => output,
        false => format!("{output}, which is {other},"),
    }
}

/// A known word that is much like this one, or that this one begins, as the end of a sentence.
pub fn near(word: &str, known: &[&str]) -> String {
    let nearest = known.iter().min_by_key(|name| distance(word, name));
    // A short word is like any other short one.
    let like = nearest.filter(|name| distance(word, name) <= 2.min(word.len() / 2));
    let mut longer = known.iter().filter(|name| name.starts_with(word));
    match like.or_else(|| longer.next()) {
        Some(name) if !word.is_empty() => format!("; is it '{name}'?"),
        _ => String::new(),
    }
}

/// How many letters have to be put in, left out or changed.
fn distance(one: &str, other: &str) -> usize {
    let other: Vec<char> = other.chars().collect();
    let mut row: Vec<usize> = (0..=other.len()).collect();
    for (above, letter) in one.chars().enumerate() {
        let mut corner = row[0];
        row[0] = above + 1;
        for (at, &with) in other.iter().enumerate() {
            let changed = corner + usize::from(letter != with);
            corner = row[at + 1];
            row[at + 1] = changed.min(row[at] + 1).min(corner + 1);
        }
    }
    row[other.len()]
}

#[cfg(test)]
mod tests {
    use super::*;

    #[test]
    fn distances() {
        assert_eq!(distance("plan", "plan"), 0);
        assert_eq!(distance("plna", "plan"), 2);
        assert_eq!(distance("pla", "plan"), 1);
        assert_eq!(distance("", "plan"), 4);
        assert_eq!(distance("judge", "plan"), 5);
        assert_eq!(near("wite", &["plan", "write"]), "; is it 'write'?");
        assert_eq!(near("x", &["plan", "write"]), "");
        assert_eq!(near("-v", &["plan", "svg"]), "");
        assert_eq!(near("x", &[]), "");
        assert_eq!(near("", &["plan", "write"]), "");
        let known = ["--svg", "--marks-out"];
        assert_eq!(near("--marks", &known), "; is it '--marks-out'?");
    }
}
