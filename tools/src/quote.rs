//! What was read, as far as a message repeats it.

/// So many signs of a text are repeated at most, and so many of a file's name.
const MOST: usize = 60;
const MOST_OF_NAME: usize = 240;

/// A text in double quotes, with signs that cannot be shown told by their numbers.
pub fn quote(text: &str) -> String {
    match cut(text, MOST) {
        (shown, true) => format!("{shown:?}.."),
        (shown, false) => format!("{shown:?}"),
    }
}

/// A word of the command line or of a text, cut where it is long.
pub fn short(word: &str) -> String {
    plain(word, MOST)
}

/// A file's name, cut where it is longer than most are.
pub fn shown(name: &str) -> String {
    plain(name, MOST_OF_NAME)
}

/// A text without quotes. A control sign is told by its number, so that none reaches a terminal.
fn plain(text: &str, most: usize) -> String {
    let (text, is_cut) = cut(text, most);
    let signs = text.chars().map(|sign| match sign.is_control() {
        true => sign.escape_default().to_string(),
        false => sign.to_string(),
    });
    let plain: String = signs.collect();
    match is_cut {
        true => plain + "..",
        false => plain,
    }
}

/// The beginning of a text, and whether more follows.
fn cut(text: &str, most: usize) -> (&str, bool) {
    match text.char_indices().nth(most) {
        Some((end, _)) => (&text[..end], true),
        None => (text, false),
    }
}

#[cfg(test)]
mod tests {
    use super::*;

    #[test]
    fn long_texts_are_cut() {
        let whole = "ä".repeat(MOST);
        assert_eq!(short(&whole), whole);
        assert_eq!(short(&format!("{whole}b")), format!("{whole}.."));
        assert_eq!(quote("a\"\n"), r#""a\"\n""#);
        assert_eq!(
            quote(&"7".repeat(MOST + 1)),
            format!("\"{}\"..", "7".repeat(MOST))
        );
        assert_eq!(short(""), "");
        let long = "n".repeat(MOST_OF_NAME);
        assert_eq!(shown(&long), long);
        assert_eq!(shown(&format!("{long}n")), format!("{long}.."));
    }

    #[test]
    fn control_signs_are_told() {
        assert_eq!(shown("a\n\u{1b}[31m b"), "a\\n\\u{1b}[31m b");
        assert_eq!(short("\u{9b}ä'"), "\\u{9b}ä'");
    }
}
