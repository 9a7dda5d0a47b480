//! The elements of an SVG that the picture and the legend are made of.

use crate::colour::dark;
use crate::letters::Letters;

pub const INK: &str = "#222222";
pub const FAINT: &str = "#8a8a8a";
/// Labels, beside numbers and weights.
pub const LABEL: &str = "#555555";
pub const ALARM: &str = "#d01515";

pub fn rect((x, y): (i32, i32), (width, height): (i32, i32), round: i32, style: &str) -> String {
    format!("<rect x=\"{x}\" y=\"{y}\" width=\"{width}\" height=\"{height}\" rx=\"{round}\" {style}/>\n")
}

pub fn path(curve: &str, style: &str) -> String {
    format!("<path d=\"{curve}\" {style}/>\n")
}

pub fn text((x, y): (i32, i32), style: &str, content: &str) -> String {
    format!("<text x=\"{x}\" y=\"{y}\" {style}>{content}</text>\n")
}

/// What tells this where one points at it, if it tells anything.
pub fn titled(title: &str, content: String) -> String {
    match title.is_empty() {
        true => content,
        false => format!("<g><title>{title}</title>\n{content}</g>\n"),
    }
}

/// The height of a page's tag.
pub const TAG: i32 = 16;

/// A page's number on a small tag of this height, with a sign to it where the page is over the limit.
pub fn tag((x, y): (i32, i32), height: i32, page: usize, over: bool) -> String {
    let fill = match over {
        true => ALARM.to_string(),
        false => dark(page),
    };
    let width = tag_width(height, page, over);
    let letters = tag_letters(height).style();
    let style = format!("fill=\"#ffffff\" {letters} text-anchor=\"middle\"");
    let middle = (x + width / 2, y + (height + 8) / 2);
    rect(
        (x, y),
        (width, height),
        height / 2,
        &format!("fill=\"{fill}\""),
    ) + &text(middle, &style, &tag_text(page, over))
}

pub fn tag_width(height: i32, page: usize, over: bool) -> i32 {
    height - 7 + tag_letters(height).width(&tag_text(page, over))
}

fn tag_letters(height: i32) -> Letters {
    Letters::bold((height + 6) / 2)
}

fn tag_text(page: usize, over: bool) -> String {
    match over {
        true => format!("{page}!"),
        false => page.to_string(),
    }
}

const LEVEL: Letters = Letters::plain(9);

/// A level in a frame, where the indents of a card begin anew.
pub fn level_mark((x, y): (i32, i32), height: i32, level: usize) -> String {
    let width = level_width(level);
    let style = format!("{} text-anchor=\"middle\"", LEVEL.style());
    rect(
        (x, y),
        (width, height),
        2,
        &format!("fill=\"#ffffff\" stroke=\"{INK}\" stroke-width=\"0.8\""),
    ) + &text(
        (x + width / 2, y + height / 2 + 3),
        &style,
        &level.to_string(),
    )
}

pub fn level_width(level: usize) -> i32 {
    6 + LEVEL.width(&level.to_string())
}

/// A number of things, as a text.
pub fn counted(count: usize, name: &str) -> String {
    let plural = if count == 1 { "" } else { "s" };
    format!("{count} {name}{plural}")
}
