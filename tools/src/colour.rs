//! A colour a page.

/// A turn of 137 degrees sets neighbours far apart, and meets all 360 hues before one comes again.
const TURN: usize = 137;
const START: usize = 75;
/// Saturation and lightness of the boxes, in turn. Hues come close again every 21 pages, and these
/// then differ.
const STRENGTHS: [(f64, f64); 4] = [(0.85, 0.90), (0.65, 0.78), (0.80, 0.86), (0.45, 0.74)];

/// The light colour of a page's boxes.
pub fn light(page: usize) -> String {
    let (saturation, lightness) = STRENGTHS[page % STRENGTHS.len()];
    hex(hue(page), saturation, lightness)
}

/// The dark colour of a page's lines and tag.
pub fn dark(page: usize) -> String {
    hex(hue(page), 0.75, 0.30)
}

fn hue(page: usize) -> f64 {
    ((START + TURN * page) % 360) as f64
}

/// From hue, saturation and lightness to the form that every viewer reads.
fn hex(hue: f64, saturation: f64, lightness: f64) -> String {
    let part = |offset: f64| {
        let turn = (offset + hue / 30.0) % 12.0;
        let slope = (turn - 3.0).min(9.0 - turn).clamp(-1.0, 1.0);
        let value = lightness - saturation * lightness.min(1.0 - lightness) * slope;
        (value * 255.0).round() as u8
    };
    format!("#{:02x}{:02x}{:02x}", part(0.0), part(8.0), part(4.0))
}

#[cfg(test)]
mod tests {
    use super::*;
    use std::collections::HashSet;

    #[test]
    fn known_colours() {
        assert_eq!(hex(0.0, 1.0, 0.5), "#ff0000");
        assert_eq!(hex(120.0, 1.0, 0.25), "#008000");
        assert_eq!(hex(240.0, 1.0, 0.5), "#0000ff");
        assert_eq!(hex(60.0, 0.0, 1.0), "#ffffff");
    }

    #[test]
    fn a_colour_a_page() {
        let colours: HashSet<String> = (1..=100).map(light).collect();
        assert_eq!(colours.len(), 100);
    }
}
