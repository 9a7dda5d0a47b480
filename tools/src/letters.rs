//! How wide a text is. The widths are those of DejaVu Sans, the first font that a picture asks for;
//! Verdana is about as wide, and Arial narrower.

/// From space to tilde, in thousandths of the letters' size, rounded up.
const PLAIN: [i32; 95] = [
    318, 401, 460, 838, 637, 951, 780, 275, 391, 391, 500, 838, 318, 361, 318, 337, 637, 637, 637,
    637, 637, 637, 637, 637, 637, 637, 337, 337, 838, 838, 838, 531, 1000, 685, 687, 699, 771, 632,
    576, 775, 752, 295, 295, 656, 558, 863, 749, 788, 604, 788, 695, 635, 611, 732, 685, 989, 686,
    611, 686, 391, 337, 391, 838, 500, 500, 613, 635, 550, 635, 616, 353, 635, 634, 278, 278, 580,
    278, 975, 634, 612, 635, 635, 412, 521, 393, 634, 592, 818, 592, 592, 525, 637, 337, 637, 838,
];
const BOLD: [i32; 95] = [
    349, 457, 521, 838, 696, 1002, 873, 307, 458, 458, 523, 838, 380, 416, 380, 366, 696, 696, 696,
    696, 696, 696, 696, 696, 696, 696, 400, 400, 838, 838, 838, 581, 1000, 774, 763, 734, 831, 684,
    684, 821, 837, 373, 373, 775, 638, 996, 837, 851, 733, 851, 771, 721, 683, 813, 774, 1104, 771,
    725, 726, 458, 366, 458, 838, 500, 500, 675, 716, 593, 716, 679, 436, 716, 712, 343, 343, 666,
    343, 1042, 712, 688, 716, 716, 494, 596, 479, 712, 652, 924, 646, 652, 583, 712, 366, 712, 838,
];
const EN_DASH: i32 = 500;
/// Any other sign, at the most.
const WIDEST: i32 = 1104;

/// The letters that a text is set in.
#[derive(Clone, Copy)]
pub struct Letters {
    pub size: i32,
    is_bold: bool,
}

impl Letters {
    pub const fn plain(size: i32) -> Letters {
        let is_bold = false;
        Letters { size, is_bold }
    }

    pub const fn bold(size: i32) -> Letters {
        let is_bold = true;
        Letters { size, is_bold }
    }

    /// The attributes of a text in these letters.
    pub fn style(&self) -> String {
        let size = self.size;
        match self.is_bold {
            false => format!("font-size=\"{size}\""),
            true => format!("font-size=\"{size}\" font-weight=\"bold\""),
        }
    }

    /// How wide a text is, rounded up.
    pub fn width(&self, text: &str) -> i32 {
        let thousandths: i32 = text.chars().map(|sign| self.sign_width(sign)).sum();
        (thousandths * self.size + 999) / 1000
    }

    /// The width of a sign, in thousandths of the size.
    fn sign_width(&self, sign: char) -> i32 {
        let widths = match self.is_bold {
            false => &PLAIN,
            true => &BOLD,
        };
        let place = (sign as usize).checked_sub(' ' as usize);
        match place.and_then(|place| widths.get(place)) {
            Some(width) => *width,
            None if sign == '\u{2013}' => EN_DASH,
            None => WIDEST,
        }
    }
}

#[cfg(test)]
mod tests {
    use super::*;

    /// As the fonts' own tables have them, in parts of the size of which there are 2,048. What is
    /// rounded up to thousandths is at most three parts wider.
    #[test]
    fn known_widths() {
        let (plain, bold) = (Letters::plain(2048), Letters::bold(2048));
        let known = [
            ("0", 1303, 1425),
            ("9", 1303, 1425),
            ("W", 2025, 2259),
            ("i", 569, 702),
            (" ", 651, 713),
            ("~", 1716, 1716),
            ("\u{2013}", 1024, 1024),
        ];
        for (sign, in_plain, in_bold) in known {
            let is_near = |width: i32, wanted| (wanted..=wanted + 3).contains(&width);
            assert!(is_near(plain.width(sign), in_plain), "{sign:?}");
            assert!(is_near(bold.width(sign), in_bold), "{sign:?} in bold");
        }
    }

    #[test]
    fn a_text_is_as_wide_as_its_signs() {
        let letters = Letters::plain(11);
        assert_eq!(letters.width(""), 0);
        assert_eq!(letters.width("65535"), 36);
        assert_eq!(letters.width("1\u{2013}65535"), 48);
        assert_eq!(Letters::bold(11).width("65535"), 39);
        // A sign without a width of its own is taken for the widest.
        assert_eq!(Letters::plain(1000).width("\u{2026}\n"), 2 * WIDEST);
    }
}
