//! Labels: the largest that fits into a rectangle, so that no text overlaps another.

use crate::table::escaped;
use std::fmt::Write;

/// Sizes of letters, the largest first; the last ones only for a single line.
const SIZES: [f64; 9] = [18.0, 15.0, 13.0, 11.0, 10.0, 9.0, 8.0, 7.0, 6.0];
/// How many of the sizes serve for several lines.
const OF_SEVERAL: usize = 6;
/// The width of most letters and figures over their height, with some room to spare for other fonts.
const LETTER: f64 = 0.66;
/// The height of a line of text over that of its letters.
const LEADING: f64 = 1.2;
/// Room left free at each edge, at the most and over the height of letters.
const EDGE: [f64; 2] = [2.0, 1.0 / 6.0];

/// A rectangle of the picture.
#[derive(Debug, Clone, Copy, PartialEq)]
pub struct Area {
    pub x: f64,
    pub y: f64,
    pub width: f64,
    pub height: f64,
}

impl Area {
    /// Whether two areas have a part in common.
    pub fn meets(&self, other: &Area) -> bool {
        let apart =
            |from: f64, length: f64, at: f64, of: f64| from + length <= at || at + of <= from;
        !apart(self.x, self.width, other.x, other.width)
            && !apart(self.y, self.height, other.y, other.height)
    }

    /// The area of these sides around the middle of this one.
    pub fn around_middle(&self, [width, height]: [f64; 2]) -> Area {
        Area {
            x: self.x + (self.width - width) / 2.0,
            y: self.y + (self.height - height) / 2.0,
            width,
            height,
        }
    }
}

/// The width of a letter over its height: capitals are wider than most, M and W and the letters of some
/// alphabets wider still, those of Chinese or Japanese as wide as high, and pictures more than that.
fn letter_width(letter: char) -> f64 {
    match letter {
        'M' | 'W' | 'm' | 'w' | '@' | '%' | '&' | '—' | '…' => 1.0,
        '\0'..='\u{24f}' if letter.is_uppercase() => 0.84,
        '\0'..='\u{24f}' => LETTER,
        '\u{250}'..='\u{ffff}' => 1.05,
        _ => 1.4,
    }
}

/// The width of a line of letters of a size.
pub fn line_width(line: &str, size: f64) -> f64 {
    size * line.chars().map(letter_width).sum::<f64>()
}

/// A label that fits: the lines shown, their size, and whether they are turned upright.
#[derive(Debug, Clone, PartialEq)]
struct Fitted {
    lines: Vec<String>,
    size: f64,
    turned: bool,
}

/// Writes a label into the middle of an area: all lines, one below the other or side by side, if
/// they fit, else without the last, at the end the first alone, else none. The first of several
/// lines is bold. Gives the area that the letters take.
pub fn write(out: &mut String, area: Area, lines: &[String]) -> Option<Area> {
    let label = fitted(area, lines)?;
    let [x, y] = [area.x + area.width / 2.0, area.y + area.height / 2.0];
    let turn = match label.turned {
        true => format!(" transform=\"rotate(-90 {x:.1} {y:.1})\""),
        false => String::new(),
    };
    let _ = write!(out, "<text font-size=\"{}\"{turn}>", label.size);
    let first = y - LEADING * label.size * (label.lines.len() as f64 - 1.0) / 2.0;
    for (line, text) in label.lines.iter().enumerate() {
        let base = first + LEADING * label.size * line as f64 + 0.36 * label.size;
        let weight = if line == 0 && label.lines.len() > 1 {
            " font-weight=\"bold\""
        } else {
            ""
        };
        let _ = write!(
            out,
            "<tspan x=\"{x:.1}\" y=\"{base:.1}\"{weight}>{}</tspan>",
            escaped(text)
        );
    }
    out.push_str("</text>\n");
    Some(area.around_middle(label.room()))
}

/// The largest label that fits: more lines before fewer, usual letters before small ones, level
/// before upright, in lines before side by side. A name, the last of three lines, is broken in two where
/// letters can then be larger.
fn fitted(area: Area, lines: &[String]) -> Option<Fitted> {
    let (usual, small) = SIZES.split_at(OF_SEVERAL);
    for number in (1..=lines.len()).rev() {
        let below = lines[..number].to_vec();
        let beside = vec![below.join(": ")];
        let sizes = if number > 1 { &[][..] } else { small };
        for sizes in [usual, sizes] {
            let largest = |turned, shown: &[String]| {
                let mut labels = sizes.iter().map(|&size| Fitted {
                    lines: shown.to_vec(),
                    size,
                    turned,
                });
                labels.find(|label| label.fits(area))
            };
            let found = [false, true].into_iter().find_map(|turned| {
                let whole = largest(turned, &below);
                let broken = name_broken(&below).and_then(|lines| largest(turned, &lines));
                let size = |label: &Option<Fitted>| label.as_ref().map_or(0.0, |label| label.size);
                let in_lines = if size(&broken) > size(&whole) {
                    broken
                } else {
                    whole
                };
                in_lines.or_else(|| largest(turned, &beside))
            });
            if found.is_some() {
                return found;
            }
        }
    }
    None
}

/// The lines with the last of three broken at the blank that is nearest to its middle, if it has one.
fn name_broken(lines: &[String]) -> Option<Vec<String>> {
    let [first, second, name] = lines else {
        return None;
    };
    let blanks = name.match_indices(' ').map(|(place, _)| place);
    let place = blanks.min_by_key(|place| place.abs_diff(name.len() / 2))?;
    let parts = [first, second, &name[..place], &name[place + 1..]];
    Some(parts.map(str::to_string).to_vec())
}

impl Fitted {
    /// The room that the label takes across and upwards, its edges left free.
    fn room(&self) -> [f64; 2] {
        let widths = self.lines.iter().map(|line| line_width(line, self.size));
        let edge = EDGE[0].min(EDGE[1] * self.size);
        let along = widths.fold(0.0, f64::max) + 2.0 * edge;
        let across = LEADING * self.size * self.lines.len() as f64 + edge;
        match self.turned {
            false => [along, across],
            true => [across, along],
        }
    }

    /// Whether the label lies within the area.
    fn fits(&self, area: Area) -> bool {
        let [width, height] = self.room();
        width <= area.width && height <= area.height
    }
}

#[cfg(test)]
mod tests {
    use super::*;

    fn area(width: f64, height: f64) -> Area {
        Area {
            x: 0.0,
            y: 0.0,
            width,
            height,
        }
    }

    #[test]
    fn a_label_fits_or_is_left_out() {
        let lines = ["12".to_string(), "1200 × 600".to_string()];
        let fit = |width, height| {
            let label = fitted(area(width, height), &lines)?;
            Some((label.lines.join("/"), label.turned))
        };
        let shown = |text: &str, turned| Some((text.to_string(), turned));
        assert_eq!(fit(200.0, 100.0), shown("12/1200 × 600", false));
        assert_eq!(fit(200.0, 16.0), shown("12: 1200 × 600", false));
        assert_eq!(fit(40.0, 200.0), shown("12/1200 × 600", true));
        assert_eq!(fit(16.0, 200.0), shown("12: 1200 × 600", true));
        assert_eq!(fit(30.0, 30.0), shown("12", false));
        assert_eq!(fit(10.0, 10.0), shown("12", false));
        assert_eq!(fit(9.0, 30.0), shown("12", true));
        assert_eq!(fit(8.0, 30.0), None);
        // A single line stands upright in usual letters rather than level in small ones.
        let label = fitted(area(45.0, 200.0), &["208 × 560".to_string()]).unwrap();
        assert_eq!((label.turned, label.size), (true, 18.0));
    }

    #[test]
    fn wide_letters_take_more_room() {
        let size = |name: &str| {
            let lines = ["4", "600 × 800", name].map(str::to_string);
            let label = fitted(area(160.0, 90.0), &lines).unwrap();
            (label.lines.len(), label.size)
        };
        assert_eq!(size("shelf,wide,12345"), (3, 13.0));
        assert_eq!(size("SHELF,WIDE,12345"), (3, 11.0));
        assert_eq!(size("WWWWWWWWWW-MMMMMM"), (3, 9.0));
        assert_eq!(size("漢字の名前とても長い板漢字の名前"), (3, 9.0));
    }

    #[test]
    fn a_long_name_is_broken_rather_than_set_in_small_letters() {
        let label = |name: &str, width: f64| {
            let lines = ["4", "600 × 800", name].map(str::to_string);
            let label = fitted(area(width, 130.0), &lines).unwrap();
            (label.lines[2..].join("/"), label.size)
        };
        let name = "drawer front, left";
        assert_eq!(label(name, 240.0), (name.to_string(), 18.0));
        assert_eq!(label(name, 140.0), ("drawer/front, left".to_string(), 18.0));
        assert_eq!(label("drawer", 140.0), ("drawer".to_string(), 18.0));
    }

    #[test]
    fn a_label_is_written_in_the_middle() {
        let mut out = String::new();
        let taken = write(&mut out, area(100.0, 40.0), &["7".to_string()]).unwrap();
        let middle = [taken.x + taken.width / 2.0, taken.y + taken.height / 2.0];
        assert_eq!(middle, [50.0, 20.0]);
        assert!(taken.meets(&area(60.0, 30.0)) && !taken.meets(&area(30.0, 40.0)));
        assert!(
            out.starts_with("<text font-size=\"18\"><tspan x=\"50.0\""),
            "{out}"
        );
    }
}
