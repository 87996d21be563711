//! The pictures of a job's patterns, of all sizes to one scale.

use super::marks::Small;
use super::style;
use super::svg::Picture;
use crate::job::{Job, Size};
use crate::patterns::Pattern;
use crate::words;

/// How each picture begins, by which the kit knows its own.
pub const BEGIN: &str = "<svg class=\"board\" xmlns=\"http://www.w3.org/2000/svg\" ";

/// The most room that a board takes in a picture, across and upwards, so that a pattern with its
/// lists fits a sheet of A4 lying on its side: a flat board with the lists below it, or a high one
/// with the lists beside it.
const ROOMS: [[f64; 2]; 2] = [[900.0, 430.0], [520.0, 600.0]];
/// The widest picture that has its lists beside it.
const BESIDE: f64 = 660.0;
/// The least length in the picture of the greatest width and of the greatest height among the sizes, to
/// which very flat boards are stretched; a smaller size is drawn to the same scale, and may be shorter.
const LEAST: f64 = 90.0;
/// How many parts of the boards' numbers a title names at the most.
const PARTS: usize = 4;

/// The pictures of a job's patterns, so many.
pub struct Drawing<'a> {
    job: &'a Job,
    scale: [f64; 2],
    patterns: usize,
}

/// A picture: its first tag, what follows that, the sides of the picture, and the pieces that have
/// a mark.
pub struct Drawn {
    head: String,
    body: String,
    pub sides: [f64; 2],
    pub small: Vec<Small>,
}

impl<'a> Drawing<'a> {
    /// The largest scale at which the widest and the highest size fit one of the rooms.
    pub fn of(job: &'a Job, patterns: usize) -> Drawing<'a> {
        let longest = |side: fn(&Size) -> usize| job.sizes.iter().map(side).max().unwrap_or(1);
        let [width, height] = [longest(|size| size.width), longest(|size| size.height)];
        let [width, height] = [width as f64, height as f64];
        let scales = ROOMS.map(|room| (room[0] / width).min(room[1] / height));
        let scale = scales[0].max(scales[1]);
        Drawing {
            job,
            scale: [scale.max(LEAST / width), scale.max(LEAST / height)],
            patterns,
        }
    }

    /// The picture of a pattern.
    pub fn pattern(&self, pattern: &Pattern) -> Drawn {
        let mut picture = Picture::of(self.job, self.scale, pattern);
        let sides = picture.sides();
        let [width, height] = sides;
        let [size, shares] = [
            pattern.size_words(self.job),
            words::shares(&pattern.rest.areas),
        ];
        let title = |parts| pattern.title(self.patterns, parts);
        let mut titles = (2..=PARTS).rev().map(&title);
        let fitting = titles.find(|title| picture.has_room(title));
        let title = fitting.unwrap_or_else(|| title(1));
        picture.titles([&title, &size, &shares]);
        let head = format!(
            "{BEGIN}width=\"{width:.0}\" height=\"{height:.0}\" \
             viewBox=\"0 0 {width:.1} {height:.1}\">\n"
        );
        Drawn {
            head,
            body: picture.out + "</svg>\n",
            sides,
            small: picture.small,
        }
    }
}

impl Drawn {
    /// The picture on a page that has the style.
    pub fn on_page(&self) -> String {
        format!("{}{}", self.head, self.body)
    }

    /// The picture as a file of its own.
    pub fn file(&self) -> String {
        format!("{}{}{}", self.head, style::PICTURE, self.body)
    }

    /// Whether a sheet has room for lists beside the picture.
    pub fn leaves_room_beside(&self) -> bool {
        self.sides[0] <= BESIDE
    }
}
