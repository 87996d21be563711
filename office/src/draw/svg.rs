//! A pattern as an SVG picture of its board: items with type and size, offcuts shaded and with
//! their size, waste hatched, the swath of the blade as bands to scale, the edges of strips and
//! stacks as lines, the sides of the board, the numbers and heights of strips beside it. A piece
//! too small for its label has a number; each item, each offcut and each band also carries its data
//! as a title, which browsers show under the pointer.

use super::colour;
use super::label::{self, Area};
use super::marks::{self, Small};
use super::strips::{self, Strip};
use crate::answer::Placement;
use crate::job::{Job, Size};
use crate::patterns::Pattern;
use crate::remains::{Band, Offcut};
use crate::table::escaped;
use crate::words;
use std::collections::BTreeMap;
use std::fmt::Write;

/// Room around the board: left for its height, above for the title, right for the strips, below for
/// its width.
const LEFT: f64 = 30.0;
const ABOVE: f64 = 64.0;
const RIGHT: f64 = 88.0;
const BELOW: f64 = 26.0;
/// The least width of a picture beside its margins: the lines above the board fit into it.
const TITLE: f64 = 450.0;
/// The size of the title's letters.
const LETTERS: f64 = 14.0;
/// The width beside a board that holds one upright line of text, and no level one.
const UPRIGHT: f64 = 24.0;
/// The longest side of the corner that marks a turned item.
const CORNER: f64 = 9.0;
/// A strip or stack: where it begins and ends across, and upwards.
#[derive(Debug, Clone, Copy)]
struct Span {
    x: [usize; 2],
    y: [usize; 2],
}

impl Span {
    /// The span that begins at a position and has these sides.
    fn at([x, y]: [usize; 2], [width, height]: [usize; 2]) -> Span {
        Span {
            x: [x, x + width],
            y: [y, y + height],
        }
    }
}

/// A picture in the making: what is drawn so far, where letters stand, and the pieces without a
/// label.
pub struct Picture<'a> {
    job: &'a Job,
    scale: [f64; 2],
    size: Size,
    pub out: String,
    taken: Vec<Area>,
    pub small: Vec<Small>,
}

impl<'a> Picture<'a> {
    /// The picture of a pattern at a scale, without the lines above it.
    pub fn of(job: &'a Job, scale: [f64; 2], pattern: &Pattern) -> Picture<'a> {
        let mut picture = Picture {
            job,
            scale,
            size: job.sizes[pattern.board.size],
            out: String::new(),
            taken: Vec::new(),
            small: Vec::new(),
        };
        picture.board(pattern);
        picture
    }

    /// The board with all that lies on it.
    fn board(&mut self, pattern: &Pattern) {
        let whole = self.whole();
        self.rectangle(whole, "class=\"waste\"", "");
        for offcut in &pattern.rest.offcuts {
            self.offcut(offcut);
        }
        for placement in &pattern.board.placements {
            self.item(placement);
        }
        self.edges(&pattern.board.placements);
        for band in &pattern.rest.swath {
            self.band(band);
        }
        let board = self.area(whole);
        marks::write(&mut self.out, &self.small, self.taken.clone(), board);
    }

    /// The whole board.
    fn whole(&self) -> Span {
        Span::at([0, 0], [self.size.width, self.size.height])
    }

    /// The width and height of the picture.
    pub fn sides(&self) -> [f64; 2] {
        let Area { width, height, .. } = self.area(self.whole());
        [LEFT + (width + RIGHT).max(TITLE), ABOVE + height + BELOW]
    }

    /// Whether the picture is wide enough for a title.
    pub fn has_room(&self, title: &str) -> bool {
        LEFT + label::line_width(title, LETTERS) <= self.sides()[0]
    }

    /// The part of the picture that millimetres of the board take; y runs upwards on the board.
    fn area(&self, span: Span) -> Area {
        let length = |[from, to]: [usize; 2], scale: f64| (to - from) as f64 * scale;
        Area {
            x: LEFT + span.x[0] as f64 * self.scale[0],
            y: ABOVE + (self.size.height - span.y[1]) as f64 * self.scale[1],
            width: length(span.x, self.scale[0]),
            height: length(span.y, self.scale[1]),
        }
    }

    /// A rectangle with these attributes and this title. The line around a thin one is thin, so
    /// that many of them do not make a block of line.
    fn rectangle(&mut self, span: Span, attributes: &str, title: &str) {
        let Area {
            x,
            y,
            width,
            height,
        } = self.area(span);
        let line = thin(width.min(height) / 8.0, 1.0);
        let sides =
            format!("x=\"{x:.1}\" y=\"{y:.1}\" width=\"{width:.1}\" height=\"{height:.1}\"");
        let _ = match title {
            "" => writeln!(self.out, "<rect {sides} {attributes}{line}/>"),
            _ => writeln!(
                self.out,
                "<rect {sides} {attributes}{line}><title>{}</title></rect>",
                escaped(title)
            ),
        };
    }

    /// The label of a piece, or its place among those that get a mark.
    fn label(&mut self, span: Span, lines: &[String], small: impl FnOnce(Area) -> Small) {
        let area = self.area(span);
        match label::write(&mut self.out, area, lines) {
            Some(taken) => self.taken.push(taken),
            None => self.small.push(small(area)),
        }
    }

    /// An offcut, shaded and with its size; a usable one darker.
    fn offcut(&mut self, offcut: &Offcut) {
        let Offcut {
            x,
            y,
            width,
            height,
            usable,
        } = *offcut;
        let span = Span::at([x, y], [width, height]);
        let size = words::sides([width, height]);
        let what = words::offcut(usable);
        let class = if usable { "offcut usable" } else { "offcut" };
        let title = format!("{what}, {size}, at x {x}, y {y}");
        self.rectangle(span, &format!("class=\"{class}\""), &title);
        self.label(span, &[size], |area| Small {
            what: what.to_string(),
            sides: [width, height],
            sawn: None,
            at: [x, y],
            area,
        });
    }

    /// A band of the swath, to scale, with the width of the blade where there is room for it.
    fn band(&mut self, band: &Band) {
        let Band {
            x,
            y,
            width,
            height,
        } = *band;
        let span = Span::at([x, y], [width, height]);
        let blade = self.job.blade;
        let title = format!("swath of the blade of {blade}, {width} × {height}, at x {x}, y {y}");
        self.rectangle(span, "class=\"swath\"", &title);
        let area = self.area(span);
        label::write(&mut self.out, area, &[format!("blade {blade}")]);
    }

    /// An item with its type, its size as it lies and its name; a turned one has a dark corner.
    fn item(&mut self, placement: &Placement) {
        let Placement {
            strip,
            stack,
            place,
            item,
            turned,
            x,
            y,
        } = *placement;
        let span = self.span(placement);
        let sides = self.job.sides(item, turned);
        let what = words::item_type(self.job, item);
        let size = words::sides(sides);
        let lies = if turned { ", turned" } else { "" };
        let title = format!(
            "{what}, {size}{lies}, strip {strip}, stack {stack}, place {place}, at x {x}, y {y}"
        );
        let attributes = format!("class=\"item\" fill=\"{}\"", colour(item));
        self.rectangle(span, &attributes, &title);
        if turned {
            self.corner(span);
        }
        let mut lines = vec![item.to_string(), size];
        lines.extend(words::item_name(self.job, item).map(str::to_string));
        self.label(span, &lines, |area| Small {
            what,
            sides,
            sawn: Some([strip, stack, place]),
            at: [x, y],
            area,
        });
    }

    /// The mark of a turned item: its upper right corner, dark.
    fn corner(&mut self, span: Span) {
        let Area {
            x,
            y,
            width,
            height,
        } = self.area(span);
        let side = CORNER.min(width / 3.0).min(height / 3.0);
        let [left, right, low] = [x + width - side, x + width, y + side];
        let _ = writeln!(
            self.out,
            "<polygon class=\"turned\" points=\"{left:.1},{y:.1} {right:.1},{y:.1} {right:.1},{low:.1}\"/>"
        );
    }

    /// The rectangle that an item covers.
    fn span(&self, placement: &Placement) -> Span {
        let sides = self.job.sides(placement.item, placement.turned);
        Span::at([placement.x, placement.y], sides)
    }

    /// The lines above strips and beside stacks where the saw goes through, and the strips' labels.
    fn edges(&mut self, placements: &[Placement]) {
        let strips = self.joined(placements, |placement| (placement.strip, 0));
        let stacks = self.joined(placements, |placement| (placement.strip, placement.stack));
        for ((strip, _), span) in stacks {
            let x = [span.x[1]; 2];
            if x[0] < self.size.width {
                let y = strips[&(strip, 0)].y;
                self.line(
                    "stack",
                    Span { x, y },
                    thin(self.area(span).width / 6.0, 1.0),
                );
            }
        }
        let mut beside = Vec::new();
        for (&(number, _), strip) in &strips {
            let area = self.area(*strip);
            if strip.y[1] < self.size.height {
                let x = [0, self.size.width];
                let y = [strip.y[1]; 2];
                self.line("strip", Span { x, y }, thin(area.height / 6.0, 2.0));
            }
            beside.push(Strip {
                number,
                height: strip.y[1] - strip.y[0],
                from: area.y,
                to: area.y + area.height,
            });
        }
        let board = self.area(self.whole());
        let edges = [board.y, board.y + board.height];
        strips::write(&mut self.out, board.x + board.width, edges, &beside);
    }

    /// The strips or stacks, by number: the least rectangle around their items.
    fn joined(
        &self,
        placements: &[Placement],
        key: impl Fn(&Placement) -> (usize, usize),
    ) -> BTreeMap<(usize, usize), Span> {
        let mut spans = BTreeMap::new();
        for placement in placements {
            let item = self.span(placement);
            let span = spans.entry(key(placement)).or_insert(item);
            span.x = [span.x[0].min(item.x[0]), span.x[1].max(item.x[1])];
            span.y = [span.y[0].min(item.y[0]), span.y[1].max(item.y[1])];
        }
        spans
    }

    /// A line from one corner of a span to the other.
    fn line(&mut self, class: &str, span: Span, line: String) {
        let Area {
            x,
            y,
            width,
            height,
        } = self.area(span);
        let [right, low] = [x + width, y + height];
        let _ = writeln!(
            self.out,
            "<line class=\"{class}\" x1=\"{x:.1}\" y1=\"{y:.1}\" x2=\"{right:.1}\" y2=\"{low:.1}\"{line}/>"
        );
    }

    /// The lines above the board, the first as a title, its width below it and its height left of
    /// it.
    pub fn titles(&mut self, titles: [&str; 3]) {
        let board = self.area(self.whole());
        let first = format!("{LETTERS}\" font-weight=\"bold");
        let styles = [&first, "13", "13"];
        for (line, (text, style)) in titles.iter().zip(styles).enumerate() {
            let _ = writeln!(
                self.out,
                "<text class=\"title\" x=\"{LEFT}\" y=\"{:.1}\" font-size=\"{style}\">{}</text>",
                20.0 + 17.0 * line as f64,
                escaped(text)
            );
        }
        let below = Area {
            y: board.y + board.height,
            height: BELOW,
            width: board.width.max(60.0),
            ..board
        };
        label::write(&mut self.out, below, &[format!("{} mm", self.size.width)]);
        let left = Area {
            x: LEFT - UPRIGHT,
            width: UPRIGHT,
            ..board
        };
        label::write(&mut self.out, left, &[format!("{} mm", self.size.height)]);
    }
}

/// The style of a line that may be so wide at the most, where the usual width is more.
fn thin(most: f64, usual: f64) -> String {
    match most < usual {
        true => format!(" style=\"stroke-width: {:.2}\"", most.max(0.05)),
        false => String::new(),
    }
}
