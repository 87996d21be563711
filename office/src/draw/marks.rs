//! Marks: numbers on pieces that are too small for a label. The page explains them in a table
//! beside the picture. Equal pieces in a row have one mark together. A mark may be larger than its
//! piece; it keeps off other marks and off labels, and where it stands aside a line leads to its
//! piece.

use super::label::Area;
use crate::table::{escaped, Table};
use crate::words::{counted, dotted, sides};
use std::fmt::Write;

/// The size of a mark's figures, the width of one of them with its room, and the height of a mark.
const FIGURES: f64 = 8.0;
const FIGURE: f64 = 5.0;
const HEIGHT: f64 = 9.5;
/// How far a mark may stand aside, in halves of its sides.
const ASIDE: i32 = 24;

/// A piece without a label: what it is, its sides, where it is sawn (strip, stack and place of an
/// item) and where it lies on the board and in the picture.
#[derive(Debug, Clone)]
pub struct Small {
    pub what: String,
    pub sides: [usize; 2],
    pub sawn: Option<[usize; 3]>,
    pub at: [usize; 2],
    pub area: Area,
}

impl Small {
    /// The step from this piece to an equal one: to the next place of its stack, to the next stack
    /// of its strip, or to the next strip, both being the first piece of their stack or strip; none
    /// where it is another piece.
    fn step_to(&self, next: &Small) -> Option<[usize; 3]> {
        let alike = self.what == next.what && self.sides == next.sides;
        match (alike, self.sawn?, next.sawn?) {
            (true, [strip, stack, place], to) if to == [strip, stack, place + 1] => Some([0, 0, 1]),
            (true, [strip, stack, 1], to) if to == [strip, stack + 1, 1] => Some([0, 1, 0]),
            (true, [strip, 1, 1], to) if to == [strip + 1, 1, 1] => Some([1, 0, 0]),
            _ => None,
        }
    }
}

/// The pieces with marks, each row of equal ones together: mark number n stands at place n - 1.
pub fn rows(pieces: &[Small]) -> Vec<&[Small]> {
    let mut rows = Vec::new();
    let mut rest = pieces;
    while let [first, after @ ..] = rest {
        let step = after.first().and_then(|next| first.step_to(next));
        let same = |pair: &&[Small]| step.is_some() && pair[0].step_to(&pair[1]) == step;
        let steps = rest.windows(2).take_while(same).count();
        let (row, others) = rest.split_at(steps + 1);
        rows.push(row);
        rest = others;
    }
    rows
}

/// Where the pieces of a row are: strip.stack.place of the first, and of the last.
fn place(row: &[Small]) -> String {
    let [first, last] = [&row[0], &row[row.len() - 1]];
    match (first.sawn, last.sawn) {
        (Some(only), Some(_)) if row.len() == 1 => dotted(&only),
        (Some(from), Some(to)) => format!("{} to {}", dotted(&from), dotted(&to)),
        _ => format!("x {}, y {}", first.at[0], first.at[1]),
    }
}

/// The table of marks.
pub fn table(pieces: &[Small]) -> Table {
    let mut table = Table::new(&["mark", "piece", "sides", "pieces", "where"]);
    for (number, row) in (1..).zip(rows(pieces)) {
        let number: usize = number;
        let [what, sides] = [row[0].what.clone(), sides(row[0].sides)];
        table.row([
            number.to_string(),
            what,
            sides,
            row.len().to_string(),
            place(row),
        ]);
    }
    table
}

/// Draws the marks into a picture in which these areas are taken, within the board's area. The lines
/// that lead to pieces are drawn before all marks, so that none goes through a number.
pub fn write(out: &mut String, pieces: &[Small], mut taken: Vec<Area>, board: Area) {
    let mut marks = String::new();
    for (number, row) in (1..).zip(rows(pieces)) {
        let number: usize = number;
        let area = around(row);
        let width = FIGURE * number.to_string().len() as f64 + 4.0;
        let free = |place: &Area| inside(place, &board) && !taken.iter().any(|it| it.meets(place));
        let Some(mark) = candidates(area, [width, HEIGHT]).find(free) else {
            continue;
        };
        let pieces = counted(row.len(), "piece");
        let title = format!(
            "{}, {}, {pieces}, {}",
            row[0].what,
            sides(row[0].sides),
            place(row)
        );
        leader(out, mark, area);
        one(&mut marks, number, mark, &title);
        taken.push(mark);
    }
    out.push_str(&marks);
}

/// The middle of an area.
fn middle(area: Area) -> [f64; 2] {
    [area.x + area.width / 2.0, area.y + area.height / 2.0]
}

/// Draws the line that leads from a mark to the middle of its pieces where it stands aside.
fn leader(out: &mut String, mark: Area, pieces: Area) {
    let [[x, y], [to_x, to_y]] = [middle(mark), middle(pieces)];
    if !mark.meets(&pieces) {
        let _ = writeln!(
            out,
            "<path class=\"leader\" d=\"M{x:.1},{y:.1} L{to_x:.1},{to_y:.1}\"/>"
        );
    }
}

/// Draws one mark.
fn one(out: &mut String, number: usize, mark: Area, title: &str) {
    let [x, y] = middle(mark);
    let _ = write!(out, "<g class=\"mark\"><title>{}</title>", escaped(title));
    let Area {
        x: left,
        y: upper,
        width,
        height,
    } = mark;
    let _ = writeln!(
        out,
        "<rect x=\"{left:.1}\" y=\"{upper:.1}\" width=\"{width:.1}\" height=\"{height:.1}\" rx=\"2\"/>\
         <text x=\"{x:.1}\" y=\"{:.1}\" font-size=\"{FIGURES}\">{number}</text></g>",
        y + 0.36 * FIGURES
    );
}

/// The least area around the pieces of a row.
fn around(row: &[Small]) -> Area {
    let least =
        |side: fn(&Area) -> f64| row.iter().map(|it| side(&it.area)).fold(f64::MAX, f64::min);
    let most = |side: fn(&Area) -> f64| row.iter().map(|it| side(&it.area)).fold(0.0, f64::max);
    let [x, y] = [least(|area| area.x), least(|area| area.y)];
    Area {
        x,
        y,
        width: most(|area| area.x + area.width) - x,
        height: most(|area| area.y + area.height) - y,
    }
}

/// Whether an area lies inside another.
fn inside(area: &Area, whole: &Area) -> bool {
    area.x >= whole.x
        && area.y >= whole.y
        && area.x + area.width <= whole.x + whole.width
        && area.y + area.height <= whole.y + whole.height
}

/// Where a mark may stand: on the middle of its pieces, elsewhere along their longer side, then
/// aside.
fn candidates(pieces: Area, [width, height]: [f64; 2]) -> impl Iterator<Item = Area> {
    let middle = pieces.around_middle([width, height]);
    let moved = move |[dx, dy]: [f64; 2]| Area {
        x: middle.x + dx,
        y: middle.y + dy,
        ..middle
    };
    let along = [0.0, -0.25, 0.25, -0.12, 0.12, -0.38, 0.38, -0.45, 0.45];
    let along = along.map(|part| match pieces.width >= pieces.height {
        true => [part * pieces.width, 0.0],
        false => [0.0, part * pieces.height],
    });
    let aside = (2..ASIDE).flat_map(move |step: i32| {
        let [dx, dy] = [width, height].map(|side| f64::from(step) * side / 2.0);
        let straight = [[0.0, -dy], [0.0, dy], [-dx, 0.0], [dx, 0.0]];
        straight
            .into_iter()
            .chain([[-dx, -dy], [dx, -dy], [-dx, dy], [dx, dy]])
    });
    along.into_iter().chain(aside).map(moved)
}

#[cfg(test)]
mod tests {
    use super::*;

    /// Equal pieces at these strips, stacks and places, 4 by 4 in the picture, one beside the
    /// other.
    fn pieces(sawn: &[[usize; 3]]) -> Vec<Small> {
        let small = |(number, &sawn): (usize, &[usize; 3])| Small {
            what: "type 1".into(),
            sides: [12, 12],
            sawn: Some(sawn),
            at: [0, 0],
            area: Area {
                x: 4.0 * number as f64,
                y: 50.0,
                width: 4.0,
                height: 4.0,
            },
        };
        sawn.iter().enumerate().map(small).collect()
    }

    #[test]
    fn equal_pieces_in_a_row_have_one_mark() {
        let sawn = [
            [1, 1, 1],
            [2, 1, 1],
            [2, 2, 1],
            [2, 3, 1],
            [2, 3, 2],
            [2, 3, 3],
            [4, 1, 1],
        ];
        let pieces = pieces(&sawn);
        let places: Vec<String> = rows(&pieces).into_iter().map(place).collect();
        let expected = [
            "1.1.1 to 2.1.1",
            "2.2.1 to 2.3.1",
            "2.3.2 to 2.3.3",
            "4.1.1",
        ];
        assert_eq!(places, expected);
        let first = "mark,piece,sides,pieces,where\n1,type 1,12 × 12,2,1.1.1 to 2.1.1\n";
        assert!(table(&pieces).csv().starts_with(first));
    }

    #[test]
    fn marks_keep_off_each_other_and_off_labels() {
        let sawn: Vec<[usize; 3]> = (1..=12).map(|strip| [2 * strip, 1, 1]).collect();
        let pieces = pieces(&sawn);
        let board = Area {
            x: 0.0,
            y: 0.0,
            width: 120.0,
            height: 100.0,
        };
        let label = Area {
            x: 0.0,
            y: 40.0,
            width: 30.0,
            height: 9.0,
        };
        let mut out = String::new();
        write(&mut out, &pieces, vec![label], board);
        let number = |text: &str| text.split('"').next().unwrap().parse::<f64>().unwrap();
        let side =
            |mark: &str, name: &str| number(mark.split(&format!(" {name}=\"")).nth(1).unwrap());
        let boxes: Vec<Area> = out
            .split("<rect")
            .skip(1)
            .map(|mark| Area {
                x: side(mark, "x"),
                y: side(mark, "y"),
                width: side(mark, "width") - 0.1,
                height: side(mark, "height") - 0.1,
            })
            .collect();
        assert_eq!(boxes.len(), 12);
        for (number, mark) in boxes.iter().enumerate() {
            assert!(!mark.meets(&label) && inside(mark, &board), "{mark:?}");
            assert!(!boxes[..number].iter().any(|other| other.meets(mark)));
        }
        assert!(out.contains("<title>type 1, 12 × 12, 1 piece, 2.1.1</title>"));
    }

    /// Many pieces in one place: each has its mark, and no line is drawn over a number.
    #[test]
    fn crowded_pieces_have_marks_and_lines_stay_below_them() {
        let mut pieces = pieces(&(1..=40).map(|strip| [2 * strip, 1, 1]).collect::<Vec<_>>());
        pieces.iter_mut().for_each(|piece| piece.area.x = 200.0);
        let board = Area {
            x: 0.0,
            y: 0.0,
            width: 400.0,
            height: 300.0,
        };
        let mut out = String::new();
        write(&mut out, &pieces, Vec::new(), board);
        assert_eq!(out.matches("class=\"mark\"").count(), 40);
        let (lines, marks) = out.split_at(out.find("class=\"mark\"").unwrap());
        assert!(lines.contains("class=\"leader\"") && !marks.contains("<path"));
    }
}
