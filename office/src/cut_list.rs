//! The operator's cut list: for each pattern the cuts in their order, as text, as CSV and on the
//! page.

use crate::job::Job;
use crate::patterns::Pattern;
use crate::sawing::{steps, Gives, Kind, Step};
use crate::table::Table;
use crate::words::{dotted, item_type, offcut, shares, sides};

/// What is done at a step, in words.
fn cut_words(step: &Step) -> &'static str {
    match step.kind {
        Kind::Strip => "strip cut",
        Kind::Stack => "stack cut",
        Kind::Item => "item cut",
        Kind::Trim => "trim",
        Kind::Left => "left",
    }
}

/// What a step gives, without its sides.
fn gives_words(job: &Job, step: &Step) -> String {
    match step.gives {
        Gives::Strip => format!("strip {}", step.place[0]),
        Gives::Stack => format!("stack {}", step.place[1]),
        Gives::Untrimmed { item, .. } => format!("{}, untrimmed", item_type(job, item)),
        Gives::Item { item, .. } => item_type(job, item),
        Gives::Offcut { usable } => offcut(usable).into(),
    }
}

/// The number of a step: that of its cut, none where nothing is cut.
fn numbered(steps: &[Step]) -> impl Iterator<Item = (String, &Step)> {
    let mut cuts = 0;
    steps.iter().map(move |step| {
        cuts += usize::from(step.at.is_some());
        let number = step.at.map_or(String::new(), |_| cuts.to_string());
        (number, step)
    })
}

/// The cuts of a pattern for people: number, cut, strip.stack.place, where the edge lies on the
/// board, and what it gives.
pub fn of_pattern(job: &Job, pattern: &Pattern) -> Table {
    let mut table = Table::new(&["no.", "cut", "where", "at", "gives"]);
    let steps = steps(job, pattern.board, pattern.rest);
    for (number, step) in numbered(&steps) {
        let at = step
            .at
            .map_or(String::new(), |(along, at)| format!("{along} {at}"));
        let lies = match step.gives {
            Gives::Item { turned: true, .. } => ", turned",
            _ => "",
        };
        let of = match step.piece == step.sides {
            true => String::new(),
            false => format!(" of {}", sides(step.piece)),
        };
        let what = gives_words(job, step);
        let gives = format!("{what}, {}{of}{lies}", sides(step.sides));
        table.row([
            number,
            cut_words(step).into(),
            dotted(&step.place),
            at,
            gives,
        ]);
    }
    table
}

/// The cut lists of all patterns as text.
pub fn text(job: &Job, patterns: &[Pattern]) -> String {
    let list = |pattern: &Pattern| {
        format!(
            "{}\n{}; {}\n{}",
            pattern.title(patterns.len(), usize::MAX),
            pattern.size_words(job),
            shares(&pattern.rest.areas),
            of_pattern(job, pattern).text()
        )
    };
    patterns
        .iter()
        .map(list)
        .collect::<Vec<String>>()
        .join("\n")
}

/// The cut lists of all patterns as CSV, a row for each step.
pub fn csv(job: &Job, patterns: &[Pattern]) -> String {
    let mut table = Table::new(&[
        "pattern",
        "times",
        "size",
        "no.",
        "cut",
        "strip",
        "stack",
        "place",
        "along",
        "at",
        "length",
        "gives",
        "width",
        "height",
        "type",
        "turn",
        "name",
        "piece width",
        "piece height",
    ]);
    for pattern in patterns {
        let steps = steps(job, pattern.board, pattern.rest);
        let of_pattern = [pattern.number, pattern.times(), pattern.board.size];
        for (number, step) in numbered(&steps) {
            let first = of_pattern.map(|number| number.to_string());
            table.row(first.into_iter().chain(csv_cells(job, number, step)));
        }
    }
    table.csv()
}

/// The cells of a step in CSV, after those of its pattern: number and cut, where it is, what it gives, and
/// the piece in hand.
fn csv_cells(job: &Job, number: String, step: &Step) -> impl Iterator<Item = String> {
    let [along, at] = match step.at {
        Some((along, at)) => [along.to_string(), at.to_string()],
        None => [String::new(), String::new()],
    };
    let first = [number, cut_words(step).to_string()];
    let after = [along, at, above_0(step.length)];
    first
        .into_iter()
        .chain(step.place.map(above_0))
        .chain(after)
        .chain(given_cells(job, step))
        .chain(step.piece.map(|side| side.to_string()))
}

/// What a step gives, as cells: what it is, its sides and, of an item, its type, turn and name.
fn given_cells(job: &Job, step: &Step) -> [String; 6] {
    let (gives, piece) = match step.gives {
        Gives::Strip => ("strip", None),
        Gives::Stack => ("stack", None),
        Gives::Untrimmed { item, turned } => ("untrimmed", Some((item, turned))),
        Gives::Item { item, turned } => ("item", Some((item, turned))),
        Gives::Offcut { usable } => (offcut(usable), None),
    };
    let [width, height] = step.sides.map(|side| side.to_string());
    let of_type = piece.map_or(String::new(), |(item, _)| item.to_string());
    let turn = piece.map_or(String::new(), |(_, turned)| usize::from(turned).to_string());
    let name = piece.map_or("", |(item, _)| job.name(item));
    [gives.into(), width, height, of_type, turn, name.into()]
}

/// A number as a cell, which is empty for 0.
fn above_0(number: usize) -> String {
    match number {
        0 => String::new(),
        _ => number.to_string(),
    }
}

#[cfg(test)]
mod tests {
    use super::*;
    use crate::job::tests::{job, job_a, job_with_blade};
    use crate::patterns::patterns;
    use crate::remains::tests::answered;
    use crate::remains::LEAST;

    /// What a list of an output's patterns is.
    fn listed(job: &Job, output: &str, list: fn(&Job, &[Pattern]) -> String) -> String {
        let (answer, remains) = answered(job, output, LEAST);
        list(job, &patterns(&answer, &remains))
    }

    #[test]
    fn job_a_is_cut() {
        let output = "7 1 0 1 1 1 1 0 0 0\n7 1 0 1 2 1 2 5 0 0\n7 1 0 2 1 1 2 0 4 0\n\
                      7 1 0 2 2 1 2 3 4 0\n7 2 0 1 1 1 1 0 0 0\n8 2 2 1 1\n";
        let expected = "\
Pattern 1 of 2: × 1, board 1
size 0 (9 by 7), 4 pieces, blade 0 mm; yield 74.6 %, offcuts 14.3 %, waste 11.1 %, swath 0.0 %
no.  cut        where  at   gives
  1  strip cut      1  y 4  strip 1, 9 × 4
     left           2       strip 2, 9 × 3
  2  stack cut    1.1  x 5  type 1, 5 × 4
  3  stack cut    1.2  x 8  stack 2, 3 × 4
  4  trim       1.2.1  y 3  type 2, 3 × 3
  5  stack cut    2.1  x 3  type 2, 3 × 3
  6  stack cut    2.2  x 6  type 2, 3 × 3
     left           2       usable offcut, 3 × 3

Pattern 2 of 2: × 1, board 2
size 0 (9 by 7), 1 piece, blade 0 mm; yield 31.7 %, offcuts 68.3 %, waste 0.0 %, swath 0.0 %
no.  cut        where  at   gives
  1  strip cut      1  y 4  strip 1, 9 × 4
     left                   usable offcut, 9 × 3
  2  stack cut    1.1  x 5  type 1, 5 × 4
     left           1       usable offcut, 4 × 4
";
        assert_eq!(listed(&job_a(), output, text), expected);
        // The first list stands in the kit's README.
        let readme = include_str!("../README.md");
        for line in expected.lines().skip(2).take(9) {
            assert!(readme.contains(&format!("\n    {line}\n")), "{line}");
        }
    }

    #[test]
    fn positions_count_the_blade() {
        let job = job_with_blade("2N", [20, 13], 2, &[[8, 5, 1], [8, 4, 2]]);
        let output = "7 1 0 1 1 1 1 0 0 0\n7 1 0 1 2 1 2 10 0 0\n7 1 0 2 1 1 2 0 7 0\n8 1 0 1 0\n";
        let expected = "\
pattern,times,size,no.,cut,strip,stack,place,along,at,length,gives,width,height,type,turn,name,piece width,piece height
1,1,0,1,strip cut,1,,,y,5,20,strip,20,5,,,,20,5
1,1,0,2,strip cut,2,,,y,11,20,strip,20,4,,,,20,4
1,1,0,3,stack cut,1,1,,x,8,5,item,8,5,1,0,,8,5
1,1,0,4,stack cut,1,2,,x,18,5,stack,8,5,,,,8,5
1,1,0,5,trim,1,2,1,y,4,8,item,8,4,2,0,,8,4
1,1,0,6,stack cut,2,1,,x,8,4,item,8,4,2,0,,8,4
1,1,0,,left,2,,,,,,usable offcut,10,4,,,,10,4
";
        assert_eq!(listed(&job, output, csv), expected);
    }

    /// In two stages what is left beside a lower item is as high as its strip; the plan counts as an
    /// offcut what is as high as the item.
    #[test]
    fn an_offcut_of_a_larger_piece_is_told_with_the_piece() {
        let job = job("2N", [12, 10], &[[4, 6, 1], [3, 2, 1]]);
        let output = "7 1 0 1 1 1 1 0 0 0\n7 1 0 1 2 1 2 4 0 0\n8 1 0 1 0\n";
        let list = listed(&job, output, text);
        let left = "     left           1       usable offcut, 5 × 2 of 5 × 6\n";
        assert!(list.contains(left), "{list}");
        // What is left above the strip is all of it.
        let left = "     left                   usable offcut, 12 × 4\n";
        assert!(list.contains(left), "{list}");
        let list = listed(&job, output, csv);
        let left = "\n1,1,0,,left,1,,,,,,usable offcut,5,2,,,,5,6\n";
        assert!(list.contains(left), "{list}");
    }
}
