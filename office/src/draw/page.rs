//! All patterns on one HTML page, with the totals before them, and beside each picture the tables
//! of its pieces.

use super::colour;
use super::drawing::{Drawing, Drawn};
use super::marks;
use super::style::{HEAD, PICTURE};
use crate::answer::Answer;
use crate::cut_list;
use crate::job::Job;
use crate::patterns::{patterns, Pattern};
use crate::remains::Remains;
use crate::table::Table;
use crate::totals;
use crate::words::sides;
use std::fmt::Write;

/// What the page says of its pictures.
const LEGEND: &str = "Boards that are laid out alike are drawn once. All are drawn to one scale. Red \
    lines are the edges of strips, dashed ones those of stacks; beside each strip stand its number and \
    its height. A dark corner marks a turned item. Offcuts are shaded, usable ones darker; waste is \
    hatched. Brown bands, to scale, are the swath of the blade: what it takes between pieces, a loss \
    beside the waste. A small framed number marks pieces too small for a label; a table names them. A \
    cut list gives the cuts in their order: strips, then in each strip the stacks, then in each stack \
    items and trims. Where: strip, stack and place. At: the edge of what is cut off, in mm across (x) \
    or upwards (y) from the board's lower left corner; the blade runs beyond it. What is left needs no \
    cut; an offcut of 5 × 2 of 5 × 6 is the part of the piece in hand, 5 × 6, that the plan counts as an \
    offcut, and the rest of that piece is waste.";

/// The files of a drawing: a picture for each pattern, and the page.
pub fn page(job: &Job, answer: &Answer, remains: &Remains) -> Vec<(String, String)> {
    let patterns = patterns(answer, remains);
    let drawing = Drawing::of(job, patterns.len());
    let mut files = Vec::new();
    let mut page = String::from(HEAD);
    let _ = writeln!(
        page,
        "<svg class=\"board\" width=\"0\" height=\"0\" style=\"position: absolute\">{PICTURE}</svg>"
    );
    summary(&mut page, job, answer, remains, patterns.len());
    for pattern in &patterns {
        let drawn = drawing.pattern(pattern);
        section(&mut page, job, pattern, &drawn);
        files.push((format!("pattern-{}.svg", pattern.number), drawn.file()));
    }
    page.push_str("</body></html>\n");
    files.push(("boards.html".into(), page));
    files
}

/// The most rows that lists beside a picture have on a sheet; below it a list goes on over the whole sheet.
const BESIDE: usize = 40;

/// A pattern on the page: its picture, the tables of its pieces and its cut list, beside the
/// picture where there is room, else below it.
fn section(page: &mut String, job: &Job, pattern: &Pattern, drawn: &Drawn) {
    let [width, height] = drawn.sides;
    let mut lists = vec![pieces(job, pattern)];
    if !drawn.small.is_empty() {
        lists.push(marks::table(&drawn.small));
    }
    lists.push(cut_list::of_pattern(job, pattern));
    let rows: usize = lists.iter().map(Table::rows).sum();
    let class = match drawn.leaves_room_beside() && rows <= BESIDE {
        true => "beside",
        false => "below",
    };
    let _ = writeln!(
        page,
        "<section id=\"pattern-{}\" class=\"{class}\" \
         style=\"contain-intrinsic-size: {width:.0}px {height:.0}px\">",
        pattern.number
    );
    page.push_str(&drawn.on_page());
    page.push_str("<div class=\"lists\">\n");
    lists.iter().for_each(|list| page.push_str(&list.html()));
    page.push_str("</div>\n</section>\n");
}

/// The item types of a pattern, as they lie: how many pieces of each on a board and on all its
/// boards.
fn pieces(job: &Job, pattern: &Pattern) -> Table {
    let mut table = Table::new(&["type", "name", "sides", "turned", "on a board", "on all"]);
    for (item_type, turned, number) in pattern.pieces() {
        let name = job.name(item_type).to_string();
        let lies = if turned { "yes" } else { "" }.to_string();
        let [each, all] = [number, number * pattern.times()].map(|number| number.to_string());
        let sides = sides(job.sides(item_type, turned));
        let cells = [item_type.to_string(), name, sides, lies, each, all];
        table.row_filled(colour(item_type), cells);
    }
    table.without_empty("name").without_empty("turned")
}

/// Boards, cost, pieces, areas and bound, and the tables of sizes, of item types and of usable
/// offcuts.
fn summary(page: &mut String, job: &Job, answer: &Answer, remains: &Remains, patterns: usize) {
    let _ = writeln!(page, "<h1>{}</h1>", totals::boards(job, answer, patterns));
    let _ = writeln!(page, "<p>{}.</p>", totals::areas(answer, remains));
    let _ = writeln!(page, "<p>{}</p>\n<p>{LEGEND}</p>", totals::bound(answer));
    page.push_str(&totals::sizes(job, answer, remains).html());
    page.push_str(&totals::types(job, answer).html());
    let _ = writeln!(page, "<p>{}.</p>", totals::offcuts(remains));
    let usable = totals::usable(remains);
    if !usable.is_empty() {
        page.push_str(&usable.html());
    }
}
