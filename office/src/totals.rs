//! Totals of an answer: boards, cost, yield and waste, boards of each size, pieces of each type
//! against the demand, usable offcuts by their sides.

use crate::answer::Answer;
use crate::columns::thousands;
use crate::draw::colour;
use crate::job::Job;
use crate::remains::{Offcut, Remains};
use crate::table::Table;
use crate::words::{counted, percent, shares};
use reference::Balance;
use std::collections::BTreeMap;

/// Boards, patterns and cost, and the mode and the blade.
pub fn boards(job: &Job, answer: &Answer, patterns: usize) -> String {
    format!(
        "{}, {}, cost {}, mode {}, blade {} mm",
        counted(answer.boards.len(), "board"),
        counted(patterns, "pattern"),
        thousands(answer.cost),
        job.mode(),
        job.blade
    )
}

/// The pieces, and what becomes of the boards' area.
pub fn areas(answer: &Answer, remains: &Remains) -> String {
    let pieces = counted(answer.pieces(), "piece");
    format!(
        "{pieces}; of the boards' area: {}",
        shares(&remains.areas())
    )
}

/// What the prices say of the cost.
pub fn bound(answer: &Answer) -> String {
    let [sum, denominator] = [answer.sum, answer.denominator];
    match (sum, answer.cheapest) {
        (0, _) => "No prices were sent, so nothing is said of the cheapest plan.".into(),
        (_, true) => {
            format!("No plan is cheaper: the prices show a bound of {sum}/{denominator}.")
        }
        (_, false) => format!(
            "The prices show that every plan costs at least {} ({sum}/{denominator}).",
            thousands(sum.div_ceil(denominator))
        ),
    }
}

/// The board sizes: how many boards of each are opened, what they cost, and their yield.
pub fn sizes(job: &Job, answer: &Answer, remains: &Remains) -> Table {
    let mut table = Table::new(&[
        "size",
        "width",
        "height",
        "cost",
        "boards",
        "cost together",
        "yield",
        "waste",
    ]);
    for (number, size) in job.sizes.iter().enumerate() {
        let boards = answer.boards_of(number);
        let of_size = answer.boards.iter().zip(&remains.boards);
        let of_size = of_size.filter(|(board, _)| board.size == number);
        let areas: Vec<&Balance> = of_size.map(|(_, rest)| &rest.areas).collect();
        let share = |part: fn(&Balance) -> u64| {
            let sum = |part: fn(&Balance) -> u64| areas.iter().map(|areas| part(areas)).sum();
            match sum(Balance::whole) {
                0 => "-".to_string(),
                whole => percent(sum(part), whole),
            }
        };
        let numbers = [
            number,
            size.width,
            size.height,
            size.cost,
            boards,
            boards * size.cost,
        ];
        let shares = [share(|areas| areas.items), share(|areas| areas.waste)];
        table.row(numbers.iter().map(usize::to_string).chain(shares));
    }
    table
}

/// The item types: pieces cut, turned ones among them, and surplus against the demand.
pub fn types(job: &Job, answer: &Answer) -> Table {
    let mut table = Table::new(&[
        "type", "name", "width", "height", "turns", "demanded", "cut", "turned", "surplus",
    ]);
    for (item_type, item) in (1..).zip(&job.items) {
        let cut = answer.pieces_of(item_type);
        let surplus = cut.saturating_sub(item.demand);
        let turned = answer.turned_of(item_type);
        let numbers = [item.demand, cut, turned, surplus].map(|number| number.to_string());
        let [width, height] = [item.width, item.height].map(|side| side.to_string());
        let name = job.name(item_type).to_string();
        let turns = if item.turns() { "yes" } else { "no" }.to_string();
        let first = [item_type.to_string(), name, width, height, turns];
        table.row_filled(colour(item_type), first.into_iter().chain(numbers));
    }
    table.without_empty("name")
}

/// How many offcuts there are, and how many are usable.
pub fn offcuts(remains: &Remains) -> String {
    let all = counted(remains.offcuts().count(), "offcut");
    let usable = remains.offcuts().filter(|offcut| offcut.usable).count();
    let [first, second] = remains.lengths;
    let usable = thousands(usable);
    format!("{all}, {usable} usable: at least {first} wide and {second} high")
}

/// The usable offcuts by their sides, the largest areas first.
pub fn usable(remains: &Remains) -> Table {
    let mut sizes: BTreeMap<[usize; 2], usize> = BTreeMap::new();
    for Offcut { width, height, .. } in remains.offcuts().filter(|offcut| offcut.usable) {
        *sizes.entry([*width, *height]).or_default() += 1;
    }
    let mut sizes: Vec<_> = sizes.into_iter().collect();
    sizes.sort_by_key(|([width, height], _)| std::cmp::Reverse(width * height));
    let mut table = Table::new(&["width", "height", "usable offcuts"]);
    for ([width, height], number) in sizes {
        table.row([width, height, number]);
    }
    table
}

/// All totals as text for the terminal.
pub fn text(job: &Job, answer: &Answer, remains: &Remains, patterns: usize) -> String {
    format!(
        "{}\n{}\n{}\n\n{}\n{}\n{}\n",
        boards(job, answer, patterns),
        areas(answer, remains),
        bound(answer),
        sizes(job, answer, remains).text(),
        types(job, answer).text(),
        offcuts(remains)
    )
}

#[cfg(test)]
mod tests {
    use super::*;
    use crate::remains::tests::two_alike;

    #[test]
    fn the_totals_of_two_sizes() {
        let more = "7 3 1 1 1 1 2 0 0 0\n7 3 1 1 2 1 2 3 0 0\n8 7 6 1 0\n";
        let (job, answer, remains) = two_alike(more);
        let expected = "\
3 boards, 2 patterns, cost 7, mode 2N, blade 0 mm
6 pieces; of the boards' area: yield 49.7 %, offcuts 41.2 %, waste 9.2 %, swath 0.0 %
The prices show that every plan costs at least 6 (6/1).

size  width  height  cost  boards  cost together   yield   waste
   0      9       7     3       2              6  46.0 %  11.1 %
   1      9       3     1       1              1  66.7 %   0.0 %

type  width  height  turns  demanded  cut  turned  surplus
   1      5       4  no            2    2       0        0
   2      3       3  no            3    4       0        1

3 offcuts, 3 usable: at least 1 wide and 1 high
";
        assert_eq!(text(&job, &answer, &remains, 2), expected);
    }
}
