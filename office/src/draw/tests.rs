//! Drawings of job A and of plans at the limits.

use super::*;
use crate::columns::line;
use crate::job::tests::{job, job_a, job_with_blade, job_with_leave, two_sizes};
use crate::job::Job;
use crate::patterns::patterns;
use crate::remains::tests::answered;
use crate::remains::LEAST;

pub const OUTPUT: &str = "7 1 0 1 1 1 1 0 0 0\n7 1 0 1 2 1 2 5 0 0\n7 1 0 2 1 1 2 0 4 0\n7 1 0 2 2 1 2 3 4 0\n7 2 0 1 1 1 1 0 0 0\n8 2 2 1 1\n";

/// The files of a drawing, with two lengths.
pub fn drawn(job: &Job, output: &str, lengths: [usize; 2]) -> Vec<(String, String)> {
    let (answer, remains) = answered(job, output, lengths);
    page(job, &answer, &remains)
}

#[test]
fn job_a_is_drawn() {
    let files = drawn(&job_a(), OUTPUT, LEAST);
    let names: Vec<&str> = files.iter().map(|(name, _)| name.as_str()).collect();
    assert_eq!(names, ["pattern-1.svg", "pattern-2.svg", "boards.html"]);
    let board = &files[0].1;
    assert_eq!(board.matches("class=\"item\"").count(), 4);
    assert_eq!(board.matches("class=\"strip\"").count(), 1);
    assert_eq!(board.matches("class=\"stack\"").count(), 4);
    assert!(board.contains("type 1, 5 × 4, strip 1, stack 1, place 1, at x 0, y 0"));
    assert!(board.contains("type 2, 3 × 3, strip 2, stack 2, place 1, at x 3, y 4"));
    assert!(board.contains(">Pattern 1 of 2: × 1, board 1</text>"));
    assert!(board.contains(">size 0 (9 by 7), 4 pieces, blade 0 mm</text>"));
    let shares = ">yield 74.6 %, offcuts 14.3 %, waste 11.1 %, swath 0.0 %</text>";
    assert!(board.contains(shares));
    assert!(!board.contains("class=\"swath\""));
    let shares = ">yield 31.7 %, offcuts 68.3 %, waste 0.0 %, swath 0.0 %</text>";
    assert!(files[1].1.contains("1 piece, blade") && files[1].1.contains(shares));
    let page = &files[2].1;
    assert_eq!(page.matches("<section").count(), 2);
    assert_eq!(page.matches("id=\"hatching\"").count(), 1);
    assert!(page.contains("No plan is cheaper"));
    let shares = "yield 53.2 %, offcuts 41.3 %, waste 5.6 %, swath 0.0 %.";
    assert!(page.contains(&format!("of the boards' area: {shares}")));
    assert!(page.contains("<h1>2 boards, 2 patterns, cost 2, mode 2N, blade 0 mm</h1>"));
}

#[test]
fn strips_have_their_numbers_and_heights_beside_them() {
    let board = &drawn(&job_a(), OUTPUT, LEAST)[0].1;
    for label in ["1: 4", "2: 3"] {
        let text = format!("class=\"beside\" x=\"\" y=\"\" font-size=\"11.0\">{label}</text>");
        let [before, after] = [&text[..17], &text[text.len() - label.len() - 8..]];
        let lines = board
            .lines()
            .filter(|line| line.contains(before) && line.ends_with(after));
        assert_eq!(lines.count(), 1, "{label}");
    }
}

#[test]
fn equal_boards_are_drawn_once() {
    let job = job("2N", [9, 7], &[[5, 4, 43], [9, 7, 2]]);
    let mut output: String = (1..=43)
        .map(|board| line(&[7, board, 0, 1, 1, 1, 1, 0, 0, 0]))
        .collect();
    output += &(44..=45)
        .map(|board| line(&[7, board, 0, 1, 1, 1, 2, 0, 0, 0]))
        .collect::<String>();
    let files = drawn(&job, &(output + &line(&[8, 45, 0, 1, 0])), LEAST);
    assert_eq!(files.len(), 3);
    assert!(files[0]
        .1
        .contains(">Pattern 1 of 2: × 43, boards 1 to 43</text>"));
    assert!(files[1]
        .1
        .contains(">Pattern 2 of 2: × 2, boards 44 to 45</text>"));
    let page = &files[2].1;
    assert_eq!(page.matches("class=\"item\"").count(), 2);
    assert!(page.contains("<h1>45 boards, 2 patterns, cost 45,"));
    // Type 1 lies on a board once, and 43 times on all boards of the pattern.
    assert!(
        page.contains("<td>5 × 4</td><td>1</td><td>43</td>"),
        "{page}"
    );
}

#[test]
fn a_title_names_as_many_boards_as_it_has_room_for() {
    let output = "7 1 0 1 1 1 1 0 0 0\n8 1 0 1 0\n";
    for (width, boards) in [
        (2, "boards 1001 and 5 more"),
        (9, "boards 1001, 1003, 1005, 1007 and 2 more"),
    ] {
        let job = job("2N", [width, 9], &[[width, 9, 1]]);
        let (answer, remains) = answered(&job, output, LEAST);
        let mut pattern = patterns(&answer, &remains).remove(0);
        pattern.boards = vec![1001, 1003, 1005, 1007, 1009, 1011];
        let picture = drawing::Drawing::of(&job, 100).pattern(&pattern).file();
        let title = format!(">Pattern 1 of 100: × 6, {boards}</text>");
        assert!(picture.contains(&title), "{title}\n{picture}");
    }
}

/// The widths of the lines around items and of those of strips, where they are thinner than usual.
fn thin_lines(picture: &str, class: &str) -> Vec<f64> {
    let of_class = picture
        .lines()
        .filter(|line| line.contains(&format!("class=\"{class}\"")));
    let width = |line: &str| {
        line.split("stroke-width: ")
            .nth(1)?
            .split('"')
            .next()?
            .parse()
            .ok()
    };
    of_class.filter_map(width).collect()
}

#[test]
fn thin_strips_have_thin_lines_and_marks_with_a_table() {
    let job = job("2N", [900, 430], &[[800, 2, 200]]);
    let strips = (0..200).map(|strip| line(&[7, 1, 0, strip + 1, 1, 1, 1, 0, 2 * strip, 0]));
    let output = strips.chain([line(&[8, 1, 0, 1, 0])]).collect::<String>();
    let files = drawn(&job, &output, LEAST);
    let [picture, page] = [&files[0].1, &files[1].1];
    // A strip is 2 high in the picture: its lines take a small part of that.
    for class in ["item", "strip"] {
        let lines = thin_lines(picture, class);
        assert_eq!(lines.len(), 200, "{class}");
        assert!(
            lines.iter().all(|&width| width <= 0.4),
            "{class}: {lines:?}"
        );
    }
    assert_eq!(picture.matches("class=\"mark\"").count(), 1);
    assert!(picture.contains(">1 to 200: 2</text>"));
    let cells = "<td>1</td><td class=\"words\">type 1</td><td>800 × 2</td><td>200</td>\
                 <td class=\"words\">1.1.1 to 200.1.1</td>";
    assert!(page.contains(cells));
    assert!(thin_lines(&drawn(&job_a(), OUTPUT, LEAST)[0].1, "item").is_empty());
}

#[test]
fn the_swath_is_drawn_to_scale_and_the_blade_named() {
    let job = job_with_blade("2N", [20, 10], 2, &[[8, 9, 1], [8, 6, 1]]);
    let output = "7 1 0 1 1 1 1 0 0 0\n7 1 0 1 2 1 2 10 0 0\n8 1 0 1 0\n";
    let files = drawn(&job, output, LEAST);
    let [board, page] = [0, 1].map(|file: usize| &files[file].1);
    // 43 to a millimetre: the board is 860 wide and 430 high, and begins at 30 and 64.
    for rectangle in [
        "x=\"30.0\" y=\"64.0\" width=\"860.0\" height=\"43.0\" class=\"swath\"",
        "x=\"374.0\" y=\"107.0\" width=\"86.0\" height=\"387.0\" class=\"swath\"",
        "x=\"804.0\" y=\"236.0\" width=\"86.0\" height=\"258.0\" class=\"swath\"",
    ] {
        assert_eq!(board.matches(rectangle).count(), 1, "{rectangle}");
    }
    assert_eq!(board.matches("class=\"swath\"").count(), 3);
    assert_eq!(board.matches(">blade 2</tspan>").count(), 3);
    let title = "<title>swath of the blade of 2, 2 × 9, at x 8, y 0</title>";
    assert!(board.contains(title));
    assert!(board.contains(">size 0 (20 by 10), 2 pieces, blade 2 mm</text>"));
    let shares = "yield 60.0 %, offcuts 0.0 %, waste 15.0 %, swath 25.0 %";
    assert!(board.contains(shares) && page.contains(&format!("area: {shares}.")));
    assert!(page.contains("mode 2N, blade 2 mm</h1>"));
    assert!(page.contains("Brown bands, to scale, are the swath of the blade"));
}

#[test]
fn boards_of_two_sizes_are_drawn_to_one_scale() {
    let output = "7 1 0 1 1 1 1 0 0 0\n7 1 0 1 2 1 2 5 0 0\n7 2 0 1 1 1 1 0 0 0\n\
                  7 2 0 1 2 1 2 5 0 0\n7 3 1 1 1 1 2 0 0 0\n8 7 0 1 0\n";
    let files = drawn(&two_sizes(), output, LEAST);
    let [first, second, page] = [0, 1, 2].map(|file: usize| &files[file].1);
    // 430 over 7 to a millimetre: both are 9 wide, the one 7 high and the other 3.
    assert!(
        first.contains("width=\"552.9\" height=\"430.0\" class=\"waste\""),
        "{first}"
    );
    assert!(second.contains("width=\"552.9\" height=\"184.3\" class=\"waste\""));
    assert!(first.contains(">Pattern 1 of 2: × 2, boards 1 to 2</text>"));
    assert!(first.contains(">size 0 (9 by 7), 2 pieces, blade 0 mm</text>"));
    assert!(second.contains(">Pattern 2 of 2: × 1, board 3</text>"));
    assert!(second.contains(">size 1 (9 by 3), 1 piece, blade 0 mm</text>"));
    assert!(page.contains("<h1>3 boards, 2 patterns, cost 7, mode 2N, blade 0 mm</h1>"));
    assert!(page.contains("<th>cost</th><th>boards</th><th>cost together</th><th>yield</th>"));
    let row = |cells: [&str; 8]| cells.map(|cell| format!("<td>{cell}</td>")).concat();
    assert!(page.contains(&row(["0", "9", "7", "3", "2", "6", "46.0 %", "11.1 %"])));
    assert!(page.contains(&row(["1", "9", "3", "1", "1", "1", "33.3 %", "0.0 %"])));
    assert!(page.contains("No prices were sent, so nothing is said of the cheapest plan."));
}

#[test]
fn offcuts_are_shaded_and_the_usable_ones_named() {
    let files = drawn(&job_a(), OUTPUT, [4, 3]);
    let [first, second, page] = [0, 1, 2].map(|file: usize| &files[file].1);
    let marks = |text: &str| {
        ["class=\"offcut\"", "class=\"offcut usable\""].map(|class| text.matches(class).count())
    };
    assert_eq!(
        [first, second, page].map(|text| marks(text)),
        [[1, 0], [0, 2], [1, 2]]
    );
    assert!(first.contains("<title>offcut, 3 × 3, at x 6, y 4</title>"));
    assert!(second.contains("<title>usable offcut, 4 × 4, at x 5, y 0</title>"));
    assert!(second.contains("<title>usable offcut, 9 × 3, at x 0, y 4</title>"));
    // On board 1 three items of 3 × 3 and the offcut of that size, which is not usable, have a label.
    assert_eq!(first.matches(">3 × 3</tspan>").count(), 4);
    assert_eq!(second.matches(">9 × 3</tspan>").count(), 1);
    assert_eq!(second.matches(">4 × 4</tspan>").count(), 1);
    assert!(page.contains("3 offcuts, 2 usable: at least 4 wide and 3 high."));
    let row = |cells: [&str; 3]| cells.map(|cell| format!("<td>{cell}</td>")).concat();
    let [nine, four] = [["9", "3", "1"], ["4", "4", "1"]].map(|cells| page.find(&row(cells)));
    assert!(nine.unwrap() < four.unwrap());
    assert!(!page.contains(&row(["3", "3", "1"])));
    let none = &drawn(&job_a(), OUTPUT, [10, 10])[2].1;
    assert_eq!(marks(none), [3, 0]);
    assert!(!none.contains("usable offcuts</th>") && page.contains("usable offcuts</th>"));
}

#[test]
fn turned_items_are_marked_and_drawn_as_they_lie() {
    let job = job_with_leave("2N", [5, 5], &[[3, 5, 1, 1], [2, 2, 1, 1]]);
    let output = "7 1 0 1 1 1 1 0 0 1\n7 1 0 2 1 1 2 0 3 0\n8 1 0 1 0\n";
    let files = drawn(&job, output, LEAST);
    let board = &files[0].1;
    assert_eq!(board.matches("class=\"item\"").count(), 2);
    assert_eq!(board.matches("class=\"turned\"").count(), 1);
    assert!(board.contains("type 1, 5 × 3, turned, strip 1, stack 1, place 1, at x 0, y 0"));
    assert!(board.contains("type 2, 2 × 2, strip 2, stack 1, place 1, at x 0, y 3"));
    let page = &files[1].1;
    assert!(page.contains("A dark corner marks a turned item"));
    let cells = |numbers: [&str; 7]| numbers.map(|cell| format!("<td>{cell}</td>")).concat();
    let words = page.replace(" class=\"words\"", "");
    assert!(words.contains(&cells(["3", "5", "yes", "1", "1", "1", "0"])));
    assert!(words.contains(&cells(["2", "2", "no", "1", "1", "0", "0"])));
}

#[test]
fn every_tag_is_closed() {
    let files = drawn(&job_a(), OUTPUT, [4, 3]);
    for (name, text) in files {
        for tag in [
            "svg", "text", "tspan", "style", "defs", "pattern", "title", "section", "div", "table",
            "thead", "tbody", "tr", "td", "th", "g",
        ] {
            let opened = text.matches(&format!("<{tag} ")).count()
                + text.matches(&format!("<{tag}>")).count();
            assert_eq!(
                opened,
                text.matches(&format!("</{tag}>")).count(),
                "{tag} in {name}"
            );
        }
    }
}

/// The answer for 4,000 items of 10 by 10: on one board, or each on its own.
fn four_thousand(board: [usize; 2]) -> Vec<(String, String)> {
    let job = job("2N", board, &[[10, 10, 4000]]);
    let [across, upwards] = [board[0] / 10, board[1] / 10];
    let mut output = String::new();
    for piece in 0..4000 {
        let [number, place] = [piece / (across * upwards), piece % (across * upwards)];
        let [strip, stack] = [place / across, place % across];
        output += &line(&[
            7,
            number + 1,
            0,
            strip + 1,
            stack + 1,
            1,
            1,
            stack * 10,
            strip * 10,
            0,
        ]);
    }
    output += &line(&[8, 4000 / (across * upwards), 0, 1, 0]);
    drawn(&job, &output, LEAST)
}

#[test]
fn four_thousand_pieces_make_a_page_of_a_few_megabytes() {
    for (board, files, items) in [
        ([800, 500], 2, 4000),
        ([10, 10], 2, 1),
        ([10_000, 10], 2, 1000),
    ] {
        let drawn = four_thousand(board);
        assert_eq!(drawn.len(), files);
        let page = &drawn[files - 1].1;
        assert_eq!(page.matches("class=\"item\"").count(), items);
        assert!(page.len() < 5_000_000, "{} bytes", page.len());
    }
}

#[test]
fn four_thousand_equal_boards_are_one_picture() {
    let job = job("2N", [2, 2], &[[1, 1, 4000]]);
    let boards = (1..=4000).map(|board| line(&[7, board, 0, 1, 1, 1, 1, 0, 0, 0]));
    let output: String = boards.chain([line(&[8, 4000, 0, 1, 0])]).collect();
    let files = drawn(&job, &output, [2, 1]);
    let page = &files[1].1;
    assert_eq!(page.matches("class=\"offcut usable\"").count(), 1);
    assert_eq!(page.matches("class=\"offcut\"").count(), 1);
    assert!(page.contains("Pattern 1 of 1: × 4000, boards 1 to 4000"));
    assert!(page.contains("8,000 offcuts, 4,000 usable"));
    assert!(page.contains("yield 25.0 %, offcuts 75.0 %, waste 0.0 %, swath 0.0 %"));
    assert!(page.len() < 20_000, "{} bytes", page.len());
}
