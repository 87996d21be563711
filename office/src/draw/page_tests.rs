//! The page of drawings: its lists, and the names on it.

use super::tests::{drawn, OUTPUT};
use crate::columns::line;
use crate::job::tests::{job, job_a};
use crate::remains::LEAST;

#[test]
fn the_page_has_the_cut_list_of_each_pattern() {
    let page = &drawn(&job_a(), OUTPUT, LEAST)[2].1;
    let row = |cells: [&str; 5]| {
        let [number, cut, place, at, gives] = cells;
        let [at, gives] = [at, gives].map(|cell| format!("<td class=\"words\">{cell}</td>"));
        let cut = format!("<td class=\"words cut\">{cut}</td>");
        format!("<tr><td>{number}</td>{cut}<td>{place}</td>{at}{gives}</tr>")
    };
    assert!(page.contains(&row(["4", "trim", "1.2.1", "y 3", "type 2, 3 × 3"])));
    assert_eq!(
        page.matches(&row(["1", "strip cut", "1", "y 4", "strip 1, 9 × 4"]))
            .count(),
        2
    );
    assert_eq!(page.matches("<th>no.</th>").count(), 2);
}

/// A name without a blank is broken where a list has no room for it, so that lists do not lie on each
/// other; the words of the cuts are not.
#[test]
fn long_names_are_broken_and_cuts_are_not() {
    let mut job = job_a();
    job.names = vec![
        "SchubladenvorderstueckmitgriffleisteEiche".into(),
        "door".into(),
    ];
    let page = &drawn(&job, OUTPUT, LEAST)[2].1;
    for rule in [
        "\n.words { text-align: left }\n",
        "\ntd:nth-child(2), .lists td:last-child { overflow-wrap: anywhere }\n",
        "\n.lists td.cut { white-space: nowrap }\n",
    ] {
        assert_eq!(page.matches(rule).count(), 1, "{rule}");
    }
    let style = page.split("</style>").next().unwrap();
    let breaks = style.find(".lists td:nth-child(2)").unwrap();
    assert!(breaks < style.find(".lists td.cut").unwrap());
    let name = &job.names[0];
    for cell in [
        format!("<td class=\"words\">{name}</td>"),
        format!("<td class=\"words\">type 1, {name}, 5 × 4</td>"),
        "<td class=\"words cut\">stack cut</td>".to_string(),
    ] {
        assert!(page.contains(&cell), "{cell}");
    }
}

#[test]
fn lists_stand_beside_a_high_board_and_below_a_flat_one() {
    for (board, class) in [([1220, 2440], "beside"), ([2440, 1220], "below")] {
        let job = job("2N", board, &[[600, 900, 1]]);
        let files = drawn(&job, "7 1 0 1 1 1 1 0 0 0\n8 1 0 1 0\n", LEAST);
        let page = &files[1].1;
        assert!(page.contains(&format!("<section id=\"pattern-1\" class=\"{class}\"")));
        assert!(page.contains("@page { size: A4 landscape;"));
        assert!(page.contains("section { margin: 0; break-before: page;"));
    }
    // A long list goes on on the next sheet, and so the documents say it.
    for document in [
        include_str!("../../../README.md"),
        include_str!("../../README.md"),
    ] {
        let words: Vec<&str> = document.split_whitespace().collect();
        assert!(words.join(" ").contains("each pattern begins a sheet"));
    }
}

/// A list that is too long for a sheet has the whole width of the next ones, also of a high board.
#[test]
fn long_lists_stand_below_a_high_board() {
    for (strips, class) in [(10, "beside"), (30, "below")] {
        let job = job("2N", [1220, 2440], &[[600, 60, strips]]);
        let strip = |strip: usize| line(&[7, 1, 0, strip + 1, 1, 1, 1, 0, 60 * strip, 0]);
        let output: String = (0..strips).map(strip).collect();
        let page = &drawn(&job, &(output + &line(&[8, 1, 0, 1, 0])), LEAST)[1].1;
        assert!(page.contains(&format!("<section id=\"pattern-1\" class=\"{class}\"")));
    }
}

/// Columns have room for the widest table of pieces: on the screen letters are larger than on paper. The
/// head of a list does not stand at the end of a column alone.
#[test]
fn columns_have_room_for_a_table_and_heads_stay_with_their_rows() {
    let page = &drawn(&job_a(), OUTPUT, LEAST)[2].1;
    let (screen, paper) = page.split_once("@media print {").unwrap();
    assert!(screen.contains("\n.lists { columns: 380px;"));
    assert!(screen.contains("\nthead { break-after: avoid }\n"));
    assert!(paper.contains("\n  .lists { columns: 310px }\n"));
}

#[test]
fn names_stand_on_the_items_in_their_titles_and_in_the_tables() {
    let mut named = job_a();
    named.names = vec!["side <left> & right".into(), String::new()];
    let files = drawn(&named, OUTPUT, LEAST);
    let name = "side &lt;left&gt; &amp; right";
    let picture = &files[0].1;
    let page = &files
        .iter()
        .find(|(name, _)| name == "boards.html")
        .unwrap()
        .1;
    assert_eq!(picture.matches(&format!(">{name}</tspan>")).count(), 1);
    assert!(picture.contains(&format!("<title>type 1, {name}, 5 × 4, strip 1")));
    assert!(picture.contains("<title>type 2, 3 × 3, strip 1"));
    assert!(page.contains(&format!(">{name}</td>")));
    assert!(page.contains(&format!(">type 1, {name}, 5 × 4</td>")));
    // A name that is too long for its item leaves the sides where they were.
    named.names[0] = "n".repeat(200);
    assert!(drawn(&named, OUTPUT, LEAST)[0].1.contains(">5 × 4</tspan>"));
}
