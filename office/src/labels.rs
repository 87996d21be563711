//! Labels: a row for each piece that the saw places, for a printer of labels or a spreadsheet.

use crate::answer::Answer;
use crate::job::Job;
use crate::table::Table;

/// The names of the columns.
const HEAD: [&str; 13] = [
    "piece", "name", "type", "width", "height", "turned", "board", "size", "strip", "stack",
    "place", "x", "y",
];

/// The pieces in the order in which they are cut; width and height are the type's own, whichever way a
/// piece lies.
pub fn csv(job: &Job, answer: &Answer) -> String {
    let mut table = Table::new(&HEAD);
    let boards = (1..).zip(&answer.boards);
    let pieces = boards.flat_map(|(number, board)| {
        let placements = board.placements.iter();
        placements.map(move |piece| (number, board.size, piece))
    });
    for (number, (board, size, piece)) in (1..).zip(pieces) {
        let [strip, stack, place, item_type, x, y, _] = piece.numbers();
        let item = job.item(item_type);
        let turned = if piece.turned { "yes" } else { "no" };
        let of_type = [item_type, item.width, item.height].map(|number| number.to_string());
        let at = [board, size, strip, stack, place, x, y].map(|number: usize| number.to_string());
        let first = [usize::to_string(&number), job.name(item_type).to_string()];
        let of_piece = first.into_iter().chain(of_type).chain([turned.to_string()]);
        table.row(of_piece.chain(at));
    }
    table.csv()
}

#[cfg(test)]
mod tests {
    use super::*;
    use crate::job::tests::job_with_leave;

    #[test]
    fn each_piece_has_a_row_with_its_name() {
        let mut job = job_with_leave("2N", [9, 7], &[[5, 4, 2, 1], [3, 3, 3, 0]]);
        job.names = vec!["shelf".into(), "door, left".into()];
        let output = "7 1 0 1 1 1 1 0 0 1\n7 1 0 1 2 1 1 4 0 1\n7 2 0 1 1 1 2 0 0 0\n8 2 0 1 0\n";
        let answer = Answer::read(output, &job).unwrap();
        let expected = "\
piece,name,type,width,height,turned,board,size,strip,stack,place,x,y
1,shelf,1,5,4,yes,1,0,1,1,1,0,0
2,shelf,1,5,4,yes,1,0,1,2,1,4,0
3,\"door, left\",2,3,3,no,2,0,1,1,1,0,0
";
        assert_eq!(csv(&job, &answer), expected);
    }
}
