//! The saw's answer: lines of kind 7 and one of kind 8, or one line 9.

use crate::columns::{numbers, thousands};
use crate::job::{Job, Size};
use crate::prices::MOST_PRICE;

/// A board that the saw opened: its size and its items.
#[derive(Debug, Clone, PartialEq, Eq, Hash)]
pub struct Board {
    pub size: usize,
    pub placements: Vec<Placement>,
}

/// An item placed by the saw.
#[derive(Debug, Clone, Copy, PartialEq, Eq, Hash)]
pub struct Placement {
    pub strip: usize,
    pub stack: usize,
    pub place: usize,
    pub item: usize,
    pub turned: bool,
    pub x: usize,
    pub y: usize,
}

impl Placement {
    /// The numbers of its line 7 after board and size.
    pub fn numbers(&self) -> [usize; 7] {
        let turn = usize::from(self.turned);
        let [x, y] = [self.x, self.y];
        [self.strip, self.stack, self.place, self.item, x, y, turn]
    }

    /// Whether the job has such an item, which may lie so, and a board of this size has room for it there.
    fn lies_on(&self, job: &Job, size: &Size) -> bool {
        if !(1..=job.items.len()).contains(&self.item) {
            return false;
        }
        let item = job.item(self.item);
        let [width, height] = item.sides(self.turned);
        let may_lie = !self.turned || item.turns();
        let inside =
            |at: usize, side: usize, of_board: usize| side <= of_board && at <= of_board - side;
        may_lie && inside(self.x, width, size.width) && inside(self.y, height, size.height)
    }
}

/// The boards, and what line 8 says.
#[derive(Debug, Clone, PartialEq, Eq)]
pub struct Answer {
    pub boards: Vec<Board>,
    pub cost: usize,
    pub sum: usize,
    pub denominator: usize,
    pub cheapest: bool,
}

impl Answer {
    /// Reads the saw's output for a job. An error says what is wrong with it.
    pub fn read(text: &str, job: &Job) -> Result<Answer, String> {
        let mut answer = Answer {
            boards: Vec::new(),
            cost: 0,
            sum: 0,
            denominator: 1,
            cheapest: false,
        };
        let mut ended = false;
        for (number, line) in (1..).zip(text.lines()) {
            let fault = |fault: String| format!("line {number} of the saw's output {fault}");
            let all = numbers(line).ok_or(fault("is not a line of numbers".into()))?;
            if ended {
                return Err(fault("follows its line of kind 8".into()));
            }
            if let [9, refusal, place] = all[..] {
                return Err(refused(refusal, place));
            }
            answer.take(job, &all).map_err(fault)?;
            ended = all[0] == 8;
        }
        match ended && !answer.boards.is_empty() {
            true => Ok(answer),
            false => Err("the saw's output is not whole: \
                          lines of kind 7 and then one of kind 8 are expected"
                .into()),
        }
    }

    /// Takes in a line of kind 7 or 8.
    fn take(&mut self, job: &Job, numbers: &[usize]) -> Result<(), String> {
        match *numbers {
            [7, board, size, strip, stack, place, item, x, y, turn @ (0 | 1)] => {
                let at = Placement {
                    strip,
                    stack,
                    place,
                    item,
                    turned: turn == 1,
                    x,
                    y,
                };
                self.place(job, [board, size], at)
            }
            [8, cost, sum, denominator, cheapest] => {
                let of_boards = self.cost_of_boards(job);
                if cost != of_boards {
                    return Err(format!(
                        "gives a cost of {cost}, but its boards cost {of_boards}: is it the output for \
                         another job?"
                    ));
                }
                end([cost, sum, denominator, cheapest])?;
                (self.cost, self.sum, self.denominator) = (cost, sum, denominator);
                self.cheapest = cheapest == 1;
                Ok(())
            }
            _ => Err("is of no kind that the saw writes".into()),
        }
    }

    /// Adds a placement to its board, the last one or the next.
    fn place(
        &mut self,
        job: &Job,
        [board, size]: [usize; 2],
        placement: Placement,
    ) -> Result<(), String> {
        if board == self.boards.len() + 1 {
            self.boards.push(Board {
                size,
                placements: Vec::new(),
            });
        }
        if board == 0 || board != self.boards.len() {
            return Err(format!(
                "names board {board}, neither the last one nor the next"
            ));
        }
        let last = &mut self.boards[board - 1];
        let of_size = job.sizes.get(size).filter(|_| last.size == size);
        match of_size.is_some_and(|size| placement.lies_on(job, size)) {
            true => {
                last.placements.push(placement);
                Ok(())
            }
            false => {
                let fault =
                    "places an item that this job has not: is it the output for another job?";
                Err(fault.into())
            }
        }
    }

    /// All items placed.
    fn placements(&self) -> impl Iterator<Item = &Placement> {
        self.boards.iter().flat_map(|board| &board.placements)
    }

    /// What the boards cost together.
    fn cost_of_boards(&self, job: &Job) -> usize {
        let cost = |board: &Board| job.sizes[board.size].cost;
        self.boards.iter().map(cost).sum()
    }

    /// How many boards are of a size.
    pub fn boards_of(&self, size: usize) -> usize {
        self.boards
            .iter()
            .filter(|board| board.size == size)
            .count()
    }

    /// The number of items placed.
    pub fn pieces(&self) -> usize {
        self.placements().count()
    }

    /// How often an item type lies turned on the boards.
    pub fn turned_of(&self, item_type: usize) -> usize {
        let turned = |placement: &&Placement| placement.item == item_type && placement.turned;
        self.placements().filter(turned).count()
    }

    /// How often an item type lies on the boards.
    pub fn pieces_of(&self, item_type: usize) -> usize {
        let of_type = |placement: &&Placement| placement.item == item_type;
        self.placements().filter(of_type).count()
    }
}

/// An error unless the numbers of a line 8 go together as the saw writes them: cost, sum, D, and whether no
/// plan is cheaper. The cost is never below the sum over D, and no plan is cheaper just where a cost of one
/// less would be.
pub fn end([cost, sum, denominator, cheapest]: [usize; 4]) -> Result<(), String> {
    if !(1..=MOST_PRICE).contains(&denominator) || cheapest > 1 {
        return Err(format!(
            "ends with {denominator} and {cheapest}; D is from 1 to {}, cheapest 0 or 1",
            thousands(MOST_PRICE)
        ));
    }
    let below = |cost: usize| cost * denominator < sum;
    match !below(cost) && below(cost.saturating_sub(1)) == (cheapest == 1) {
        true => Ok(()),
        false => Err(format!(
            "gives a bound of {sum}/{denominator} and ends with {cheapest}, which does not go with a cost \
             of {cost}"
        )),
    }
}

/// What to say of an output that is a refusal.
fn refused(refusal: usize, place: usize) -> String {
    format!(
        "the saw refused the text with {refusal}, place {place}; \
         \"office explain TEXT {refusal} {place}\" says why"
    )
}

/// The refusal that a saw's output is: number and place.
pub fn refusal(text: &str) -> Result<[usize; 2], String> {
    match numbers(text.lines().next().unwrap_or("")).as_deref() {
        Some([9, refusal, place]) => Ok([*refusal, *place]),
        Some([7 | 8, ..]) => {
            Err("the saw accepted the text; there is no refusal to explain".into())
        }
        _ => Err("this is no output of the saw: a line of kind 9 is expected".into()),
    }
}

#[cfg(test)]
mod tests {
    use super::*;
    use crate::job::tests::{job_a, two_sizes};

    const OUTPUT: &str =
        "7 1 0 1 1 1 1 0 0 0\n7 1 0 1 2 1 2 5 0 0\n7 2 0 1 1 1 1 0 0 0\n8 2 2 1 1\n";

    #[test]
    fn an_answer_is_read() {
        let answer = Answer::read(OUTPUT, &job_a()).unwrap();
        assert_eq!(
            (answer.boards.len(), answer.pieces(), answer.pieces_of(1)),
            (2, 3, 2)
        );
        assert_eq!(
            (answer.cost, answer.sum, answer.denominator, answer.cheapest),
            (2, 2, 1, true)
        );
        let output = "7 1 0 1 1 1 1 0 0 0\n7 2 1 1 1 1 2 0 0 0\n8 4 0 1 0\n";
        let answer = Answer::read(output, &two_sizes()).unwrap();
        assert_eq!(
            (answer.cost, answer.boards_of(0), answer.boards_of(1)),
            (4, 1, 1)
        );
    }

    /// Outputs for job A, and what is said of them.
    const FAULTS: [(&str, &str); 23] = [
        ("", "not whole"),
        ("7 1 0 1 1 1 1 0 0 0\n", "not whole"),
        ("9 12 2\n", "refused the text with 12, place 2"),
        ("7 2 0 1 1 1 1 0 0 0\n", "neither the last one nor the next"),
        ("7 0 0 1 1 1 1 0 0 0\n", "neither the last one nor the next"),
        ("7 1 0 1 1 1 1 5 0 0\n", "another job"),
        ("7 1 0 1 1 1 3 0 0 0\n", "another job"),
        ("7 1 1 1 1 1 1 0 0 0\n", "another job"),
        ("7 1 0 1 1 1 1 0 0 1\n", "another job"),
        (
            "7 1 0 1 1 1 1 0 0 0\n8 2 0 1 0\n",
            "a cost of 2, but its boards cost 1",
        ),
        ("7 1 0 1 1 1 1 18446744073709551615 0 0\n", "another job"),
        ("7 1 0 1 1 1 1 0 18446744073709551612 0\n", "another job"),
        ("7 1 0 1 1 1 1 99999999999999999999 0 0\n", "not a line of"),
        (
            "7 1 0 1 1 1 1 0 0 0\n8 1 5 0 0\n",
            "line 2 of the saw's output ends with 0 and 0; D is from 1 to 9,999, cheapest 0 or 1",
        ),
        ("7 1 0 1 1 1 1 0 0 0\n8 1 5 10000 0\n", "ends with 10000"),
        ("7 1 0 1 1 1 1 0 0 0\n8 1 5 1 2\n", "ends with 1 and 2"),
        (
            "7 1 0 1 1 1 1 0 0 0\n8 1 5 1 0\n",
            "a bound of 5/1 and ends with 0, which does not go with a cost of 1",
        ),
        (
            "7 1 0 1 1 1 1 0 0 0\n8 1 2 2 0\n",
            "a bound of 2/2 and ends with 0",
        ),
        (
            "7 1 0 1 1 1 1 0 0 0\n8 1 0 1 1\n",
            "a bound of 0/1 and ends with 1",
        ),
        ("7 1 1 1 1 1 0 0 0\n", "of no kind"),
        ("3 1 1\n", "of no kind"),
        ("hello\n", "not a line of numbers"),
        ("8 0 0 1 0\n8 0 0 1 0\n", "follows"),
    ];

    #[test]
    fn every_fault_is_told() {
        for (text, told) in FAULTS {
            let fault = Answer::read(text, &job_a()).unwrap_err();
            assert!(fault.contains(told), "{text}: {fault}");
        }
    }

    #[test]
    fn a_refusal_is_read() {
        assert_eq!(refusal("        9       12        2\n"), Ok([12, 2]));
        assert!(refusal(OUTPUT).unwrap_err().contains("accepted"));
        assert!(refusal("").unwrap_err().contains("no output"));
    }
}
