//! Cut lists of random plans: sawn step by step, with a blade that takes its width, they leave just
//! the items of the saw's answer, and its offcuts among what remains.

mod random;

use office::answer::{Answer, Board, Placement};
use office::job::Job;
use office::listing::Listing;
use office::patterns::patterns;
use office::plan;
use office::remains::{Offcut, Remains, Rest, LEAST};
use office::sawing::{steps, Gives, Kind, Step};
use random::Random;

impl Random {
    /// A job of few and rather small items, so that boards hold many.
    fn job_of_small_items(&mut self) -> Job {
        let [sizes, types] = [self.between(1, 2), self.between(1, 3)];
        let [stages, exact, blade] = [self.between(2, 3), self.between(0, 1), self.between(0, 3)];
        let mut text = format!("1 {stages} {exact} {sizes} {types} {blade}\n");
        for size in 0..sizes {
            let [width, height] = [self.between(14, 30), self.between(14, 30)];
            text += &format!("10 {size} {width} {height} 1\n");
        }
        for item in 1..=types {
            let [width, height] = [self.between(3, 14), self.between(3, 14)];
            let [demand, leave] = [self.between(1, 9), self.between(0, 1)];
            text += &format!("2 {item} {width} {height} {demand} {leave}\n");
        }
        Job::read(&text).unwrap()
    }

    /// A plan by random cuts, on residuals that there are before boards, until every demand is met.
    fn plan(&mut self, job: &Job, listing: &Listing) -> Vec<usize> {
        let mut counts = vec![0; listing.cuts.len()];
        let mut there = vec![0; listing.plates.len()];
        while plan::accepted(job, listing, &counts).is_err() {
            let waiting = |place: &usize| there[listing.cuts[*place].plate] > 0;
            let on_size = |place: &usize| listing.cuts[*place].plate < listing.sizes;
            let all = || 0..counts.len();
            let mut some: Vec<usize> = all().filter(waiting).collect();
            if some.is_empty() || self.between(0, 9) == 0 {
                some = all().filter(on_size).collect();
            }
            let place = some[self.between(0, some.len() - 1)];
            let cut = listing.cuts[place];
            counts[place] += 1;
            if cut.plate >= listing.sizes {
                there[cut.plate] -= 1;
            }
            cut.kept().for_each(|kept| there[kept] += 1);
        }
        counts
    }
}

/// A rectangle of the board: x, y, width, height.
type Piece = [usize; 4];

/// What a step is done on: the piece with the first item of its strip, stack or place.
fn sawn(pieces: &[Piece], board: &Board, step: &Step) -> usize {
    let of_step = |at: &&Placement| {
        let place = [at.strip, at.stack, at.place];
        place
            .iter()
            .zip(step.place)
            .all(|(&is, of)| of == 0 || is == of)
    };
    let first = board.placements.iter().find(of_step).unwrap();
    let holds = |&[x, y, width, height]: &Piece| {
        (x..x + width).contains(&first.x) && (y..y + height).contains(&first.y)
    };
    pieces.iter().position(holds).unwrap()
}

/// The pieces of a board after its cuts: each goes through a whole piece, with the blade beyond its
/// edge.
fn pieces(job: &Job, board: &Board, steps: &[Step]) -> Vec<Piece> {
    let size = job.sizes[board.size];
    let mut pieces: Vec<Piece> = vec![[0, 0, size.width, size.height]];
    for step in steps {
        let Some((along, at)) = step.at else {
            assert_eq!((step.kind, step.length), (Kind::Left, 0));
            continue;
        };
        let place = sawn(&pieces, board, step);
        let piece = pieces.remove(place);
        let way = usize::from(along == 'y');
        let [from, length] = [piece[way], piece[2 + way]];
        assert_eq!(
            step.length,
            piece[3 - way],
            "the cut goes through the piece"
        );
        assert!(
            from < at && at < from + length,
            "the cut is inside the piece"
        );
        let mut cut_off = piece;
        cut_off[2 + way] = at - from;
        assert_eq!(step.sides, [cut_off[2], cut_off[3]]);
        pieces.push(cut_off);
        if at + job.blade < from + length {
            let mut left = piece;
            left[way] = at + job.blade;
            left[2 + way] = from + length - at - job.blade;
            pieces.push(left);
        }
    }
    pieces
}

/// Saws a board and holds the pieces against its items and offcuts; gives how often each kind of
/// step was done.
fn tested(job: &Job, board: &Board, rest: &Rest) -> [usize; 5] {
    let steps = steps(job, board, rest);
    let pieces = pieces(job, board, &steps);
    for at in &board.placements {
        let [width, height] = job.sides(at.item, at.turned);
        assert!(pieces.contains(&[at.x, at.y, width, height]), "{at:?}");
    }
    for offcut in &rest.offcuts {
        let holds = |&[x, y, width, height]: &Piece| {
            [x, y] == [offcut.x, offcut.y] && width >= offcut.width && height >= offcut.height
        };
        assert!(pieces.iter().any(holds), "{offcut:?}");
    }
    // The piece in hand is told with each offcut, which is the part of it that the plan counts.
    for step in &steps {
        if let Gives::Offcut { .. } = step.gives {
            let of_step = |offcut: &&Offcut| {
                let [x, y] = [offcut.x, offcut.y];
                step.sides == [offcut.width, offcut.height]
                    && pieces.contains(&[x, y, step.piece[0], step.piece[1]])
            };
            assert!(
                rest.offcuts.iter().any(|offcut| of_step(&offcut)),
                "{step:?}"
            );
        } else {
            assert_eq!(step.piece, step.sides);
        }
    }
    let given = |kind: fn(&Gives) -> bool| steps.iter().filter(|step| kind(&step.gives)).count();
    let items = given(|gives| matches!(gives, Gives::Item { .. }));
    let offcuts = given(|gives| matches!(gives, Gives::Offcut { .. }));
    assert_eq!(
        [items, offcuts],
        [board.placements.len(), rest.offcuts.len()]
    );
    let kinds = [Kind::Strip, Kind::Stack, Kind::Item, Kind::Trim, Kind::Left];
    kinds.map(|kind| steps.iter().filter(|step| step.kind == kind).count())
}

#[test]
fn sawing_by_the_list_leaves_the_items_and_the_offcuts() {
    let mut random = Random(4);
    let mut done = [0; 5];
    let [mut boards, mut drawn, mut of_larger] = [0; 3];
    for _ in 0..400 {
        let job = random.job_of_small_items();
        let listing = Listing::of(&job).unwrap();
        let counts = random.plan(&job, &listing);
        let text = job.text() + &plan::lines(&listing, &counts);
        let output = String::from_utf8(reference::saw_text(text.as_bytes())).unwrap();
        let answer = Answer::read(&output, &job).unwrap();
        let remains = Remains::of(&job, &answer, LEAST).unwrap();
        for (board, rest) in answer.boards.iter().zip(&remains.boards) {
            let larger = |step: &Step| step.piece != step.sides;
            of_larger += usize::from(steps(&job, board, rest).iter().any(larger));
            let more = tested(&job, board, rest);
            done = std::array::from_fn(|kind| done[kind] + more[kind]);
        }
        let patterns = patterns(&answer, &remains);
        for pattern in &patterns {
            let alike = |&number: &usize| {
                answer.boards[number - 1] == *pattern.board
                    && remains.boards[number - 1] == *pattern.rest
            };
            assert!(
                pattern.boards.iter().all(alike),
                "boards alike have equal remains"
            );
        }
        boards += answer.boards.len();
        drawn += patterns.len();
    }
    assert!(done.iter().all(|&times| times > 100), "{done:?}");
    assert!(of_larger > 10, "{of_larger}");
    assert!(drawn < boards, "{drawn} patterns, {boards} boards");
}
