//! Turned items (document 02, One): the worked cases, and wrong readings that they shut out.

use crate::common::boards;
use crate::common::jobs::{job_a, job_with_leave, PLAN_A};
use crate::common::lent::Lent;
use crate::common::plain;
use crate::common::refused;
use crate::common::texts::{assert_text, job_text, layout_text, line, lines, refusal};
use reference::folding::ordered;
use reference::{fold_text, saw_text, Bound, Job, Listed, Mode, Position, Unfolded};

/// An item of 3 by 5 for a board of 5 by 3: it fits only turned.
fn only_turned(leave: u16) -> Vec<u16> {
    job_with_leave(Mode::TwoNonExact, [5, 3], &[[3, 5, 1, leave]])
}

/// Job A, both types with leave; type 2 is square.
fn turning_a(mode: Mode) -> Vec<u16> {
    job_with_leave(mode, [9, 7], &[[5, 4, 2, 1], [3, 3, 3, 1]])
}

fn listed(residuals: u32, cuts: u32) -> Result<Listed, reference::Refusal> {
    Ok(Listed { residuals, cuts })
}

#[test]
fn a_type_that_fits_only_turned_has_turned_cuts_only() {
    let mut lent = Lent::new();
    assert_eq!(lent.list(&only_turned(1)), listed(0, 1));
    assert_eq!(lent.cuts[..4], [0, 3, 0, 0]);
}

#[test]
fn without_leave_it_is_larger_than_the_board() {
    for mode in Mode::ALL {
        let words = job_with_leave(mode, [5, 3], &[[1, 1, 1, 1], [3, 5, 1, 0]]);
        assert_eq!(Lent::new().list(&words), refused(3, 2));
    }
    // Turned it is too wide, unturned too high.
    let words = job_with_leave(Mode::TwoNonExact, [5, 3], &[[4, 6, 1, 1]]);
    assert_eq!(Lent::new().list(&words), refused(3, 1));
}

#[test]
fn job_a_with_leave_has_6_residual_types_and_12_cuts() {
    let mut lent = Lent::new();
    assert_eq!(lent.list(&turning_a(Mode::TwoNonExact)), listed(6, 12));
    let plates = [
        [9, 7, 1],
        [9, 3, 1],
        [4, 4, 2],
        [5, 5, 2],
        [9, 4, 1],
        [6, 3, 2],
        [3, 3, 2],
    ];
    let records = plain::plate_words(&turning_a(Mode::TwoNonExact), &plates);
    assert_eq!(lent.plates[..28], records);
    let cuts = [[0, 2, 1, 2], [0, 3, 0, 3], [0, 4, 4, 5]];
    assert_eq!(lent.cuts[..12], cuts.concat());
}

#[test]
fn a_square_type_has_no_turned_cut_and_its_leave_is_no_fault() {
    for mode in Mode::ALL {
        let [mut with, mut without] = [Lent::new(), Lent::new()];
        let job = |leave| job_with_leave(mode, [9, 7], &[[3, 3, 3, leave]]);
        assert_eq!(with.list(&job(1)), without.list(&job(0)));
        assert_eq!(with.cuts, without.cuts);
    }
}

#[test]
fn a_square_type_turned_is_19() {
    let words = job_with_leave(Mode::TwoNonExact, [3, 3], &[[3, 3, 1, 1]]);
    let turned = [1, 0, 1, 1, 1, 1, 0, 0, 1];
    assert_eq!(Lent::new().fold(&words, &[turned]), refused(19, 1));
    let mut text = job_text(&words);
    text.extend(line(&[3, 0, 1, 1, 3, 3, 1, 1]));
    assert_text(&saw_text(&text), &refusal(19, 4));
}

#[test]
fn in_words_19_comes_after_every_2_and_in_a_text_line_by_line() {
    let words = job_with_leave(Mode::TwoNonExact, [9, 9], &[[3, 2, 1, 0]]);
    let mut layouts = [[1, 0, 1, 1, 1, 1, 0, 0, 1], [1, 0, 1, 2, 1, 2, 2, 0, 0]];
    assert_eq!(Lent::new().fold(&words, &layouts), refused(2, 2));
    let text = [job_text(&words), layout_text(&layouts)].concat();
    assert_text(&fold_text(&text), &refusal(19, 4));
    layouts[1][5] = 1;
    assert_eq!(Lent::new().fold(&words, &layouts), refused(19, 1));
    let short = &layouts.concat()[..17];
    assert_eq!(Lent::new().fold_words(&words, short), refused(1, 2));
}

#[test]
fn a_turn_of_2_is_2_never_19() {
    let words = job_with_leave(Mode::TwoNonExact, [9, 9], &[[3, 2, 1, 0]]);
    for turn in [2, 3, 65_535] {
        let layouts = [[1, 0, 1, 1, 1, 1, 0, 0, turn]];
        assert_eq!(Lent::new().fold(&words, &layouts), refused(2, 1));
        let text = [job_text(&words), layout_text(&layouts)].concat();
        assert_text(&fold_text(&text), &refusal(2, 4));
        let mut text = job_text(&words);
        text.extend(line(&[3, 0, 1, 1, 9, 9, 1, u32::from(turn)]));
        assert_text(&saw_text(&text), &refusal(2, 4));
    }
    // 2 goes before 19 on the same line.
    let mut text = job_text(&words);
    text.extend(line(&[3, 2_048, 1, 1, 9, 9, 1, 1]));
    assert_text(&saw_text(&text), &refusal(2, 4));
}

#[test]
fn the_line_row_with_19_goes_before_job_buffers_and_model() {
    let too_large = job_with_leave(Mode::TwoNonExact, [9, 9], &[[3, 2, 1, 0], [10, 1, 1, 1]]);
    let layouts = [1, 0, 1, 1, 1, 1, 0, 0, 1];
    let answer = reference::fold(&too_large, &layouts, &mut [], &mut [], &mut []);
    assert_eq!(answer, refused(19, 1));
    let mut text = job_text(&too_large);
    text.extend(line(&[3, 0, 1, 1, 9, 9, 1, 1]));
    assert_text(&saw_text(&text), &refusal(19, 5));
    // A later line is not looked at.
    text.extend(b"no line");
    assert_text(&saw_text(&text), &refusal(19, 5));
}

#[test]
fn laid_as_it_does_not_fit_it_is_17_and_cut_so_8() {
    let words = only_turned(1);
    let mut lent = Lent::new();
    let unturned = [1, 0, 1, 1, 1, 1, 0, 0, 0];
    assert_eq!(lent.fold(&words, &[unturned]), refused(17, 1));
    let turned = [1, 0, 1, 1, 1, 1, 0, 0, 1];
    assert_eq!(lent.fold(&words, &[turned]), boards(1));
    assert_eq!(lent.counts[0], 1);
    let mut text = job_text(&words);
    text.extend(line(&[3, 0, 1, 1, 5, 3, 1, 0]));
    assert_text(&saw_text(&text), &refusal(8, 4));
}

#[test]
fn words_and_lines_end_with_the_turn() {
    let words = only_turned(1);
    let mut lent = Lent::new();
    let unfolded = Unfolded {
        boards: 1,
        pieces: 1,
        offcuts: 0,
    };
    assert_eq!(lent.unfold(&words, &[1]), Ok(unfolded));
    assert_eq!(lent.placements[..9], [1, 0, 1, 1, 1, 1, 0, 0, 1]);
    let plan = lines(&[&[3, 0, 1, 1, 5, 3, 1, 1]]);
    let layouts = lines(&[&[7, 1, 0, 1, 1, 1, 1, 0, 0, 1]]);
    let head = job_text(&words);
    let mut expected = layouts.clone();
    expected.extend(line(&[8, 1, 0, 1, 0]));
    assert_text(&saw_text(&[head.clone(), plan.clone()].concat()), &expected);
    assert_text(&fold_text(&[head, layouts].concat()), &plan);
}

#[test]
fn the_item_word_is_doubled_also_where_no_type_has_leave() {
    let mut lent = Lent::new();
    lent.list(&job_a()).unwrap();
    let words: Vec<u16> = lent.cuts[..32].chunks(4).map(|cut| cut[1]).collect();
    assert_eq!(words, [2, 4, 4, 4, 2, 4, 4, 4]);
    assert_eq!(lent.test_plan(&job_a(), &PLAN_A), boards(2));
}

#[test]
fn exactness_is_by_the_turned_sides() {
    // In 2E a strip of 4 holds the item of 4 by 2 turned, and no other.
    let words = job_with_leave(Mode::TwoExact, [5, 4], &[[3, 4, 1, 0], [4, 2, 1, 1]]);
    let mut lent = Lent::new();
    lent.list(&words).unwrap();
    assert_eq!(lent.plates[..8], [5, 4, 1, 1, 2, 4, 2, 0]);
    let on_right: Vec<&[u16]> = lent.cuts.chunks(4).filter(|cut| cut[0] == 1).collect();
    assert_eq!(on_right, [[1, 5, 0, 0]]);
    // In 3E a stack of 3 holds the item of 2 by 3 turned, and no other.
    let words = job_with_leave(
        Mode::ThreeExact,
        [4, 4],
        &[[1, 4, 1, 0], [3, 2, 1, 0], [2, 3, 1, 1]],
    );
    lent.list(&words).unwrap();
    let plate = lent
        .plates
        .chunks(4)
        .position(|plate| plate[..3] == [3, 2, 3]);
    let on_top = lent
        .cuts
        .chunks(4)
        .filter(|cut| cut[0] == plate.unwrap() as u16);
    let words: Vec<u16> = on_top.map(|cut| cut[1]).collect();
    assert_eq!(words, [4, 7]);
}

#[test]
fn folding_sorts_by_the_sides_as_the_items_lie() {
    // Turned, the item of 5 by 1 is 5 high; unturned the lowest.
    let two = job_with_leave(Mode::TwoNonExact, [9, 9], &[[5, 1, 1, 1], [2, 3, 1, 0]]);
    let [turned, level] = [Position::turned(1), Position::unturned(1)];
    let other = Position::unturned(2);
    let job = Job::from_words(&two).unwrap();
    let strip = vec![vec![level], vec![other], vec![turned]];
    let sorted = vec![vec![turned], vec![other], vec![level]];
    assert_eq!(ordered(&job, &strip), sorted);
    let three = job_with_leave(Mode::ThreeNonExact, [9, 9], &[[5, 1, 1, 1], [2, 3, 1, 0]]);
    let job = Job::from_words(&three).unwrap();
    let strip = vec![vec![other, level, turned], vec![Position::turned(1)]];
    let sorted = vec![vec![level, other, turned], vec![turned]];
    assert_eq!(ordered(&job, &strip), sorted);
}

#[test]
fn a_turned_item_may_lead_a_strip_and_a_stack_may_hold_both_turns() {
    // The lead is 1 by 5; beside it a stack of the same type level and upright.
    let words = job_with_leave(Mode::ThreeNonExact, [6, 6], &[[5, 1, 3, 1]]);
    let layouts = [
        [1, 0, 1, 1, 1, 1, 0, 0, 1],
        [1, 0, 1, 2, 1, 1, 1, 0, 0],
        [1, 0, 1, 2, 2, 1, 1, 1, 0],
        [1, 0, 2, 1, 1, 1, 0, 5, 0],
        [2, 0, 1, 1, 1, 1, 0, 0, 1],
    ];
    let mut lent = Lent::new();
    assert_eq!(lent.fold(&words, &layouts), boards(2));
    let both = job_with_leave(Mode::ThreeNonExact, [6, 6], &[[1, 6, 1, 0], [2, 3, 2, 1]]);
    let layouts = [
        [1, 0, 1, 1, 1, 1, 0, 0, 0],
        [1, 0, 1, 2, 1, 2, 1, 0, 0],
        [1, 0, 1, 2, 2, 2, 1, 3, 1],
    ];
    assert_eq!(lent.fold(&both, &layouts), boards(1));
    let counts = lent.counts.clone();
    let unfolded = lent.unfold(&both, &counts).unwrap();
    assert_eq!((unfolded.boards, unfolded.pieces), (1, 3));
    // Folding put the wider, turned one below.
    assert_eq!(lent.lines()[1], [1, 0, 1, 2, 1, 2, 1, 0, 1]);
}

#[test]
fn both_turns_count_towards_a_types_demand() {
    let words = turning_a(Mode::TwoNonExact);
    // Cut 1 is type 1 unturned from the board, cut 2 turned, cut 3 type 2.
    let counts = [1, 1, 3];
    assert_eq!(Lent::new().test_plan(&words, &counts), boards(5));
    assert_eq!(Lent::new().test_plan(&words, &[1, 0, 3]), refused(11, 1));
    assert_eq!(Lent::new().test_plan(&words, &[0, 2, 3]), boards(5));
    let layouts = [
        [1, 0, 1, 1, 1, 1, 0, 0, 0],
        [2, 0, 1, 1, 1, 1, 0, 0, 1],
        [2, 0, 1, 2, 1, 2, 4, 0, 0],
        [3, 0, 1, 1, 1, 2, 0, 0, 0],
        [3, 0, 1, 2, 1, 2, 3, 0, 0],
    ];
    assert_eq!(Lent::new().fold(&words, &layouts), boards(3));
}

#[test]
fn one_price_holds_for_both_turns() {
    // On a board of 3 by 3 the item of 2 by 3 may be cut both ways; both cuts are held against D.
    let words = job_with_leave(Mode::TwoNonExact, [3, 3], &[[2, 3, 4, 1]]);
    let mut lent = Lent::new();
    assert_eq!(lent.list(&words), listed(0, 2));
    let bound = Bound { sum: 20, d: 5 };
    assert_eq!(lent.test_prices(&words, &[5, 5]), Ok(bound));
    // Only turned it may be cut from the residual of 3 by 2, which so has a price to reach.
    let words = job_with_leave(Mode::TwoNonExact, [3, 5], &[[2, 3, 4, 1]]);
    lent.list(&words).unwrap();
    assert_eq!(lent.plates[..8], [3, 5, 1, 1, 3, 2, 1, 0]);
    let priced = |residual| [5, 2, residual, 2];
    assert_eq!(lent.test_prices(&words, &priced(1)), refused(14, 3));
    let bound = Bound { sum: 8, d: 5 };
    assert_eq!(lent.test_prices(&words, &priced(2)), Ok(bound));
}

#[test]
fn two_types_may_have_the_same_sides_as_they_lie() {
    let words = job_with_leave(Mode::TwoNonExact, [3, 2], &[[2, 3, 1, 1], [3, 2, 1, 0]]);
    let mut lent = Lent::new();
    assert_eq!(lent.list(&words), listed(0, 2));
    assert_eq!(lent.cuts[..8], [0, 3, 0, 0, 0, 4, 0, 0]);
    // Lines rise by plate, type and turn.
    let words = turning_a(Mode::TwoNonExact);
    let plan = |second: [u32; 8]| {
        let mut text = job_text(&words);
        text.extend(line(&[3, 0, 1, 1, 9, 7, 1, 1]));
        text.extend(lines(&[&second, &[3, 0, 2, 3, 9, 7, 1, 0]]));
        saw_text(&text)
    };
    assert_text(&plan([3, 0, 1, 1, 9, 7, 1, 0]), &refusal(9, 6));
    assert_text(&plan([3, 0, 1, 1, 9, 7, 1, 1]), &refusal(9, 6));
}
