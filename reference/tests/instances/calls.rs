//! The five calls and the two texts on every published instance in every mode, on each of its boards
//! and on all of them.

use reference::instances::areas::balances;
use reference::instances::inputs::Inputs;
use reference::instances::outcome::{self, Outcome};
use reference::instances::{job_words_with, jobs, sources, stock_jobs, texts, NamedJob};
use reference::layout::{keeps_rules, outlay};
use reference::layout_lines::{lines_of_words, set_of};
use reference::{fold_text, saw_text, Job, Mode};

/// The inputs and the outcome of a job whose listing is not refused.
fn run(job: &NamedJob) -> Option<(Inputs, Outcome)> {
    let inputs = Inputs::of(&job.words).ok()?;
    let found = outcome::of(&job.words, &inputs);
    let found = found.unwrap_or_else(|refusal| panic!("{}: {refusal:?}", job.name));
    Some((inputs, found))
}

/// Asserts that plan, unfolding and folding agree: on boards, on pieces, which are the demands
/// exactly, and on counts; and that what was unfolded keeps the layout rules.
pub fn assert_agreement(job: &NamedJob, inputs: &Inputs, found: &Outcome) {
    let name = &job.name;
    let structured = Job::from_words(&job.words).unwrap();
    let demands = structured.items.iter().map(|item| u32::from(item.demand));
    assert_eq!(found.unfolded.boards, found.outlay.boards, "{name}");
    assert_eq!(found.folded, found.outlay, "{name}");
    assert_eq!(found.unfolded.pieces, demands.sum::<u32>(), "{name}");
    assert_eq!(found.counts, inputs.counts, "{name}");
    for layouts in [&inputs.layouts, &found.placements] {
        let lines = lines_of_words(layouts, &structured).unwrap();
        let set = set_of(&lines);
        assert_eq!(outlay(&structured, &set), found.outlay, "{name}");
        let kept = |board: &reference::Board| keeps_rules(&structured, board);
        assert!(set.iter().all(kept), "{name}");
    }
    assert!(
        found.bound.sum <= found.outlay.cost * found.bound.d,
        "{name}"
    );
    assert_balance(job, &structured, found);
}

/// Asserts that items, offcuts, waste and swath of each board make the board's own W times H, and
/// that the offcuts are those that unfolding wrote.
fn assert_balance(job: &NamedJob, structured: &Job, found: &Outcome) {
    let name = &job.name;
    let mut left_over = vec![0; found.outlay.boards as usize];
    for offcut in found.offcuts.chunks(6) {
        left_over[usize::from(offcut[0]) - 1] += u64::from(offcut[3]) * u64::from(offcut[4]);
    }
    let firsts = found.placements.chunks(9);
    let firsts = firsts.filter(|line| line[2..5] == [1, 1, 1]);
    let sizes: Vec<u16> = firsts.map(|line| line[1]).collect();
    let balances = balances(&job.words).unwrap();
    assert_eq!(balances.len(), sizes.len());
    for ((board, offcuts), &size) in balances.iter().zip(left_over).zip(&sizes) {
        let whole = structured.size(size).area();
        assert_eq!((board.whole(), board.offcuts), (whole, offcuts), "{name}");
    }
}

/// Asserts that the texts answer as the calls do.
pub fn assert_texts(job: &NamedJob, inputs: &Inputs, found: &Outcome) {
    let name = &job.name;
    let bound = found.bound;
    let cost = found.outlay.cost;
    let cheapest = u32::from(bound.is_cheapest(cost));
    let last = [8, cost, bound.sum, bound.d, cheapest].map(|number| format!("{number:>9}"));
    let mut expected = texts::layout_lines(&found.placements);
    expected.extend(last.concat().bytes());
    expected.push(b'\n');
    let text = texts::saw_text(&job.words, inputs).unwrap();
    assert!(saw_text(&text) == expected, "{name}");
    let text = texts::fold_text(&job.words, inputs);
    let plan = texts::plan_lines(&job.words, &inputs.counts).unwrap();
    assert!(fold_text(&text) == plan, "{name}");
}

#[test]
fn calls_and_texts_agree_on_every_instance() {
    for job in jobs().into_iter().chain(stock_jobs()) {
        if let Some((inputs, found)) = run(&job) {
            assert_agreement(&job, &inputs, &found);
            assert_texts(&job, &inputs, &found);
        }
    }
}

/// Asserts the agreement on every third instance, on one of its boards, in one mode, with leave and
/// blade; gives the placements.
fn assert_every_third(leave: u16, blade: u16) -> Vec<[u16; 9]> {
    let mut placed = Vec::new();
    for source in sources() {
        for instance in source.instances.iter().step_by(3) {
            let types = instance.items.len();
            let Some(board) = instance.boards().nth(types % 2) else {
                continue;
            };
            let mode = Mode::ALL[types % 4];
            let [name, instance_name] = [source.name, &instance.name];
            let job = NamedJob {
                name: format!("{name} {instance_name} {board:?} leave {leave} blade {blade}"),
                words: job_words_with(instance, board, mode, leave, blade),
            };
            if let Some((inputs, found)) = run(&job) {
                assert_agreement(&job, &inputs, &found);
                assert_texts(&job, &inputs, &found);
                let lines = found.placements.chunks(9);
                placed.extend(lines.map(|line| <[u16; 9]>::try_from(line).unwrap()));
            }
        }
    }
    placed
}

#[test]
fn calls_and_texts_agree_on_instances_with_leave() {
    let placed = assert_every_third(1, 0);
    let turned = placed.iter().filter(|line| line[8] == 1).count();
    assert!(turned > 500, "{turned} items are turned");
}

#[test]
fn calls_and_texts_agree_on_instances_with_a_blade() {
    for (leave, blade) in [(0, 1), (0, 4), (1, 4), (0, 20)] {
        let placed = assert_every_third(leave, blade);
        let moved = placed.iter().filter(|line| line[6] > 0 || line[7] > 0);
        let moved = moved.count();
        assert!(
            moved > 100,
            "blade {blade}: {moved} items are not in the corner"
        );
    }
}

#[test]
fn listings_are_refused_only_for_types_sizes_and_limits() {
    for job in jobs() {
        let Err(refusal) = Inputs::of(&job.words) else {
            continue;
        };
        let types = usize::from(job.words[3]);
        match refusal.number {
            2 => assert!(types > 40 && refusal.place == 0, "{}", job.name),
            3 => assert!((1..=types as u32).contains(&refusal.place), "{}", job.name),
            number => assert!([6, 7].contains(&number), "{}", job.name),
        }
    }
}

/// Document 01, "Cases": the 6 by 6 example of 001 has 6 residual types and three boards.
#[test]
fn the_example_of_document_001_has_three_boards() {
    let job = jobs().into_iter().find(|job| job.name == "001-1 1 6x6 2N");
    let (_, found) = run(&job.unwrap()).unwrap();
    assert_eq!((found.listed.residuals, found.listed.cuts), (6, 10));
    assert_eq!(found.outlay.boards, 3);
    assert!(found.bound.is_cheapest(3));
}
