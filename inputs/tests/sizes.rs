//! Board sizes among what is generated: one to six of them, equal ones, ones that nothing fits, damaged ones.

use inputs::damage::damage_size_lines;
use inputs::layouts::random_layouts;
use inputs::lines::{fold_lines, saw_lines, text_of};
use inputs::longest::long_texts;
use inputs::plans::random_plan;
use inputs::text::refusal_in;
use inputs::{Model, Random, Text};
use reference::unfolding::unfold;
use std::collections::BTreeSet;

#[test]
fn jobs_have_one_to_six_sizes_equal_ones_and_ones_that_nothing_fits() {
    let mut random = Random::new(11);
    let mut many = [0; 7];
    let [mut equal, mut other_cost, mut unused, mut residual, mut dearest] = [0; 5];
    for _ in 0..1_000 {
        let model = Model::random(&mut random);
        let sizes = &model.job.sizes;
        assert_eq!(usize::from(model.words[2]), sizes.len());
        many[sizes.len()] += 1;
        for (index, size) in sizes.iter().enumerate() {
            let before = sizes[..index].iter();
            let alike = before.filter(|other| other.plate() == size.plate());
            for other in alike {
                equal += usize::from(other == size);
                other_cost += usize::from(other != size);
            }
            unused += usize::from(model.listing.cuts_on(index as u16).is_empty());
            residual += usize::from(model.listing.residuals().contains(&size.plate()));
            dearest += usize::from(size.cost == 999);
        }
    }
    assert_eq!(many[0], 0);
    assert!(many[1..].iter().all(|&many| many > 25), "{many:?}");
    let found = [equal, other_cost, unused, residual, dearest];
    assert!(found.iter().all(|&found| found > 25), "{found:?}");
}

#[test]
fn plans_and_layouts_have_boards_of_several_sizes_in_rising_and_in_any_order() {
    let mut random = Random::new(12);
    let [mut opened, mut laid, mut falling] = [0; 3];
    for _ in 0..1_000 {
        let model = Model::random(&mut random);
        let plan = random_plan(&mut random, &model);
        let sizes = unfold(&model.job, &model.listing, &plan).sizes;
        assert!(sizes.is_sorted());
        opened += usize::from(sizes.first() != sizes.last());
        let layouts = random_layouts(&mut random, &model.job, false);
        let sizes: Vec<u16> = layouts.chunks(9).map(|line| line[1]).collect();
        laid += usize::from(sizes.iter().any(|&size| size != sizes[0]));
        falling += usize::from(!sizes.is_sorted());
    }
    let found = [opened, laid, falling];
    assert!(found.iter().all(|&found| found > 100), "{found:?}");
}

#[test]
fn damaged_sizes_are_refused_1_2_3_and_15_and_some_are_accepted() {
    let mut random = Random::new(13);
    for kind in Text::BOTH {
        let mut met = BTreeSet::new();
        for _ in 0..4_000 {
            let model = Model::random(&mut random);
            let mut lines = match kind {
                Text::Saw => saw_lines(&mut random, &model),
                Text::Fold => fold_lines(&mut random, &model),
            };
            damage_size_lines(&mut random, &mut lines);
            let text = text_of(&mut random, lines, model.job_lines(), 0);
            met.insert(refusal_in(&kind.answer(&text)));
        }
        let wanted: &[u32] = match kind {
            Text::Saw => &[1, 2, 3, 8, 20],
            Text::Fold => &[1, 2, 3, 15, 17],
        };
        assert!(met.contains(&None));
        let missing = wanted.iter().find(|&&number| !met.contains(&Some(number)));
        assert_eq!(missing, None, "{met:?}");
    }
}

#[test]
fn the_dearest_plan_costs_3_996_000_on_six_sizes() {
    let mut long = long_texts(Text::Saw).into_iter();
    let dear = long
        .find(|long| long.name.starts_with("six sizes"))
        .unwrap();
    let answer = Text::Saw.answer(&dear.text);
    let last = String::from_utf8_lossy(&answer[4_000 * 91..]).into_owned();
    assert!(last.starts_with("        8  3996000"), "{last}");
}
