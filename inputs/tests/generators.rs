//! What is generated: the same for the same seed, accepted by the reference where it is valid, and
//! changed where it is damaged.

use inputs::damage::{damage_blade, damage_job, damage_shown, damage_words, Words};
use inputs::layouts::random_layouts;
use inputs::lengths::{any_lengths, valid_lengths};
use inputs::lines::{fold_lines, saw_lines, text_of};
use inputs::longest::{line_of, long_texts, longest};
use inputs::plans::random_plan;
use inputs::prices::random_prices;
use inputs::subjects::most_offcuts;
use inputs::text::refusal_in;
use inputs::{Model, Random, Text};
use reference::balance::of_boards;
use reference::buffers::{COUNTS, CUTS, PLATES};
use reference::instances::outcome;
use reference::unfolding::unfold;
use reference::{Item, Lengths, Sides};
use std::collections::BTreeSet;

/// A text of a small job, damaged so many times.
fn text(random: &mut Random, kind: Text, damages: usize) -> Vec<u8> {
    let model = Model::random(random);
    let lines = match kind {
        Text::Saw => saw_lines(random, &model),
        Text::Fold => fold_lines(random, &model),
    };
    text_of(random, lines, model.job_lines(), damages)
}

/// A checksum of bytes (FNV-1a).
fn checksum(bytes: &[u8]) -> u64 {
    let step = |sum: u64, &byte: &u8| (sum ^ u64::from(byte)).wrapping_mul(0x100_0000_01B3);
    bytes.iter().fold(0xCBF2_9CE4_8422_2325, step)
}

#[test]
fn a_seed_gives_these_numbers() {
    for (seed, numbers) in [
        (1, [330, 33, 419, 456, 976, 281, 542, 63]),
        (2, [959, 280, 659, 817, 614, 486, 372, 664]),
    ] {
        let mut random = Random::new(seed);
        assert_eq!([0; 8].map(|_| random.below(1_000)), numbers, "seed {seed}");
    }
}

#[test]
fn a_seed_gives_these_texts() {
    let sums = Text::BOTH.map(|kind| {
        let mut random = Random::new(1);
        let texts = (0..500).flat_map(|number| text(&mut random, kind, number % 4));
        checksum(&texts.collect::<Vec<u8>>())
    });
    assert_eq!(sums, [0xA63D_F23C_56ED_4765, 0x0D5B_38D6_F237_2C6E]);
}

#[test]
fn valid_words_are_accepted() {
    let mut random = Random::new(2);
    let [mut plates, mut cuts, mut counts] =
        [PLATES, CUTS, COUNTS].map(|kind| vec![0; kind.full_size]);
    for _ in 0..300 {
        let model = Model::random(&mut random);
        let job = &model.words;
        let mut plan = random_plan(&mut random, &model);
        plan.resize(COUNTS.full_size, 0);
        let boards = reference::test_plan(job, &plan, &mut plates, &mut cuts);
        assert!(boards.is_ok(), "{boards:?}: {job:?}");
        let prices = random_prices(&mut random, &model);
        let bound = reference::test_prices(job, &prices, &mut plates, &mut cuts);
        assert!(bound.is_ok(), "{bound:?}: {job:?}, {prices:?}");
        let layouts = random_layouts(&mut random, &model.job, false);
        let boards = reference::fold(job, &layouts, &mut plates, &mut cuts, &mut counts);
        assert!(boards.is_ok(), "{boards:?}: {job:?}, {layouts:?}");
    }
}

#[test]
fn undamaged_texts_are_accepted_or_break_a_rule() {
    let mut random = Random::new(3);
    for kind in Text::BOTH {
        let broken: &[u32] = match kind {
            Text::Saw => &[2, 13, 14],
            Text::Fold => &[2, 15, 16, 17, 18, 19],
        };
        let mut accepted = 0;
        for _ in 0..1_000 {
            let text = text(&mut random, kind, 0);
            match refusal_in(&kind.answer(&text)) {
                None => accepted += 1,
                Some(number) => assert!(broken.contains(&number), "{number}"),
            }
        }
        assert!((600..1_000).contains(&accepted), "{accepted}");
    }
}

#[test]
fn types_turn_and_some_fit_only_turned() {
    let mut random = Random::new(5);
    let [mut only_turned, mut square, mut cut, mut laid] = [0; 4];
    for _ in 0..1_000 {
        let model = Model::random(&mut random);
        let with_leave = model.job.items.iter().filter(|item| item.leave);
        let fits = |item: &Item| {
            let sides = Sides {
                width: item.width,
                height: item.height,
            };
            model.job.sizes.iter().any(|size| size.fits(sides))
        };
        for item in with_leave {
            only_turned += usize::from(!fits(item));
            square += usize::from(item.width == item.height);
        }
        let plan = random_plan(&mut random, &model);
        let cuts = model.listing.cuts.iter().zip(plan);
        cut += cuts
            .filter(|(cut, count)| cut.position.turned && *count > 0)
            .count();
        let layouts = random_layouts(&mut random, &model.job, false);
        laid += layouts.chunks(9).filter(|line| line[8] == 1).count();
    }
    let found = [only_turned, square, cut, laid];
    assert!(found.iter().all(|&found| found > 25), "{found:?}");
}

#[test]
fn blades_are_of_no_width_narrow_and_above_every_side() {
    let mut random = Random::new(8);
    let [mut none, mut narrow, mut above, mut gaps, mut swaths] = [0; 5];
    for _ in 0..1_000 {
        let model = Model::random(&mut random);
        let job = &model.job;
        assert_eq!(model.words[4], job.blade);
        none += usize::from(job.blade == 0);
        narrow += usize::from((1..=3).contains(&job.blade));
        let sides = job.sizes.iter().map(|size| size.width.max(size.height));
        above += usize::from(sides.max().is_some_and(|longest| job.blade > longest));
        let plan = random_plan(&mut random, &model);
        let unfolding = unfold(job, &model.listing, &plan);
        let boards = of_boards(job, &model.listing, &unfolding);
        swaths += boards.iter().filter(|board| board.swath > 0).count();
        let layouts = random_layouts(&mut random, job, false);
        let placed = layouts.chunks(9);
        gaps += match job.blade {
            0 => 0,
            _ => placed.filter(|line| line[6] > 0 || line[7] > 0).count(),
        };
    }
    let found = [none, narrow, above, gaps, swaths];
    assert!(found.iter().all(|&found| found > 25), "{found:?}");
}

#[test]
fn a_damaged_blade_is_another_one_past_its_limit_or_no_sixth_group() {
    let mut random = Random::new(9);
    let mut met = BTreeSet::new();
    for _ in 0..200 {
        let mut lines = vec![
            vec![1, 2, 0, 1, 1, 4],
            vec![10, 0, 9, 7, 1],
            vec![2, 1, 5, 4, 2, 0],
        ];
        damage_blade(&mut random, &mut lines);
        met.insert(lines[0][5..].to_vec());
    }
    let expected: [&[u32]; 7] = [&[], &[0], &[3], &[4, 4], &[5], &[20], &[21]];
    assert!(met.iter().eq(expected), "{met:?}");
    let mut words = BTreeSet::new();
    for _ in 0..2_000 {
        let mut job = vec![2, 0, 1, 1, 4, 9, 7, 1, 5, 4, 2, 0];
        damage_job(&mut random, &mut job);
        words.extend(job.get(4).copied().filter(|_| job.len() == 12));
    }
    assert!(words.contains(&20) && words.contains(&21), "{words:?}");
}

/// Job A with its plan, as lines of numbers.
fn plan_of_job_a() -> Vec<Vec<u32>> {
    vec![
        vec![1, 2, 0, 1, 2, 0],
        vec![10, 0, 9, 7, 1],
        vec![2, 1, 5, 4, 2, 0],
        vec![2, 2, 3, 3, 3, 0],
        vec![3, 0, 1, 2, 9, 7, 1, 0],
        vec![3, 1, 2, 1, 9, 3, 1, 0],
        vec![3, 2, 2, 1, 4, 4, 2, 0],
        vec![3, 4, 2, 1, 6, 3, 2, 0],
    ]
}

/// Which of the three numbers differ from those of the plate that a line of job A names.
fn others_shown(line: &[u32]) -> [bool; 3] {
    let plates = [[9, 7, 1], [9, 3, 1], [4, 4, 2], [9, 4, 1], [6, 3, 2]];
    let plate = plates.get(line[1] as usize).copied().unwrap_or_default();
    [0, 1, 2].map(|number| line[4 + number] != plate[number])
}

#[test]
fn damaged_plates_differ_in_each_number_alone_and_lie_beside_8_and_9() {
    let mut random = Random::new(10);
    let mut met = BTreeSet::new();
    let [mut width, mut height, mut stage, mut wrapped, mut greatest] = [0; 5];
    for number in 0..4_000 {
        let mut lines = plan_of_job_a();
        for _ in 0..1 + number % 3 {
            damage_shown(&mut random, &mut lines);
        }
        for line in lines.iter().filter(|line| line[0] == 3 && line.len() == 8) {
            match others_shown(line) {
                [true, false, false] => width += 1,
                [false, true, false] => height += 1,
                [false, false, true] => stage += 1,
                _ => {}
            }
            let mut shown = line[4..7].iter();
            wrapped += usize::from(shown.any(|shown| (65_537..65_546).contains(shown)));
            greatest += usize::from(line[4..7].contains(&999_999_999));
        }
        let text = text_of(&mut random, lines, 4, 0);
        met.extend(refusal_in(&Text::Saw.answer(&text)));
    }
    let found = [width, height, stage, wrapped, greatest];
    assert!(found.iter().all(|&found| found > 100), "{found:?}");
    let missing = [1, 8, 9, 20].iter().find(|number| !met.contains(number));
    assert_eq!(missing, None, "{met:?}");
}

#[test]
fn damaged_texts_are_refused_with_every_number_but_5_and_the_models() {
    let mut random = Random::new(6);
    for kind in Text::BOTH {
        let mut met = BTreeSet::new();
        for number in 0..20_000 {
            let text = text(&mut random, kind, number % 4);
            met.extend(refusal_in(&kind.answer(&text)));
        }
        let missing = kind
            .refusals()
            .iter()
            .filter(|number| !met.contains(number));
        let missing: Vec<&u32> = missing.collect();
        assert!(
            missing.iter().all(|number| [4, 6, 7, 10].contains(number)),
            "{missing:?}"
        );
    }
}

#[test]
fn damaged_texts_differ() {
    for kind in Text::BOTH {
        let damaged = |damages| {
            let mut differ = 0;
            for seed in 0..1_000 {
                let [whole, text] =
                    [0, damages].map(|damages| text(&mut Random::new(seed), kind, damages));
                differ += usize::from(text != whole);
            }
            differ
        };
        let [none, one, three] = [0, 1, 3].map(damaged);
        assert_eq!(none, 0);
        assert!(one > 900 && three > one, "{one}, {three}");
    }
}

#[test]
fn damaged_words_differ() {
    let mut random = Random::new(4);
    let mut differ = [0; 4];
    for _ in 0..1_000 {
        let model = Model::random(&mut random);
        let whole = [
            model.words.clone(),
            random_plan(&mut random, &model),
            random_prices(&mut random, &model),
            random_layouts(&mut random, &model.job, false),
        ];
        let mut damaged = whole.clone();
        damage_job(&mut random, &mut damaged[0]);
        damage_words(&mut random, &mut damaged[1], Words::Counts);
        damage_words(&mut random, &mut damaged[2], Words::Prices);
        damage_words(&mut random, &mut damaged[3], Words::Layouts);
        for (differ, (damaged, whole)) in differ.iter_mut().zip(damaged.iter().zip(&whole)) {
            *differ += usize::from(damaged != whole);
        }
    }
    assert!(differ.iter().all(|&differ| differ > 800), "{differ:?}");
}

#[test]
fn no_line_of_the_longest_texts_is_refused_and_the_next_one_is() {
    for (kind, length) in Text::BOTH.into_iter().zip([7_299_864, 9_099_792]) {
        let mut text = longest(kind);
        assert_eq!(text.len(), length);
        let refusal = refusal_in(&kind.answer(&text)).expect("the lines are all the same");
        assert!(refusal > 2, "{refusal}");
        text.extend(line_of(kind));
        assert_eq!(kind.answer(&text), b"        9        1   100000\n");
    }
}

#[test]
fn no_line_of_the_longest_price_list_is_refused() {
    let mut long = long_texts(Text::Saw).into_iter();
    let prices = long.find(|long| long.name == "2,087 prices").unwrap();
    assert_eq!(refusal_in(&Text::Saw.answer(&prices.text)), Some(11));
}

#[test]
fn the_last_of_99_999_lines_decides_where_it_shows_another_plate_or_names_no_cut() {
    let mut long = long_texts(Text::Saw).into_iter();
    let mut answer = |name: &str| {
        let text = long.find(|long| long.name.starts_with(name)).unwrap().text;
        assert_eq!(text.iter().filter(|&&byte| byte == b'\n').count(), 99_999);
        String::from_utf8(Text::Saw.answer(&text)).unwrap()
    };
    // The job's lines come first: line 5 is the second of kind 3, or line 44.
    for (name, refused) in [
        ("99,999 lines", [9, 9, 5]),
        ("line 99,999 shows another plate", [9, 20, 99_999]),
        ("line 99,999 names no cut", [9, 8, 99_999]),
        ("99,999 lines, 40", [9, 9, 44]),
    ] {
        let expected: String = refused
            .iter()
            .map(|number| format!("{number:>9}"))
            .collect();
        assert_eq!(answer(name), expected + "\n", "{name}");
    }
}

#[test]
fn lengths_are_reached_by_some_offcuts_and_some_are_outside_their_limits() {
    let mut random = Random::new(7);
    let [mut usable, mut short] = [0; 2];
    let mut outside = BTreeSet::new();
    for _ in 0..1_000 {
        let model = Model::random(&mut random);
        let board = model.first_sides();
        let lengths = Lengths::from_words(valid_lengths(&mut random, board)).unwrap();
        let plan = random_plan(&mut random, &model);
        for offcut in unfold(&model.job, &model.listing, &plan).offcuts {
            match offcut.is_usable(lengths) {
                true => usable += 1,
                false => short += 1,
            }
        }
        let any = any_lengths(&mut random, board);
        outside.extend(
            any.into_iter()
                .filter(|length| !(1..=10_000).contains(length)),
        );
    }
    assert!(usable > 200 && short > 200, "{usable}, {short}");
    assert_eq!(outside.into_iter().collect::<Vec<_>>(), [0, 10_001, 65_535]);
}

#[test]
fn the_job_with_most_offcuts_has_8_000() {
    let (job, inputs) = most_offcuts();
    let found = outcome::of(&job, &inputs).unwrap();
    let unfolded = found.unfolded;
    assert_eq!(
        [unfolded.boards, unfolded.pieces, unfolded.offcuts],
        [4_000, 4_000, 8_000]
    );
}
