//! Texts at the limits of document 01 and past them: of most lines, of most pieces on one board and on
//! most boards, of most cuts counted, of most prices, of the greatest listings.

use crate::text::Text;
use reference::columns::write_line;
use reference::instances::inputs::Inputs;
use reference::instances::limit_jobs::limit_jobs;
use reference::instances::texts;

/// A text, and what is large in it.
pub struct Long {
    pub name: String,
    pub text: Vec<u8>,
}

/// One board of 4,000 pieces: 50 strips of 80.
const ONE_BOARD: [u16; 12] = [2, 0, 1, 1, 0, 80, 50, 1, 1, 1, 4_000, 0];
/// 4,000 boards of one piece.
const BOARDS: [u16; 12] = [3, 0, 1, 1, 0, 10_000, 10_000, 1, 10_000, 10_000, 4_000, 0];
/// Two equal types: a board of 2,000 of each, and so 4,000 cuts that are counted once.
const CUTS: [u16; 16] = [2, 0, 1, 2, 0, 10_000, 9, 1, 5, 9, 2_000, 0, 5, 9, 2_000, 0];
/// Ten boards of 400 pieces, with the widest blade between them.
const WIDEST_BLADE: [u16; 12] = [3, 0, 1, 1, 20, 10_000, 10_000, 1, 480, 480, 4_000, 0];
/// 4,000 boards of one piece at the highest cost, of six sizes each of which holds one type alone.
const DEAREST: [u16; 47] = [
    2, 1, 6, 6, 0, 1, 6, 999, 2, 5, 999, 3, 4, 999, 4, 3, 999, 5, 2, 999, 6, 1, 999, 1, 6, 667, 0,
    2, 5, 667, 0, 3, 4, 667, 0, 4, 3, 667, 0, 5, 2, 666, 0, 6, 1, 666, 0,
];
/// One board of 4,000 pieces, of the second of three sizes; no item fits the others, so that their plate
/// types have no cut.
const EMPTY_PARTS: [u16; 18] = [2, 0, 3, 1, 0, 1, 1, 1, 160, 100, 1, 1, 1, 1, 2, 2, 4_000, 0];

/// The long texts of a kind.
pub fn long_texts(kind: Text) -> Vec<Long> {
    let mut all = of_most_lines(kind);
    if kind == Text::Saw {
        all.extend(plans_of_most_lines());
        all.push(of_most_prices());
    }
    let jobs = [
        ("4,000 pieces on one board", &ONE_BOARD[..]),
        ("4,000 boards", &BOARDS),
        ("4,000 cuts counted", &CUTS),
        ("a blade of 20", &WIDEST_BLADE),
        ("six sizes and the highest cost", &DEAREST),
        ("4,000 pieces, and sizes without a cut", &EMPTY_PARTS),
    ];
    all.extend(jobs.map(|(name, words)| of_job(kind, name, words)));
    for limit in limit_jobs() {
        if limit.listed.is_ok() && is_greatest(&limit.job.name) {
            all.push(of_job(kind, &limit.job.name, &limit.job.words));
        }
    }
    all
}

/// Whether a job at the limits has as many plate types and cuts as can be, or six sizes among as many
/// plate types as can be.
fn is_greatest(name: &str) -> bool {
    name.starts_with("limits both") || name.ends_with("2,048 plate types")
}

/// The text of a job and of the inputs that the reference finds for it.
pub fn of_job(kind: Text, name: &str, words: &[u16]) -> Long {
    let inputs = Inputs::of(words).expect("the listing is not refused");
    let text = match kind {
        Text::Saw => texts::saw_text(words, &inputs).expect("the listing is not refused"),
        Text::Fold => texts::fold_text(words, &inputs),
    };
    Long {
        name: name.to_string(),
        text,
    }
}

/// Texts of 99,999 lines, of a line more, of a byte more, and three whose line 99,999 is past a limit,
/// turned without leave, or of another kind.
fn of_most_lines(kind: Text) -> Vec<Long> {
    let full = longest(kind);
    let with = |name: &str, more: &[u8]| Long {
        name: name.to_string(),
        text: [&full, more].concat(),
    };
    let body = line_of(kind);
    let instead = |name: &str, last: &[u8]| ending_with(kind, name, last);
    let past_limit = match kind {
        Text::Saw => line(&[3, 0, 1, 4_001, 2, 1, 1, 0]),
        Text::Fold => line(&[7, 1, 0, 1, 1, 1, 1, 0, 10_001, 0]),
    };
    let turned = match kind {
        Text::Saw => line(&[3, 0, 1, 1, 2, 1, 1, 1]),
        Text::Fold => line(&[7, 1, 0, 1, 1, 1, 1, 0, 0, 1]),
    };
    vec![
        with("99,999 lines", b""),
        with("100,000 lines", &body),
        with("99,999 lines and a byte", b"\n"),
        with("110,000 lines", &body.repeat(10_001)),
        instead("line 99,999 past a limit", &past_limit),
        instead("line 99,999 turned without leave", &turned),
        instead("line 99,999 of kind 4", &line(&[4, 1, 40, 0])),
    ]
}

/// Saw texts of 99,999 lines whose last is such as is refused after all are read, though every line from
/// the second of kind 3 on has a cut that does not rise; and one of 40 types.
fn plans_of_most_lines() -> Vec<Long> {
    let [other_plate, no_cut] =
        [[3, 0, 1, 1, 2, 1, 2, 0], [3, 2, 1, 1, 2, 1, 2, 0]].map(|numbers| line(&numbers));
    let both = [other_plate.clone(), no_cut].concat();
    let forty = Long {
        name: "99,999 lines, 40 of them of kind 2".to_string(),
        text: of_types(Text::Saw, 40),
    };
    vec![
        ending_with(Text::Saw, "line 99,999 shows another plate", &other_plate),
        ending_with(
            Text::Saw,
            "line 99,999 names no cut, and the one before it shows another plate",
            &both,
        ),
        forty,
    ]
}

/// The longest text with this in place of its last line, or of as many as it has bytes for.
fn ending_with(kind: Text, name: &str, last: &[u8]) -> Long {
    let mut text = longest(kind);
    let lines = last.len().div_ceil(line_of(kind).len());
    text.truncate(text.len() - lines * line_of(kind).len());
    text.extend(last);
    Long {
        name: name.to_string(),
        text,
    }
}

/// The longest text that no line refuses: 7,299,864 bytes of a saw text, 9,099,792 of a fold text.
/// Lines of kinds 3 and 7 are longer than those of kinds 10 and 2, so there is one size and one type.
pub fn longest(kind: Text) -> Vec<u8> {
    of_types(kind, 1)
}

/// A text of 99,999 lines, so many of them of kind 2, and of kind 3 or 7 the same line to the end.
fn of_types(kind: Text, types: u32) -> Vec<u8> {
    let mut text = line(&[1, 2, 0, 1, types, 0]);
    text.extend(line(&[10, 0, 2, 1, 1]));
    for number in 1..=types {
        text.extend(line(&[2, number, 1, 1, 1, 0]));
    }
    text.extend(line_of(kind).repeat(99_997 - types as usize));
    text
}

/// A saw text with the longest price list: 40 types and 2,047 residual types, prices of up to four figures;
/// with six sizes, so that plate numbers go past 2,047.
fn of_most_prices() -> Long {
    let mut text = line(&[1, 2, 0, 6, 40, 0]);
    text.extend((0..6).flat_map(|number| line(&[10, number, 2, 1, 999])));
    text.extend((1..=40).flat_map(|number| line(&[2, number, 1, 1, 1, 0])));
    text.extend(line(&[4, 9_999, 40, 2_047]));
    let price = |kind| move |number: u32| line(&[kind, number, number * 4_099 % 10_000]);
    text.extend((1..=40).flat_map(price(5)));
    text.extend((6..2_053).flat_map(price(6)));
    Long {
        name: "2,087 prices".to_string(),
        text,
    }
}

/// A line of kind 3 or of kind 7.
pub fn line_of(kind: Text) -> Vec<u8> {
    match kind {
        Text::Saw => line(&[3, 0, 1, 1, 2, 1, 1, 0]),
        Text::Fold => line(&[7, 1, 0, 1, 1, 1, 1, 0, 0, 0]),
    }
}

fn line(numbers: &[u32]) -> Vec<u8> {
    let mut text = Vec::new();
    write_line(&mut text, numbers);
    text
}
