//! Damage to words, to lines of numbers, and to the bytes of a text.

use crate::random::Random;
use reference::job::{items_at, HEAD_NUMBERS, ITEM_NUMBERS};
use reference::layout::PLACEMENT_NUMBERS;
use reference::size::SIZE_NUMBERS;
use std::ops::Range;

/// The greatest number of nine columns.
const GREATEST: u32 = 999_999_999;

/// The lowest and the highest value of each number of a line after its kind, by kind; a job of two
/// sizes and four item types is meant. The plate's width, height and stage on line 3 have no limits of their
/// own, and those of plates stand for them.
const LIMITS: [&[(u32, u32)]; 11] = [
    &[],
    &[(2, 3), (0, 1), (1, 6), (1, 40), (0, 20)],
    &[(1, 4), (1, 10_000), (1, 10_000), (1, 4_000), (0, 1)],
    &[
        (0, 2_047),
        (1, 4),
        (1, 4_000),
        (1, 10_000),
        (1, 10_000),
        (1, 3),
        (0, 1),
    ],
    &[(1, 9_999), (1, 40), (0, 2_047)],
    &[(1, 4), (0, 9_999)],
    &[(1, 2_047), (0, 9_999)],
    &[
        (1, 4_000),
        (0, 1),
        (1, 4_000),
        (1, 4_000),
        (1, 4_000),
        (1, 4),
        (0, 10_000),
        (0, 10_000),
        (0, 1),
    ],
    &[],
    &[],
    &[(0, 1), (1, 10_000), (1, 10_000), (1, 999)],
];

/// What words are passed for.
#[derive(Clone, Copy)]
pub enum Words {
    /// A job of so many sizes.
    Job(u16),
    Counts,
    Prices,
    Layouts,
}

impl Words {
    /// The lowest and the highest value of a word.
    fn limits(self, at: usize) -> (u32, u32) {
        match self {
            Words::Job(_) if at < HEAD_NUMBERS => LIMITS[1][at],
            Words::Job(sizes) => match at.checked_sub(items_at(usize::from(sizes))) {
                Some(of_items) => LIMITS[2][1 + of_items % ITEM_NUMBERS],
                None => LIMITS[10][1 + (at - HEAD_NUMBERS) % SIZE_NUMBERS],
            },
            Words::Counts => (0, 4_000),
            Words::Prices => (u32::from(at == 0), 9_999),
            Words::Layouts => LIMITS[7][at % PLACEMENT_NUMBERS],
        }
    }
}

/// A value at a limit, one past it, or the greatest.
fn at_limit(random: &mut Random, (low, high): (u32, u32), greatest: u32) -> u32 {
    let below = low.saturating_sub(1);
    random.pick(&[below, below, low, high, high, high + 1, high + 1, greatest])
}

/// Moves one word by one or to a limit, drops one, puts one in, or drops all from there on.
pub fn damage_words(random: &mut Random, words: &mut Vec<u16>, purpose: Words) {
    let at = match purpose {
        Words::Prices if random.once_in(3) => 0,
        _ => random.below(words.len().max(1)),
    };
    let limit = at_limit(random, purpose.limits(at), 65_535) as u16;
    if at == words.len() {
        return words.push(limit);
    }
    match random.below(9) {
        0..=2 => words[at] = limit,
        3 | 4 => words[at] = words[at].saturating_add(1),
        5 => words[at] = words[at].saturating_sub(1),
        6 => drop(words.remove(at)),
        7 => words.insert(at, limit),
        _ => words.truncate(at),
    }
}

/// Changes a job's words: a demand so that all of them come to about 4,000, a side so that a size or
/// all of them are too small for the item as it stands, or however it lies, a leave, n with as many
/// types as it asks for, the blade, the sizes, or any word.
pub fn damage_job(random: &mut Random, words: &mut Vec<u16>) {
    let sizes = words[2];
    if sizes == 0 || words[3] == 0 {
        return damage_words(random, words, Words::Job(sizes));
    }
    let items = items_at(usize::from(sizes));
    let first = items + ITEM_NUMBERS * random.below(usize::from(words[3]));
    let size = HEAD_NUMBERS + SIZE_NUMBERS * random.below(usize::from(sizes));
    let longest = words[HEAD_NUMBERS..items].chunks(SIZE_NUMBERS);
    let longest = longest.map(|size| size[0].max(size[1])).max().unwrap_or(1);
    match random.below(20) {
        0..=2 => words[first + 2] = random.pick(&[3_999, 4_000, 4_000, 4_001]),
        3 => words[first] = words[size] + 1,
        4 => words[first + 1] = words[size + 1] + 1,
        5 => words[first + random.below(2)] = longest + 1,
        6 | 7 => words[first + 3] ^= 1,
        8 => {
            words[3] = random.pick(&[0, 40, 41]);
            words.resize(items + ITEM_NUMBERS * usize::from(words[3]), 1);
        }
        9 | 10 => words[4] = other_blade(random, words[4].into()) as u16,
        11 => drop(words.remove(4)),
        12..=14 => damage_sizes(random, words),
        _ => damage_words(random, words, Words::Job(sizes)),
    }
}

/// Changes the sizes of a job's words: one more, equal to one that is there, or one fewer, with the
/// number of them or without it, or a cost at its limits or past them.
fn damage_sizes(random: &mut Random, words: &mut Vec<u16>) {
    let sizes = usize::from(words[2]);
    let at = HEAD_NUMBERS + SIZE_NUMBERS * random.below(sizes.max(1));
    let size = words[at..at + SIZE_NUMBERS].to_vec();
    match random.below(8) {
        0 | 1 => {
            words[2] += 1;
            words.splice(at..at, size);
        }
        2 | 3 => {
            words[2] -= 1;
            words.drain(at..at + SIZE_NUMBERS);
        }
        4 => words[2] = random.pick(&[0, 1, 2, 6, 7, 65_535]),
        5 => words.swap(at, at + 1),
        _ => words[at + 2] = random.pick(&[0, 1, 2, 999, 1_000, 65_535]),
    }
}

/// Another width of the blade: one more or less, the widest, or one past it.
fn other_blade(random: &mut Random, blade: u32) -> u32 {
    let wider = GREATEST.min(blade + 1);
    random.pick(&[wider, blade.saturating_sub(1), 0, 20, 21])
}

/// The lines of kind 10 of a text.
fn size_lines(lines: &[Vec<u32>]) -> Vec<usize> {
    let is_size = |&at: &usize| lines[at][0] == 10;
    (0..lines.len()).filter(is_size).collect()
}

/// Changes a line of kind 10: its cost, or its sides exchanged, or its number; or drops it, doubles it,
/// or has two of them change places, with t on line 1 as many or as it was; or changes the size that a
/// line of kind 7 names.
pub fn damage_size_lines(random: &mut Random, lines: &mut Vec<Vec<u32>>) {
    let placed: Vec<usize> = (0..lines.len()).filter(|&at| lines[at][0] == 7).collect();
    if !placed.is_empty() && random.once_in(2) {
        let line = &mut lines[random.pick(&placed)];
        if let Some(size) = line.get_mut(2) {
            *size = random.pick(&[0, 0, 1, 1, 2, 3, 5, 6, 65_536]);
        }
        return;
    }
    let sizes = size_lines(lines);
    if sizes.is_empty() {
        return;
    }
    let [one, other] = [0; 2].map(|_| random.pick(&sizes));
    match random.below(9) {
        0 | 1 => drop(lines[one].pop().map(|_| {
            let cost = random.pick(&[0, 1, 2, 500, 999, 1_000, 65_537]);
            lines[one].push(cost);
        })),
        2 if lines[one].len() > 3 => lines[one].swap(2, 3),
        3 => lines[one][1..]
            .iter_mut()
            .take(1)
            .for_each(|number| *number ^= 1),
        4 => lines.swap(one, other),
        5 => drop(lines.remove(one)),
        6 => lines.insert(one, lines[one].clone()),
        7 => another_size(random, lines, one),
        _ => lines[0][3..].iter_mut().take(1).for_each(|sizes| {
            *sizes = random.pick(&[0, 1, 2, 6, 7]);
        }),
    }
}

/// A size more, equal to one that is there, or that one fewer, with its number on line 1; all sizes are
/// numbered anew.
fn another_size(random: &mut Random, lines: &mut Vec<Vec<u32>>, one: usize) {
    match random.once_in(2) {
        true => lines.insert(one, lines[one].clone()),
        false => drop(lines.remove(one)),
    }
    let sizes = size_lines(lines);
    for (number, &at) in (0..).zip(&sizes) {
        lines[at][1..]
            .iter_mut()
            .take(1)
            .for_each(|size| *size = number);
    }
    lines[0][3..]
        .iter_mut()
        .take(1)
        .for_each(|many| *many = sizes.len() as u32);
}

/// Changes the blade on line 1, or leaves it away, or writes it twice.
pub fn damage_blade(random: &mut Random, lines: &mut [Vec<u32>]) {
    let Some(head) = lines.first_mut() else {
        return;
    };
    let Some(blade) = head.pop() else {
        return;
    };
    match random.below(4) {
        0 => {}
        1 => head.extend([blade, blade]),
        _ => head.push(other_blade(random, blade)),
    }
}

/// The groups of a line of kind 3 that show its plate: width, height and stage.
const SHOWN: Range<usize> = 4..7;

/// Changes what a line of kind 3 shows of its plate; or exchanges with another line the plate number
/// or what is shown, as a solver does that numbers otherwise; or doubles the line and changes what
/// the second shows; or leaves the three numbers out, or writes them after the turn.
pub fn damage_shown(random: &mut Random, lines: &mut Vec<Vec<u32>>) {
    let is_plan = |line: &Vec<u32>| line[0] == 3 && line.len() > SHOWN.end;
    let plan: Vec<usize> = (0..lines.len()).filter(|&at| is_plan(&lines[at])).collect();
    if plan.is_empty() {
        return;
    }
    let [one, other] = [0; 2].map(|_| random.pick(&plan));
    match random.below(10) {
        0..=4 => show_another(random, &mut lines[one]),
        5 => exchange(lines, [one, other], 1..2),
        6 => exchange(lines, [one, other], SHOWN),
        7 => lines[one][1] = random.between(0, 9).into(),
        8 => {
            lines.insert(one + 1, lines[one].clone());
            show_another(random, &mut lines[one + 1]);
        }
        _ => drop_shown(random, &mut lines[one]),
    }
}

/// Changes a number that a line of kind 3 shows: by one, into one that 16 bits take for the same, into
/// the least or the greatest; or exchanges the sides.
fn show_another(random: &mut Random, line: &mut [u32]) {
    let number = &mut line[SHOWN.start + random.below(SHOWN.len())];
    let wrapped = *number % 65_536 + 65_536 * random.pick(&[1, 1, 2, 15_257]);
    *number = match random.below(7) {
        0 | 1 => GREATEST.min(*number + 1),
        2 => number.saturating_sub(1),
        3 => wrapped,
        4 => random.pick(&[0, 65_535, 65_536, GREATEST]),
        5 => random.between(1, 30).into(),
        _ => return line.swap(SHOWN.start, SHOWN.start + 1),
    };
}

/// Exchanges numbers of two lines.
fn exchange(lines: &mut [Vec<u32>], [one, other]: [usize; 2], numbers: Range<usize>) {
    for at in numbers {
        let number = lines[one][at];
        lines[one][at] = lines[other][at];
        lines[other][at] = number;
    }
}

/// Leaves out what a line of kind 3 shows, or writes it after the turn.
fn drop_shown(random: &mut Random, line: &mut Vec<u32>) {
    let shown: Vec<u32> = line.drain(SHOWN).collect();
    if random.once_in(2) {
        line.extend(shown);
    }
}

/// Drops a line, doubles it, swaps it with another, or repeats all lines from there on.
pub fn damage_order<T: Clone>(random: &mut Random, lines: &mut Vec<T>) {
    if lines.is_empty() {
        return;
    }
    let [one, other] = [0; 2].map(|_| random.below(lines.len()));
    match random.below(4) {
        0 => drop(lines.remove(one)),
        1 => lines.insert(other, lines[one].clone()),
        2 => lines.swap(one, other),
        _ => lines.extend_from_within(one..),
    }
}

/// Moves a number of a line after its kind, by one or to a limit.
pub fn move_number(random: &mut Random, lines: &mut [Vec<u32>]) {
    let Some(line) = some_line(random, lines, 2) else {
        return;
    };
    let at = 1 + random.below(line.len() - 1);
    let limits = LIMITS
        .get(line[0] as usize)
        .and_then(|of_kind| of_kind.get(at - 1));
    line[at] = match (random.below(5), limits) {
        (0 | 1, _) | (_, None) => GREATEST.min(line[at] + 1),
        (2, _) => line[at].saturating_sub(1),
        (_, Some(&limits)) => at_limit(random, limits, GREATEST),
    }
}

/// Changes a number of a line, its kind too, drops one or puts one in.
pub fn damage_line(random: &mut Random, lines: &mut [Vec<u32>]) {
    let Some(line) = some_line(random, lines, 1) else {
        return;
    };
    let at = random.below(line.len());
    match random.below(5) {
        0 => line[at] = GREATEST.min(line[at] + 1),
        1 => line[at] = GREATEST,
        2 => line[0] = random.between(0, 11).into(),
        3 => drop(line.remove(at)),
        _ => line.insert(at, random.between(0, 4).into()),
    }
}

/// One of the lines that have so many numbers, if there are any; each kind is as likely.
fn some_line<'a>(
    random: &mut Random,
    lines: &'a mut [Vec<u32>],
    least: usize,
) -> Option<&'a mut Vec<u32>> {
    let mut lines: Vec<_> = lines
        .iter_mut()
        .filter(|line| line.len() >= least)
        .collect();
    let mut kinds: Vec<u32> = lines.iter().map(|line| line[0]).collect();
    kinds.dedup();
    if kinds.is_empty() {
        return None;
    }
    let kind = random.pick(&kinds);
    lines.retain(|line| line[0] == kind);
    Some(lines.swap_remove(random.below(lines.len())))
}

/// Changes a byte, drops one, puts one in, or cuts the text before or after it.
pub fn damage_bytes(random: &mut Random, text: &mut Vec<u8>) {
    let at = random_place(random, text);
    let byte = random.pick(b"  0001239\n\n\t\r+-.A\0\x0B\x80\xFF");
    match random.below(6) {
        _ if at == text.len() => text.push(byte),
        0 | 1 => text[at] = byte,
        2 => drop(text.remove(at)),
        3 => text.insert(at, byte),
        4 => text.truncate(at),
        _ => text.truncate(at + 1),
    }
}

/// Any place of a text; most are where a number begins or a line ends.
fn random_place(random: &mut Random, text: &[u8]) -> usize {
    let begins = |at: usize| text[at] == b' ' && text.get(at + 1).is_some_and(u8::is_ascii_digit);
    let ends = |at: usize| text[at] == b'\n';
    let places: Vec<usize> = match random.below(5) {
        0 | 1 => (0..text.len()).filter(|&at| begins(at)).collect(),
        2 | 3 => (0..text.len()).filter(|&at| ends(at)).collect(),
        _ => Vec::new(),
    };
    match places.is_empty() {
        true => random.below(text.len().max(1)),
        false => random.pick(&places),
    }
}
