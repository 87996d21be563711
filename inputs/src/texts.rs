//! Texts of each kind, valid and damaged.

use crate::lines::{fold_lines, job_lines, saw_lines, text_of, Line};
use crate::model::Model;
use crate::random::Random;
use crate::subjects::{Known, Subject};
use crate::text::Text;
use reference::instances::texts;

impl Text {
    /// A text of a job of `data/` that is not damaged.
    pub fn valid(self, random: &mut Random, subject: &Subject) -> Vec<u8> {
        let lines = self.lines(random, subject);
        text_of(random, lines, 0, 0)
    }

    /// A text of some job, most of them small; two of three are damaged, in one to three ways.
    pub fn any(self, random: &mut Random, known: &Known) -> Vec<u8> {
        let small;
        let subject = match known.pick(random) {
            Some(subject) => subject,
            None => {
                small = Subject::small(random);
                &small
            }
        };
        let mut lines = self.lines(random, subject);
        let job_lines = 1 + usize::from(subject.job()[2] + subject.job()[3]);
        let damages = random.pick(&[0, 0, 1, 1, 2, 3]);
        if damages > 0 && random.once_in(4) {
            move_to_own_limit(random, &mut lines);
        }
        if random.once_in(60) {
            self.fill(random, &mut lines);
        }
        text_of(random, lines, job_lines, damages)
    }

    /// The lines of a text: of a small job with prices or without, and now and then breaking a rule;
    /// of a job of `data/` as the reference finds them.
    fn lines(self, random: &mut Random, subject: &Subject) -> Vec<Line> {
        match (self, subject) {
            (_, Subject::Small(model)) => self.small_lines(random, model),
            (_, Subject::Known(words, None)) => self.refused_lines(random, words),
            (Text::Saw, Subject::Known(words, Some(inputs))) => {
                let text = texts::saw_text(words, inputs).expect("the listing is not refused");
                let mut lines = lines_of(&text);
                if random.once_in(3) {
                    lines.retain(|line| !(4..=6).contains(&line[0]));
                }
                lines
            }
            (Text::Fold, Subject::Known(words, Some(inputs))) => {
                lines_of(&texts::fold_text(words, inputs))
            }
        }
    }

    fn small_lines(self, random: &mut Random, model: &Model) -> Vec<Line> {
        match self {
            Text::Saw => saw_lines(random, model),
            Text::Fold => fold_lines(random, model),
        }
    }

    /// The lines of a job whose listing is refused, and up to two more.
    fn refused_lines(self, random: &mut Random, words: &[u16]) -> Vec<Line> {
        let mut lines = job_lines(words);
        let [width, height] = [5, 6].map(|at| words.get(at).copied().unwrap_or(1).into());
        let line = match self {
            Text::Saw => vec![3, 0, 1, 1, width, height, 1, 0],
            Text::Fold => vec![7, 1, 0, 1, 1, 1, 1, 0, 0, 0],
        };
        lines.resize(lines.len() + random.below(3), line);
        lines
    }

    /// Brings the pieces to 4,000, or to one more: by the count of a cut on size 0, or by lines like the
    /// last.
    fn fill(self, random: &mut Random, lines: &mut Vec<Line>) {
        let wanted = random.pick(&[4_000, 4_000, 4_001]);
        let kind = if self == Text::Saw { 3 } else { 7 };
        let Some(last) = lines.iter().rposition(|line| line[0] == kind) else {
            return;
        };
        if self == Text::Fold {
            let laid = lines.iter().filter(|line| line[0] == kind).count();
            let line = lines[last].clone();
            return lines.resize(lines.len() + wanted - laid.min(wanted), line);
        }
        let counted = lines.iter().filter(|line| line[0] == kind);
        let total: u32 = counted.map(|line| line[3]).sum();
        let on_board = |line: &&mut Line| line[..2] == [3, 0];
        if let Some(line) = lines.iter_mut().find(on_board) {
            line[3] = (line[3] + wanted as u32).saturating_sub(total);
        }
    }
}

/// Moves a number of some line to a limit that the job itself sets, or one past it: n, W, H of the first
/// size, t, or the demand with which all of them are 4,000.
fn move_to_own_limit(random: &mut Random, lines: &mut [Line]) {
    let &[_, _, _, sizes, types, _] = &lines[0][..] else {
        return;
    };
    let Some(&[10, _, width, height, _]) = lines.get(1).map(|line| &line[..]) else {
        return;
    };
    let past = random.pick(&[0, 1]);
    let which = random.below(lines.len());
    let items = lines.iter().filter(|line| line[0] == 2);
    let demands: u32 = items.map(|line| line[4]).sum();
    let line = &mut lines[which];
    let (at, limit) = match line[0] {
        2 => {
            let demand = (4_000 + line[4]).saturating_sub(demands);
            random.pick(&[(2, width), (3, height), (4, demand)])
        }
        3 => random.pick(&[(2, types), (2, types), (4, width), (5, height)]),
        4 => (2, types),
        7 => random.pick(&[(2, sizes - 1), (6, types), (7, width), (8, height)]),
        _ => return,
    };
    line[at] = limit + past;
}

/// The lines of a valid text.
fn lines_of(text: &[u8]) -> Vec<Line> {
    let text = std::str::from_utf8(text).expect("a valid text is of blanks, digits and byte 10");
    let number = |word: &str| word.parse().expect("a number of nine columns");
    let line = |line: &str| line.split_whitespace().map(number).collect();
    text.lines().map(line).collect()
}
