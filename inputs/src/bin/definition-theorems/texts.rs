//! Theorems over the saw text and the fold text: bytes in, bytes out.

use crate::antt::{bytes, Equation};
use crate::{is_small_job, Theorem};
use inputs::damage::damage_shown;
use inputs::lines::{fold_lines, saw_lines, text_of, Line};
use inputs::text::refusal_in;
use inputs::{Model, Random};
use reference::text_lines::Lines;
use reference::{fold_text, saw_text};

/// The most lines that the definitions are asked to read or to write.
const MOST_LINES: usize = 25;

/// A theorem over a saw text.
pub fn saw_theorem(random: &mut Random) -> Theorem {
    theorem(random, "saw_text", saw_lines, saw_text)
}

/// A theorem over a fold text.
pub fn fold_theorem(random: &mut Random) -> Theorem {
    theorem(random, "fold_text", fold_lines, fold_text)
}

/// A theorem over a saw text whose lines of kind 3 are changed in what they show of their plates.
pub fn shown_theorem(random: &mut Random) -> Theorem {
    theorem(random, "saw_text", shown_lines, saw_text)
}

/// The lines of a saw text, of kind 3 one or two damaged in the plates that they show.
fn shown_lines(random: &mut Random, model: &Model) -> Vec<Line> {
    let mut lines = saw_lines(random, model);
    for _ in 0..random.between(1, 2) {
        damage_shown(random, &mut lines);
    }
    lines
}

/// A theorem over a text of some lines, which a program answers; a good half is not damaged.
fn theorem(
    random: &mut Random,
    definition: &'static str,
    lines: fn(&mut Random, &Model) -> Vec<Line>,
    program: fn(&[u8]) -> Vec<u8>,
) -> Theorem {
    loop {
        let model = Model::random(random);
        let lines = lines(random, &model);
        let damages = random.pick(&[0, 0, 0, 0, 0, 1, 1, 1, 2]);
        let text = text_of(random, lines, model.job_lines(), damages);
        let output = program(&text);
        if !is_small_text(&text) || !is_short(&text) || !is_short(&output) {
            continue;
        }
        return Theorem {
            equation: Equation {
                definition,
                arguments: vec![bytes(&text)],
                answer: vec![bytes(&output)],
            },
            refusal: refusal_in(&output),
        };
    }
}

/// Whether the text is of few lines.
fn is_short(text: &[u8]) -> bool {
    text.iter().filter(|&&byte| byte == b'\n').count() <= MOST_LINES
}

/// Whether the job that the text begins with, if there is one, has a small listing.
fn is_small_text(text: &[u8]) -> bool {
    let job = Lines::new(text).job();
    job.map_or(true, |job| is_small_job(&job))
}
