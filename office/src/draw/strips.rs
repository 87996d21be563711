//! The strips' numbers and heights beside a board. Labels keep apart: where strips are thinner than
//! letters, equal ones in a row share a label, and a line leads from each strip to its label.

use std::fmt::Write;

/// The usual distance of labels, and the least one.
const SPACING: [f64; 2] = [13.0, 8.0];
/// The largest letters.
const LETTERS: f64 = 11.0;
/// Where the letters begin, from the board's edge.
const LEADER: f64 = 9.0;

/// A strip: its number, its height in millimetres, and where it lies in the picture, from its upper
/// edge downwards.
#[derive(Debug, Clone, Copy)]
pub struct Strip {
    pub number: usize,
    pub height: usize,
    pub from: f64,
    pub to: f64,
}

/// A label: its text, the middle of its strips, and where it stands.
#[derive(Debug, Clone, PartialEq)]
struct Beside {
    text: String,
    middle: f64,
    at: f64,
}

/// Writes the labels of strips, given from the lowest, beside a board whose right edge is at x,
/// between its upper and its lower edge.
pub fn write(out: &mut String, x: f64, edges: [f64; 2], strips: &[Strip]) {
    let (labels, spacing) = placed(edges, joined(strips));
    let size = LETTERS.min(spacing / 1.1);
    for Beside { text, middle, at } in labels {
        let [near, far] = [x + 1.0, x + LEADER - 2.0];
        let _ = writeln!(
            out,
            "<path class=\"leader\" d=\"M{near:.1},{middle:.1} L{far:.1},{at:.1}\"/>\
             <text class=\"beside\" x=\"{:.1}\" y=\"{:.1}\" font-size=\"{size:.1}\">{text}</text>",
            x + LEADER,
            at + 0.36 * size
        );
    }
}

/// The labels from the uppermost: one for each strip, and one for equal thin ones in a row.
fn joined(strips: &[Strip]) -> Vec<Beside> {
    let alike =
        |one: &Strip, next: &Strip| one.height == next.height && one.to - one.from < SPACING[0];
    let label = |run: &[Strip]| {
        let [first, last] = [run[0], run[run.len() - 1]];
        let numbers = match run.len() {
            1 => first.number.to_string(),
            _ => format!("{} to {}", first.number, last.number),
        };
        let middle = (last.from + first.to) / 2.0;
        Beside {
            text: format!("{numbers}: {}", first.height),
            middle,
            at: middle,
        }
    };
    let mut labels: Vec<Beside> = strips.chunk_by(alike).map(label).collect();
    labels.reverse();
    labels
}

/// The labels moved apart within the edges, and their distance; where they are too many, only some
/// of them.
fn placed([upper, lower]: [f64; 2], labels: Vec<Beside>) -> (Vec<Beside>, f64) {
    let room = lower - upper + SPACING[0];
    let most = (room / SPACING[1]) as usize;
    let step = labels.len().div_ceil(most.max(1)).max(1);
    let mut labels: Vec<Beside> = labels.into_iter().step_by(step).collect();
    let spacing = SPACING[0].min(room / labels.len() as f64);
    let mut least = upper;
    for label in &mut labels {
        label.at = label.at.max(least);
        least = label.at + spacing;
    }
    let mut most = lower;
    for label in labels.iter_mut().rev() {
        label.at = label.at.min(most);
        most = label.at - spacing;
    }
    (labels, spacing)
}

#[cfg(test)]
mod tests {
    use super::*;

    /// Strips of these heights in the picture, one upon the other from 600 upwards, each as high in
    /// millimetres.
    fn strips(heights: &[usize]) -> Vec<Strip> {
        let mut to = 600.0;
        let strip = |(number, &height): (usize, &usize)| {
            let strip = Strip {
                number,
                height,
                from: to - height as f64,
                to,
            };
            to = strip.from;
            strip
        };
        (1..).zip(heights).map(strip).collect()
    }

    #[test]
    fn each_strip_has_its_number_and_height_and_equal_thin_ones_share_a_label() {
        let labels = joined(&strips(&[100, 100, 5, 5, 5, 4, 200]));
        let texts: Vec<&str> = labels.iter().map(|label| label.text.as_str()).collect();
        assert_eq!(texts, ["7: 200", "6: 4", "3 to 5: 5", "2: 100", "1: 100"]);
    }

    #[test]
    fn labels_keep_apart_and_inside() {
        for heights in [
            vec![3; 200],
            [3, 4].repeat(80),
            vec![2, 3, 590],
            vec![590, 3, 2],
        ] {
            let (labels, spacing) = placed([0.0, 600.0], joined(&strips(&heights)));
            assert!(spacing >= SPACING[1] && !labels.is_empty());
            let inside = |label: &Beside| (-7.0..=600.1).contains(&label.at);
            assert!(labels.iter().all(inside), "{labels:?}");
            let apart = |pair: &[Beside]| pair[1].at - pair[0].at > spacing - 0.1;
            assert!(labels.windows(2).all(apart), "{labels:?}");
        }
    }
}
