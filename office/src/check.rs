//! Whether an output is an answer, and which: the two programs end with status 0 also where they
//! refuse, so a script has to look at what they wrote. The form is tested as the programs write it,
//! to the column; with the text that was sent the whole answer is held against the reference's.

use crate::answer::end;
use crate::columns::{group, thousands, COLUMNS};
use crate::explain::{explain, LAST};

/// What an output is.
#[derive(Debug, Clone, PartialEq, Eq)]
pub enum Verdict {
    /// A whole answer of the saw or of the fold program; what it says in short.
    Accepted(String),
    /// A line 9; the refusal in words, as far as the text sent shows it.
    Refused(String),
    /// Nothing that the programs write, or not for the text given; what is wrong.
    NoAnswer(String),
}

impl Verdict {
    /// The exit status.
    pub fn status(&self) -> u8 {
        match self {
            Verdict::Accepted(_) => 0,
            Verdict::Refused(_) => 1,
            Verdict::NoAnswer(_) => 2,
        }
    }

    /// What to say of it.
    pub fn words(&self) -> &str {
        match self {
            Verdict::Accepted(told) | Verdict::Refused(told) | Verdict::NoAnswer(told) => told,
        }
    }
}

/// The verdict on an output, held against the text that was sent if that is given.
pub fn check(text: Option<&[u8]>, output: &[u8]) -> Verdict {
    let read = lines(output).and_then(|lines| match lines[0][0] {
        7 | 8 => saw(&lines).map(|told| (told, Answered::BySaw)),
        3 => fold(&lines).map(|told| (told, Answered::ByFold)),
        9 => refusal(&lines).map(|numbers| (String::new(), Answered::Refused(numbers))),
        _ => Err("it is a text for the saw, and not its answer".into()),
    });
    match (read, text) {
        (Err(fault), _) => Verdict::NoAnswer(fault),
        (Ok((_, Answered::Refused([number, place]))), _) => {
            Verdict::Refused(refused(text, number, place))
        }
        (Ok((told, by)), Some(text)) if by.to(text) != output => {
            let fault = "it is not the answer to the text given: another text was sent";
            Verdict::NoAnswer(format!("{fault}; it reads: {told}"))
        }
        (Ok((told, _)), _) => Verdict::Accepted(told),
    }
}

/// Which program's answer an output is, or which refusal.
enum Answered {
    BySaw,
    ByFold,
    Refused([usize; 2]),
}

impl Answered {
    /// The reference's answer to a text for the same program.
    fn to(&self, text: &[u8]) -> Vec<u8> {
        match self {
            Answered::ByFold => reference::fold_text(text),
            _ => reference::saw_text(text),
        }
    }
}

/// The lines of an output, each as its numbers: at least one, all of a kind that stands in an
/// answer or in a text, and of that kind's form.
fn lines(output: &[u8]) -> Result<Vec<Vec<usize>>, String> {
    let Some(whole) = output.strip_suffix(b"\n") else {
        return Err(match output {
            [] => "it is empty: the program did not run, or what it wrote was not kept".into(),
            _ => "it is cut short: its last line does not end with byte 10".into(),
        });
    };
    let numbers = |line: &[u8]| -> Option<Vec<usize>> {
        let numbers: Vec<usize> = line.chunks(COLUMNS).map(group).collect::<Option<_>>()?;
        (of_kind(*numbers.first()?) == Some(numbers.len())).then_some(numbers)
    };
    let lines = (1..).zip(whole.split(|&byte| byte == b'\n'));
    let read = |(number, line): (usize, &[u8])| {
        numbers(line).ok_or_else(|| match line.ends_with(b"\r") {
            true => format!(
                "line {number} ends with byte 13, a carriage return, which the programs do not write: \
                 the output was changed on its way"
            ),
            false => format!("line {number} is none that the programs write"),
        })
    };
    lines.map(read).collect()
}

/// How many numbers a line of a kind has, the kind among them.
fn of_kind(kind: usize) -> Option<usize> {
    Some(match kind {
        1 | 2 => 6,
        10 | 8 => 5,
        3 => 8,
        4 => 4,
        7 => 10,
        5 | 6 | 9 => 3,
        _ => return None,
    })
}

/// What the saw's answer says: lines 7 whose board, strip, stack and place run in turn, and one
/// line 8.
fn saw(lines: &[Vec<usize>]) -> Result<String, String> {
    let pieces = lines.iter().take_while(|line| line[0] == 7).count();
    let mut last = [0; 4];
    for (number, line) in (1..).zip(&lines[..pieces]) {
        let next = [line[1], line[3], line[4], line[5]];
        if !in_turn(last, next) {
            return Err(format!(
                "line {number} does not follow the one before it: a part is missing"
            ));
        }
        last = next;
    }
    match &lines[pieces..] {
        [line] if line[0] == 8 && pieces > 0 => {
            let numbers = [line[1], line[2], line[3], line[4]];
            end(numbers).map_err(|fault| format!("its line of kind 8 {fault}"))?;
            Ok(told([last[0], pieces], numbers))
        }
        [] => Err("it is cut short: the line of kind 8 at its end is missing".into()),
        _ => Err("lines of kind 7 and then one of kind 8 are expected".into()),
    }
}

/// Whether board, strip, stack and place are the next after those of the line before.
fn in_turn(last: [usize; 4], next: [usize; 4]) -> bool {
    let raised = |place: usize| {
        let mut turn = last;
        turn[place] += 1;
        turn[place + 1..].fill(1);
        turn
    };
    match last[0] {
        0 => next == [1; 4],
        _ => (0..4).any(|place| next == raised(place)),
    }
}

/// An accepted plan in short, from its boards and pieces and the numbers of its line 8.
fn told([boards, pieces]: [usize; 2], end: [usize; 4]) -> String {
    let [cost, sum, denominator, cheapest] = end;
    let bound = match (cheapest, sum) {
        (1, _) => "no plan is cheaper".to_string(),
        (_, 0) => "nothing is known of cheaper plans".to_string(),
        _ => format!("every plan costs at least {}", sum.div_ceil(denominator)),
    };
    format!(
        "accepted: {} board(s), {} piece(s), cost {}; {bound}",
        thousands(boards),
        thousands(pieces),
        thousands(cost)
    )
}

/// What the fold program's answer says: lines 3 whose cuts rise. Nothing marks its end, so that
/// whole lines missing there are seen only beside the text.
fn fold(lines: &[Vec<usize>]) -> Result<String, String> {
    let cut = |line: &[usize]| (line[1], line[2], line[7]);
    let rising = lines.windows(2).all(|pair| cut(&pair[0]) < cut(&pair[1]));
    match lines.iter().all(|line| line[0] == 3) && rising {
        true => {
            let pieces: usize = lines.iter().map(|line| line[3]).sum();
            let [lines, pieces] = [lines.len(), pieces].map(thousands);
            Ok(format!(
                "accepted: a plan of {lines} line(s) and {pieces} piece(s)"
            ))
        }
        false => Err("lines of kind 3 alone are expected, with rising cuts".into()),
    }
}

/// Number and place of an answer that is one line 9.
fn refusal(lines: &[Vec<usize>]) -> Result<[usize; 2], String> {
    match lines {
        [line] if (1..=LAST).contains(&line[1]) => Ok([line[1], line[2]]),
        [line] => Err(format!(
            "there is no refusal {}; they run from 1 to {LAST}",
            line[1]
        )),
        _ => Err("a line of kind 9 stands alone, and more follows it".into()),
    }
}

/// A refusal in words: as `explain` tells it where the text is given.
fn refused(text: Option<&[u8]>, number: usize, place: usize) -> String {
    match text.map(|text| explain(text, number, place)) {
        Some(Ok(told)) => told,
        Some(Err(fault)) => format!("refused with {number}, place {place}; {fault}"),
        None => format!(
            "refused with {number}, place {place}; \"office explain TEXT {number} {place}\" says why"
        ),
    }
}

#[cfg(test)]
mod tests;
