//! Lists, texts and theorems as antt writes them.

use reference::Refusal;
use std::fmt::Write;

/// The shortest run of equal words that is written as a repetition.
const LONG_RUN: usize = 10;

/// A list of values that are written already.
pub fn list<T: AsRef<str>>(values: impl IntoIterator<Item = T>) -> String {
    let mut written = String::from("(");
    for value in values {
        write!(written, "{} ∷ ", value.as_ref()).unwrap();
    }
    match written.len() {
        1 => String::from("[]"),
        _ => written + "[])",
    }
}

/// A list of numbers.
pub fn numbers<T: ToString>(values: impl IntoIterator<Item = T>) -> String {
    list(values.into_iter().map(|value| value.to_string()))
}

/// A list of words; a long run of equal ones is written as a repetition.
pub fn words(values: &[u16]) -> String {
    let mut parts = Vec::new();
    let mut single: Vec<u16> = Vec::new();
    for run in values.chunk_by(|one, next| one == next) {
        if run.len() < LONG_RUN {
            single.extend(run);
            continue;
        }
        if !single.is_empty() {
            parts.push(numbers(single.drain(..)));
        }
        parts.push(format!("replicate {} {}", run.len(), run[0]));
    }
    if parts.is_empty() || !single.is_empty() {
        parts.push(numbers(single));
    }
    match &parts[..] {
        [part] if !part.starts_with('r') => part.clone(),
        _ => format!("({})", parts.join(" ++ ")),
    }
}

/// Bytes, as quoted text line by line; a byte that is not quoted stands as a number.
pub fn bytes(text: &[u8]) -> String {
    let mut parts = Vec::new();
    let mut rest = text;
    while !rest.is_empty() {
        let mut length = rest.iter().take_while(|byte| is_quoted(byte)).count();
        let mut quoted = String::from_utf8_lossy(&rest[..length]).into_owned();
        if rest.get(length) == Some(&b'\n') {
            quoted.push_str("\\n");
            length += 1;
        }
        match length {
            0 => parts.push(numbers([rest[0]])),
            _ => parts.push(format!("bytes \"{quoted}\"")),
        }
        rest = &rest[length.max(1)..];
    }
    match parts.is_empty() {
        true => String::from("[]"),
        false => format!("({})", parts.join("\n     ++ ")),
    }
}

/// Whether a byte stands for itself in quoted text.
fn is_quoted(byte: &u8) -> bool {
    (b' '..=b'~').contains(byte) && !b"\"\\".contains(byte)
}

/// What a call answers, and plates, cuts and the third buffer, if there is one, when it ends; of
/// unfolding the offcuts besides.
pub fn outcome(answer: &Result<Vec<u32>, Refusal>, lent: &[Vec<u16>]) -> Vec<String> {
    let called = match lent.len() {
        4 => "unfold_outcome",
        _ => "outcome",
    };
    let answer = match answer {
        Ok(results) => format!("{called} (given {})", numbers(results)),
        Err(refusal) => format!("{called} (refused {} {})", refusal.number, refusal.place),
    };
    let third = (lent.len() == 2).then(|| words(&[]));
    let ends = lent.iter().map(|buffer| words(buffer)).chain(third);
    std::iter::once(answer).chain(ends).collect()
}

/// The first lines of a file of theorems.
pub const HEAD: &str = "\
-- Inputs and the reference's answers to them: the definitions compute to the same.
use Rattle.std.specs.Prelude.{◌≡◌, refl, ℕ, true, false, List, [], ◌∷◌, ◌++◌, replicate}
use Rattle.std.proofs.Math.Option.{none, some}
use Rattle.job.specs.Buffers.{given, refused}
use Rattle.texts.specs.SawText.{saw_text}
use Rattle.texts.specs.FoldText.{fold_text}
use Rattle.cases.specs.Bytes.{bytes}
use Rattle.cases.proofs.Opened.{computed}
use Rattle.layouts.specs.Layout.{sheet}
use Rattle.agreement.specs.Compared.{outcome, unfold_outcome, list_call, plan_call, price_call, unfold_call, fold_call, walk_call, judgement, judged, rules, rectangles, is_cheapest, left_over, areas_on, parts, parts_of, by_parts, unfolded_by_parts}
";

/// What is compared: a definition on its arguments, and the reference's answer to the same.
pub struct Equation {
    pub definition: &'static str,
    pub arguments: Vec<String>,
    pub answer: Vec<String>,
}

impl Equation {
    /// The theorem that both sides are equal, by computation.
    pub fn theorem(&self, name: &str) -> String {
        let definition = self.definition;
        let arguments = self.arguments.join("\n    ");
        let answer = self.answer.join("\n      ");
        format!(
            "pub {name} :\n    {definition}\n    {arguments}\n    ≡ {answer}\n\
             unfolding computed bytes {definition}\n{name} = refl\n"
        )
    }
}
