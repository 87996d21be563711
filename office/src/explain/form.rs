//! Refusals 1 and 2: lines that are not of the form, and values outside their limits.

use super::sent::{Expected, Sent};
use super::Told;
use crate::columns::{group, thousands, COLUMNS};

/// The numbers of a line of this kind, the kind first.
const KINDS: [&[&str]; 11] = [
    &[],
    &["1", "stages", "exact", "t", "n", "b"],
    &["2", "type", "width", "height", "demand", "leave"],
    &[
        "3", "plate", "item", "count", "width", "height", "stage", "turn",
    ],
    &["4", "D", "n", "m"],
    &["5", "type", "price"],
    &["6", "plate type", "price"],
    &[
        "7", "board", "size", "strip", "stack", "place", "type", "x", "y", "turn",
    ],
    &[],
    &[],
    &["10", "size", "W", "H", "cost"],
];

/// The limits of a number by its name, for a job of so many sizes and item types. The plate's width,
/// height and stage on line 3 have none.
fn limits(kind: usize, name: &str, [sizes, types]: [usize; 2]) -> Option<[usize; 2]> {
    Some(match name {
        "stages" => [2, 3],
        "exact" | "leave" | "turn" => [0, 1],
        "width" | "height" | "stage" if kind == 3 => return None,
        "W" | "H" | "width" | "height" => [1, 10_000],
        "t" => [1, 6],
        "cost" => [1, 999],
        "n" => [1, 40],
        "b" => [0, 20],
        "demand" | "count" | "board" | "strip" | "stack" | "place" => [1, 4_000],
        "plate" | "m" => [0, 2_047],
        "D" => [1, 9_999],
        "price" => [0, 9_999],
        "x" | "y" => [0, 10_000],
        "item" => [1, types],
        "type" if kind == 7 => [1, types],
        "size" if kind == 7 => [0, sizes.saturating_sub(1)],
        _ => return None,
    })
}

/// Refusal 1.
pub fn form(sent: &Sent, line: usize) -> Option<Told> {
    let place = format!("line {line}");
    let expected = sent.expected(line);
    let write = format!("Write there {}", words(&expected));
    if line == 100_000 {
        let fault = "a text has at most 99,999 lines";
        return Some(Told::new(place, fault, "Send fewer lines"));
    }
    let Some(bytes) = sent.line(line) else {
        let missing = line == sent.count() + 1 && expected != sent.expected(usize::MAX);
        return missing.then(|| Told::new(place, "the text ends before it", write));
    };
    if let Some(fault) = byte_fault(bytes) {
        let cure = "Write numbers and blanks alone, and end the line with byte 10";
        return Some(Told::new(place, fault, cure));
    }
    if let Some(fault) = order_fault(bytes, sent.kind(line), &expected) {
        return Some(Told::new(place, fault, write));
    }
    if line == sent.count() && !sent.ended() {
        let cure = "Write byte 10 after the last line too";
        return Some(Told::new(place, "it does not end with byte 10", cure));
    }
    // A line that is right here, yet the first after the job, was sent to the other program.
    (line == sent.body()).then(|| {
        let fault = "the program that refused it does not read lines of this kind";
        let cure = "Send kinds 3 to 6 to the saw program, kind 7 to the fold program";
        Told::new(place, fault, cure)
    })
}

/// What is wrong with a line's kind, columns or running number.
fn order_fault(bytes: &[u8], kind: Option<usize>, expected: &Expected) -> Option<String> {
    let Some(kind) = kind else {
        return Some("its first nine columns hold no kind".into());
    };
    if !expected.kinds.contains(&kind) {
        return Some(format!("kind {kind} does not belong there"));
    }
    let fault = group_fault(bytes, KINDS[kind].len());
    fault.or_else(|| {
        let running = expected.running?;
        let next = group(&bytes[COLUMNS..2 * COLUMNS]) == Some(running);
        (!next).then(|| format!("its running number must be {running}, the next in order"))
    })
}

/// What stands in a line that is neither a blank nor a digit.
fn byte_fault(bytes: &[u8]) -> Option<String> {
    let wrong = bytes
        .iter()
        .position(|byte| !byte.is_ascii_digit() && *byte != b' ')?;
    let column = wrong + 1;
    Some(match bytes[wrong] {
        b'\r' => "it ends with byte 13, a carriage return".into(),
        b'\t' => format!("a tab stands in column {column}"),
        byte if byte.is_ascii_graphic() => {
            format!("\"{}\" stands in column {column}", byte as char)
        }
        byte => format!("byte {byte} stands in column {column}"),
    })
}

/// What is wrong with the columns of a line that must have this many numbers.
fn group_fault(bytes: &[u8], numbers: usize) -> Option<String> {
    let [columns, needed] = [bytes.len(), numbers * COLUMNS];
    for (place, nine) in bytes.chunks(COLUMNS).enumerate().take(numbers) {
        if nine.len() == COLUMNS && group(nine).is_none() {
            let first = place * COLUMNS + 1;
            let shown = String::from_utf8_lossy(nine);
            return Some(format!(
                "columns {first} to {} hold \"{shown}\", which is no number right-justified \
                 without leading zeros",
                first + COLUMNS - 1
            ));
        }
    }
    (columns != needed)
        .then(|| format!("it has {columns} columns; {numbers} numbers take {needed}"))
}

/// What may stand on a line, in words.
fn words(expected: &Expected) -> String {
    let form = |&kind: &usize| {
        let mut names: Vec<String> = KINDS[kind].iter().map(|name| name.to_string()).collect();
        if let Some(running) = expected.running {
            names[1] = running.to_string();
        }
        format!("\"{}\"", names.join(", "))
    };
    match expected.kinds[..] {
        [] => "nothing: the text is complete before it".into(),
        _ => expected
            .kinds
            .iter()
            .map(form)
            .collect::<Vec<_>>()
            .join(" or "),
    }
}

/// Refusal 2.
pub fn value(sent: &Sent, line: usize) -> Option<Told> {
    let numbers = sent.numbers(line)?;
    let kind = *numbers.first()?;
    for (&name, &number) in KINDS.get(kind)?.iter().zip(&numbers).skip(1) {
        let Some([least, most]) = limits(kind, name, [sent.sizes(), sent.types()]) else {
            continue;
        };
        if !(least..=most).contains(&number) {
            let fault = format!("{name} is {}, outside its limits", thousands(number));
            let cure = format!(
                "Write {name} from {} to {}",
                thousands(least),
                thousands(most)
            );
            return Some(Told::new(format!("line {line}"), fault, cure));
        }
    }
    None
}
