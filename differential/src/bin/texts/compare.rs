//! One text, answered by the reference, by the engine, and by the engine in parts.

use crate::engine::{in_parts, whole};
use inputs::{Random, Text};
use std::ops::Range;

/// The bytes before an output, and as many after it.
const MARGIN: usize = 64;

/// Room for an output, filled with arbitrary bytes, with bytes before and after it that no call may
/// touch.
pub struct Room {
    junk: Vec<u8>,
    bytes: Vec<u8>,
}

/// How the engine answers: the number of bytes, in the room of an output.
type Call<'a> = &'a dyn Fn(&mut [u8]) -> usize;

impl Room {
    pub fn new(random: &mut Random) -> Room {
        let length = Text::Saw.longest() + 2_000 + 2 * MARGIN;
        let junk: Vec<u8> = (0..length).map(|_| random.below(256) as u8).collect();
        let bytes = junk.clone();
        Room { junk, bytes }
    }

    /// Compares the reference's answer with what the engine writes into an output of so many bytes;
    /// an output shorter than the longest stays as it was, with 0 handed back.
    fn holds(
        &mut self,
        kind: Text,
        length: usize,
        expected: &[u8],
        call: Call,
    ) -> Result<(), String> {
        let out = MARGIN..MARGIN + length;
        let written = call(&mut self.bytes[out.clone()]);
        let expected = match length < kind.longest() {
            true => &[],
            false => expected,
        };
        let holds = self.check(out, written, expected);
        self.bytes.copy_from_slice(&self.junk);
        holds.map_err(|what| format!("{what}, in an output of {length} bytes"))
    }

    /// What is wrong with the room after a call, if anything is.
    fn check(&self, out: Range<usize>, written: usize, expected: &[u8]) -> Result<(), String> {
        if written != expected.len() {
            return Err(format!("{written} bytes, and not {}", expected.len()));
        }
        let answer = out.start..out.start + written;
        if self.bytes[answer.clone()] != *expected {
            return Err("other bytes".to_string());
        }
        let same = |place: Range<usize>| self.bytes[place.clone()] == self.junk[place];
        match same(0..answer.start) && same(answer.end..self.junk.len()) {
            true => Ok(()),
            false => Err("bytes beside the answer are changed".to_string()),
        }
    }
}

/// Says what is different, unless whole and in parts the engine answers as the reference does, with
/// every byte beside the answer as it was, and the text too. In one text of thirty an output is too short.
pub fn compare(
    random: &mut Random,
    room: &mut Room,
    kind: Text,
    text: &[u8],
    ends: &[u32],
) -> Result<Vec<u8>, String> {
    let handed = text.to_vec();
    let expected = kind.answer(text);
    let lengths = [0; 2].map(|_| output_length(random, kind, expected.len()));
    room.holds(kind, lengths[0], &expected, &|out| {
        whole(kind, &handed, out)
    })
    .map_err(|what| format!("whole: {what}"))?;
    room.holds(kind, lengths[1], &expected, &|out| {
        in_parts(kind, &handed, ends, out)
    })
    .map_err(|what| format!("in parts: {what}"))?;
    match handed == text {
        true => Ok(expected),
        false => Err("the text is changed".to_string()),
    }
}

/// The length of an output: the longest answer's or more, and now and then less.
fn output_length(random: &mut Random, kind: Text, answer: usize) -> usize {
    let longest = kind.longest();
    match random.once_in(60) {
        true => random.pick(&[0, 1, answer.min(longest - 1), longest / 2, longest - 1]),
        false => longest + random.pick(&[0, 0, 0, 1, 9, 2_000]),
    }
}
