//! The inputs of a program, and what is asked of it on each.

use crate::feed::{from_file, in_packets, through_pipe, Input};
use crate::memory::measure;
use inputs::longest::{line_of, long_texts, longest, Long};
use inputs::subjects::Known;
use inputs::{Random, Text};
use std::fs;
use std::path::PathBuf;

/// Bytes of an input that is far longer than any that can be admitted.
const ENDLESS: usize = 100_000_000;

/// The largest packet, and the length of texts below which a program's part has room for one at each read.
const PACKET: u16 = 4_096;
const SHORT: usize = 65_536 - PACKET as usize;

/// Memory of its own that a program must stay below, in kB, and stack that it must do with.
const MOST_MEMORY: u64 = 1_000;

/// A program and its counterpart, a file for its input, and the number of inputs so far.
pub struct Trials {
    pub kind: Text,
    pub engine: PathBuf,
    pub reference: PathBuf,
    pub file: PathBuf,
    pub inputs: usize,
}

impl Trials {
    /// All inputs of a program; says what was seen.
    pub fn all(&mut self, texts: usize, seed: u64) -> Result<String, String> {
        let long = long_texts(self.kind);
        let memory = self.long(&long)?;
        self.byte_by_byte(&long)?;
        self.endless()?;
        self.random(texts, seed)?;
        Ok(format!(
            "{} inputs as the reference's program, {texts} of them random with seed {seed}; at most {memory} kB \
             of memory of its own; {MOST_MEMORY} kB of stack do",
            self.inputs
        ))
    }

    /// Holds an output to the reference's.
    fn hold(&mut self, name: &str, output: &[u8], expected: &[u8]) -> Result<(), String> {
        self.inputs += 1;
        if output == expected {
            return Ok(());
        }
        let same = output.iter().zip(expected).take_while(|(a, b)| a == b);
        Err(format!(
            "{name}: {} bytes, and not {}; the same up to byte {}",
            output.len(),
            expected.len(),
            same.count(),
        ))
    }

    /// The texts at the limits and the empty one: from a file, measured, and with little stack.
    fn long(&mut self, long: &[Long]) -> Result<u64, String> {
        let nothing = Long {
            name: "empty".to_string(),
            text: Vec::new(),
        };
        let mut most = 0;
        for Long { name, text } in long.iter().chain([&nothing]) {
            fs::write(&self.file, text).map_err(|error| error.to_string())?;
            let expected = from_file(&self.reference, &self.file, None)?;
            let (memory, output) = measure(&self.engine, &self.file)?;
            self.hold(name, &output, &expected)?;
            if memory >= MOST_MEMORY {
                return Err(format!("{name}: {memory} kB of memory of its own"));
            }
            most = most.max(memory);
            let output = from_file(&self.engine, &self.file, Some(MOST_MEMORY as usize))?;
            self.hold(&format!("{name}, with little stack"), &output, &expected)?;
        }
        Ok(most)
    }

    /// Some texts in packets of one byte, others in packets of a few. Their sizes divide that of the programs' parts: a read that asks for less
    /// than a packet loses the rest of it, which no other pipe does.
    fn byte_by_byte(&mut self, long: &[Long]) -> Result<(), String> {
        let short = long.iter().filter(|long| long.text.len() < 400_000);
        for (Long { name, text }, sizes) in short.zip([&[1][..], &[1], &[64], &[512]]) {
            let expected = through_pipe(&self.reference, &Input::text(text))?;
            let output = in_packets(&self.engine, text, sizes)?;
            self.hold(
                &format!("{name}, in packets of {sizes:?}"),
                &output,
                &expected,
            )?;
        }
        Ok(())
    }

    /// Inputs far longer than any that can be admitted: zeros, digits, byte 10, lines that are admitted.
    fn endless(&mut self) -> Result<(), String> {
        let lines = longest(self.kind);
        let bodies: [(&str, &[u8], Vec<u8>); 5] = [
            ("zeros", b"", vec![0; 65_536]),
            ("digits", b"", b"0123456789".repeat(6_000)),
            ("blanks", b"", vec![b' '; 65_536]),
            ("bytes 10", b"", vec![b'\n'; 65_536]),
            ("lines", &lines, line_of(self.kind).repeat(1_000)),
        ];
        for (name, head, block) in bodies {
            let input = Input {
                head: head.to_vec(),
                block,
                length: ENDLESS,
            };
            let expected = through_pipe(&self.reference, &input)?;
            let output = through_pipe(&self.engine, &input)?;
            self.hold(&format!("{ENDLESS} bytes of {name}"), &output, &expected)?;
        }
        Ok(())
    }

    /// Random texts, valid and damaged, in packets of random sizes.
    fn random(&mut self, texts: usize, seed: u64) -> Result<(), String> {
        let mut random = Random::new(seed);
        let known = Known::of_data();
        for _ in 0..texts {
            let text = self.kind.any(&mut random, &known);
            let sizes = match text.len() < SHORT {
                true => [0; 3].map(|_| usize::from(random.between(1, PACKET))),
                false => [512; 3],
            };
            let expected = through_pipe(&self.reference, &Input::text(&text))?;
            let output = in_packets(&self.engine, &text, &sizes)?;
            let shown = text[..text.len().min(4_000)].escape_ascii();
            self.hold(&shown.to_string().replace("\\n", "\n"), &output, &expected)?;
        }
        Ok(())
    }
}
