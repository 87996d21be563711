//! A program run on an input: how the input is fed, and what comes out.

use std::fs::File;
use std::io::{self, ErrorKind, PipeWriter, Read, Write};
use std::os::fd::{FromRawFd, OwnedFd};
use std::path::Path;
use std::process::{Command, Stdio};
use std::thread::{scope, ScopedJoinHandle};

/// An input: a head, and then a block that is repeated to so many bytes.
pub struct Input {
    pub head: Vec<u8>,
    pub block: Vec<u8>,
    pub length: usize,
}

impl Input {
    /// An input that is not repeated.
    pub fn text(text: &[u8]) -> Input {
        Input {
            head: text.to_vec(),
            block: Vec::new(),
            length: text.len(),
        }
    }

    /// Writes the input until it ends or nothing reads it any more.
    fn write(&self, mut to: impl Write) -> io::Result<()> {
        to.write_all(&self.head)?;
        let mut left = self.length - self.head.len();
        while left > 0 {
            let block = &self.block[..left.min(self.block.len())];
            to.write_all(block)?;
            left -= block.len();
        }
        Ok(())
    }
}

/// What is read of a program that is fed by a function: its standard output. It has to end well and to
/// write nothing else.
fn collect(
    mut command: Command,
    feed: impl FnOnce(Option<std::process::ChildStdin>) -> io::Result<()> + Send,
) -> Result<Vec<u8>, String> {
    command.stdout(Stdio::piped()).stderr(Stdio::piped());
    let mut child = command
        .spawn()
        .map_err(|error| format!("{:?}: {error}", command.get_program()))?;
    // The child alone holds its ends of the pipes from here on.
    let input = child.stdin.take();
    drop(command);
    let output = scope(|threads| {
        let fed: ScopedJoinHandle<io::Result<()>> = threads.spawn(|| feed(input));
        let output = child.wait_with_output();
        match fed.join().expect("the input is written") {
            Err(error) if error.kind() != ErrorKind::BrokenPipe => Err(error),
            _ => output,
        }
    });
    let output = output.map_err(|error| error.to_string())?;
    match output.status.success() && output.stderr.is_empty() {
        true => Ok(output.stdout),
        false => Err(format!("ends with {}", output.status)),
    }
}

/// Runs a program on an input that comes through a pipe.
pub fn through_pipe(program: &Path, input: &Input) -> Result<Vec<u8>, String> {
    let mut command = Command::new(program);
    command.stdin(Stdio::piped());
    collect(command, |pipe| {
        input.write(pipe.expect("standard input is a pipe"))
    })
}

/// Runs a program with a file as its standard input; under a limit of the stack, in kB, if one is given.
pub fn from_file(program: &Path, file: &Path, stack: Option<usize>) -> Result<Vec<u8>, String> {
    let mut command = match stack {
        None => Command::new(program),
        Some(stack) => {
            let mut shell = Command::new("sh");
            let limited = format!("ulimit -s {stack} && exec \"$0\"");
            shell.arg("-c").arg(limited).arg(program);
            shell
        }
    };
    command.stdin(File::open(file).map_err(|error| error.to_string())?);
    collect(command, |_| Ok(()))
}

/// Runs a program on a text that comes in packets of these sizes, one after another from the first
/// again: each read of the program gives one packet at most.
pub fn in_packets(program: &Path, text: &[u8], sizes: &[usize]) -> Result<Vec<u8>, String> {
    let (reader, mut writer) = packet_pipe().map_err(|error| error.to_string())?;
    let mut command = Command::new(program);
    command.stdin(reader);
    collect(command, move |_| {
        let mut rest = text;
        for &size in sizes.iter().cycle() {
            let (packet, after) = rest.split_at(size.min(rest.len()));
            if packet.is_empty() {
                break;
            }
            writer.write_all(packet)?;
            rest = after;
        }
        Ok(())
    })
}

/// A pipe of packets: a read gives what one write of at most 4,096 bytes put in, and no more.
fn packet_pipe() -> io::Result<(OwnedFd, PipeWriter)> {
    const O_CLOEXEC: i32 = 0o2_000_000;
    const O_DIRECT: i32 = 0o40_000;
    extern "C" {
        fn pipe2(ends: *mut i32, flags: i32) -> i32;
    }
    let mut ends = [0; 2];
    // SAFETY: two numbers are written, and where that succeeds nothing else owns them.
    unsafe {
        if pipe2(ends.as_mut_ptr(), O_CLOEXEC | O_DIRECT) != 0 {
            return Err(io::Error::last_os_error());
        }
        let [reader, writer] = ends.map(|end| OwnedFd::from_raw_fd(end));
        Ok((reader, PipeWriter::from(writer)))
    }
}

/// Reads so many bytes.
pub fn read_bytes(from: &mut impl Read, length: usize) -> io::Result<Vec<u8>> {
    let mut bytes = vec![0; length];
    from.read_exact(&mut bytes)?;
    Ok(bytes)
}
