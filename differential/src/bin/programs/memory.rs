//! The memory of a program when it has its answer.
//!
//! The program reads a file and writes into a pipe that is full, so that it stands still at its first
//! write, with all done but the writing. Its own pages, which no file backs (stack and data), are then
//! read from the system's table (smaps_rollup); a page of the stack, once used, stays.

use crate::feed::read_bytes;
use std::fs::{self, File};
use std::io::{self, pipe, Read, Write};
use std::path::Path;
use std::process::{Child, Command};
use std::thread::sleep;
use std::time::{Duration, Instant};

/// What a pipe holds, in bytes.
const PIPE: usize = 65_536;

/// The longest time that a program may take to its first write.
const PATIENCE: Duration = Duration::from_secs(60);

/// The memory of a program on a file, in kB, and its output.
pub fn measure(program: &Path, file: &Path) -> Result<(u64, Vec<u8>), String> {
    let failed = |error: io::Error| format!("{}: {error}", program.display());
    let (mut reader, mut writer) = pipe().map_err(failed)?;
    writer.write_all(&[0; PIPE]).map_err(failed)?;
    let mut command = Command::new(program);
    let input = File::open(file).map_err(failed)?;
    let mut child = command
        .stdin(input)
        .stdout(writer)
        .spawn()
        .map_err(failed)?;
    drop(command);
    let memory = wait_for_write(&mut child).and_then(|()| memory_of(child.id()));
    let mut output = Vec::new();
    let read = read_bytes(&mut reader, PIPE).and_then(|_| reader.read_to_end(&mut output));
    let status = child.wait().map_err(failed)?;
    read.map_err(failed)?;
    match status.success() {
        true => Ok((memory.map_err(failed)?, output)),
        false => Err(format!("{}: ends with {status}", program.display())),
    }
}

/// Waits until a program sleeps: it reads a file, which never lets it sleep, so it is writing.
fn wait_for_write(child: &mut Child) -> io::Result<()> {
    let began = Instant::now();
    while began.elapsed() < PATIENCE {
        let stat = fs::read_to_string(format!("/proc/{}/stat", child.id()))?;
        let state = stat
            .rsplit(')')
            .next()
            .and_then(|rest| rest.split_whitespace().next());
        match state {
            Some("S") => return Ok(()),
            Some("Z") => return Err(io::Error::other("it ended without writing")),
            _ => sleep(Duration::from_millis(1)),
        }
    }
    child.kill()?;
    Err(io::Error::other("it wrote nothing for a minute"))
}

fn memory_of(process: u32) -> io::Result<u64> {
    field(&format!("/proc/{process}/smaps_rollup"), "Anonymous:")
}

/// The kB of a field of one of the system's tables.
fn field(table: &str, name: &str) -> io::Result<u64> {
    let table = fs::read_to_string(table)?;
    let line = table.lines().find_map(|line| line.strip_prefix(name));
    let number = line.and_then(|line| line.split_whitespace().next()?.parse().ok());
    number.ok_or_else(|| io::Error::other(format!("no {name}")))
}
