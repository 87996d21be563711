//! The fold program: a fold text from standard input, its answer to standard output.

use std::io::{self, Read, Write};

fn main() -> io::Result<()> {
    let mut text = Vec::new();
    // A read that fails ends the text; what was read before it stands in the buffer.
    let _ = io::stdin().lock().read_to_end(&mut text);
    io::stdout().lock().write_all(&reference::fold_text(&text))
}
