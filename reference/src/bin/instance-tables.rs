//! Writes the tables of published instances. Argument: the folder of the documents.

use reference::instances::tables::documents;
use std::path::Path;
use std::{env, fs, io};

fn main() -> io::Result<()> {
    let folder = env::args()
        .nth(1)
        .expect("argument: the folder of the documents");
    for document in documents() {
        fs::write(Path::new(&folder).join(document.name), document.text)?;
    }
    Ok(())
}
