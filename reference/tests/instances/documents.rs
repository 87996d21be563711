//! The generated documents are what the reference answers.

use reference::instances::tables::documents;
use std::fs;
use std::path::Path;

#[test]
fn the_tables_of_published_instances_are_up_to_date() {
    let folder = Path::new(env!("CARGO_MANIFEST_DIR")).join("../docs");
    for document in documents() {
        let written = fs::read_to_string(folder.join(document.name)).unwrap_or_default();
        let name = document.name;
        assert!(
            written == document.text,
            "docs/{name} differs; write it again with the program instance-tables"
        );
    }
}
