//! The structs and enums that code names.

use crate::tree::{Item, Tree};
use std::ops::Range;

/// The types that some tokens of a code file name.
pub fn named_in(tree: &Tree<'_>, file: usize, range: Range<usize>) -> Vec<Item> {
    let tokens = &tree.code[file].code.tokens;
    let words = range.flat_map(|i| {
        tokens[i]
            .text
            .split(|c: char| !c.is_alphanumeric() && c != '_')
    });
    words.filter_map(|name| named(tree, file, name)).collect()
}

/// The type of a name: one of the file itself, or one that a `use` line brings.
fn named(tree: &Tree<'_>, file: usize, name: &str) -> Option<Item> {
    let code = &tree.code[file].code;
    if let Some(own) = code.types.iter().position(|t| t.name == name) {
        return Some(Item::Type(file, own));
    }
    let line = code.uses.iter().find(|u| u.local == name)?;
    let mut parts: Vec<&str> = line.path.split("::").collect();
    parts.pop();
    let owner = match *parts.first()? {
        "crate" => tree.code[file].path.split('/').nth(1)?,
        other => other,
    };
    let module = if parts.len() > 1 {
        parts[1..].join("/")
    } else {
        "lib".to_string()
    };
    let path = format!("crates/{owner}/src/{module}.rt");
    let target = tree.code.iter().position(|f| f.path == path)?;
    let declared = line.path.rsplit("::").next();
    let found = tree.code[target]
        .code
        .types
        .iter()
        .position(|t| Some(t.name) == declared)?;
    Some(Item::Type(target, found))
}

#[cfg(test)]
mod tests {
    use super::*;
    use crate::tree::Source;

    #[test]
    fn types_are_found_in_the_file_and_by_its_imports() {
        let sources = [
            Source::new("crates/a/src/lib.rt", "pub struct Top(pub u8);\n"),
            Source::new("crates/a/src/m.rt", "pub enum Inner { A }\n"),
            Source::new("crates/b/src/n.rt", "use a::{Top as High, m::Inner};\npub struct Own { x: [Inner; 3], y: High, z: Own, w: u8 }\n"),
        ];
        let tree = Tree::new(&sources);
        let all = named_in(&tree, 2, 0..tree.code[2].code.tokens.len());
        assert!([Item::Type(0, 0), Item::Type(1, 0), Item::Type(2, 0)]
            .iter()
            .all(|t| all.contains(t)));
        let body = tree.code[2].code.types[0].body.clone();
        assert_eq!(
            named_in(&tree, 2, body),
            [Item::Type(1, 0), Item::Type(0, 0), Item::Type(2, 0)]
        );
    }
}
