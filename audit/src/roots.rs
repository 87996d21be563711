//! Where believing starts: the entries of `audit/roots.txt`, and the items that they cite.

use crate::graph::Graph;
use crate::rt::Contract;
use crate::tree::{Item, Tree};
use crate::types::named_in;

/// A group of entries: its title, and the items that its contracts and statements cite.
#[derive(Debug)]
pub struct Group {
    pub title: String,
    pub items: Vec<Item>,
}

/// The groups of a text, or what is wrong with one of its entries.
pub fn groups(text: &str, tree: &Tree<'_>, graph: &Graph<'_>) -> Result<Vec<Group>, String> {
    let mut out: Vec<Group> = Vec::new();
    for (index, line) in text.lines().enumerate() {
        let line = line.trim();
        if line.is_empty() || line.starts_with('#') {
            continue;
        }
        if let Some(title) = line.strip_prefix('[').and_then(|l| l.strip_suffix(']')) {
            out.push(Group {
                title: title.to_string(),
                items: Vec::new(),
            });
            continue;
        }
        let group = out.last_mut().ok_or(format!(
            "line {}: an entry before the first group",
            index + 1
        ))?;
        let items =
            entry(line, tree, graph).map_err(|message| format!("line {}: {message}", index + 1))?;
        group.items.extend(items);
    }
    Ok(out)
}

/// The items of one entry.
fn entry(line: &str, tree: &Tree<'_>, graph: &Graph<'_>) -> Result<Vec<Item>, String> {
    let words: Vec<&str> = line.split_whitespace().collect();
    match words[..] {
        ["exported", owner] => {
            let start = format!("crates/{owner}/src/");
            contracts(tree, graph, |path, c| {
                path.starts_with(&start) && c.exported
            })
        }
        ["function", file, name] => {
            let (owner, file) = file.split_once('/').unwrap_or((file, "lib"));
            let whole = format!("crates/{owner}/src/{file}.rt");
            contracts(tree, graph, |path, c| path == whole && c.function == name)
        }
        ["statement", file, name] => {
            let path = format!("crates/{file}.antt");
            let file = tree.antt.iter().position(|f| f.path == path);
            let found = file.and_then(|f| {
                Some((
                    f,
                    tree.antt[f]
                        .parts
                        .decls
                        .iter()
                        .position(|d| d.name == name)?,
                ))
            });
            found
                .map(|(f, d)| vec![Item::Decl(f, d)])
                .ok_or(format!("{path} has no {name}"))
        }
        _ => {
            Err("an entry is exported CRATE, function FILE NAME or statement FILE NAME".to_string())
        }
    }
}

/// What the contracts of some functions cite, and the types of their parameters and results.
fn contracts(
    tree: &Tree<'_>,
    graph: &Graph<'_>,
    wanted: impl Fn(&str, &Contract<'_>) -> bool,
) -> Result<Vec<Item>, String> {
    let mut out = Vec::new();
    let mut found = false;
    for cited in &graph.contracts {
        let file = &tree.code[cited.file];
        let contract = &file.code.contracts[cited.contract];
        if !wanted(file.path, contract) {
            continue;
        }
        if contract.asks || !contract.public {
            return Err(format!(
                "{}:{} {} is no public function without requires",
                file.path, contract.line, contract.function
            ));
        }
        found = true;
        out.extend(&cited.items);
        out.extend(named_in(tree, cited.file, contract.signature.clone()));
    }
    if found {
        Ok(out)
    } else {
        Err("there is no such function".to_string())
    }
}

#[cfg(test)]
mod tests {
    use super::*;
    use crate::tree::Source;

    const CODE: &str = "ghost use Rattle.a.specs.S.{three, four};
pub struct Kept {
    pub n: u8,
}

pub extern \"C\" fn one(k: Kept) -> u8
    ensures { result ≡ three }
{
    3
}

pub fn two() -> u8
    requires { four ≡ 4 }
{
    3
}
";

    fn read(text: &str) -> Result<Vec<Group>, String> {
        let specs = "abbrev pub three : ℕ\nthree = 3\n\nabbrev pub four : ℕ\nfour = 4\n";
        let sources = [
            Source::new("crates/a/specs/S.antt", specs),
            Source::new("crates/a/src/f.rt", CODE),
        ];
        let tree = Tree::new(&sources);
        groups(text, &tree, &Graph::new(&tree))
    }

    #[test]
    fn entries_give_what_they_cite() {
        let groups =
            read("# a comment\n[host]\nexported a\n[statements]\nstatement a/specs/S four\n")
                .expect("groups");
        assert_eq!(groups[0].title, "host");
        assert_eq!(groups[0].items, [Item::Decl(0, 0), Item::Type(0, 0)]);
        assert_eq!(groups[1].items, [Item::Decl(0, 1)]);
    }

    #[test]
    fn a_function_that_asks_or_is_not_there_is_an_error() {
        assert!(read("[calls]\nfunction a/f one\n").is_ok());
        assert!(read("[calls]\nfunction a/f two\n").is_err());
        assert!(read("[calls]\nfunction a/f three\n").is_err());
        assert!(read("[calls]\nstatement a/specs/S five\n").is_err());
        assert!(read("function a/f one\n").is_err());
    }
}
