//! What has to be believed: the definitions that contracts and statements reach, by declaration,
//! with their lines.

use crate::graph::Graph;
use crate::roots::Group;
use crate::tree::{Item, Tree};
use std::collections::{BTreeMap, BTreeSet, HashSet};

/// A declaration that is reached.
pub struct Reached<'a> {
    pub name: &'a str,
    pub line: usize,
    /// Its lines, the comment above it included.
    pub lines: usize,
}

/// What is reached of a file.
pub struct FileReached<'a> {
    pub path: &'a str,
    pub decls: Vec<Reached<'a>>,
    /// The lines of these declarations and of the sections that they stand in, each counted once.
    pub lines: usize,
    /// All lines of the file.
    pub all: usize,
}

/// The files that some items reach, sorted by path.
pub fn files<'a>(tree: &Tree<'a>, reached: &HashSet<Item>) -> Vec<FileReached<'a>> {
    let mut by_file: BTreeMap<&str, Vec<Item>> = BTreeMap::new();
    for &item in reached {
        by_file.entry(tree.place(item).0).or_default().push(item);
    }
    by_file
        .into_iter()
        .map(|(path, items)| file_reached(tree, path, items))
        .collect()
}

fn file_reached<'a>(tree: &Tree<'a>, path: &'a str, mut items: Vec<Item>) -> FileReached<'a> {
    items.sort_by_key(|&item| tree.place(item).1);
    let text = text_of(tree, items[0]);
    let comments = comment_lines(text);
    let mut lines = BTreeSet::new();
    let mut decls = Vec::new();
    for &item in &items {
        let (first, last) = extent(tree, item);
        let own = first - comments_above(&comments, first)..=last;
        let (_, line, name) = tree.place(item);
        decls.push(Reached {
            name,
            line,
            lines: own.clone().count(),
        });
        lines.extend(own);
        for (from, to) in sections(tree, item) {
            lines.extend(from - comments_above(&comments, from)..=to);
        }
    }
    FileReached {
        path,
        decls,
        lines: lines.len(),
        all: text.lines().count(),
    }
}

fn text_of<'a>(tree: &Tree<'a>, item: Item) -> &'a str {
    match item {
        Item::Decl(f, _) => tree.antt[f].text,
        Item::Type(f, _) => tree.code[f].text,
    }
}

/// Which lines, from 1, are comments or attributes alone.
fn comment_lines(text: &str) -> Vec<bool> {
    let begins = ["--", "//", "#["];
    let comment = |line: &str| begins.iter().any(|b| line.trim_start().starts_with(b));
    std::iter::once(false)
        .chain(text.lines().map(comment))
        .collect()
}

/// How many lines of comment stand right above a line.
fn comments_above(comments: &[bool], line: usize) -> usize {
    comments[..line].iter().rev().take_while(|c| **c).count()
}

/// The first and the last line of an item, without its comment.
fn extent(tree: &Tree<'_>, item: Item) -> (usize, usize) {
    match item {
        Item::Decl(f, d) => {
            let parts = &tree.antt[f].parts;
            let decl = &parts.decls[d];
            (decl.line, parts.tokens[decl.last_token()].line)
        }
        Item::Type(f, t) => {
            let declared = &tree.code[f].code.types[t];
            (declared.line, declared.last_line)
        }
    }
}

/// The lines of the sections that a declaration stands in: the first and the last of each heading.
fn sections(tree: &Tree<'_>, item: Item) -> Vec<(usize, usize)> {
    let Item::Decl(f, d) = item else {
        return Vec::new();
    };
    let parts = &tree.antt[f].parts;
    let mut out = Vec::new();
    let mut section = parts.decls[d].section;
    while let Some(number) = section {
        let heading = &parts.sections[number].parameters;
        out.push((
            parts.tokens[heading.start - 2].line,
            parts.tokens[heading.end].line,
        ));
        section = parts.sections[number].parent;
    }
    out
}

/// Numbers of what is reached: declarations, files, lines.
#[derive(Clone, Copy, PartialEq, Eq, Debug, Default)]
pub struct Count {
    pub decls: usize,
    pub files: usize,
    pub lines: usize,
}

/// The count of some files, code files left out or alone.
pub fn count(files: &[FileReached<'_>], code: bool) -> Count {
    let mut out = Count::default();
    for file in files.iter().filter(|f| f.path.ends_with(".rt") == code) {
        out.decls += file.decls.len();
        out.files += 1;
        out.lines += file.lines;
    }
    out
}

/// The count of all definitions and statements.
pub fn all_specs(tree: &Tree<'_>) -> Count {
    let specs = (0..tree.antt.len()).filter(|&f| tree.antt[f].in_specs());
    let items =
        specs.flat_map(|f| (0..tree.antt[f].parts.decls.len()).map(move |d| Item::Decl(f, d)));
    count(&files(tree, &items.collect()), false)
}

/// The number of all files of definitions and statements, and of their lines.
pub fn all_files(tree: &Tree<'_>) -> (usize, usize) {
    let specs = || tree.antt.iter().filter(|f| f.in_specs());
    (
        specs().count(),
        specs().map(|f| f.text.lines().count()).sum(),
    )
}

/// What each group reaches with those before it.
pub fn by_group<'a>(
    tree: &Tree<'a>,
    graph: &Graph<'a>,
    groups: &[Group],
) -> Vec<Vec<FileReached<'a>>> {
    let through = |n: usize| groups[..=n].iter().flat_map(|g| g.items.iter().copied());
    (0..groups.len())
        .map(|n| files(tree, &graph.reached(through(n))))
        .collect()
}

#[cfg(test)]
mod tests {
    use super::*;
    use crate::tree::Source;

    const SPECS: &str = "-- A file.
use lib.Nat.{ℕ}

-- three
abbrev pub three : ℕ
three = 3

-- a section
module _ (n : ℕ) where
  -- four,
  -- twice
  unfoldable pub four : ℕ
  four = three

  pub five : ℕ
  five = 5

pub record R : Type 0 where
  pub x : ℕ
";

    #[test]
    fn lines_are_those_of_reached_declarations() {
        let code = "// A type.\npub struct T {\n    pub x: u8,\n}\n";
        let sources = [
            Source::new("crates/a/specs/S.antt", SPECS),
            Source::new("crates/a/src/lib.rt", code),
        ];
        let tree = Tree::new(&sources);
        let graph = Graph::new(&tree);
        let found = files(&tree, &graph.reached([Item::Decl(0, 1), Item::Type(0, 0)]));
        let names: Vec<(&str, usize)> = found[0].decls.iter().map(|d| (d.name, d.lines)).collect();
        assert_eq!(names, [("three", 3), ("four", 4)]);
        assert_eq!((found[0].lines, found[0].all), (9, 19));
        assert_eq!((found[1].decls[0].name, found[1].lines), ("T", 4));
        assert_eq!(
            count(&found, false),
            Count {
                decls: 2,
                files: 1,
                lines: 9
            }
        );
        assert_eq!(
            all_specs(&tree),
            Count {
                decls: 4,
                files: 1,
                lines: 13
            }
        );
        assert_eq!(all_files(&tree), (1, 19));
    }

    #[test]
    fn attributes_count_with_the_comment_above_them() {
        let code = "// A type.\n#[derive(Clone, Copy)]\npub struct T(pub u8);\n";
        let sources = [Source {
            path: "crates/a/src/lib.rt".into(),
            text: code.into(),
        }];
        let tree = Tree::new(&sources);
        let graph = Graph::new(&tree);
        let found = files(&tree, &graph.reached([Item::Type(0, 0)]));
        assert_eq!(found[0].lines, 3);
    }
}
