//! The report of the laws: what nothing cites and what stands twice, but for the exceptions.

use crate::exceptions::Exception;
use crate::graph::Graph;
use crate::tree::{Item, Tree};
use crate::{doubled, uncited};
use std::collections::HashSet;

/// The lists of the report; each line is a finding.
pub struct Lists {
    pub uncited: Vec<String>,
    pub doubled: Vec<String>,
    pub imports: Vec<String>,
    /// The exceptions that cover nothing.
    pub stale: Vec<String>,
}

/// The report in the making.
struct Report<'t, 'a> {
    tree: &'t Tree<'a>,
    graph: &'t Graph<'a>,
    exceptions: &'t [Exception],
    /// The lines of the exceptions that cover a finding.
    used: HashSet<usize>,
}

/// The lists of some files.
pub fn lists(tree: &Tree<'_>, exceptions: &[Exception]) -> Lists {
    let graph = Graph::new(tree);
    let mut report = Report {
        tree,
        graph: &graph,
        exceptions,
        used: HashSet::new(),
    };
    Lists {
        uncited: report.uncited(),
        doubled: report.doubled(),
        imports: uncited::unused_imports(tree, &graph),
        stale: report.stale(),
    }
}

impl Report<'_, '_> {
    /// Whether an exception covers a finding; it is then a used one.
    fn covered(&mut self, kind: &str, item: Item) -> bool {
        let (path, _, name) = self.tree.place(item);
        let found = self.exceptions.iter().find(|e| e.covers(kind, path, name));
        self.used.extend(found.map(|e| e.line));
        found.is_some()
    }

    /// What nothing cites, and what is cited by such declarations alone; an exception counts as
    /// cited.
    fn uncited(&mut self) -> Vec<String> {
        let mut roots = uncited::roots(self.tree, self.graph);
        let first = uncited::uncited(self.tree, self.graph, roots.iter().copied());
        let alone = first.iter().filter(|f| f.alone).map(|f| f.item);
        roots.extend(alone.filter(|&item| self.covered("uncited", item)));
        let found = uncited::uncited(self.tree, self.graph, roots);
        let helpers = self.graph.idle_helpers.iter().map(|&(file, line, name)| {
            format!(
                "{}:{line} {name}  nothing cites it, a helper behind `where`",
                self.tree.antt[file].path
            )
        });
        found
            .iter()
            .map(|f| format!("{}  {}", self.tree.label(f.item), f.reason))
            .chain(helpers)
            .collect()
    }

    /// What stands twice: all of a group but its first.
    fn doubled(&mut self) -> Vec<String> {
        let mut out = Vec::new();
        let (tree, exceptions) = (self.tree, self.exceptions);
        let apart = |item| {
            let (path, _, name) = tree.place(item);
            exceptions.iter().any(|e| e.covers("doubled", path, name))
        };
        for (group, reason) in doubled::doubled(tree, self.graph, apart) {
            for &item in &group[1..] {
                if !self.covered("doubled", item) {
                    out.push(format!(
                        "{}  {reason} {}",
                        self.tree.label(item),
                        self.tree.label(group[0])
                    ));
                }
            }
        }
        out
    }

    fn stale(&self) -> Vec<String> {
        let stale = self
            .exceptions
            .iter()
            .filter(|e| !self.used.contains(&e.line));
        stale
            .map(|e| {
                format!(
                    "audit/exceptions.txt:{} {}  covers nothing",
                    e.line,
                    e.entry()
                )
            })
            .collect()
    }
}

#[cfg(test)]
mod tests {
    use super::*;
    use crate::exceptions::parse;
    use crate::tree::Source;

    const LAWS: &str = "use lib.Path.{◌≡◌, refl}
low : (n : ℕ) → n ≡ n
low n = refl

pub high : (n : ℕ) → 0 ≡ n → n ≡ 0
high n e = cc where
  help : ℕ
  help = low 1

pub copy : (m : ℕ) → 0 ≡ m → m ≡ 0
copy = high
";

    fn lists_with(exceptions: &str) -> Lists {
        let sources = [Source {
            path: "crates/a/proofs/L.antt".into(),
            text: LAWS.into(),
        }];
        lists(
            &Tree::new(&sources),
            &parse(exceptions).expect("exceptions"),
        )
    }

    #[test]
    fn findings_are_listed() {
        let lists = lists_with("");
        assert_eq!(lists.uncited.len(), 4);
        assert!(lists.uncited[3]
            .starts_with("crates/a/proofs/L.antt:7 help  nothing cites it, a helper"));
        assert_eq!(lists.doubled, ["crates/a/proofs/L.antt:10 copy  the same statement as crates/a/proofs/L.antt:5 high"]);
        assert!(lists.imports.is_empty() && lists.stale.is_empty());
    }

    #[test]
    fn an_exception_covers_a_finding_and_what_it_cites() {
        let lists = lists_with(
            "uncited a/proofs/L copy  # an end result\ndoubled a/proofs/L copy  # another name\n",
        );
        assert_eq!(lists.uncited.len(), 1);
        assert!(lists.doubled.is_empty() && lists.stale.is_empty());
    }

    #[test]
    fn an_exception_that_covers_nothing_is_found() {
        let lists = lists_with(
            "uncited a/proofs/L copy  # right\nuncited a/proofs/L high  # cited by copy\n",
        );
        assert_eq!(
            lists.stale,
            ["audit/exceptions.txt:2 uncited a/proofs/L high  covers nothing"]
        );
    }
}
