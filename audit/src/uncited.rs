//! Laws and definitions that nothing cites, and imports that nothing uses.

use crate::antt::Import;
use crate::graph::Graph;
use crate::tree::{Item, Tree};
use std::collections::HashSet;

/// A finding about a declaration.
#[derive(Debug)]
pub struct Finding {
    pub item: Item,
    pub reason: String,
    /// Whether an exception may name it: nothing at all cites it.
    pub alone: bool,
}

/// The items that stand by themselves: theorems and answers of functions, what contracts and the
/// rest of the code cite, what is passed on.
pub fn roots(tree: &Tree<'_>, graph: &Graph<'_>) -> Vec<Item> {
    let mut out: Vec<Item> = graph
        .contracts
        .iter()
        .flat_map(|c| c.items.iter().copied())
        .collect();
    out.extend(&graph.passed_on);
    out.extend(&graph.in_code);
    for (f, file) in tree.antt.iter().enumerate() {
        let decls = file.parts.decls.iter().enumerate();
        let asked = decls.filter(|(_, decl)| file.is_asked(decl));
        out.extend(asked.map(|(d, _)| Item::Decl(f, d)));
    }
    out
}

/// The declarations that no root reaches, with those that cite them.
pub fn uncited(
    tree: &Tree<'_>,
    graph: &Graph<'_>,
    roots: impl IntoIterator<Item = Item>,
) -> Vec<Finding> {
    let live = graph.reached(roots);
    let cited_by = graph.cited_by();
    let mut out = Vec::new();
    for (f, file) in tree.antt.iter().enumerate() {
        for d in 0..file.parts.decls.len() {
            let item = Item::Decl(f, d);
            if live.contains(&item) {
                continue;
            }
            let by = cited_by.get(&item).map_or(&[][..], |by| by);
            out.push(Finding {
                item,
                reason: reason(tree, item, by),
                alone: by.is_empty(),
            });
        }
    }
    out
}

/// Why a declaration is found.
fn reason(tree: &Tree<'_>, item: Item, by: &[Item]) -> String {
    if by.is_empty() {
        return "nothing cites it".to_string();
    }
    let (path, ..) = tree.place(item);
    let names: Vec<String> = by
        .iter()
        .map(|&other| {
            let (place, _, name) = tree.place(other);
            if place == path {
                name.to_string()
            } else {
                format!("{name} of {place}")
            }
        })
        .collect();
    format!("cited only by what nothing cites: {}", names.join(", "))
}

/// The imports that nothing uses: `path:line name  reason`.
pub fn unused_imports(tree: &Tree<'_>, graph: &Graph<'_>) -> Vec<String> {
    let mut out = Vec::new();
    for (file, used) in tree.antt.iter().zip(&graph.used_antt) {
        let unused = file
            .parts
            .imports
            .iter()
            .enumerate()
            .filter(|(i, _)| !used.contains(i));
        for (_, import) in unused {
            let what = if import.name.is_some() {
                "it"
            } else {
                "this module"
            };
            let Import { line, local, .. } = import;
            out.push(format!(
                "{}:{line} {local}  the file does not use {what}",
                file.path
            ));
        }
    }
    for (f, used) in graph.used_code.iter().enumerate() {
        unused_in_code(tree, f, used, &mut out);
    }
    out
}

/// Adds the `ghost use` names that no contract of a code file uses, and the `use` names that its
/// code does not use.
fn unused_in_code(tree: &Tree<'_>, f: usize, used: &HashSet<usize>, out: &mut Vec<String>) {
    let file = &tree.code[f];
    let unused = file
        .code
        .imports
        .iter()
        .enumerate()
        .filter(|(i, _)| !used.contains(i));
    for (_, Import { line, local, .. }) in unused {
        out.push(format!(
            "{}:{line} {local}  no contract of the file uses it",
            file.path
        ));
    }
    let named = identifiers(tree, f);
    for line in &file.code.uses {
        let name = line.local;
        if !named.contains(name) && !line.passed_on && !line.is_trait_of_library() {
            out.push(format!(
                "{}:{} {name}  the code does not use it",
                file.path, line.line
            ));
        }
    }
}

/// The identifiers of a code file outside its imports and contracts.
fn identifiers<'a>(tree: &Tree<'a>, file: usize) -> HashSet<&'a str> {
    let code = &tree.code[file].code;
    let mut out = HashSet::new();
    let mut i = 0;
    while i < code.tokens.len() {
        let clause = code
            .contracts
            .iter()
            .flat_map(|c| &c.clauses)
            .find(|c| c.contains(&i));
        if let Some(clause) = clause {
            i = clause.end;
            continue;
        }
        if code.tokens[i].is("use") {
            while i < code.tokens.len() && code.tokens[i].text != ";" {
                i += 1;
            }
            continue;
        }
        let words = code.tokens[i]
            .text
            .split(|c: char| !c.is_alphanumeric() && c != '_');
        out.extend(words.filter(|w| !w.is_empty()));
        i += 1;
    }
    out
}

#[cfg(test)]
mod tests {
    use super::*;
    use crate::tree::Source;

    fn sources(files: &[(&str, &str)]) -> Vec<Source> {
        files
            .iter()
            .map(|(path, text)| Source {
                path: path.to_string(),
                text: text.to_string(),
            })
            .collect()
    }

    /// What is found in some files: name and whether nothing at all cites it.
    fn found(files: &[(&str, &str)]) -> Vec<(String, bool)> {
        let sources = sources(files);
        let tree = Tree::new(&sources);
        let graph = Graph::new(&tree);
        let all = uncited(&tree, &graph, roots(&tree, &graph));
        all.iter()
            .map(|f| (tree.place(f.item).2.to_string(), f.alone))
            .collect()
    }

    const LAWS: &str = "use lib.Path.{◌≡◌, refl}
pub one : (n : ℕ) → n ≡ n
one n = refl

pub two : (n : ℕ) → n ≡ n
two zero = one 0
two (suc n) = two n

pub three : (n : ℕ) → n ≡ n
three n = one n
";

    #[test]
    fn a_law_is_cited_by_the_body_of_another_file() {
        let proof = "use Rattle.a.proofs.Laws.{two, three}
pub f_spec : {M : Type 1} → statement M
f_spec = two 0
";
        let all = found(&[
            ("crates/a/proofs/Laws.antt", LAWS),
            ("crates/a/proofs/f/Proof.antt", proof),
        ]);
        assert_eq!(all, [("three".to_string(), true)]);
    }

    #[test]
    fn a_citation_of_itself_is_none_and_uncited_laws_cite_for_nothing() {
        let all = found(&[("crates/a/proofs/Laws.antt", LAWS)]);
        assert_eq!(
            all,
            [
                ("one".to_string(), false),
                ("two".to_string(), true),
                ("three".to_string(), true)
            ]
        );
    }

    #[test]
    fn a_bound_name_a_field_and_a_label_are_no_citations() {
        let proof = "use Rattle.a.proofs.Laws.{one, two, three}
pub f_spec : (one : ℕ) → statement one
f_spec r = let two = r.one in record { three = λ three. two three }
";
        let all = found(&[
            ("crates/a/proofs/Laws.antt", LAWS),
            ("crates/a/proofs/f/Proof.antt", proof),
        ]);
        assert_eq!(all.len(), 3);
    }

    #[test]
    fn a_name_behind_a_module_cites() {
        let proof = "use Rattle.a.proofs.Laws as laws
use Rattle.a.proofs as all
pub f_spec : {M : Type 1} → statement M
f_spec = (laws.two 0, all.Laws.three 0, Rattle.a.proofs.Laws.one 0)
";
        let files = [
            ("crates/a/proofs/Laws.antt", LAWS),
            ("crates/a/proofs/f/Proof.antt", proof),
        ];
        assert!(found(&files).is_empty());
    }

    #[test]
    fn a_contract_and_a_line_that_passes_on_cite() {
        let specs = "abbrev pub three : ℕ\nthree = 3\n\nabbrev pub four : ℕ\nfour = 4\n\nabbrev pub five : ℕ\nfive = 5\n";
        let code = "ghost use Rattle.a.specs.S.{three, five};
fn five() -> u8
    ensures { result ≡ three }
{
    five
}
";
        let on = "pub use Rattle.a.specs.S.{four}\n";
        let files = [
            ("crates/a/proofs/On.antt", on),
            ("crates/a/specs/S.antt", specs),
            ("crates/a/src/lib.rt", code),
        ];
        assert_eq!(found(&files), [("five".to_string(), true)]);
    }

    #[test]
    fn an_answer_an_attribute_and_a_ghost_member_cite() {
        let answers = "use Rattle.a.proofs.f.Goals as goal
use Rattle.a.proofs.Laws.{one}
pub returns : goal.returns
returns c = one 0
";
        let code = "ghost use Rattle.a.specs.S.{three, four};
pub struct Kept {
    n: u8,
    ghost small: { n < three },
}
impl Kept {
    ghost view = { λ k. four };
    #[tactic(auto, using(crate::proofs::Laws::two))]
    fn f(&self) {}
}
";
        let specs = "abbrev pub three : ℕ\nthree = 3\n\nabbrev pub four : ℕ\nfour = 4\n";
        let files = [
            ("crates/a/proofs/Laws.antt", LAWS),
            ("crates/a/proofs/f/Answers.antt", answers),
            ("crates/a/specs/S.antt", specs),
            ("crates/a/src/lib.rt", code),
        ];
        assert_eq!(found(&files), [("three".to_string(), true)]);
        let without = [files[0], files[2], files[3]];
        let code = code.replace(
            "using(crate::proofs::Laws::two)",
            "unfolding(crate::specs::S::four)",
        );
        let without = [without[0], without[1], ("crates/a/src/lib.rt", &code)];
        assert_eq!(found(&without).len(), 3);
    }

    #[test]
    fn imports_that_are_not_used_are_found() {
        let proof = "use lib.Path.{◌≡◌, refl as r, sym}
use lib.A as a
use lib.B as b
law : (sym : ℕ) → sym ≡ sym
law sym = a.first sym
";
        let code = "ghost use lib.Path.{◌≡◌, refl};
use crate::item::{Item, Mode};
pub use crate::item::Size;
use std::io::Read;
fn f(refl: Item) -> bool
    ensures { result ≡ refl }
{
    true
}
";
        let sources = sources(&[
            ("crates/a/proofs/P.antt", proof),
            ("crates/a/src/lib.rt", code),
        ]);
        let tree = Tree::new(&sources);
        let lines = unused_imports(&tree, &Graph::new(&tree));
        let names: Vec<&str> = lines
            .iter()
            .map(|l| l.split(' ').nth(1).unwrap_or(""))
            .collect();
        assert_eq!(names, ["r", "sym", "b", "refl", "Mode"]);
    }
}
