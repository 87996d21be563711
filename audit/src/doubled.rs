//! Laws whose statement stands twice, and definitions whose body stands twice.

use crate::antt::{Decl, Sort};
use crate::graph::Graph;
use crate::lex::{past, Kind, Token};
use crate::scope::PLACE;
use crate::tree::{Item, Tree};
use crate::walk::{Walk, Word};
use std::collections::HashMap;
use std::ops::Range;

/// A hypothesis of a statement: its bound name, if it has one, and its type.
struct Hypothesis<'a> {
    name: Option<usize>,
    kind: Vec<Word<'a>>,
}

/// A statement: its hypotheses in order, and what it concludes.
struct Statement<'a> {
    hypotheses: Vec<Hypothesis<'a>>,
    conclusion: Vec<Word<'a>>,
}

/// Words of the language that make a conclusion a proposition.
const RELATIONS: [&str; 2] = ["⊥", "¬"];

/// What a declaration says, as words: the statement of a law, or a whole definition.
struct Said<'a> {
    item: Item,
    law: bool,
    words: Vec<Word<'a>>,
}

/// A group of declarations that say the same, the lowest first, and what of them is the same.
pub type Group = (Vec<Item>, &'static str);

/// The groups of declarations that say the same, where those that say the same are taken for one,
/// unless they are to be held apart.
pub fn doubled(tree: &Tree<'_>, graph: &Graph<'_>, apart: impl Fn(Item) -> bool) -> Vec<Group> {
    let said = all_said(tree, graph);
    let mut same: HashMap<String, String> = HashMap::new();
    loop {
        let groups = grouped(tree, &said, &same);
        let before = same.len();
        for (group, _) in &groups {
            let first = full(tree, group[0]);
            let others = group[1..].iter().filter(|&&item| !apart(item));
            same.extend(others.map(|&item| (full(tree, item), first.clone())));
        }
        if same.len() == before {
            return groups;
        }
    }
}

/// The name of an item as the words have it.
fn full(tree: &Tree<'_>, item: Item) -> String {
    format!("{item:?}.{}", tree.place(item).2)
}

fn all_said<'a>(tree: &Tree<'a>, graph: &Graph<'a>) -> Vec<Said<'a>> {
    let mut out = Vec::new();
    for (f, file) in tree.antt.iter().enumerate() {
        for (d, decl) in file.parts.decls.iter().enumerate() {
            let item = Item::Decl(f, d);
            let law = law_words(tree, graph, f, decl);
            let (law, words) = (
                law.is_some(),
                law.unwrap_or_else(|| body_words(tree, graph, item, decl)),
            );
            if !names_number(&file.parts.tokens[decl.signature.clone()]) {
                out.push(Said { item, law, words });
            }
        }
    }
    out
}

/// Whether what a declaration is of is a plain number: two such may be equal and mean different
/// things.
fn names_number(signature: &[Token<'_>]) -> bool {
    matches!(signature, [token] if token.text == "ℕ")
}

/// The groups that say the same, with the first names for those that are known to be the same.
fn grouped(tree: &Tree<'_>, said: &[Said<'_>], same: &HashMap<String, String>) -> Vec<Group> {
    let mut map: HashMap<(bool, String), Vec<Item>> = HashMap::new();
    for one in said {
        map.entry((one.law, render(&one.words, same)))
            .or_default()
            .push(one.item);
    }
    let mut out = Vec::new();
    for ((law, _), mut group) in map.into_iter().filter(|(_, group)| group.len() > 1) {
        group.sort_by_key(|&item| (tree.layer(item), item));
        out.push((
            group,
            if law {
                "the same statement as"
            } else {
                "the same definition as"
            },
        ));
    }
    out.sort();
    out
}

/// The words of a law's statement; none for a definition.
fn law_words<'a>(
    tree: &Tree<'a>,
    graph: &Graph<'a>,
    file: usize,
    decl: &Decl<'a>,
) -> Option<Vec<Word<'a>>> {
    if decl.sort != Sort::Plain
        || decl
            .marks
            .iter()
            .any(|m| ["abbrev", "unfoldable"].contains(m))
    {
        return None;
    }
    let parts = &tree.antt[file].parts;
    let mut walk = Walk::new(tree, &graph.scopes[file], &parts.tokens);
    let mut found = Statement {
        hypotheses: Vec::new(),
        conclusion: Vec::new(),
    };
    let mut chain = Vec::new();
    let mut section = decl.section;
    while let Some(number) = section {
        chain.push(parts.sections[number].parameters.clone());
        section = parts.sections[number].parent;
    }
    for range in chain.into_iter().rev() {
        read(&mut walk, &parts.tokens, range, &mut found);
    }
    read(&mut walk, &parts.tokens, decl.signature.clone(), &mut found);
    is_law(&found).then(|| statement_words(&found))
}

/// Adds the hypotheses and the conclusion of a range of tokens to a statement.
fn read<'a>(
    walk: &mut Walk<'_, 'a>,
    tokens: &[Token<'a>],
    range: Range<usize>,
    out: &mut Statement<'a>,
) {
    let mut i = range.start;
    while i < range.end {
        let telescopes = telescopes_end(walk, tokens, i, range.end);
        let only = telescopes == range.end;
        if telescopes > i && (only || tokens[telescopes].is("→")) {
            while i < telescopes {
                telescope(walk, tokens, i, out);
                i = past(tokens, i);
            }
            i += 1;
            continue;
        }
        let end = crate::lex::find(tokens, i, range.end, "→").unwrap_or(range.end);
        let kind = words(walk, unwrapped(tokens, walk, i..end));
        if end < range.end {
            out.hypotheses.push(Hypothesis { name: None, kind });
        } else {
            out.conclusion = kind;
        }
        i = end + 1;
    }
}

/// The end of the telescopes that stand in a row from here.
fn telescopes_end(walk: &Walk<'_, '_>, tokens: &[Token<'_>], from: usize, end: usize) -> usize {
    let mut i = from;
    while i < end && tokens[i].kind == Kind::Open && walk.telescope(i).is_some() {
        i = past(tokens, i);
    }
    i
}

/// The hypotheses of one telescope.
fn telescope<'a>(
    walk: &mut Walk<'_, 'a>,
    tokens: &[Token<'a>],
    open: usize,
    out: &mut Statement<'a>,
) {
    let colon = walk.telescope(open).expect("a telescope");
    let kind = words(walk, colon + 1..tokens[open].mate);
    for token in &tokens[open + 1..colon] {
        let name = Some(walk.bind(token.text));
        out.hypotheses.push(Hypothesis {
            name,
            kind: kind.clone(),
        });
    }
}

/// The words of an expression.
fn words<'a>(walk: &mut Walk<'_, 'a>, range: Range<usize>) -> Vec<Word<'a>> {
    walk.expression(range);
    std::mem::take(&mut walk.words)
}

/// A range without the parentheses around all of it.
fn unwrapped(tokens: &[Token<'_>], walk: &Walk<'_, '_>, range: Range<usize>) -> Range<usize> {
    let whole = !range.is_empty()
        && tokens[range.start].opens("(")
        && tokens[range.start].mate + 1 == range.end;
    if whole && walk.telescope(range.start).is_none() {
        unwrapped(tokens, walk, range.start + 1..range.end - 1)
    } else {
        range
    }
}

/// Whether a declaration states something: its conclusion speaks of a value, which is bound, or has
/// an operator or a name that begins small.
fn is_law(statement: &Statement<'_>) -> bool {
    let universe = |k: &[Word<'_>]| matches!(k.first(), Some(Word::Text("Type")));
    let types: Vec<usize> = statement
        .hypotheses
        .iter()
        .filter(|h| universe(&h.kind))
        .filter_map(|h| h.name)
        .collect();
    let speaks = |w: &Word<'_>| match w {
        Word::Local(n) => !types.contains(n),
        Word::Global(name) => name
            .rsplit('.')
            .next()
            .is_some_and(|n| n.starts_with(|c: char| c == PLACE || c.is_lowercase())),
        Word::Text(text) => RELATIONS.contains(text),
    };
    !universe(&statement.conclusion) && statement.conclusion.iter().any(speaks)
}

/// The words of a statement; a name that nothing behind it speaks of is left out.
fn statement_words<'a>(statement: &Statement<'a>) -> Vec<Word<'a>> {
    let mut all = Vec::new();
    for (i, hypothesis) in statement.hypotheses.iter().enumerate() {
        let later = statement.hypotheses[i + 1..]
            .iter()
            .map(|h| &h.kind)
            .chain([&statement.conclusion]);
        let named = hypothesis
            .name
            .filter(|&n| later.clone().any(|k| k.contains(&Word::Local(n))));
        all.extend(hypothesis.kind.iter().cloned());
        all.push(Word::Text(if named.is_some() { "named" } else { "⇒" }));
        all.extend(named.map(Word::Local));
    }
    all.extend(statement.conclusion.iter().cloned());
    all
}

/// Words as text, bound names numbered in the order in which they are met.
fn render(words: &[Word<'_>], same: &HashMap<String, String>) -> String {
    let mut numbers: HashMap<usize, usize> = HashMap::new();
    let mut out = String::new();
    for word in words {
        match word {
            Word::Text(text) => out.push_str(text),
            Word::Global(name) => out.push_str(same.get(name).unwrap_or(name)),
            Word::Local(n) => {
                let next = numbers.len();
                let number = *numbers.entry(*n).or_insert(next);
                out.push_str(&format!("${number}"));
            }
        }
        out.push(' ');
    }
    out
}

/// The words of a whole definition, its own name left out.
fn body_words<'a>(
    tree: &Tree<'a>,
    graph: &Graph<'a>,
    item: Item,
    decl: &Decl<'a>,
) -> Vec<Word<'a>> {
    let Item::Decl(file, _) = item else {
        return Vec::new();
    };
    let parts = &tree.antt[file].parts;
    let mut walk = Walk::new(tree, &graph.scopes[file], &parts.tokens);
    walk.declaration(parts, decl);
    let own = Word::Global(full(tree, item));
    let sort = match decl.sort {
        Sort::Plain => "plain",
        Sort::Record => "record",
        Sort::Data => "data",
    };
    let words = walk
        .words
        .into_iter()
        .map(|w| if w == own { Word::Text("self") } else { w });
    std::iter::once(Word::Text(sort)).chain(words).collect()
}

#[cfg(test)]
mod tests {
    use super::*;
    use crate::tree::Source;

    /// The names of the groups in the two files of a text each.
    fn groups(low: &str, high: &str) -> Vec<Vec<String>> {
        let sources = [
            Source::new("crates.txt", "low:\nhigh: low\n"),
            Source::new("crates/high/proofs/H.antt", high),
            Source::new("crates/low/proofs/L.antt", low),
        ];
        let tree = Tree::new(&sources);
        let found = doubled(&tree, &Graph::new(&tree), |item| {
            tree.place(item).2.starts_with("apart")
        });
        found
            .iter()
            .map(|(group, _)| group.iter().map(|&i| tree.place(i).2.to_string()).collect())
            .collect()
    }

    #[test]
    fn bound_names_sections_and_braces_do_not_matter() {
        let low = "use lib.Path.{◌≡◌}\nlaw : (n m : ℕ) → n ≡ m → m ≡ n\nlaw n m e = sym e\n";
        let high = "use lib.Path.{◌≡◌}
module _ {a : ℕ} where
  module _ (b : ℕ) (e : a ≡ b) where
    pub again : b ≡ a
    again = cc
";
        assert_eq!(groups(low, high), [["law", "again"]]);
    }

    #[test]
    fn another_order_or_another_name_of_a_crate_matters() {
        let low = "use lib.Path.{◌≡◌}\nuse lib.A.{f}\nlaw : (n m : ℕ) → f n ≡ m → m ≡ n\nlaw n m e = sym e\n";
        let high = "use lib.Path.{◌≡◌}\nuse lib.B.{f}\nlaw : (n m : ℕ) → f n ≡ m → m ≡ n\nlaw n m e = sym e
other : (n m : ℕ) → f n ≡ m → n ≡ m\nother n m e = cc\n";
        assert!(groups(low, high).is_empty());
    }

    #[test]
    fn definitions_are_the_same_by_their_clauses() {
        let low = "pub f : ℕ → ℕ\nf zero = 1\nf (suc n) = f n\n\npub g : ℕ → ℕ\ng zero = 1\ng (suc n) = n\n";
        let high = "pub h : ℕ → ℕ\nh zero = 1\nh (suc k) = h k\n";
        assert_eq!(groups(low, high), [["f", "h"]]);
    }

    #[test]
    fn numbers_with_a_name_are_held_apart() {
        let low = "abbrev pub items : ℕ\nitems = 3\n\nabbrev pub f : ℕ → ℕ\nf n = n\n";
        let high = "abbrev pub plates : ℕ\nplates = 3\n\nabbrev pub g : ℕ → ℕ\ng n = n\n";
        assert_eq!(groups(low, high), [["f", "g"]]);
    }

    #[test]
    fn laws_of_definitions_that_are_the_same_are_the_same() {
        let text = "use lib.Path.{◌≡◌}\nabbrev pub f : ℕ → ℕ\nf n = n\n\nlaw : (n : ℕ) → f n ≡ n\nlaw n = refl\n";
        assert_eq!(groups(text, text), [["f", "f"], ["law", "law"]]);
    }

    #[test]
    fn laws_of_definitions_that_are_held_apart_are_not_the_same() {
        let text = "use lib.Path.{◌≡◌}
abbrev pub apart : ℕ → ℕ
apart n = n

law : apart 1 ≡ 1
law = refl
";
        assert_eq!(groups(text, text), [["apart", "apart"]]);
    }

    #[test]
    fn functions_of_the_same_type_are_not_the_same() {
        let low = "pub f : (n : ℕ) → List ℕ\nf n = []\n";
        let high = "pub g : (n : ℕ) → List ℕ\ng n = n ∷ []\n";
        assert!(groups(low, high).is_empty());
    }
}
