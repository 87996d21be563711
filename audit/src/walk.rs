//! A walk over the tokens of a declaration: what each name stands for, with the names that are
//! bound on the way.

use crate::antt::{items, marks_end, signature, Decl, Parts, Sort};
use crate::lex::{find, Kind, Token};
use crate::scope::{words_of, Meaning, Scope};
use crate::tree::{canonical, Item, Tree, CRATES};
use std::ops::Range;

mod expression;

/// A token of a declaration as it means.
#[derive(Clone, PartialEq, Eq, Hash, Debug)]
pub enum Word<'a> {
    /// A keyword, a bracket, a numeral, a label, a projection.
    Text(&'a str),
    /// A bound name, by the number of its binder.
    Local(usize),
    /// A declared or an imported name.
    Global(String),
}

/// A walk, and what it has met.
pub struct Walk<'w, 'a> {
    tree: &'w Tree<'a>,
    scope: &'w Scope<'a>,
    tokens: &'w [Token<'a>],
    bound: Vec<(&'a str, usize)>,
    binders: usize,
    /// The name that clauses begin with.
    own: &'a str,
    pub words: Vec<Word<'a>>,
    pub items: Vec<Item>,
    pub imports: Vec<usize>,
    /// The names that are declared behind `where`: binder, and token.
    helpers: Vec<(usize, Token<'a>)>,
}

impl<'w, 'a> Walk<'w, 'a> {
    pub fn new(tree: &'w Tree<'a>, scope: &'w Scope<'a>, tokens: &'w [Token<'a>]) -> Walk<'w, 'a> {
        let (bound, words, helpers) = (Vec::new(), Vec::new(), Vec::new());
        Walk {
            tree,
            scope,
            tokens,
            bound,
            binders: 0,
            own: "",
            words,
            items: Vec::new(),
            imports: Vec::new(),
            helpers,
        }
    }

    /// The helpers behind `where` that nothing uses.
    pub fn idle_helpers(&self) -> impl Iterator<Item = &Token<'a>> + '_ {
        self.helpers
            .iter()
            .filter(|(binder, _)| !self.words.contains(&Word::Local(*binder)))
            .map(|(_, token)| token)
    }

    /// Binds a name, an operator's words too, and gives the number of the binder.
    pub fn bind(&mut self, name: &'a str) -> usize {
        let number = self.binders;
        self.binders += 1;
        self.bound.extend(words_of(name).map(|word| (word, number)));
        number
    }

    /// A whole declaration in its sections; its parameters stay bound.
    pub fn declaration(&mut self, parts: &Parts<'a>, decl: &Decl<'a>) {
        self.sections(parts, decl.section);
        self.own = decl.name;
        if decl.sort != Sort::Plain {
            return self.members(decl);
        }
        self.expression(decl.signature.clone());
        for line in &decl.unfolding {
            self.expression(line.clone());
        }
        for clause in &decl.clauses {
            self.clause(clause.clone());
        }
    }

    /// The parameters of a section and of those around it.
    pub fn sections(&mut self, parts: &Parts<'a>, section: Option<usize>) {
        if let Some(number) = section {
            self.sections(parts, parts.sections[number].parent);
            self.binders_of(parts.sections[number].parameters.clone());
        }
    }

    /// Telescopes in a row; their names stay bound.
    fn binders_of(&mut self, range: Range<usize>) {
        let mut i = range.start;
        while i < range.end {
            i = if self.tokens[i].kind == Kind::Open {
                self.group(i)
            } else {
                self.single(i)
            };
        }
    }

    /// A record with its fields, each bound for the next ones, or a data type with its
    /// constructors.
    fn members(&mut self, decl: &Decl<'a>) {
        let kept = self.bound.len();
        let Range { start, end } = decl.signature;
        let colon = find(self.tokens, start, end, ":").unwrap_or(end);
        self.binders_of(start..colon);
        self.expression(colon..end);
        for member in &decl.clauses {
            let head = marks_end(self.tokens, member);
            let colon = find(self.tokens, head, member.end, ":").unwrap_or(member.end - 1);
            self.expression(colon + 1..member.end);
            for i in head..colon {
                self.words.push(Word::Text(self.tokens[i].text));
                if decl.sort == Sort::Record {
                    self.bind(self.tokens[i].text);
                }
            }
        }
        self.bound.truncate(kept);
    }

    /// A clause: patterns, `=`, a body, and declarations behind `where`.
    fn clause(&mut self, range: Range<usize>) {
        let kept = self.bound.len();
        let equals = find(self.tokens, range.start, range.end, "=").unwrap_or(range.start);
        let end = find(self.tokens, equals, range.end, "where").unwrap_or(range.end);
        self.pattern(range.start..equals);
        let locals = items(self.tokens, (end + 1).min(range.end)..range.end);
        for item in &locals {
            let head = marks_end(self.tokens, item);
            if signature(self.tokens, head, item).is_some() {
                let binder = self.bind(self.tokens[head].text);
                self.helpers.push((binder, self.tokens[head]));
            } else if self.tokens[head].is("open") {
                self.opened(item.clone());
            }
        }
        self.expression(equals..end);
        let outer = self.own;
        for item in locals {
            self.local(item);
        }
        self.own = outer;
        self.bound.truncate(kept);
    }

    /// A line `open VALUE use {NAMES}`: the value, and the names that it binds for what follows.
    fn opened(&mut self, item: Range<usize>) {
        let end = find(self.tokens, item.start, item.end, "use").unwrap_or(item.end);
        self.expression(item.start + 1..end);
        let names = end + 2..item.end.saturating_sub(1);
        for i in names.filter(|i| self.tokens[*i].kind == Kind::Name) {
            let text = self.tokens[i].text;
            if text != "as" && !self.tokens[i + 1].is("as") {
                self.bind(text);
            }
        }
    }

    /// A signature, an `unfolding` line or a clause behind `where`.
    fn local(&mut self, item: Range<usize>) {
        let head = marks_end(self.tokens, &item);
        if let Some(colon) = signature(self.tokens, head, &item) {
            self.own = self.tokens[head].text;
            self.expression(colon + 1..item.end);
        } else if self.tokens[head].is("unfolding") {
            self.expression(head + 1..item.end);
        } else if self.tokens[head].is("open") {
            // Its names are bound before the body that it stands behind.
        } else {
            self.clause(item);
        }
    }

    /// A pattern: constructors are used, other names are bound.
    fn pattern(&mut self, range: Range<usize>) {
        let mut i = range.start;
        while i < range.end {
            let token = self.tokens[i];
            let next = self.tokens.get(i + 1);
            match token.kind {
                Kind::Open if self.telescope(i).is_some() => i = self.group(i),
                Kind::Name
                    if token.text == "record"
                        || next.is_some_and(|t| t.is("=")) && i + 1 < range.end =>
                {
                    i += 1
                }
                Kind::Name => self.pattern_name(token.text, &mut i),
                Kind::Path => {
                    self.path(token.text);
                    i += 1;
                }
                _ => {
                    self.words.push(Word::Text(token.text));
                    i += 1;
                }
            }
        }
    }

    fn pattern_name(&mut self, text: &'a str, i: &mut usize) {
        *i += 1;
        let own = words_of(self.own).any(|w| w == text);
        if own
            || ["_", "=", "→", "λ"].contains(&text)
            || text.starts_with(|c: char| c.is_ascii_digit())
        {
            self.words.push(Word::Text(if own { "self" } else { text }));
        } else if let Some(meaning) = self.scope.find(text).filter(|m| m.constructor) {
            self.meet(meaning);
        } else {
            let number = self.bind(text);
            self.words.push(Word::Local(number));
        }
    }

    fn name(&mut self, text: &'a str) {
        let local = self.bound.iter().rev().find(|(name, _)| *name == text);
        if let Some(&(_, number)) = local {
            self.words.push(Word::Local(number));
        } else if let Some(meaning) = self.scope.find(text) {
            self.meet(meaning);
        } else {
            self.words.push(Word::Text(text));
        }
    }

    /// Names joined by dots: a name of a module, or a name and projections.
    fn path(&mut self, text: &'a str) {
        if let Some((module, rest)) = self.whole_path(text) {
            let mut names = rest.split('.');
            let name = names.next().unwrap_or("");
            let meaning = Scope::member(self.tree, &module, name, None);
            self.meet(&meaning);
            self.words.extend(names.map(Word::Text));
            return;
        }
        let mut names = text.split('.');
        let head = names.next().unwrap_or("");
        let local = self.bound.iter().any(|(name, _)| *name == head);
        match self.scope.modules.get(head).filter(|_| !local) {
            Some(whole) => {
                let mut module = whole.module.clone();
                let mut member = names.next().unwrap_or("");
                while let Some(below) = self.tree.below(&module, member) {
                    module = below;
                    member = names.next().unwrap_or("");
                }
                let meaning = Scope::member(self.tree, &module, member, Some(whole.import));
                self.meet(&meaning);
            }
            None => self.name(head),
        }
        self.words.extend(names.map(Word::Text));
    }

    /// The module that a whole path begins with, `Rattle.job.specs.Job` of
    /// `Rattle.job.specs.Job.job_of`, and what stands behind it.
    fn whole_path(&self, text: &'a str) -> Option<(String, &'a str)> {
        let dots = text.rmatch_indices('.').map(|(dot, _)| dot);
        let mut modules = dots.map(|dot| (canonical(&text[..dot]), &text[dot + 1..]));
        modules.find(|(module, _)| text.starts_with(CRATES) && self.tree.is_module(module))
    }

    fn meet(&mut self, meaning: &Meaning) {
        self.items.extend(meaning.item);
        self.imports.extend(meaning.import);
        self.words.push(Word::Global(meaning.full.clone()));
    }
}

#[cfg(test)]
mod tests {
    use super::*;

    /// The names that the last declaration of a text takes from elsewhere.
    fn taken(text: &str) -> Vec<String> {
        let parts = crate::antt::parse(text);
        let tree = Tree::default();
        let scope = Scope::new(&tree, 0, &parts.decls, &parts.imports);
        let mut walk = Walk::new(&tree, &scope, &parts.tokens);
        walk.declaration(&parts, parts.decls.last().expect("a declaration"));
        let global = |w: &Word<'_>| match w {
            Word::Global(name) => name.rsplit('.').next().map(str::to_string),
            _ => None,
        };
        walk.words.iter().filter_map(global).collect()
    }

    #[test]
    fn binders_hide_names_where_they_are_bound() {
        assert_eq!(
            taken("use m.{a, b}\nx : (a : b) → a\nx = (λ b. b, b)\n"),
            ["b", "b"]
        );
        assert_eq!(
            taken("use m.{a}\nx : b\nx = f (let a = a in a) a\n"),
            ["a", "a"]
        );
        assert_eq!(
            taken("use m.{a, c}\nx : b\nx = elim c [ suc a ↦ a | zero ↦ a ]\n"),
            ["c", "a"]
        );
        assert_eq!(
            taken("use m.{a}\nmodule _ (a : b) where\n  x : a\n  x = a\n"),
            [""; 0]
        );
    }

    #[test]
    fn helpers_hide_names_in_their_clause() {
        let text =
            "use m.{go}\nx : b\nx zero = go\n  where\n    go : b\n    go = 1\nx (suc n) = go\n";
        assert_eq!(taken(text), ["go"]);
    }

    #[test]
    fn opened_names_hide_names_in_their_clause() {
        let text = "use m.{go, r}\nx : b\nx n = go\n  where open r use {other as go}\n";
        assert_eq!(taken(text), ["r"]);
    }

    #[test]
    fn patterns_use_constructors_and_bind_names() {
        assert_eq!(
            taken("use m.{suc, length}\nx : b\nx (suc length) = length\n"),
            ["suc"]
        );
        assert_eq!(taken("use m.{◌∷◌}\nx : b\nx (a ∷ b) = a\n"), ["◌∷◌"]);
        assert_eq!(taken("use m.E as e\nx : b\nx (e.one a) = a\n"), ["one"]);
        let branch = "use Rattle.a.proofs.f.Goals.{in-Ok}\nx : b\nx = elim c [ in-Ok a ↦ a ]\n";
        assert_eq!(taken(branch), ["in-Ok"]);
    }

    #[test]
    fn labels_and_projections_are_no_names() {
        assert_eq!(
            taken("use m.{a, b}\nx : c\nx = record { a = (f r).a; b = r.b }\n"),
            [""; 0]
        );
        assert_eq!(
            taken("use m.{a, b}\nx : c\nx = record { a : b; c : a ≡ a }\n"),
            ["b"]
        );
        assert_eq!(
            taken("use m.{a}\nuse n as r\nx : c\nx = f {a = a} r.b\n"),
            ["a", "b"]
        );
    }

    #[test]
    fn fields_are_bound_for_the_next_ones() {
        assert_eq!(
            taken("use m.{a, b}\nrecord R (n : a) : Type 0 where\n  pub a : ℕ\n  c : a ≡ b\n"),
            ["a", "b"]
        );
    }
}
