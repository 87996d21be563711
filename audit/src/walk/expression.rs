//! Expressions: what they bind, and where that is bound.

use super::{Walk, Word};
use crate::lex::{find, past, Kind};
use std::ops::Range;

impl<'a> Walk<'_, 'a> {
    /// An expression; what it binds ends with it.
    pub fn expression(&mut self, range: Range<usize>) {
        let kept = self.bound.len();
        let mut i = range.start;
        while i < range.end {
            let token = self.tokens[i];
            i = match token.kind {
                Kind::Open => self.group(i),
                Kind::Separator => {
                    self.bound.truncate(kept);
                    self.single(i)
                }
                Kind::Name if token.text == "λ" || token.text == "∀" => {
                    self.lambda(i, range.end)
                }
                Kind::Name if token.text == "let" => self.binding(i, range.end),
                _ => self.single(i),
            };
        }
        self.bound.truncate(kept);
    }

    /// The binders of a `λ`, up to its dot.
    fn lambda(&mut self, at: usize, end: usize) -> usize {
        let mut dot = at + 1;
        while dot < end && !(self.tokens[dot].kind == Kind::Mark && self.tokens[dot].text == ".") {
            dot = past(self.tokens, dot);
        }
        self.words.push(Word::Text("λ"));
        self.pattern(at + 1..dot.min(end));
        dot.min(end)
    }

    /// `let pattern : type = value in`; what it binds is bound behind it.
    fn binding(&mut self, at: usize, end: usize) -> usize {
        let equals = find(self.tokens, at, end, "=").unwrap_or(end);
        let colon = find(self.tokens, at, equals, ":").unwrap_or(equals);
        let within = self.matching_in(at, end);
        self.words.push(Word::Text("let"));
        self.expression((colon + 1).min(equals)..equals);
        self.expression((equals + 1).min(within)..within);
        self.pattern(at + 1..colon);
        within
    }

    /// The `in` that belongs to a `let`.
    fn matching_in(&self, at: usize, end: usize) -> usize {
        let mut depth = 0;
        let mut i = at;
        while i < end {
            match self.tokens[i].text {
                "let" | "unfold" => depth += 1,
                "in" => depth -= 1,
                _ => {}
            }
            if depth == 0 {
                return i;
            }
            i = past(self.tokens, i);
        }
        end
    }

    /// The colon of a telescope, `(x y : A)` or `{x y : A}`, that opens here.
    pub fn telescope(&self, open: usize) -> Option<usize> {
        let (from, to) = (open + 1, self.tokens[open].mate);
        let colon =
            (from..to).find(|&i| self.tokens[i].is(":") || self.tokens[i].kind != Kind::Name)?;
        let keyword =
            |i: usize| ["let", "λ", "record", "elim", "unfold"].contains(&self.tokens[i].text);
        let names = colon > from && !(from..colon).any(keyword);
        (names && self.tokens[colon].is(":") && self.tokens[open].text != "[").then_some(colon)
    }

    /// A bracket with what stands in it: a telescope, cases, labelled values, or an expression.
    pub(super) fn group(&mut self, open: usize) -> usize {
        let close = self.tokens[open].mate;
        self.words.push(Word::Text(self.tokens[open].text));
        if self.is_record(open) {
            let kept = self.bound.len();
            self.labelled(open + 1..close);
            self.bound.truncate(kept);
        } else if let Some(colon) = self.telescope(open) {
            self.expression(colon + 1..close);
            for i in open + 1..colon {
                let number = self.bind(self.tokens[i].text);
                self.words.push(Word::Local(number));
            }
        } else if self.tokens[open].text == "[" {
            self.cases(open + 1..close);
        } else if self.tokens[open].text == "{" {
            self.labelled(open + 1..close);
        } else {
            self.expression(open + 1..close);
        }
        self.words.push(Word::Text(self.tokens[close].text));
        close.max(open) + 1
    }

    /// Whether a record's value or type stands in these braces: `record { .. }`, or `record r { ..
    /// }`.
    fn is_record(&self, open: usize) -> bool {
        let before = |n: usize| open >= n && self.tokens[open - n].is("record");
        self.tokens[open].text == "{"
            && (before(1) || before(2) && self.tokens[open - 1].kind != Kind::Close)
    }

    /// The parts of a range between tokens of this text.
    fn split(&self, range: Range<usize>, text: &str) -> Vec<Range<usize>> {
        let mut out = Vec::new();
        let mut from = range.start;
        let mut i = range.start;
        while i < range.end {
            if self.tokens[i].text == text && self.tokens[i].kind != Kind::Quoted {
                out.push(from..i);
                from = i + 1;
            }
            i = past(self.tokens, i);
        }
        out.push(from..range.end);
        out.retain(|r| !r.is_empty());
        out
    }

    /// The cases of an `elim`.
    fn cases(&mut self, range: Range<usize>) {
        for case in self.split(range, "|") {
            let kept = self.bound.len();
            let arrow = find(self.tokens, case.start, case.end, "↦").unwrap_or(case.start);
            self.pattern(case.start..arrow);
            self.words.push(Word::Text("|"));
            self.expression(arrow..case.end);
            self.bound.truncate(kept);
        }
    }

    /// The values in braces: a label and `=` may stand in front of each, or a label and `:`, which
    /// is bound in the next ones.
    fn labelled(&mut self, range: Range<usize>) {
        for part in self.split(range, ";") {
            let behind = |text: &str| part.len() > 1 && self.tokens[part.start + 1].is(text);
            let (value, field) = (behind("="), behind(":"));
            let label = self.tokens[part.start].text;
            if value || field {
                self.words.push(Word::Text(label));
            }
            self.expression(if value || field {
                part.start + 1..part.end
            } else {
                part
            });
            if field {
                self.bind(label);
            }
            self.words.push(Word::Text(";"));
        }
    }

    /// One token that is no bracket.
    pub(super) fn single(&mut self, i: usize) -> usize {
        let token = self.tokens[i];
        match token.kind {
            Kind::Name => self.name(token.text),
            Kind::Path => self.path(token.text),
            _ => self.words.push(Word::Text(token.text)),
        }
        i + 1
    }
}
