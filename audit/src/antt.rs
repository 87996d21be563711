//! An antt file by its parts: imports, sections and declarations.

use crate::lex::{find, past, tokens, Kind, Token};
use std::ops::Range;

/// A name that a `use` line brings, or a whole module.
#[derive(Debug)]
pub struct Import<'a> {
    /// The module as it is written.
    pub module: String,
    /// The name in that module; none for a whole module.
    pub name: Option<&'a str>,
    /// What the file calls it.
    pub local: &'a str,
    pub line: usize,
    /// Whether the line is a `pub use`.
    pub passed_on: bool,
}

/// What a declaration declares.
#[derive(Clone, Copy, PartialEq, Eq, Debug)]
pub enum Sort {
    Plain,
    Record,
    Data,
}

/// A declaration: ranges of the file's tokens.
#[derive(Debug)]
pub struct Decl<'a> {
    pub name: &'a str,
    pub sort: Sort,
    /// The line of its name.
    pub line: usize,
    pub marks: Vec<&'a str>,
    /// The section that it stands in.
    pub section: Option<usize>,
    /// What stands behind its name: of a record or data type the parameters and the universe.
    pub signature: Range<usize>,
    pub unfolding: Vec<Range<usize>>,
    /// Its clauses, or the fields or constructors.
    pub clauses: Vec<Range<usize>>,
    /// The names of the fields or constructors.
    pub members: Vec<&'a str>,
}

impl Decl<'_> {
    /// The last of its tokens.
    pub fn last_token(&self) -> usize {
        let ends = self.clauses.iter().chain(&self.unfolding).map(|r| r.end);
        ends.chain([self.signature.end]).max().unwrap_or(1).max(1) - 1
    }
}

/// A section: `module _ (..) where`.
#[derive(Debug)]
pub struct Section {
    pub parent: Option<usize>,
    /// The tokens of its parameters.
    pub parameters: Range<usize>,
}

/// The parts of a file.
#[derive(Debug, Default)]
pub struct Parts<'a> {
    pub tokens: Vec<Token<'a>>,
    pub imports: Vec<Import<'a>>,
    pub sections: Vec<Section>,
    pub decls: Vec<Decl<'a>>,
}

/// The words that may stand in front of a declaration.
const MARKS: [&str; 5] = ["pattern", "unfoldable", "abbrev", "pub", "axiom"];

/// The parts of a text.
pub fn parse(text: &str) -> Parts<'_> {
    let mut parts = Parts {
        tokens: tokens(text, "--"),
        ..Parts::default()
    };
    let whole = 0..parts.tokens.len();
    block(&mut parts, whole, None);
    parts
}

/// The items of a range: each begins with the first token of a line at the column of the first,
/// which stands in no bracket and closes none.
pub fn items(tokens: &[Token<'_>], range: Range<usize>) -> Vec<Range<usize>> {
    let mut out: Vec<Range<usize>> = Vec::new();
    let Some(first) = tokens.get(range.start).filter(|_| !range.is_empty()) else {
        return out;
    };
    let mut i = range.start;
    while i < range.end {
        if i == range.start || tokens[i].first && tokens[i].column <= first.column {
            if let Some(last) = out.last_mut() {
                last.end = i;
            }
            out.push(i..range.end);
        }
        i = past(tokens, i);
    }
    out
}

/// Adds the items of a range to the parts.
fn block(parts: &mut Parts<'_>, range: Range<usize>, section: Option<usize>) {
    let mut current = None;
    for item in items(&parts.tokens, range) {
        let head = marks_end(&parts.tokens, &item);
        match parts.tokens[head].text {
            "use" => import(parts, head, item),
            "mod" | "infix" | "infixl" | "infixr" => {}
            "module" => open_section(parts, item, section),
            "mutual" => block(parts, item.start + 1..item.end, section),
            "ruleset" => {
                ruleset(parts, head, item, section);
                current = Some(parts.decls.len() - 1);
            }
            "unfolding" => extend(parts, current, |d| {
                d.unfolding.push(item.start + 1..item.end)
            }),
            "record" | "data" => {
                type_decl(parts, head, item, section);
                current = Some(parts.decls.len() - 1);
            }
            _ => match signature(&parts.tokens, head, &item) {
                Some(colon) => {
                    plain_decl(parts, head, colon, item, section);
                    current = Some(parts.decls.len() - 1);
                }
                None => extend(parts, current, |d| d.clauses.push(item)),
            },
        }
    }
}

/// Changes the declaration that an item belongs to.
fn extend<'a>(parts: &mut Parts<'a>, current: Option<usize>, change: impl FnOnce(&mut Decl<'a>)) {
    if let Some(decl) = current {
        change(&mut parts.decls[decl]);
    }
}

/// The first token of an item behind its marks.
pub fn marks_end(tokens: &[Token<'_>], item: &Range<usize>) -> usize {
    let marks = item
        .clone()
        .take_while(|&i| MARKS.contains(&tokens[i].text))
        .count();
    (item.start + marks).min(item.end - 1)
}

/// The colon of a signature: it follows the name, or the levels in braces behind it.
pub fn signature(tokens: &[Token<'_>], head: usize, item: &Range<usize>) -> Option<usize> {
    let mut i = head + 1;
    if i < item.end && tokens[i].opens("{") {
        i = past(tokens, i);
    }
    (i < item.end && tokens[head].kind == Kind::Name && tokens[i].is(":")).then_some(i)
}

fn plain_decl(
    parts: &mut Parts<'_>,
    head: usize,
    colon: usize,
    item: Range<usize>,
    section: Option<usize>,
) {
    parts.decls.push(Decl {
        name: parts.tokens[head].text,
        sort: Sort::Plain,
        line: parts.tokens[head].line,
        marks: item
            .clone()
            .take(head - item.start)
            .map(|i| parts.tokens[i].text)
            .collect(),
        section,
        signature: colon + 1..item.end,
        unfolding: Vec::new(),
        clauses: Vec::new(),
        members: Vec::new(),
    });
}

/// A named list of lemmas: a declaration with one clause and no signature.
fn ruleset(parts: &mut Parts<'_>, head: usize, item: Range<usize>, section: Option<usize>) {
    let ts = &parts.tokens;
    let name = (head + 1).min(item.end - 1);
    parts.decls.push(Decl {
        name: ts[name].text,
        sort: Sort::Plain,
        line: ts[head].line,
        marks: (item.start..head).map(|i| ts[i].text).collect(),
        section,
        signature: name..name,
        unfolding: Vec::new(),
        clauses: std::iter::once(name..item.end).collect(),
        members: Vec::new(),
    });
}

/// A record or a data type: its members are the items behind `where`.
fn type_decl(parts: &mut Parts<'_>, head: usize, item: Range<usize>, section: Option<usize>) {
    let ts = &parts.tokens;
    let end = find(ts, head, item.end, "where").unwrap_or(item.end);
    let clauses: Vec<Range<usize>> = items(ts, (end + 1).min(item.end)..item.end)
        .into_iter()
        .filter(|i| !ts[i.start].is("deriving") && !ts[marks_end(ts, i)].is("open"))
        .collect();
    let names = |i: &Range<usize>| {
        let from = marks_end(ts, i);
        (from..i.end)
            .take_while(|&k| !ts[k].is(":"))
            .map(|k| ts[k].text)
            .collect::<Vec<_>>()
    };
    let decl = Decl {
        name: ts[head + 1].text,
        sort: if ts[head].is("record") {
            Sort::Record
        } else {
            Sort::Data
        },
        line: ts[head].line,
        marks: (item.start..head).map(|i| ts[i].text).collect(),
        section,
        signature: head + 2..end,
        unfolding: Vec::new(),
        members: clauses.iter().flat_map(names).collect(),
        clauses,
    };
    parts.decls.push(decl);
}

/// A section and what stands in it.
fn open_section(parts: &mut Parts<'_>, item: Range<usize>, parent: Option<usize>) {
    let end = find(&parts.tokens, item.start, item.end, "where").unwrap_or(item.end);
    parts.sections.push(Section {
        parent,
        parameters: item.start + 2..end,
    });
    let section = parts.sections.len() - 1;
    block(parts, (end + 1).min(item.end)..item.end, Some(section));
}

/// A `use` line of the file.
fn import(parts: &mut Parts<'_>, head: usize, item: Range<usize>) {
    let passed_on = head > item.start;
    let new = imports(&parts.tokens, head, item.end, passed_on);
    parts.imports.extend(new);
}

/// What a `use` line brings, from the word `use` to its end: names of a module in braces, or a
/// whole module.
pub fn imports<'a>(ts: &[Token<'a>], head: usize, end: usize, passed_on: bool) -> Vec<Import<'a>> {
    let path = ts[(head + 1).min(end - 1)];
    let add = |below: Option<&str>, name, local, line| Import {
        module: match below {
            Some(below) => format!("{}.{below}", path.text),
            None => path.text.to_string(),
        },
        name,
        local,
        line,
        passed_on,
    };
    let Some(brace) = (head..end).find(|&i| ts[i].opens("{")) else {
        let local = if head + 3 < end {
            ts[head + 3].text
        } else {
            last_name(path.text)
        };
        return vec![add(None, None, local, path.line)];
    };
    let mut i = brace + 1;
    let mut new = Vec::new();
    while i < ts[brace].mate {
        let at = if ts[i].is("syntax") { i + 1 } else { i };
        let renamed = ts[at + 1].is("as");
        let local = if renamed { at + 2 } else { at };
        let (below, name) = match ts[at].text.rsplit_once('.') {
            Some((below, name)) => (Some(below), name),
            None => (None, ts[at].text),
        };
        let own = last_name(ts[local].text);
        new.push(add(below, Some(name), own, ts[at].line));
        i = local + 2;
    }
    new
}

/// The last of names joined by dots.
fn last_name(path: &str) -> &str {
    path.rsplit('.').next().unwrap_or("")
}

#[cfg(test)]
mod tests;
