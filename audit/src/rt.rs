//! A code file by its parts: imports, contracts, ghost members, tactics, structs and enums.

use crate::antt::{imports, Import};
use crate::lex::{past, tokens, Kind, Token};
use std::ops::Range;

/// The contract of a function: ranges of the file's tokens.
#[derive(Debug)]
pub struct Contract<'a> {
    pub function: &'a str,
    pub line: usize,
    pub public: bool,
    /// Whether it is a function for a host: `extern "C"`.
    pub exported: bool,
    /// Whether it has a `requires`.
    pub asks: bool,
    pub parameters: Vec<&'a str>,
    /// The parameters and the result.
    pub signature: Range<usize>,
    pub clauses: Vec<Range<usize>>,
}

/// A struct or an enum.
#[derive(Debug)]
pub struct Type<'a> {
    pub name: &'a str,
    pub line: usize,
    pub last_line: usize,
    pub variants: Vec<&'a str>,
    /// What stands behind the name.
    pub body: Range<usize>,
    /// The names of its fields, and what its ghost fields say.
    pub fields: Vec<&'a str>,
    pub ghosts: Vec<Range<usize>>,
}

/// A name that a `use` line of the code brings.
#[derive(Debug)]
pub struct CodeUse<'a> {
    /// The whole path of the name.
    pub path: String,
    /// What the file calls it.
    pub local: &'a str,
    pub line: usize,
    /// Whether the line is a `pub use`.
    pub passed_on: bool,
}

impl CodeUse<'_> {
    /// Whether it is a trait of the standard library, which code may use by its methods alone.
    pub fn is_trait_of_library(&self) -> bool {
        const TRAITS: [&str; 2] = ["Read", "Write"];
        let library = self.path.split("::").next().unwrap_or("");
        let last = self.path.rsplit("::").next().unwrap_or("");
        library == "std" && TRAITS.contains(&last)
    }
}

/// The parts of a code file.
#[derive(Debug, Default)]
pub struct Code<'a> {
    pub tokens: Vec<Token<'a>>,
    /// The names of its `ghost use` lines.
    pub imports: Vec<Import<'a>>,
    pub uses: Vec<CodeUse<'a>>,
    pub contracts: Vec<Contract<'a>>,
    pub types: Vec<Type<'a>>,
    /// What ghost members of traits and impls say.
    pub ghosts: Vec<Range<usize>>,
    /// The paths that `using(..)` and `unfolding(..)` of a `tactic` attribute name.
    pub cited: Vec<&'a str>,
}

/// The parts of a text.
pub fn parse(text: &str) -> Code<'_> {
    let mut code = Code {
        tokens: tokens(text, "//"),
        ..Code::default()
    };
    let mut i = 0;
    while i < code.tokens.len() {
        i = match code.tokens[i].text {
            "use" if i > 0 && code.tokens[i - 1].is("ghost") => ghost_use(&mut code, i),
            "use" => code_use(&mut code, i),
            "ghost" if !code.tokens.get(i + 1).is_some_and(|t| t.is("use")) => {
                ghost_member(&mut code, i)
            }
            "#[tactic" | "#![tactic" => tactic(&mut code, i),
            "fn" => contract(&mut code, i),
            "struct" | "enum" => declared(&mut code, i),
            _ => i + 1,
        };
    }
    code
}

/// The end of a line that ends with `;`.
fn semicolon(tokens: &[Token<'_>], at: usize) -> usize {
    let mut i = at;
    while i < tokens.len() && tokens[i].text != ";" {
        i = past(tokens, i);
    }
    i.min(tokens.len())
}

/// The names of a `ghost use` line.
fn ghost_use(code: &mut Code<'_>, at: usize) -> usize {
    let end = semicolon(&code.tokens, at);
    let new = imports(&code.tokens, at, end, false);
    code.imports.extend(new);
    end + 1
}

/// The names of a `use` line.
fn code_use(code: &mut Code<'_>, at: usize) -> usize {
    let end = semicolon(&code.tokens, at);
    let before = code.uses.len();
    used(&code.tokens, at + 1..end, ("", ""), &mut code.uses);
    let passed_on = code.tokens[line_start(&code.tokens, at)]
        .text
        .starts_with("pub");
    code.uses[before..]
        .iter_mut()
        .for_each(|u| u.passed_on = passed_on);
    end + 1
}

/// Adds what a path, or paths between commas, bring below the path in front of them.
fn used<'a>(
    tokens: &[Token<'a>],
    range: Range<usize>,
    front: (&str, &'a str),
    out: &mut Vec<CodeUse<'a>>,
) {
    let mut i = range.start;
    while i < range.end {
        let Token { text, line, .. } = tokens[i];
        let path = format!("{}{text}", front.0);
        let last = |path: &'a str| path.trim_end_matches(':').rsplit("::").next();
        if i + 1 < range.end && tokens[i + 1].opens("{") {
            let mate = tokens[i + 1].mate;
            used(tokens, i + 2..mate, (&path, last(text).unwrap_or("")), out);
            i = mate + 2;
            continue;
        }
        let (path, local) = match text {
            "self" => (front.0.trim_end_matches(':').to_string(), front.1),
            _ => (path, last(text).unwrap_or("")),
        };
        let renamed = i + 2 < range.end && tokens[i + 1].is("as");
        let local = if renamed { tokens[i + 2].text } else { local };
        if local != "*" && local != "_" {
            let passed_on = false;
            out.push(CodeUse {
                path,
                local,
                line,
                passed_on,
            });
        }
        i += if renamed { 4 } else { 2 };
    }
}

/// A ghost member of a trait or an impl: `ghost NAME: { TYPE };`, `ghost NAME = { TERM };`, or
/// both.
fn ghost_member(code: &mut Code<'_>, at: usize) -> usize {
    let (ghosts, end) = ghost_texts(&code.tokens, at);
    code.ghosts.extend(ghosts);
    end
}

/// What stands in the braces of a ghost field or member, and where it ends.
fn ghost_texts(tokens: &[Token<'_>], at: usize) -> (Vec<Range<usize>>, usize) {
    let mut out = Vec::new();
    let mut i = at + 1;
    while i < tokens.len() && !matches!(tokens[i].kind, Kind::Separator | Kind::Close) {
        if tokens[i].opens("{") {
            out.push(i + 1..tokens[i].mate.max(i));
        }
        i = past(tokens, i);
    }
    (out, i)
}

/// The paths of an attribute such as `#[tactic(auto, using(crate::proofs::Laws::one))]`.
fn tactic(code: &mut Code<'_>, at: usize) -> usize {
    let ts = &code.tokens;
    let Some(open) = ts.get(at + 1).filter(|t| t.opens("(")) else {
        return at + 1;
    };
    let end = open.mate;
    for i in at + 2..end {
        if (ts[i].is("using") || ts[i].is("unfolding")) && ts[i + 1].opens("(") {
            let paths = i + 2..ts[i + 1].mate;
            let paths = paths.filter(|&k| ts[k].kind == Kind::Name);
            code.cited.extend(paths.map(|k| ts[k].text));
        }
    }
    end.max(at) + 1
}

/// A function: its parameters, and the clauses in front of its body.
fn contract(code: &mut Code<'_>, at: usize) -> usize {
    let ts = &code.tokens;
    let Some(open) = parameters_open(ts, at) else {
        return at + 1;
    };
    let head = line_start(ts, at);
    let mut found = Contract {
        function: ts[at + 1].text.split('<').next().unwrap_or(""),
        line: ts[at].line,
        public: ts[head].is("pub"),
        exported: (head..at).any(|i| ts[i].is("extern")),
        asks: false,
        parameters: parameters(ts, open + 1..ts[open].mate),
        signature: open..open,
        clauses: Vec::new(),
    };
    let mut i = ts[open].mate + 1;
    let end = (i..ts.len()).find(|&k| ts[k].opens("{"));
    found.signature.end = end.unwrap_or(ts.len());
    let in_array = |k: usize| ts[k - 1].text.contains('[') && !ts[k - 1].text.contains(']');
    while i < ts.len() && (ts[i].text != ";" || in_array(i)) {
        if ts[i].opens("{") {
            let Some(kind) = clause_kind(ts, i) else {
                break;
            };
            found.asks |= kind == "requires";
            if kind == "ghost" {
                let name = ts[i - 1].text.trim_end_matches(':');
                found.parameters.push(name);
            }
            found.clauses.push(i + 1..ts[i].mate);
            i = ts[i].mate;
        }
        i += 1;
    }
    code.contracts.push(found);
    i + 1
}

/// The bracket that opens the parameters of a function, behind its type parameters if it has any.
fn parameters_open(tokens: &[Token<'_>], at: usize) -> Option<usize> {
    let mut depth = 0;
    for (i, token) in tokens.iter().enumerate().skip(at + 1) {
        if token.opens("(") && depth <= 0 {
            return Some(i);
        }
        let arrows = token.text.matches("->").count() + token.text.matches("=>").count();
        let count = |c: char| token.text.matches(c).count() as isize;
        depth += count('<') - count('>') + arrows as isize;
    }
    None
}

/// What the clause in these braces is: `requires`, `ensures` or `ghost`, which may have a name and
/// a star; none for a body.
fn clause_kind(tokens: &[Token<'_>], open: usize) -> Option<&'static str> {
    let kind = |n: usize| {
        let token = tokens.get(open.checked_sub(n)?)?;
        let text = token.text.trim_end_matches('*');
        ["requires", "ensures", "ghost"]
            .into_iter()
            .find(|kind| token.kind == Kind::Name && *kind == text)
    };
    kind(1).or_else(|| kind(2).filter(|_| tokens[open - 1].kind == Kind::Name))
}

/// The first token of the line of a token.
fn line_start(tokens: &[Token<'_>], at: usize) -> usize {
    (0..=at).rev().find(|&i| tokens[i].first).unwrap_or(at)
}

/// The names of parameters: each ends with a colon.
fn parameters<'a>(tokens: &[Token<'a>], range: Range<usize>) -> Vec<&'a str> {
    let text = range.map(|i| tokens[i].text);
    text.filter_map(|t| {
        if t.ends_with("self") {
            Some("self")
        } else {
            t.strip_suffix(':')
        }
    })
    .collect()
}

/// A struct, or an enum with its variants.
fn declared(code: &mut Code<'_>, at: usize) -> usize {
    let ts = &code.tokens;
    let Some(name) = ts.get(at + 1) else {
        return at + 1;
    };
    let open = at + 2;
    let end = ts.get(open).map_or(open, |t| t.mate.max(open));
    let variants = if ts[at].is("enum") {
        variant_names(ts, open + 1..end)
    } else {
        Vec::new()
    };
    let last_line = ts.get(end).map_or(name.line, |t| t.line);
    let ghosts = (open..end).filter(|&i| ts[i].is("ghost"));
    let ghosts = ghosts.flat_map(|i| ghost_texts(ts, i).0).collect();
    let found = Type {
        name: name.text.split('<').next().unwrap_or(""),
        line: ts[line_start(ts, at)].line,
        last_line,
        variants,
        body: open..end,
        fields: parameters(ts, open..end),
        ghosts,
    };
    code.types.push(found);
    end + 1
}

/// The names that stand first between the commas of a range.
fn variant_names<'a>(tokens: &[Token<'a>], range: Range<usize>) -> Vec<&'a str> {
    let mut out = Vec::new();
    let mut begins = true;
    let mut i = range.start;
    while i < range.end {
        if begins && tokens[i].kind == Kind::Name {
            out.push(tokens[i].text);
        }
        begins = tokens[i].kind == Kind::Separator;
        i = past(tokens, i);
    }
    out
}

#[cfg(test)]
mod tests;
