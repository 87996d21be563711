//! Tokens of an antt text, with their places and the brackets that belong together.

/// What a token is.
#[derive(Clone, Copy, PartialEq, Eq, Debug)]
pub enum Kind {
    /// `(`, `{` or a `[` that stands alone.
    Open,
    /// The bracket that closes one.
    Close,
    /// A name, an operator, a numeral or a keyword.
    Name,
    /// Names joined by dots: `a.b.c`.
    Path,
    /// A projection: `.field`, without its dot.
    Projection,
    /// `,` or `;`.
    Separator,
    /// The dot that ends the binders of a `λ`, and `@`.
    Mark,
    /// A quoted text.
    Quoted,
}

/// A token of a text.
#[derive(Clone, Copy, Debug)]
pub struct Token<'a> {
    pub text: &'a str,
    pub kind: Kind,
    /// The line, from 1.
    pub line: usize,
    /// The column in characters, from 0.
    pub column: usize,
    /// Whether it is the first of its line.
    pub first: bool,
    /// For a bracket, the place of the other one; its own where there is none.
    pub mate: usize,
}

impl Token<'_> {
    /// Whether it is this name, keyword or operator.
    pub fn is(&self, text: &str) -> bool {
        self.kind == Kind::Name && self.text == text
    }

    /// Whether it opens with this bracket.
    pub fn opens(&self, text: &str) -> bool {
        self.kind == Kind::Open && self.text == text
    }
}

/// Whether a name may have this character.
fn in_name(c: char) -> bool {
    !c.is_whitespace() && !"(){}.;,@\"«»".contains(c)
}

/// The tokens of a text in which these characters begin a comment.
pub fn tokens<'a>(text: &'a str, comment: &str) -> Vec<Token<'a>> {
    let mut out = Vec::new();
    for (index, line) in text.split('\n').enumerate() {
        line_tokens(line, comment, index + 1, &mut out);
    }
    match_brackets(&mut out);
    out
}

/// Adds the tokens of one line.
fn line_tokens<'a>(line: &'a str, comment: &str, number: usize, out: &mut Vec<Token<'a>>) {
    let begin = out.len();
    let mut at = 0;
    let mut column = 0;
    while let Some(c) = line[at..].chars().next() {
        if c.is_whitespace() {
            at += c.len_utf8();
            column += 1;
            continue;
        }
        if line[at..].starts_with(comment) {
            return;
        }
        let joined = out.len() > begin && at > 0 && !line[..at].ends_with(char::is_whitespace);
        let (kind, from, end) = next_token(line, at, c);
        let last = out.last().map(|t| t.kind);
        if kind == Kind::Projection && joined && matches!(last, Some(Kind::Name | Kind::Path)) {
            let before = out.pop().expect("a name before");
            let start = at - before.text.len();
            out.push(Token {
                text: &line[start..end],
                kind: Kind::Path,
                ..before
            });
        } else {
            let first = out.len() == begin;
            out.push(Token {
                text: &line[from..end],
                kind,
                line: number,
                column,
                first,
                mate: 0,
            });
        }
        column += line[at..end].chars().count();
        at = end;
    }
}

/// The token that begins at a byte with a character: its kind, where its text begins, and where it
/// ends.
fn next_token(line: &str, at: usize, c: char) -> (Kind, usize, usize) {
    let after = at + c.len_utf8();
    let run = |from: usize| {
        line[from..]
            .find(|c| !in_name(c))
            .map_or(line.len(), |n| from + n)
    };
    match c {
        '(' | '{' => (Kind::Open, at, after),
        ')' | '}' => (Kind::Close, at, after),
        ',' | ';' => (Kind::Separator, at, after),
        '@' | '»' => (Kind::Mark, at, after),
        '"' => (
            Kind::Quoted,
            at,
            line[after..]
                .find('"')
                .map_or(line.len(), |n| after + n + 1),
        ),
        '«' => (
            Kind::Name,
            at,
            line[after..]
                .find('»')
                .map_or(line.len(), |n| after + n + '»'.len_utf8()),
        ),
        '.' if run(after) > after => (Kind::Projection, after, run(after)),
        '.' => (Kind::Mark, at, after),
        _ => match &line[at..run(at)] {
            "[" => (Kind::Open, at, after),
            "]" => (Kind::Close, at, after),
            _ => (Kind::Name, at, run(at)),
        },
    }
}

/// Fills in which brackets belong together. One that closes no open one, as in `#[tactic(auto)]`,
/// whose first one is part of a name, stands alone.
fn match_brackets(tokens: &mut [Token<'_>]) {
    let mut open = Vec::new();
    for i in 0..tokens.len() {
        tokens[i].mate = i;
        match tokens[i].kind {
            Kind::Open => open.push(i),
            Kind::Close => {
                let pair = |from: &&usize| {
                    matches!(
                        (tokens[**from].text, tokens[i].text),
                        ("(", ")") | ("{", "}") | ("[", "]")
                    )
                };
                if let Some(&from) = open.last().filter(pair) {
                    open.pop();
                    tokens[from].mate = i;
                    tokens[i].mate = from;
                }
            }
            _ => {}
        }
    }
}

/// The place of the first token of a range that is this name and stands in no inner bracket.
pub fn find(tokens: &[Token<'_>], from: usize, to: usize, text: &str) -> Option<usize> {
    let mut i = from;
    while i < to {
        if tokens[i].is(text) {
            return Some(i);
        }
        i = past(tokens, i);
    }
    None
}

/// The place after a token, or after the whole bracket that it opens.
pub fn past(tokens: &[Token<'_>], i: usize) -> usize {
    if tokens[i].kind == Kind::Open {
        tokens[i].mate.max(i) + 1
    } else {
        i + 1
    }
}

#[cfg(test)]
mod tests {
    use super::*;

    fn texts(text: &str) -> Vec<&str> {
        tokens(text, "--").iter().map(|t| t.text).collect()
    }

    #[test]
    fn names_end_at_spaces_and_brackets() {
        assert_eq!(
            texts("f (x∷y) z-w' ◌+◌ -- a comment"),
            ["f", "(", "x∷y", ")", "z-w'", "◌+◌"]
        );
    }

    #[test]
    fn dots_are_projections_paths_or_ends_of_binders() {
        let kinds: Vec<Kind> = tokens("λ x. r.f (y).g m.a.b", "--")
            .iter()
            .map(|t| t.kind)
            .collect();
        use Kind::*;
        assert_eq!(
            kinds,
            [Name, Name, Mark, Path, Open, Name, Close, Projection, Path]
        );
    }

    #[test]
    fn brackets_are_matched() {
        let ts = tokens("f (a { b }) [ c ] []", "--");
        assert_eq!((ts[1].mate, ts[3].mate, ts[7].mate), (6, 5, 9));
        assert_eq!(ts[10].kind, Kind::Name);
    }

    #[test]
    fn a_bracket_that_closes_none_stands_alone() {
        let ts = tokens("{ #[tactic(auto)] a[f(x)] }", "//");
        assert_eq!((ts[0].mate, ts[2].mate), (ts.len() - 1, 4));
    }

    #[test]
    fn places_count_characters() {
        let ts = tokens("λ x\n  ℕ y", "--");
        assert_eq!((ts[2].line, ts[2].column, ts[2].first), (2, 2, true));
        assert_eq!((ts[3].column, ts[3].first), (4, false));
    }

    #[test]
    fn what_stands_in_brackets_is_passed_over() {
        let ts = tokens("f (a = b) = c", "--");
        assert_eq!(find(&ts, 0, ts.len(), "="), Some(6));
    }
}
