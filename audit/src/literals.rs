//! Numbers that are written out where a named constant could stand: sites by pattern, comments left
//! out.

/// The patterns, each with its name; a site is that of the first pattern that fits.
pub const PATTERNS: [&str; 17] = [
    ".len() < N",
    "job[N]",
    "5 + 4 *",
    "9 *",
    "3 *",
    "4 *",
    "36000",
    "32768",
    "8192",
    "48000",
    "2048",
    "4000",
    "10000",
    "9999",
    "183",
    "2088",
    "16000",
];

/// A site: the number of its pattern, and its line.
#[derive(Clone, Copy, PartialEq, Eq, Debug)]
pub struct Site {
    pub pattern: usize,
    pub line: usize,
}

/// The sites of a file, whose comments begin with these characters.
pub fn sites(text: &str, comment: &str) -> Vec<Site> {
    let mut out = Vec::new();
    for (index, line) in text.lines().enumerate() {
        let code = uncommented(line, comment);
        let mut at = 0;
        while at < code.len() {
            match fitting(code, at) {
                Some((pattern, end)) => {
                    out.push(Site {
                        pattern,
                        line: index + 1,
                    });
                    at = end;
                }
                None => at += code[at..].chars().next().map_or(1, char::len_utf8),
            }
        }
    }
    out
}

/// A line without its comment.
fn uncommented<'a>(line: &'a str, comment: &str) -> &'a str {
    let begins = |at: &usize| *at == 0 || line[..*at].ends_with(char::is_whitespace);
    let end = line.match_indices(comment).map(|(at, _)| at).find(begins);
    &line[..end.unwrap_or(line.len())]
}

/// The first pattern that fits at a place, and where it ends.
fn fitting(code: &str, at: usize) -> Option<(usize, usize)> {
    PATTERNS
        .iter()
        .enumerate()
        .find_map(|(n, pattern)| Some((n, end_of(code, at, pattern)?)))
}

/// Where a pattern ends that begins at a place: `N` is any number, and numbers are whole ones.
fn end_of(code: &str, at: usize, pattern: &str) -> Option<usize> {
    if !pattern.starts_with('.') && joined(code, at) {
        return None;
    }
    let Some((before, after)) = pattern.split_once('N') else {
        let end = at + pattern.len();
        let fits = code[at..].starts_with(pattern) && ends_whole(&code[end..], pattern);
        return fits.then_some(end);
    };
    let digits = at + before.len();
    if !code[at..].starts_with(before) {
        return None;
    }
    let count = code[digits..]
        .chars()
        .take_while(|c| c.is_ascii_digit() || *c == '_')
        .count();
    let end = digits + count;
    (count > 0 && code[end..].starts_with(after)).then_some(end + after.len())
}

/// Whether what stands at a place goes on with a name or a number.
fn joined(code: &str, at: usize) -> bool {
    let mut before = code[..at].chars().rev();
    match before.next() {
        Some('-') => before.next().is_some_and(char::is_alphanumeric),
        Some(c) => c.is_alphanumeric() || c == '_' || c == '·',
        None => false,
    }
}

/// Whether a pattern ends where a whole number ends, or after an operator; a number may have the
/// name of its type.
fn ends_whole(rest: &str, pattern: &str) -> bool {
    if pattern.ends_with('*') {
        return !rest.starts_with('*');
    }
    let rest = ["u16", "u32", "u64", "u8", "usize"]
        .iter()
        .find_map(|t| rest.strip_prefix(t))
        .unwrap_or(rest);
    !rest.starts_with(|c: char| c.is_alphanumeric() || c == '_' || c == '-' || c == '·')
}

#[cfg(test)]
mod tests {
    use super::*;

    /// The names of the patterns of a line's sites.
    fn found(line: &str, comment: &str) -> Vec<&'static str> {
        sites(line, comment)
            .iter()
            .map(|s| PATTERNS[s.pattern])
            .collect()
    }

    #[test]
    fn each_site_has_one_pattern() {
        assert_eq!(
            found("if job.len() < 36000 || n == 36000 {", "//"),
            [".len() < N", "36000"]
        );
        assert_eq!(
            found("let n = 5 + 4 * (job[4] as usize) + 3 * k;", "//"),
            ["5 + 4 *", "job[N]", "3 *"]
        );
        assert_eq!(
            found("[0u16; 183], 0..183, 4000u32", "//"),
            ["183", "183", "4000"]
        );
    }

    #[test]
    fn parts_of_names_and_numbers_are_no_sites() {
        assert!(found(
            "x = 19 * n + a183 + below-183 + 1830 + 10000000 + 183-th",
            "--"
        )
        .is_empty());
        assert!(found("jobs[k] job[k] subjob[4] 9 + n", "//").is_empty());
    }

    #[test]
    fn comments_are_left_out() {
        assert_eq!(found("x = 9 * n -- 4 * m", "--"), ["9 *"]);
        assert!(found("// 9 * n", "//").is_empty());
    }

    #[test]
    fn lines_are_counted_from_one() {
        assert_eq!(
            sites("\nx = 183\n", "--"),
            [Site {
                pattern: 14,
                line: 2
            }]
        );
    }
}
