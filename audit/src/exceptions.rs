//! The exceptions: findings that are right as they are, each with its reason.
//!
//! A line is `KIND FILE NAME  # REASON`: the kind `uncited` or `doubled`, the file from its crate
//! on and without its ending, the name of the declaration. A file that ends with `*` is any that
//! begins so, and the name `*` is any name.

/// One exception.
#[derive(Debug)]
pub struct Exception {
    pub line: usize,
    kind: String,
    file: String,
    name: String,
}

/// The exceptions of a text, or what is wrong with one of its lines.
pub fn parse(text: &str) -> Result<Vec<Exception>, String> {
    let mut out = Vec::new();
    for (index, line) in text.lines().enumerate() {
        let (entry, reason) = line.split_once('#').unwrap_or((line, ""));
        let words: Vec<&str> = entry.split_whitespace().collect();
        match words[..] {
            [] => {}
            [kind @ ("uncited" | "doubled"), file, name] if !reason.trim().is_empty() => {
                let [kind, file, name] = [kind, file, name].map(str::to_string);
                out.push(Exception {
                    line: index + 1,
                    kind,
                    file,
                    name,
                });
            }
            _ => {
                return Err(format!(
                    "line {}: an exception is KIND FILE NAME  # REASON",
                    index + 1
                ))
            }
        }
    }
    Ok(out)
}

impl Exception {
    /// Whether it is for a finding of this kind in a file, whose path is from the top of the
    /// repository.
    pub fn covers(&self, kind: &str, path: &str, name: &str) -> bool {
        let path = path.strip_prefix("crates/").unwrap_or(path);
        let path = path.strip_suffix(".antt").unwrap_or(path);
        let file = match self.file.strip_suffix('*') {
            Some(start) => path.starts_with(start),
            None => path == self.file,
        };
        self.kind == kind && file && (self.name == "*" || self.name == name)
    }

    /// The exception as it is written, without its reason.
    pub fn entry(&self) -> String {
        format!("{} {} {}", self.kind, self.file, self.name)
    }
}

#[cfg(test)]
mod tests {
    use super::*;

    #[test]
    fn an_exception_covers_what_it_names() {
        let all = parse(
            "# a comment\n\nuncited a/proofs/B law  # an end result\nuncited c/* *  # cases\n",
        )
        .expect("right");
        assert_eq!(all.len(), 2);
        assert!(all[0].covers("uncited", "crates/a/proofs/B.antt", "law"));
        assert!(!all[0].covers("doubled", "crates/a/proofs/B.antt", "law"));
        assert!(!all[0].covers("uncited", "crates/a/proofs/B.antt", "other"));
        assert!(!all[0].covers("uncited", "crates/a/proofs/Bb.antt", "law"));
        assert!(all[1].covers("uncited", "crates/c/specs/D.antt", "x"));
    }

    #[test]
    fn an_exception_needs_a_kind_and_a_reason() {
        assert!(parse("uncited a/B law\n").is_err());
        assert!(parse("uncited a/B law  #  \n").is_err());
        assert!(parse("a/B law  # a reason\n").is_err());
    }
}
