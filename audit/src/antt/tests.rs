use super::*;

const TEXT: &str = "-- A file.
use a.B.{c, d as e,
  f, C.◌+◌}
use g.H as h
use g.I

-- one
abbrev pub one : ℕ
one = 1

module _ (n : ℕ)
    (m : ℕ) where
  pub two {ℓ} :
      ℕ
      → ℕ
  unfolding one
  two zero = one
  two (suc k) = go
    where
      go : ℕ
      go = 2

  module _ (k : ℕ) where
    three : ℕ
    three = 3

pub record R (n : ℕ) : Type 0 where
  -- a field
  pub x : ℕ
  y : ℕ
  pub open x use *

mutual
  even : ℕ → ℕ
  even n = odd n

  odd : ℕ → ℕ
  odd n = even n

pub ruleset laws = (one, ← two)
";

#[test]
fn declarations_have_their_parts() {
    let parts = parse(TEXT);
    let names: Vec<(&str, usize, usize, Option<usize>)> = parts
        .decls
        .iter()
        .map(|d| (d.name, d.line, d.clauses.len(), d.section))
        .collect();
    assert_eq!(
        names,
        [
            ("one", 8, 1, None),
            ("two", 13, 2, Some(0)),
            ("three", 24, 1, Some(1)),
            ("R", 27, 2, None),
            ("even", 34, 1, None),
            ("odd", 37, 1, None),
            ("laws", 40, 1, None)
        ]
    );
    assert_eq!(parts.decls[0].marks, ["abbrev", "pub"]);
    assert_eq!(parts.decls[1].unfolding.len(), 1);
    assert_eq!(parts.decls[3].members, ["x", "y"]);
    assert_eq!(parts.sections[1].parent, Some(0));
}

#[test]
fn a_bracket_that_closes_at_the_margin_ends_no_clause() {
    let text = "one : R\none = record {\n  x = 1;\n}\n  where\n    two : ℕ\n    two = 2\n\nthree : ℕ\nthree = 3\n";
    let parts = parse(text);
    let names: Vec<(&str, usize)> = parts
        .decls
        .iter()
        .map(|d| (d.name, d.clauses.len()))
        .collect();
    assert_eq!(names, [("one", 1), ("three", 1)]);
    assert_eq!(parts.tokens[parts.decls[0].last_token()].text, "2");
}

#[test]
fn imports_have_their_names() {
    let parts = parse(TEXT);
    let names: Vec<(&str, Option<&str>, &str)> = parts
        .imports
        .iter()
        .map(|i| (i.module.as_str(), i.name, i.local))
        .collect();
    assert_eq!(
        names,
        [
            ("a.B", Some("c"), "c"),
            ("a.B", Some("d"), "e"),
            ("a.B", Some("f"), "f"),
            ("a.B.C", Some("◌+◌"), "◌+◌"),
            ("g.H", None, "h"),
            ("g.I", None, "I")
        ]
    );
}
