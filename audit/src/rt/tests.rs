use super::*;

const TEXT: &str = "// A file.
#![tactic(auto)]
ghost use a.B.{c, d as e};
ghost use a.C;
use crate::item::Item;
pub use low::{self, m::{A, B as C}, n::*};

// An enum.
pub enum Said {
    Passed,
    Refused(u16, u16),
}

pub struct Mode(pub u8);

pub struct Room {
    pub size: u16,
    ghost within: { size ≤ c },
}

impl Mode {
    ghost view = { λ m. e m };

    #[tactic(auto, using(crate::proofs::Laws::one, low::proofs::L::two), unfolding(crate::specs::S::three))]
    #[unsafe(no_mangle)]
    pub extern \"C\" fn two(
        mut x: u16,
        y: &mut [u16; 3],
    ) -> u16
        requires { c x }
        ensures value { result ≡ e x }
        ensures* kept { y.new ≡ y.old }
    {
        if x { y[f(0)] } else { 1 }
    }
}

fn one<F: Fn(u8) -> bool>(&self, f: F) -> bool
    ghost n: { ℕ }
{
    true
}
";

#[test]
fn contracts_have_their_parts() {
    let code = parse(TEXT);
    let two = &code.contracts[0];
    assert_eq!(
        (two.function, two.line, two.public, two.exported, two.asks),
        ("two", 26, true, true, true)
    );
    assert_eq!(two.parameters, ["x", "y"]);
    assert_eq!(two.clauses.len(), 3);
    assert_eq!(code.tokens[two.signature.end - 1].text, "requires");
    let one = &code.contracts[1];
    assert_eq!(
        (
            one.function,
            one.public,
            one.exported,
            one.asks,
            one.clauses.len()
        ),
        ("one", false, false, false, 1)
    );
    assert_eq!(one.parameters, ["self", "f", "n"]);
}

#[test]
fn ghosts_and_tactics_are_found() {
    let code = parse(TEXT);
    assert_eq!(
        code.cited,
        [
            "crate::proofs::Laws::one",
            "low::proofs::L::two",
            "crate::specs::S::three"
        ]
    );
    let text = |range: &Range<usize>| code.tokens[range.clone()].iter().map(|t| t.text);
    let room = &code.types[2];
    assert_eq!(
        (room.name, &room.fields[..]),
        ("Room", &["size", "within"][..])
    );
    assert!(text(&room.ghosts[0]).eq(["size", "≤", "c"]));
    assert_eq!(code.ghosts.len(), 1);
    assert!(text(&code.ghosts[0]).eq(["λ", "m", ".", "e", "m"]));
}

#[test]
fn types_and_imports_have_their_names() {
    let code = parse(TEXT);
    assert_eq!(
        (
            code.types[0].name,
            code.types[0].line,
            code.types[0].last_line
        ),
        ("Said", 9, 12)
    );
    assert_eq!(code.types[0].variants, ["Passed", "Refused"]);
    assert_eq!((code.types[1].name, code.types[1].line), ("Mode", 14));
    assert_eq!(
        code.imports.iter().map(|i| i.local).collect::<Vec<_>>(),
        ["c", "e", "C"]
    );
    assert!(!code.uses[0].passed_on && code.uses[1].passed_on);
    let uses: Vec<(&str, &str)> = code.uses.iter().map(|u| (&u.path[..], u.local)).collect();
    assert_eq!(
        uses,
        [
            ("crate::item::Item", "Item"),
            ("low", "low"),
            ("low::m::A", "A"),
            ("low::m::B", "C")
        ]
    );
}

#[test]
fn an_array_in_a_result_does_not_end_a_signature() {
    let code = parse("fn f(x: u8) -> Option<[u32; N]>\n    ensures { c x }\n{\n    None\n}\n");
    assert_eq!(code.contracts[0].clauses.len(), 1);
}
