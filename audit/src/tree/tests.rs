use super::*;

#[test]
fn a_module_has_one_name() {
    assert_eq!(canonical("Rattle.job.specs.Job"), "job/specs/Job");
    assert_eq!(canonical("Rattle.a.proofs.b.C"), "a/proofs/b/C");
    assert_eq!(canonical("lib.Dec"), "lib.Dec");
    assert_eq!(module_of("crates/job/specs/Job.antt"), "job/specs/Job");
    assert_eq!(module_of("crates/job/specs/Lib.antt"), "job/specs");
}

#[test]
fn names_and_modules_that_are_passed_on_are_found() {
    let sources = [
        Source::new(
            "crates/high/specs/H.antt",
            "pub use Rattle.mid.specs.Low.{a as b}\n",
        ),
        Source::new("crates/low/specs/Low.antt", "pub a : ℕ\na = 1\n"),
        Source::new(
            "crates/mid/specs/Lib.antt",
            "pub use Rattle.low.specs.Low\n",
        ),
    ];
    let tree = Tree::new(&sources);
    let found = |module: &str, name| tree.find(module, name).map(|f| f.item);
    assert_eq!(found("mid/specs/Low", "a"), Some(Item::Decl(1, 0)));
    assert_eq!(found("high/specs/H", "b"), Some(Item::Decl(1, 0)));
    assert_eq!(found("high/specs/H", "a"), None);
    assert_eq!(
        tree.below("mid/specs", "Low").as_deref(),
        Some("low/specs/Low")
    );
}

#[test]
fn names_are_found_in_their_modules() {
    let sources = [
        Source::new(
            "crates/job/specs/V.antt",
            "pub data V : Type 0 where\n  pass : V\n",
        ),
        Source::new("crates/job/src/item.rt", "pub enum Item {\n    A,\n}\n"),
    ];
    let tree = Tree::new(&sources);
    let pass = tree.find("job/specs/V", "pass").expect("a constructor");
    assert!(pass.constructor && pass.item == Item::Decl(0, 0));
    assert!(tree
        .find("job/specs/declared/item/Item", "Item")
        .is_some_and(|f| !f.constructor));
    assert!(tree
        .find("job/specs/declared/item/Item/TheVariants", "A")
        .is_some_and(|f| f.constructor));
    assert!(tree.find("job/specs/V", "other").is_none());
    assert_eq!(tree.below("job/specs", "V").as_deref(), Some("job/specs/V"));
    assert_eq!(tree.below("job/specs", "W"), None);
}

#[test]
fn layers_are_those_of_the_list() {
    let sources = [
        Source::new("crates.txt", "# Bottom up.\nlow:\nhigh staticlib: low\n"),
        Source::new("crates/high/specs/A.antt", "a : ℕ\na = 1\n"),
        Source::new("crates/low/specs/B.antt", "b : ℕ\nb = 1\n"),
    ];
    let tree = Tree::new(&sources);
    assert_eq!(tree.layers, ["low", "high"]);
    assert!(tree.layer(Item::Decl(1, 0)) < tree.layer(Item::Decl(0, 0)));
}

/// The names of the declarations of a file that stand by themselves.
fn asked<'a>(path: &'a str, text: &'a str) -> Vec<&'a str> {
    let file = AnttFile {
        path,
        text,
        parts: antt::parse(text),
    };
    let decls = file.parts.decls.iter().filter(|d| file.is_asked(d));
    decls.map(|d| d.name).collect()
}

#[test]
fn what_the_check_asks_for_stands_by_itself() {
    let text = "use Rattle.a.proofs.b.cut_at.Goals as goal
use Rattle.a.proofs.b.cut_at.Given as given
use Rattle.a.specs.B as other
low : other.returns
low = refl

pub returns : goal.returns
returns c = low

abbrev pub invariant-loop-i : given.invariant-loop-i
invariant-loop-i l = low

pub cut_at_spec : {M : Type 1} → statement M
cut_at_spec = low
";
    let at = |file: &str| format!("crates/a/proofs/b/cut_at/{file}.antt");
    let goals = ["returns", "invariant-loop-i"];
    assert_eq!(asked(&at("Answers"), text), goals);
    assert_eq!(asked(&at("Invariants"), text), goals);
    assert_eq!(asked(&at("Proof"), text), ["cut_at_spec"]);
    assert!(asked("crates/a/proofs/Laws.antt", text).is_empty());
    let cycle = "pub +ring_spec : statement M\n+ring_spec = low\n";
    assert_eq!(
        asked("crates/a/proofs/+ring/Proof.antt", cycle),
        ["+ring_spec"]
    );
}
