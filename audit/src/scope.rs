//! What the names of a file stand for: its own declarations, and what its imports bring.

use crate::antt::{Decl, Import, Sort};
use crate::tree::{canonical, Item, Tree};
use std::collections::HashMap;

/// What a name of a file stands for.
#[derive(Clone, Debug)]
pub struct Meaning {
    /// The item of the crates; none for what comes from elsewhere.
    pub item: Option<Item>,
    pub constructor: bool,
    /// The import that brings it.
    pub import: Option<usize>,
    /// The same text for the same thing in every file.
    pub full: String,
}

/// A module that an import brings whole.
#[derive(Debug)]
pub struct Whole {
    pub import: usize,
    pub module: String,
}

/// The names of a file.
#[derive(Default, Debug)]
pub struct Scope<'a> {
    names: HashMap<&'a str, Meaning>,
    pub modules: HashMap<&'a str, Whole>,
}

/// Names of the libraries that patterns take apart.
const CONSTRUCTORS: [&str; 10] = [
    "true", "false", "zero", "suc", "[]", "some", "none", "inl", "inr", "tt",
];

/// The place of an argument in an operator's name.
pub const PLACE: char = '◌';

/// The words of an operator's name between its places: `≡` of `◌≡◌`.
pub fn words_of(name: &str) -> impl Iterator<Item = &str> {
    let all = std::iter::once(name).filter(|n| !n.contains(PLACE));
    all.chain(
        name.split(PLACE)
            .filter(move |w| !w.is_empty() && name.contains(PLACE)),
    )
}

impl<'a> Scope<'a> {
    /// The scope of the declarations and the imports of a file.
    pub fn new(
        tree: &Tree<'a>,
        file: usize,
        decls: &[Decl<'a>],
        imports: &[Import<'a>],
    ) -> Scope<'a> {
        let mut scope = Scope::default();
        for (i, import) in imports.iter().enumerate() {
            scope.import(tree, i, import);
        }
        for (i, decl) in decls.iter().enumerate() {
            let item = Item::Decl(file, i);
            scope.add(decl.name, own(item, file, decl.name, false));
            if decl.sort == Sort::Data {
                for member in &decl.members {
                    scope.add(member, own(item, file, member, true));
                }
            }
        }
        scope
    }

    fn import(&mut self, tree: &Tree<'a>, number: usize, import: &Import<'a>) {
        let module = canonical(&import.module);
        match import.name {
            None => {
                self.modules.insert(
                    import.local,
                    Whole {
                        import: number,
                        module,
                    },
                );
            }
            Some(name) => {
                let meaning = Scope::member(tree, &module, name, Some(number));
                self.add(import.local, meaning);
            }
        }
    }

    /// What a name of a module stands for.
    pub fn member(tree: &Tree<'a>, module: &str, name: &'a str, import: Option<usize>) -> Meaning {
        match tree.find(module, name) {
            Some(found) => Meaning {
                item: Some(found.item),
                constructor: found.constructor,
                import,
                full: format!("{:?}.{name}", found.item),
            },
            None => {
                let constructor = name.contains(PLACE)
                    || CONSTRUCTORS.contains(&name)
                    || name.starts_with(char::is_uppercase)
                    || module.ends_with("TheVariants")
                    || module.ends_with("/Goals");
                Meaning {
                    item: None,
                    constructor,
                    import,
                    full: format!("{module}.{name}"),
                }
            }
        }
    }

    fn add(&mut self, name: &'a str, meaning: Meaning) {
        for word in words_of(name) {
            self.names.insert(word, meaning.clone());
        }
        self.names.insert(name, meaning);
    }

    /// What a token stands for, in a section of an operator too: `◌+` and `+◌`.
    pub fn find(&self, text: &str) -> Option<&Meaning> {
        self.names
            .get(text)
            .or_else(|| self.names.get(text.trim_matches(PLACE)))
    }
}

fn own(item: Item, _file: usize, name: &str, constructor: bool) -> Meaning {
    Meaning {
        item: Some(item),
        constructor,
        import: None,
        full: format!("{item:?}.{name}"),
    }
}

#[cfg(test)]
mod tests {
    use super::*;

    #[test]
    fn an_operator_is_found_by_its_words() {
        assert_eq!(words_of("◌≡◌").collect::<Vec<_>>(), ["≡"]);
        assert_eq!(words_of("∥◌∥₁").collect::<Vec<_>>(), ["∥", "∥₁"]);
        assert_eq!(words_of("get_or-drop").collect::<Vec<_>>(), ["get_or-drop"]);
    }

    #[test]
    fn imports_bring_names_and_modules() {
        let parts = crate::antt::parse("use lib.Nat.{◌+◌, length as size}\nuse lib.List as l\n");
        let scope = Scope::new(&Tree::default(), 0, &parts.decls, &parts.imports);
        assert_eq!(
            scope.find("+").map(|m| m.full.as_str()),
            Some("lib.Nat.◌+◌")
        );
        assert_eq!(scope.find("◌+").and_then(|m| m.import), Some(0));
        assert!(scope.find("_").is_none());
        assert_eq!(
            scope.find("size").map(|m| m.full.as_str()),
            Some("lib.Nat.length")
        );
        assert!(scope.find("length").is_none());
        assert_eq!(scope.modules["l"].module, "lib.List");
    }
}
