//! All files of the crates, and which file or type a module is.

use crate::antt::{self, Decl, Parts, Sort};
use crate::rt::{self, Code};
use std::collections::{HashMap, HashSet};
use std::io;
use std::path::Path;

/// A file: its path from the top of the repository, and its text.
pub struct Source {
    pub path: String,
    pub text: String,
}

impl Source {
    pub fn new(path: &str, text: &str) -> Source {
        Source {
            path: path.into(),
            text: text.into(),
        }
    }
}

/// A file of definitions, statements, laws or proofs.
pub struct AnttFile<'a> {
    pub path: &'a str,
    pub text: &'a str,
    pub parts: Parts<'a>,
}

impl AnttFile<'_> {
    /// Whether it is a file of definitions and statements.
    pub fn in_specs(&self) -> bool {
        self.path.split('/').nth(2) == Some("specs")
    }

    /// Whether a declaration stands by itself, since the check asks for it: in a function's
    /// `Proof.antt` its theorem `F_spec`, and in its `Invariants.antt` and `Answers.antt` what is
    /// of a type that the check generates, as `goal.returns`.
    pub fn is_asked(&self, decl: &Decl<'_>) -> bool {
        let mut names = self.path.rsplit('/');
        let (file, folder) = (names.next().unwrap_or(""), names.next().unwrap_or(""));
        match file {
            "Proof.antt" => decl.name.replace('-', "_") == format!("{folder}_spec"),
            "Invariants.antt" | "Answers.antt" => {
                let first = self.parts.tokens[decl.signature.clone()].first();
                let (module, _) = first.map_or("", |t| t.text).split_once('.').unzip();
                self.parts.imports.iter().any(|i| {
                    let generated = i.module.ends_with(".Given") || i.module.ends_with(".Goals");
                    i.name.is_none() && generated && Some(i.local) == module
                })
            }
            _ => false,
        }
    }
}

/// A file of code.
pub struct CodeFile<'a> {
    pub path: &'a str,
    pub text: &'a str,
    pub code: Code<'a>,
}

/// What a name of the crates stands for: a declaration of an antt file, or a type of a code file.
#[derive(Clone, Copy, PartialEq, Eq, Hash, PartialOrd, Ord, Debug)]
pub enum Item {
    Decl(usize, usize),
    Type(usize, usize),
}

/// An item, and whether the name is that of one of its constructors.
pub struct Found {
    pub item: Item,
    pub constructor: bool,
}

/// The files of the crates.
#[derive(Default)]
pub struct Tree<'a> {
    pub antt: Vec<AnttFile<'a>>,
    pub code: Vec<CodeFile<'a>>,
    /// The crates, bottom up.
    pub layers: Vec<&'a str>,
    names: HashMap<(String, &'a str), (Item, bool)>,
    /// The antt files as modules, and the modules that hold them.
    modules: HashSet<String>,
    /// What `pub use` lines of a module pass on under a name: a name of another module, or a whole
    /// one.
    passed: HashMap<(String, &'a str), (String, Option<&'a str>)>,
}

/// So many `pub use` lines lead from a name to its declaration at the most.
const MOST_PASSES: usize = 16;

/// Reads `crates.txt`, and every antt file and code file of `crates/*/{src,specs,proofs}` below a
/// folder, sorted by path.
pub fn load(root: &Path) -> io::Result<Vec<Source>> {
    let layers = std::fs::read_to_string(root.join("crates.txt"))?;
    let mut out = vec![Source {
        path: "crates.txt".to_string(),
        text: layers,
    }];
    for entry in std::fs::read_dir(root.join("crates"))? {
        let name = entry?.file_name().to_string_lossy().into_owned();
        for part in ["src", "specs", "proofs"] {
            let folder = format!("crates/{name}/{part}");
            if root.join(&folder).is_dir() {
                load_folder(root, &folder, &mut out)?;
            }
        }
    }
    out.sort_by(|a, b| a.path.cmp(&b.path));
    Ok(out)
}

fn load_folder(root: &Path, folder: &str, out: &mut Vec<Source>) -> io::Result<()> {
    for entry in std::fs::read_dir(root.join(folder))? {
        let entry = entry?;
        let path = format!("{folder}/{}", entry.file_name().to_string_lossy());
        if entry.file_type()?.is_dir() {
            load_folder(root, &path, out)?;
        } else if path.ends_with(".antt") || path.ends_with(".rt") {
            let text = std::fs::read_to_string(entry.path())?;
            out.push(Source { path, text });
        }
    }
    Ok(())
}

/// The crates of `crates.txt`, in its order.
fn layers(text: &str) -> Vec<&str> {
    text.lines()
        .filter(|line| !line.starts_with('#'))
        .filter_map(|line| line.split_once(':'))
        .filter_map(|(head, _)| head.split_whitespace().next())
        .collect()
}

/// What the path of a crate's module begins with.
pub const CRATES: &str = "Rattle.";

/// A module by its crate and its path there: `job/specs/Job`. Modules of no crate stay.
pub fn canonical(module: &str) -> String {
    match module.strip_prefix(CRATES) {
        Some(path) => path.replace('.', "/"),
        None => module.to_string(),
    }
}

/// The module of an antt file; a folder's own is its `Lib.antt`.
fn module_of(path: &str) -> String {
    let path = path.strip_prefix("crates/").unwrap_or(path);
    let path = path.strip_suffix(".antt").unwrap_or(path);
    path.strip_suffix("/Lib").unwrap_or(path).to_string()
}

/// The module that declares the types of a code file.
fn declaring(path: &str) -> String {
    let path = path.strip_prefix("crates/").unwrap_or(path);
    let path = path.strip_suffix(".rt").unwrap_or(path);
    let (owner, file) = path.split_once("/src/").unwrap_or((path, ""));
    match file {
        "lib" | "main" | "" => format!("{owner}/specs/declared"),
        _ => format!("{owner}/specs/declared/{file}"),
    }
}

impl<'a> Tree<'a> {
    pub fn new(sources: &'a [Source]) -> Tree<'a> {
        let mut tree = Tree::default();
        for source in sources {
            if source.path.ends_with(".antt") {
                tree.add_antt(source);
            } else if source.path.ends_with(".rt") {
                tree.add_code(source);
            } else {
                tree.layers = layers(&source.text);
            }
        }
        tree
    }

    fn add_antt(&mut self, source: &'a Source) {
        let parts = antt::parse(&source.text);
        let module = module_of(&source.path);
        let ends = module
            .match_indices('/')
            .map(|(end, _)| end)
            .chain([module.len()]);
        self.modules
            .extend(ends.map(|end| module[..end].to_string()));
        for import in parts.imports.iter().filter(|i| i.passed_on) {
            let target = (canonical(&import.module), import.name);
            self.passed.insert((module.clone(), import.local), target);
        }
        for (i, decl) in parts.decls.iter().enumerate() {
            let item = Item::Decl(self.antt.len(), i);
            self.names
                .insert((module.clone(), decl.name), (item, false));
            if decl.sort == Sort::Data {
                for member in &decl.members {
                    self.names.insert((module.clone(), member), (item, true));
                }
            }
        }
        self.antt.push(AnttFile {
            path: &source.path,
            text: &source.text,
            parts,
        });
    }

    fn add_code(&mut self, source: &'a Source) {
        let code = rt::parse(&source.text);
        let module = declaring(&source.path);
        for (i, declared) in code.types.iter().enumerate() {
            let item = Item::Type(self.code.len(), i);
            let own = format!("{module}/{}", declared.name);
            for variant in &declared.variants {
                self.names
                    .insert((format!("{own}/TheVariants"), variant), (item, true));
            }
            self.names.insert((own, declared.name), (item, false));
        }
        self.code.push(CodeFile {
            path: &source.path,
            text: &source.text,
            code,
        });
    }

    /// What a name of a module stands for, also where the module passes it on; the module is a
    /// canonical one.
    pub fn find(&self, module: &str, name: &'a str) -> Option<Found> {
        let mut place = (self.declares(module), name);
        for _ in 0..MOST_PASSES {
            if let Some(&(item, constructor)) = self.names.get(&place) {
                return Some(Found { item, constructor });
            }
            let (module, name) = self.passed.get(&place)?;
            place = (self.declares(module), (*name)?);
        }
        None
    }

    /// The module itself, where a path leads to it by a module that passes it on whole.
    fn declares(&self, module: &str) -> String {
        let mut out = String::new();
        for name in module.split('/') {
            let whole = self.passed.get(&(out.clone(), name));
            out = match whole {
                Some((target, None)) => target.clone(),
                _ if out.is_empty() => name.to_string(),
                _ => format!("{out}/{name}"),
            };
        }
        out
    }

    /// Whether there is such a module.
    pub fn is_module(&self, module: &str) -> bool {
        self.modules.contains(&self.declares(module))
    }

    /// The module of a name in a module, if there is one.
    pub fn below(&self, module: &str, name: &str) -> Option<String> {
        let below = self.declares(&format!("{module}/{name}"));
        self.modules.contains(&below).then_some(below)
    }

    /// The path and the line of an item, and its name.
    pub fn place(&self, item: Item) -> (&'a str, usize, &'a str) {
        match item {
            Item::Decl(f, d) => {
                let decl = &self.antt[f].parts.decls[d];
                (self.antt[f].path, decl.line, decl.name)
            }
            Item::Type(f, t) => {
                let declared = &self.code[f].code.types[t];
                (self.code[f].path, declared.line, declared.name)
            }
        }
    }

    /// The layer of an item's crate, bottom up.
    pub fn layer(&self, item: Item) -> usize {
        let name = self.place(item).0.split('/').nth(1);
        self.layers
            .iter()
            .position(|&layer| Some(layer) == name)
            .unwrap_or(self.layers.len())
    }

    /// An item in one line: `path:line name`.
    pub fn label(&self, item: Item) -> String {
        let (path, line, name) = self.place(item);
        format!("{path}:{line} {name}")
    }
}

#[cfg(test)]
mod tests;
