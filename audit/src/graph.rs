//! What cites what: every declaration and every contract with the items and the imports that it
//! uses.

use crate::scope::Scope;
use crate::tree::{Item, Tree};
use crate::types::named_in;
use crate::walk::Walk;
use std::collections::{HashMap, HashSet};

/// What a contract cites.
pub struct Cited {
    pub file: usize,
    pub contract: usize,
    pub items: Vec<Item>,
}

/// The citations of all files.
pub struct Graph<'a> {
    /// The scope of each antt file.
    pub scopes: Vec<Scope<'a>>,
    /// What each declaration cites and each type of the code names, itself left out.
    pub cites: HashMap<Item, Vec<Item>>,
    pub contracts: Vec<Cited>,
    /// The imports that are used, by file.
    pub used_antt: Vec<HashSet<usize>>,
    pub used_code: Vec<HashSet<usize>>,
    /// What `pub use` lines pass on.
    pub passed_on: Vec<Item>,
    /// What ghost fields, ghost members and `tactic` attributes of the code cite.
    pub in_code: Vec<Item>,
    /// The helpers behind `where` that nothing uses: file, line and name.
    pub idle_helpers: Vec<(usize, usize, &'a str)>,
}

impl<'a> Graph<'a> {
    pub fn new(tree: &Tree<'a>) -> Graph<'a> {
        let scopes = (0..tree.antt.len()).map(|f| antt_scope(tree, f)).collect();
        let mut graph = Graph {
            scopes,
            cites: HashMap::new(),
            contracts: Vec::new(),
            used_antt: Vec::new(),
            used_code: Vec::new(),
            passed_on: Vec::new(),
            in_code: Vec::new(),
            idle_helpers: Vec::new(),
        };
        for file in 0..tree.antt.len() {
            graph.antt_file(tree, file);
        }
        for file in 0..tree.code.len() {
            graph.code_file(tree, file);
        }
        graph
    }

    fn antt_file(&mut self, tree: &Tree<'a>, file: usize) {
        let parts = &tree.antt[file].parts;
        let mut used = HashSet::new();
        for (i, decl) in parts.decls.iter().enumerate() {
            let mut walk = Walk::new(tree, &self.scopes[file], &parts.tokens);
            walk.declaration(parts, decl);
            self.idle_helpers
                .extend(walk.idle_helpers().map(|t| (file, t.line, t.text)));
            used.extend(walk.imports);
            let own = Item::Decl(file, i);
            let mut items: Vec<Item> = walk.items.into_iter().filter(|&item| item != own).collect();
            items.sort();
            items.dedup();
            self.cites.insert(own, items);
        }
        for (i, import) in parts
            .imports
            .iter()
            .enumerate()
            .filter(|(_, import)| import.passed_on)
        {
            used.insert(i);
            self.passed_on
                .extend(self.scopes[file].find(import.local).and_then(|m| m.item));
        }
        self.used_antt.push(used);
    }

    fn code_file(&mut self, tree: &Tree<'a>, file: usize) {
        let code = &tree.code[file].code;
        let scope = Scope::new(tree, 0, &[], &code.imports);
        let mut used = HashSet::new();
        for (i, contract) in code.contracts.iter().enumerate() {
            let mut walk = Walk::new(tree, &scope, &code.tokens);
            for parameter in &contract.parameters {
                walk.bind(parameter);
            }
            for clause in &contract.clauses {
                walk.expression(clause.clone());
            }
            used.extend(walk.imports);
            self.contracts.push(Cited {
                file,
                contract: i,
                items: walk.items,
            });
        }
        for (i, declared) in code.types.iter().enumerate() {
            let own = Item::Type(file, i);
            let mut named = named_in(tree, file, declared.body.clone());
            for ghost in &declared.ghosts {
                let mut walk = Walk::new(tree, &scope, &code.tokens);
                for field in &declared.fields {
                    walk.bind(field);
                }
                walk.expression(ghost.clone());
                used.extend(walk.imports);
                self.in_code.extend(&walk.items);
                named.extend(walk.items);
            }
            self.cites
                .insert(own, named.into_iter().filter(|&item| item != own).collect());
        }
        for ghost in &code.ghosts {
            let mut walk = Walk::new(tree, &scope, &code.tokens);
            walk.expression(ghost.clone());
            used.extend(walk.imports);
            self.in_code.extend(walk.items);
        }
        // A trait or an impl may import again what stands at the top.
        let again = |i: &usize| {
            let local = code.imports[*i].local;
            used.iter().any(|&j| code.imports[j].local == local)
        };
        let all: HashSet<usize> = (0..code.imports.len()).filter(again).collect();
        self.used_code.push(all);
        self.in_code.extend(tactics(tree, file));
    }

    /// All that the roots cite, themselves included.
    pub fn reached(&self, roots: impl IntoIterator<Item = Item>) -> HashSet<Item> {
        let mut out = HashSet::new();
        let mut open: Vec<Item> = roots.into_iter().collect();
        while let Some(item) = open.pop() {
            if out.insert(item) {
                open.extend(self.cites.get(&item).into_iter().flatten());
            }
        }
        out
    }

    /// Which declarations cite each item.
    pub fn cited_by(&self) -> HashMap<Item, Vec<Item>> {
        let mut out: HashMap<Item, Vec<Item>> = HashMap::new();
        for (&by, items) in &self.cites {
            for &item in items {
                out.entry(item).or_default().push(by);
            }
        }
        out.values_mut().for_each(|by| by.sort());
        out
    }
}

/// What the `tactic` attributes of a code file name: `crate::proofs::Laws::one`.
fn tactics(tree: &Tree<'_>, file: usize) -> Vec<Item> {
    let own = tree.code[file].path.split('/').nth(1).unwrap_or("");
    let found = |path: &&str| {
        let (module, name) = path.rsplit_once("::")?;
        let module = match module.strip_prefix("crate::") {
            Some(below) => format!("{own}/{below}"),
            None => module.to_string(),
        };
        Some(tree.find(&module.replace("::", "/"), name)?.item)
    };
    tree.code[file]
        .code
        .cited
        .iter()
        .filter_map(found)
        .collect()
}

fn antt_scope<'a>(tree: &Tree<'a>, file: usize) -> Scope<'a> {
    let parts = &tree.antt[file].parts;
    Scope::new(tree, file, &parts.decls, &parts.imports)
}
