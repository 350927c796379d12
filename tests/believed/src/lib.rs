//! Which definitions a reader must believe: those that given statements reach, name by name, and not only through definitions that
//! another part of the statements determines. Every word counts, a bound variable with the name of a definition too, so that rather
//! too much is listed than too little.

mod read;
pub mod report;

pub use read::{Module, Text};
use std::collections::{BTreeMap, BTreeSet};

/// A file's path, or a module of the kit; and a name in it.
pub type Place = (String, String);

/// The files of a project by their paths.
pub type Book = BTreeMap<String, Module>;

/// Names that need no import.
const BUILT_IN: [&str; 5] = ["Type", "Unit", "⊥", "×", "result"];

/// Types of the kit that a source names with no import. Where a file imports the name, or has its own, it is followed like any other.
const IN_SOURCES: [&str; 2] = ["Result", "Option"];

#[derive(Default)]
pub struct Reached<'a> {
    pub statements: BTreeMap<Place, &'a Text>,
    pub definitions: BTreeMap<Place, &'a Text>,
    /// What is reached through determined definitions alone, with these.
    pub determined: BTreeMap<Place, &'a Text>,
    pub kit: BTreeSet<Place>,
    /// Words that stand for nothing known, each with the place where it is.
    pub unknown: BTreeSet<(Place, String)>,
}

/// The definition, or the kit's name, that a name in a file or in a folder of sources stands for.
fn lookup(book: &Book, path: &str, name: &str) -> Option<Place> {
    if !path.starts_with("crates/") {
        return Some((path.into(), name.into()));
    }
    if path.ends_with('/') {
        let declares = |file: &&String| file.starts_with(path) && book[*file].definitions.contains_key(name);
        return Some((book.keys().find(declares)?.clone(), name.into()));
    }
    let module = book.get(path)?;
    let name = module.constructors.get(name).map_or(name, String::as_str);
    if module.definitions.contains_key(name) {
        return Some((path.into(), name.into()));
    }
    let (path, name) = module.imports.get(name)?;
    lookup(book, path, name)
}

/// What a word in a file may stand for: a name, and each operator that it is a part of, such as `if◌then◌else◌`.
fn resolve(book: &Book, path: &str, word: &str) -> Vec<Place> {
    let names = book[path].definitions.keys().chain(book[path].imports.keys());
    let has_part = |name: &&String| name.split('◌').any(|part| part == word);
    let operators = names.filter(has_part).map(String::as_str);
    operators.chain([word]).filter_map(|name| lookup(book, path, name)).collect()
}

/// Goes from texts to all definitions below them, but not to those that are left out.
fn follow<'a>(book: &'a Book, statements: BTreeMap<Place, &'a Text>, out: &[Place]) -> Reached<'a> {
    let mut reached = Reached { statements, ..Reached::default() };
    let mut todo: Vec<(Place, &Text)> = reached.statements.clone().into_iter().collect();
    while let Some((place, text)) = todo.pop() {
        for word in text.names.iter().filter(|word| !BUILT_IN.contains(&word.as_str())) {
            let found = resolve(book, &place.0, word);
            if found.is_empty() && !text.bound.contains(word) && !IN_SOURCES.contains(&word.as_str()) {
                reached.unknown.insert((place.clone(), word.clone()));
            }
            for found in found.into_iter().filter(|found| !out.contains(found)) {
                match book.get(&found.0).map(|module| &module.definitions[&found.1]) {
                    Some(text) if !reached.definitions.contains_key(&found) => {
                        reached.definitions.insert(found.clone(), text);
                        todo.push((found, text));
                    }
                    Some(_) => {}
                    None => {
                        reached.kit.insert(found);
                    }
                }
            }
        }
    }
    reached
}

/// Goes from statements, each the name of a theorem or of a public function, with its file. Definitions that the statements determine
/// are left out, and what only they reach; both are told apart.
pub fn reach<'a>(book: &'a Book, statements: &[Place], determined: &[Place]) -> Result<Reached<'a>, String> {
    let mut texts = BTreeMap::new();
    for (path, name) in statements {
        let text = book.get(path).and_then(|module| module.statements.get(name));
        texts.insert((path.clone(), name.clone()), text.ok_or(format!("{path} has no statement {name}"))?);
    }
    let mut reached = follow(book, texts.clone(), determined);
    let all = follow(book, texts, &[]);
    if let Some((path, name)) = determined.iter().find(|place| !all.definitions.contains_key(place)) {
        return Err(format!("no statement reaches {name} of {path}"));
    }
    reached.unknown = all.unknown;
    reached.determined = all.definitions;
    reached.determined.retain(|place, _| !reached.definitions.contains_key(place));
    Ok(reached)
}
