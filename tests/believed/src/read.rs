//! The definitions and statements of files.

use crate::Place;
use std::collections::{BTreeMap, BTreeSet};

/// Marks before a definition's name.
const MARKS: [&str; 4] = ["unfoldable", "abbrev", "pub", "axiom"];

/// Other words that are no names.
const RESERVED: &str = "( ) { } ; , . : = → λ _ record data module where let in unfolding ensures requires";

/// A definition or a statement: its lines, the names in it, and those of them that it binds somewhere.
#[derive(Clone, Default)]
pub struct Text {
    pub lines: BTreeSet<usize>,
    pub names: BTreeSet<String>,
    pub bound: BTreeSet<String>,
}

#[derive(Default)]
pub struct Module {
    pub definitions: BTreeMap<String, Text>,
    /// The types of definitions and theorems, and the contracts of public functions.
    pub statements: BTreeMap<String, Text>,
    /// The constructors of data types, each with its type's name.
    pub constructors: BTreeMap<String, String>,
    /// Imported names: the file, the folder of sources with a slash at its end, or the kit's module; and the name there.
    pub imports: BTreeMap<String, Place>,
    /// The numbers of the lines that hold code.
    pub code: Vec<usize>,
}

struct Line<'a> {
    number: usize,
    indent: usize,
    text: &'a str,
}

/// The lines that hold code, without their comments; a closing bracket alone is none.
fn code<'a>(text: &'a str, comment: &str) -> Vec<Line<'a>> {
    let mut lines = Vec::new();
    for (index, line) in text.lines().enumerate() {
        let begins = |at: &usize| line[..*at].chars().last().is_none_or(char::is_whitespace);
        let end = line.match_indices(comment).map(|(at, _)| at).find(begins).unwrap_or(line.len());
        let (text, indent) = (line[..end].trim(), line.len() - line.trim_start().len());
        if !text.trim_matches(['}', ')']).is_empty() {
            lines.push(Line { number: index + 1, indent, text });
        }
    }
    lines
}

/// The lines that begin at the first one's indent, each with the deeper lines below it and those that begin with a closing bracket.
fn entries<'a, 'b>(lines: &'b [Line<'a>]) -> impl Iterator<Item = &'b [Line<'a>]> {
    let base = lines.first().map_or(0, |line| line.indent);
    lines.chunk_by(move |_, next| next.indent > base || next.text.starts_with(['}', ')']))
}

fn numbers<T: FromIterator<usize>>(lines: &[Line]) -> T {
    lines.iter().map(|line| line.number).collect()
}

fn is_name(word: &&String) -> bool {
    let reserved = RESERVED.split(' ').any(|reserved| reserved == *word) || MARKS.contains(&word.as_str());
    !reserved && !word.starts_with(|c: char| c == '.' || c.is_ascii_digit())
}

/// Of a name in the sources.
fn is_letter(c: char) -> bool {
    c.is_alphanumeric() || c == '_'
}

/// The words of definitions and contracts. A field access is one word with its dot. An escaped name is the bare one, unless
/// that is no name.
fn words(lines: &[Line]) -> Vec<String> {
    let bracket = |c: char| "(){};,".contains(c);
    let ends = |c: char| c.is_whitespace() || bracket(c) || c == '.';
    let mut words = Vec::new();
    for line in lines {
        let mut rest = line.text;
        while let Some(first) = rest.chars().next() {
            let begun = first.len_utf8();
            let length = match first {
                '«' => rest.find('»').map_or(rest.len(), |at| at + '»'.len_utf8()),
                _ if bracket(first) => begun,
                _ => rest[begun..].find(ends).map_or(rest.len(), |at| begun + at),
            };
            let (word, after) = rest.split_at(length);
            let bare = word.trim_matches(['«', '»']).to_string();
            words.push(if is_name(&&bare) { bare } else { word.into() });
            rest = after.trim_start();
        }
    }
    words
}

impl Text {
    /// Of a definition or a contract. The names before a `:` or a `=`, and those behind a λ, are bound; so is a clause's own.
    fn of_logic(lines: &[Line]) -> Text {
        let words = words(lines);
        let mut bound = BTreeSet::new();
        for (at, word) in words.iter().enumerate() {
            match word.as_str() {
                ":" | "=" => bound.extend(words[..at].iter().rev().take_while(is_name).cloned()),
                "λ" | "ensures" | "requires" => {
                    bound.extend(words[at + 1..].iter().take_while(is_name).cloned())
                }
                _ => {}
            }
        }
        Text { lines: numbers(lines), names: words.iter().filter(is_name).cloned().collect(), bound }
    }

    /// Of a declared type or a function's head. Types begin with a capital; fields and variants stand first in their lines.
    fn of_rattle(lines: &[Line]) -> Text {
        let mut text = Text { lines: numbers(lines), ..Text::default() };
        for line in lines {
            let line = line.text.replace("pub ", "").replace("extern \"C\" ", "");
            let names = line.split(|c: char| !is_letter(c)).filter(|name| !name.is_empty());
            for (at, name) in names.enumerate() {
                match at > 0 && name.starts_with(char::is_uppercase) {
                    true => text.names.extend([name.into()]),
                    false => text.bound.extend([name.into(), format!("«{name}»")]),
                }
            }
        }
        text
    }

    fn with(mut self, other: &Text) -> Text {
        self.lines.extend(&other.lines);
        self.names.extend(other.names.iter().cloned());
        self.bound.extend(other.bound.iter().cloned());
        self
    }
}

impl Module {
    pub fn of_logic(text: &str) -> Module {
        let lines = code(text, "--");
        let mut module = Module { code: numbers(&lines), ..Module::default() };
        module.read(&lines, &Text::default());
        module
    }

    /// Reads definitions that stand below `outer`, the parameters of a module. Clauses belong to the signature above them.
    fn read(&mut self, lines: &[Line], outer: &Text) {
        let mut current = String::new();
        for entry in entries(lines) {
            let words: Vec<String> =
                words(entry).into_iter().skip_while(|word| MARKS.contains(&word.as_str())).collect();
            let ends_head = |line: &Line| line.text.ends_with("where");
            let (head, body) = entry.split_at(1 + entry.iter().position(ends_head).unwrap_or(0));
            let mut text = Text::of_logic(entry).with(outer);
            let divider = words.iter().position(|word| word == ":" || word == "=").unwrap_or(words.len());
            match words[0].as_str() {
                "use" => self.import(&words[1..]),
                "mod" | "infix" | "infixl" | "infixr" => continue,
                "module" => self.read(body, &Text::of_logic(head).with(outer)),
                kind @ ("record" | "data") => {
                    current = words[1].clone();
                    if kind == "data" {
                        let names = entries(body)
                            .flat_map(|entry| self::words(entry).into_iter().take_while(|word| word != ":"));
                        self.constructors.extend(names.map(|name| (name, current.clone())));
                    }
                    self.definitions.insert(current.clone(), text);
                }
                name => {
                    text.bound.extend(words[..divider].iter().filter(is_name).cloned());
                    if words.get(divider).is_some_and(|word| word == ":") {
                        current = name.into();
                        text.names.remove(name);
                        self.statements.insert(current.clone(), text.clone());
                    }
                    let before = self.definitions.remove(&current).unwrap_or_default();
                    self.definitions.insert(current.clone(), before.with(&text));
                }
            }
        }
    }

    /// `PATH.{a, b as c}`. Declared types and their variants are their declarations in the sources.
    fn import(&mut self, words: &[String]) {
        let (path, names) = words.split_at(words.iter().position(|word| word == "{").unwrap_or(words.len()));
        let path = path.concat();
        let parts: Vec<&str> = path.trim_end_matches('.').split('.').collect();
        for words in names.split(|word| !is_name(&word)) {
            let (Some(name), Some(local)) = (words.first(), words.last()) else { continue };
            let place = match &parts[..] {
                ["Rattle", package, _, "declared", name, ..] if *package != "std" => {
                    (format!("crates/{package}/src/"), name.to_string())
                }
                ["Rattle", package, file @ ..] if *package != "std" => {
                    (format!("crates/{package}/{}.antt", file.join("/")), name.clone())
                }
                _ => (parts.join("."), name.clone()),
            };
            self.imports.insert(local.clone(), place);
        }
    }

    pub fn of_rattle(text: &str) -> Module {
        let lines = code(text, "//");
        let mut module = Module { code: numbers(&lines), ..Module::default() };
        for entry in entries(&lines) {
            let line = entry[0].text.replace("pub extern \"C\" ", "pub ");
            let parts: Vec<&str> = line.split(|c: char| !is_letter(c)).collect();
            match parts[..] {
                ["ghost", "use", ..] => module.import(&words(entry)[2..]),
                ["use", package, "", ..] => {
                    let names =
                        entry.iter().flat_map(|line| line.text.split(|c: char| !is_letter(c))).skip(3);
                    let place = |name: &str| (format!("crates/{package}/src/"), name.into());
                    module.imports.extend(names.map(|name| (name.into(), place(name))));
                }
                ["struct" | "enum", name, ..] | ["pub", "struct" | "enum", name, ..] => {
                    module.definitions.insert(name.into(), Text::of_rattle(entry));
                }
                ["pub", "fn", name, ..] => {
                    let says =
                        |line: &Line| line.text.starts_with("ensures") || line.text.starts_with("requires");
                    let (head, contract) = entry.split_at(entry.iter().position(says).unwrap_or(entry.len()));
                    let text = Text::of_rattle(head).with(&Text::of_logic(contract));
                    module.statements.insert(name.into(), text);
                }
                _ => {}
            }
        }
        module
    }
}
