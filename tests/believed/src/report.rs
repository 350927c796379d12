//! The table and the counts.

use crate::{Book, Place, Reached, Text};
use std::collections::{BTreeMap, BTreeSet};

type Texts<'a> = BTreeMap<Place, &'a Text>;

/// The lines of definitions or statements, file by file.
fn lines<'t>(texts: &'t Texts) -> BTreeMap<&'t str, BTreeSet<usize>> {
    let mut lines: BTreeMap<&str, BTreeSet<usize>> = BTreeMap::new();
    for ((path, _), text) in texts {
        lines.entry(path).or_default().extend(&text.lines);
    }
    lines
}

pub fn count(texts: &Texts) -> usize {
    lines(texts).values().map(BTreeSet::len).sum()
}

/// How many lines the definitions have, and how many the types that the sources declare.
pub fn counts(definitions: &Texts) -> (usize, usize) {
    let (types, others): (Texts, Texts) = definitions
        .iter()
        .map(|(place, text)| (place.clone(), *text))
        .partition(|((path, _), _)| path.ends_with(".rt"));
    (count(&others), count(&types))
}

/// A row for each file. A range of lines goes on over comments and blank lines, and ends where other code stands.
fn rows(book: &Book, texts: &Texts) -> String {
    let mut rows = "| File | Lines | Where | Names |\n|---|---|---|---|\n".to_string();
    for (path, lines) in lines(texts) {
        let runs = book[path].code.chunk_by(|a, b| lines.contains(a) == lines.contains(b));
        let runs = runs.filter(|run| lines.contains(&run[0])).map(|run| match run {
            [line] => line.to_string(),
            _ => format!("{}-{}", run[0], run[run.len() - 1]),
        });
        let here = texts.iter().filter(|((file, _), _)| file == path);
        let names: BTreeMap<_, _> =
            here.map(|((_, name), text)| (text.lines.last(), format!("`{name}`"))).collect();
        let (runs, names): (Vec<String>, Vec<String>) = (runs.collect(), names.into_values().collect());
        rows += &format!("| `{path}` | {} | {} | {} |\n", lines.len(), runs.join(", "), names.join(" "));
    }
    rows
}

/// The definitions and their total, those that are determined, then the statements, and the kit's names.
pub fn table(book: &Book, reached: &Reached) -> String {
    let Reached { statements, definitions, determined, kit, .. } = reached;
    let mut table = rows(book, definitions);
    let (lines, types) = counts(definitions);
    table += &format!(
        "\nTotal: {lines} lines of definitions, and {types} lines of the types that they speak of.\n"
    );
    let (lines, types) = counts(determined);
    table += &format!(
        "\nDetermined by `Reads`, need not be believed: {lines} lines of definitions, {types} of types.\n\n"
    );
    table += &rows(book, determined);
    table += &format!("\nThe statements that cite them, {} lines:\n\n", count(statements));
    table += &rows(book, statements);
    table += "\nNames of the kit, trusted with its checker:\n\n";
    let kit: Vec<&Place> = kit.iter().collect();
    for names in kit.chunk_by(|a, b| a.0 == b.0) {
        let listed: Vec<&str> = names.iter().map(|(_, name)| name.as_str()).collect();
        table += &format!("- `{}`: `{}`\n", names[0].0, listed.join("` `"));
    }
    table
}

/// The definitions that only the further laws reach, and these laws.
pub fn further(book: &Book, reached: &Reached, further: &Reached) -> String {
    let mut definitions = further.definitions.clone();
    definitions.retain(|place, _| !reached.definitions.contains_key(place));
    let (lines, types) = counts(&definitions);
    let heading =
        format!("\nWhat the further laws cite besides: {lines} lines of definitions, {types} of types.\n\n");
    let laws = format!("\nThe further laws, {} lines:\n\n", count(&further.statements));
    heading + &rows(book, &definitions) + &laws + &rows(book, &further.statements)
}
