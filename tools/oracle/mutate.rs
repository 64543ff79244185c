//! One-line edits of the copied items. Each mutant becomes a module of its own beside the emitter; all amendments together become one.
//!
//! A list has for each edit these lines; empty lines and lines that begin with `#` say nothing:
//!
//!     NAME: FUNCTION          or NAME: FUNCTION N, for the Nth such line of the function
//!     - the line as the Rust has it, without the blanks around it
//!     + the line in its place
//!     = why: of a mutant, why no record tells the two apart, if none does; of an amendment, the request's words

use std::iter::Peekable;

use crate::item_end;

struct Edit<'a> {
    name: &'a str,
    function: &'a str,
    /// Which of the function's lines with the old text, from 1; 0 if there must be one alone.
    nth: usize,
    old: &'a str,
    new: &'a str,
    why: &'a str,
}

/// The line of the emitter that the edited items stand for.
const INCLUDED: &str = "include!(concat!(env!(\"OUT_DIR\"), \"/pseudo.rs\"));";

/// The mutants' modules, and the table of them.
pub fn modules(emitter: &str, items: &str, list: &str) -> Result<String, String> {
    let mut modules = String::new();
    let mut table = String::from("pub const MUTANTS: &[Mutant] = &[\n");
    for (n, mutant) in read(list)?.iter().enumerate() {
        modules += &module(&format!("m{n}"), emitter, &apply(items, mutant)?)?;
        table += &row(n, mutant);
    }
    Ok(modules + &table + "];\n")
}

/// The module of the amended Rust: every edit of the list is applied.
pub fn amended(emitter: &str, items: &str, list: &str) -> Result<String, String> {
    let edited = read(list)?.iter().try_fold(items.to_string(), |items, edit| apply(&items, edit))?;
    module("amended", emitter, &edited)
}

/// The emitter with the edited items in the place of the copied ones.
fn module(name: &str, emitter: &str, items: &str) -> Result<String, String> {
    let (before, after) = emitter.split_once(INCLUDED).ok_or("the emitter does not include the items")?;
    Ok(format!("mod {name} {{\n{before}{items}{after}\n}}\n"))
}

fn row(n: usize, mutant: &Edit) -> String {
    let Edit { name, function, why, .. } = mutant;
    format!("    Mutant {{ name: {name:?}, function: {function:?}, equivalent: {why:?}, run: run_of!(m{n}) }},\n")
}

fn read(list: &str) -> Result<Vec<Edit<'_>>, String> {
    let mut lines = list.lines().map(str::trim_end).filter(|l| !l.is_empty() && !l.starts_with('#')).peekable();
    let mut edits = Vec::new();
    while let Some(title) = lines.next() {
        edits.push(edit(title, &mut lines).ok_or_else(|| format!("expected an edit at `{title}`"))?);
    }
    Ok(edits)
}

fn edit<'a>(title: &'a str, lines: &mut Peekable<impl Iterator<Item = &'a str>>) -> Option<Edit<'a>> {
    let (name, place) = title.split_once(": ")?;
    let (function, nth) = match place.split_once(' ') {
        Some((function, nth)) => (function, nth.parse().ok()?),
        None => (place, 0),
    };
    let old = lines.next()?.strip_prefix("- ")?;
    let new = lines.next()?.strip_prefix('+')?.trim_start();
    let why = lines.next_if(|l| l.starts_with("= ")).map_or("", |l| &l[2..]);
    Some(Edit { name, function, nth, old, new, why })
}

/// The items with the edit's line in place of the old one.
fn apply(items: &str, edit: &Edit) -> Result<String, String> {
    let Edit { name, function: of, old, .. } = edit;
    let (start, end) = function(items, of).ok_or_else(|| format!("{name}: there is no fn {of}"))?;
    let found: Vec<usize> = lines(items, start, end).filter(|&at| line(items, at).trim() == *old).collect();
    let at = match (edit.nth, &found[..]) {
        (0, [at]) => *at,
        (1.., _) if edit.nth <= found.len() => found[edit.nth - 1],
        _ => return Err(format!("{name}: fn {of} has {} such lines: {old}", found.len())),
    };
    let rest = &items[at + line(items, at).len()..];
    Ok(format!("{}{}{rest}", &items[..at], line(items, at).replace(old, edit.new)))
}

/// Where the function that has a body begins, and the place after it.
fn function(items: &str, name: &str) -> Option<(usize, usize)> {
    let start = format!("fn {name}(");
    lines(items, 0, items.len())
        .filter(|&at| line(items, at).trim_start().starts_with(&start))
        .filter_map(|at| Some((at, item_end(items.as_bytes(), at)?)))
        .find(|&(at, end)| items[at..end].contains('{'))
}

/// The starts of the lines that begin from `start` up to `end`.
fn lines(text: &str, start: usize, end: usize) -> impl Iterator<Item = usize> + '_ {
    let more = text[start..end].match_indices('\n').map(move |(p, _)| start + p + 1);
    std::iter::once(start).chain(more.filter(move |&p| p < end))
}

fn line(text: &str, at: usize) -> &str {
    text[at..].split('\n').next().unwrap_or("")
}
