//! Copies the emitter's items out of the Rust source, by name and unchanged, into OUT_DIR; beside them the amended Rust, and mutants if asked to.

mod mutate;

use std::env;
use std::fs;
use std::path::{Path, PathBuf};

/// The start of each item's first line. The order is that of the source.
const ITEMS: &[&str] = &[
    "pub struct PseudoLine ",
    "struct Line ",
    "impl Line ",
    "struct Expr(",
    "impl Expr ",
    "fn reg_name(",
    "fn size_type(",
    "fn cond_op(",
    "fn negate(",
    "enum Flags ",
    "struct Ctx<",
    "impl Ctx<",
    "trait Cat ",
    "impl Cat for Expr ",
    "fn size_prefix(",
    "fn is_prologue_noise(",
    "fn is_callee_saved(",
    "fn emit_range(",
    "fn emit_range_tail_cond(",
    "fn emit_insns_with_branches(",
    "fn label(",
    "fn single_entry(",
    "fn region_escapes(",
    "fn has_outside_jump_to(",
    "fn args_expr(",
    "fn proto_args(",
    "fn condition(",
    "fn writes_flags(",
    "fn emit_insns(",
];

const FLAT_NAME: &str = "src--crates--paranoia-core--src--pseudo.rs.txt";
const TREE_NAME: &str = "crates/paranoia-core/src/pseudo.rs";

fn main() {
    println!("cargo:rerun-if-changed=build.rs");
    println!("cargo:rerun-if-changed=mutate.rs");
    let items = copy_items();
    write_edited("amended.rs", mutate::amended, &items, Path::new("amendments.txt"));
    write_mutants(&items);
}

fn copy_items() -> String {
    println!("cargo:rerun-if-env-changed=PARANOIA_SRC");
    let file = source_file();
    println!("cargo:rerun-if-changed={}", file.display());
    let source = fs::read_to_string(&file).unwrap_or_else(|e| stop(&format!("cannot read {}: {e}", file.display())));
    let mut out = String::new();
    for item in ITEMS {
        match find_item(&source, item) {
            Some(text) => out.push_str(&without_serde(text)),
            None => stop(&format!("{} has no item that starts with `{}`", file.display(), item.trim_end())),
        }
        out.push('\n');
    }
    write_out("pseudo.rs", &out);
    out
}

fn write_out(name: &str, text: &str) {
    let to = PathBuf::from(env::var_os("OUT_DIR").unwrap()).join(name);
    fs::write(&to, text).unwrap_or_else(|e| stop(&format!("cannot write {}: {e}", to.display())));
}

/// MUTANTS names the list of mutants; without it none is built.
fn write_mutants(items: &str) {
    println!("cargo:rerun-if-env-changed=MUTANTS");
    println!("cargo:rustc-check-cfg=cfg(mutants)");
    let Some(list) = env::var_os("MUTANTS").map(PathBuf::from) else { return };
    write_edited("mutants.rs", mutate::modules, items, &list);
    println!("cargo:rustc-cfg=mutants");
}

/// What is made of the emitter, the items and a list of edits.
fn write_edited(name: &str, make: fn(&str, &str, &str) -> Result<String, String>, items: &str, list: &Path) {
    let read = |file: &Path| {
        println!("cargo:rerun-if-changed={}", file.display());
        fs::read_to_string(file).unwrap_or_else(|e| stop(&format!("cannot read {}: {e}", file.display())))
    };
    let made = make(&read(Path::new("src/emitter.rs")), items, &read(list));
    write_out(name, &made.unwrap_or_else(|why| stop(&format!("{}: {why}", list.display()))));
}

fn stop(why: &str) -> ! {
    eprintln!("oracle: {why}");
    std::process::exit(1);
}

/// PARANOIA_SRC names the file, the folder of flat files, or a copy of the Rust repository.
fn source_file() -> PathBuf {
    let root = match env::var_os("PARANOIA_SRC") {
        Some(p) if !p.is_empty() => PathBuf::from(p),
        _ => Path::new(&env::var_os("CARGO_MANIFEST_DIR").unwrap()).join("../../../shared/docs/src"),
    };
    let tried = [root.clone(), root.join(FLAT_NAME), root.join(TREE_NAME)];
    match tried.iter().find(|p| p.is_file()) {
        Some(p) => p.clone(),
        None => stop(&format!(
            "the Rust source pseudo.rs was not found at {}; set PARANOIA_SRC to the file, to a folder with {FLAT_NAME}, \
             or to a copy of the Rust repository",
            root.display()
        )),
    }
}

/// The item whose first line starts so, with the attributes and comments right above it.
fn find_item<'a>(source: &'a str, start: &str) -> Option<&'a str> {
    let at = line_starts(source).find(|&p| source[p..].starts_with(start))?;
    let mut first = at;
    while let Some(above) = line_above(source, first) {
        let line = source[above..first].trim_start();
        if !line.starts_with("#[") && !line.starts_with("///") {
            break;
        }
        first = above;
    }
    Some(&source[first..item_end(source.as_bytes(), at)?])
}

fn line_starts(source: &str) -> impl Iterator<Item = usize> + '_ {
    std::iter::once(0).chain(source.match_indices('\n').map(|(p, _)| p + 1))
}

fn line_above(source: &str, at: usize) -> Option<usize> {
    let end = at.checked_sub(1)?;
    Some(source[..end].rfind('\n').map_or(0, |p| p + 1))
}

/// The place after the item that begins at `at`: behind its closing brace, or behind the `;` of
/// an item without braces.
fn item_end(s: &[u8], at: usize) -> Option<usize> {
    let mut depth = 0usize;
    let mut braces = 0usize;
    let mut i = at;
    while i < s.len() {
        if let Some(end) = skip_text(s, i) {
            i = end;
            continue;
        }
        match s[i] {
            b'(' | b'[' => depth += 1,
            b')' | b']' => depth = depth.checked_sub(1)?,
            b'{' => braces += 1,
            b'}' => {
                braces = braces.checked_sub(1)?;
                if braces == 0 && depth == 0 {
                    return Some(line_end(s, i + 1));
                }
            }
            b';' if braces == 0 && depth == 0 => return Some(line_end(s, i + 1)),
            _ => {}
        }
        i += 1;
    }
    None
}

fn line_end(s: &[u8], at: usize) -> usize {
    if s.get(at) == Some(&b'\n') {
        at + 1
    } else {
        at
    }
}

/// If a comment, a string or a character begins here, the place after it.
fn skip_text(s: &[u8], i: usize) -> Option<usize> {
    let rest = &s[i..];
    if rest.starts_with(b"//") {
        return Some(find(s, i, b"\n").unwrap_or(s.len()));
    }
    if rest.starts_with(b"/*") {
        return Some(find(s, i, b"*/").map_or(s.len(), |p| p + 2));
    }
    if rest.starts_with(b"r\"") {
        return Some(find(s, i + 2, b"\"").map_or(s.len(), |p| p + 1));
    }
    match rest[0] {
        b'"' => Some(quoted_end(s, i, b'"')),
        b'\'' if is_character(rest) => Some(quoted_end(s, i, b'\'')),
        _ => None,
    }
}

/// Tells `'x'` and `'\n'` from a lifetime.
fn is_character(rest: &[u8]) -> bool {
    match rest.get(1) {
        Some(b'\\') => true,
        Some(&c) => {
            let width = if c < 0x80 {
                1
            } else if c < 0xe0 {
                2
            } else if c < 0xf0 {
                3
            } else {
                4
            };
            rest.get(1 + width) == Some(&b'\'')
        }
        None => false,
    }
}

fn quoted_end(s: &[u8], at: usize, quote: u8) -> usize {
    let mut i = at + 1;
    while i < s.len() && s[i] != quote {
        i += if s[i] == b'\\' { 2 } else { 1 };
    }
    i + 1
}

fn find(s: &[u8], from: usize, what: &[u8]) -> Option<usize> {
    s[from..].windows(what.len()).position(|w| w == what).map(|p| from + p)
}

/// Only the derive lines that name serde go: no such crate is at hand.
fn without_serde(item: &str) -> String {
    item.lines().filter(|l| !(l.starts_with("#[derive(") && l.contains("Serialize"))).map(|l| format!("{l}\n")).collect()
}
