//! The types of the Rust's data model that the emitter names.

#[derive(Debug, Clone, Copy, PartialEq, Eq)]
pub enum Format {
    Pe,
    Elf,
}

/// In document 01's order: 0 Text to 7 Prefix.
#[allow(dead_code)]
#[derive(Debug, Clone, Copy, PartialEq, Eq)]
pub enum TokenKind {
    Text,
    Register,
    Number,
    Keyword,
    Symbol,
    Address,
    Punct,
    Prefix,
}

#[derive(Debug, Clone)]
pub struct Token {
    pub t: String,
    pub k: TokenKind,
}

#[derive(Debug, Clone, Copy, PartialEq, Eq)]
pub enum StringEncoding {
    Ascii,
    Utf16,
}

#[derive(Debug, Clone, Copy, PartialEq, Eq)]
pub enum EdgeKind {
    Uncond,
    True,
    False,
    Fall,
    Case,
}

#[derive(Debug, Clone)]
pub struct Edge {
    pub to: u64,
    pub kind: EdgeKind,
}
