//! Instruction lines: records of one block whose last instruction closes nothing, against the Rust's `emit_insns`.

use std::collections::BTreeMap;

use crate::listing::{Listing, Origin};
use crate::model::TokenKind;
use crate::record::{mnemonic, Record};

/// How often each mnemonic was an instruction, and each form a line.
#[derive(Default)]
pub struct Forms {
    mnemonics: BTreeMap<u8, usize>,
    forms: BTreeMap<String, usize>,
}

impl Forms {
    pub fn add(&mut self, record: &Record, listing: &Listing) {
        let insns: Vec<u8> = record.insns().map(|i| i.mnemonic).collect();
        for m in &insns {
            *self.mnemonics.entry(*m).or_default() += 1;
        }
        for (line, origin) in listing.origins.iter().enumerate() {
            if let Origin::Instruction(n) = origin {
                *self.forms.entry(form(insns[*n], listing, line)).or_default() += 1;
            }
        }
    }

    pub fn instructions(&self) -> usize {
        self.mnemonics.values().sum()
    }

    /// The counts; a mnemonic that no instruction has is an error.
    pub fn print(&self) -> Result<(), String> {
        println!("  {} instructions, {} mnemonics, {} forms:", self.instructions(), self.mnemonics.len(), self.forms.len());
        for (form, count) in &self.forms {
            println!("  {count:8} {form}");
        }
        match (0..=mnemonic::LAST).find(|m| !self.mnemonics.contains_key(m)) {
            Some(m) => Err(format!("no instruction has mnemonic {m}")),
            None => Ok(()),
        }
    }
}

/// The operators by which a form assigns.
const ASSIGNS: [&str; 10] = ["=", "+=", "-=", "&=", "|=", "^=", "<<=", ">>=", "*=", "++;"];

/// A line's form: the mnemonic's number, the words that forms have and operands do not, and how it assigns.
fn form(mnemonic: u8, listing: &Listing, line: usize) -> String {
    let mut out = format!("mnemonic {mnemonic:2}:");
    for (kind, text) in listing.tokens(line) {
        let text = String::from_utf8_lossy(text);
        let assign = text.trim_start_matches([')', ' ']).trim_end_matches([' ', '(', '&', '-', '~', '*']);
        if kind == TokenKind::Punct as u8 && ASSIGNS.contains(&assign) {
            out.push_str(&format!(" {assign}"));
        }
        if kind == TokenKind::Keyword as u8 && !["*(", "__flags_", "(unsigned)", "__read"].iter().any(|w| text.starts_with(w)) {
            out.push_str(&format!(" {text}"));
        }
    }
    out
}
