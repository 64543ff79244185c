//! Text to record, line by line.

use crate::insn;
use crate::line::Line;
use crate::record::{Block, Edge, Entry, Record};
use crate::words::{CONVENTIONS, EDGES, ENTRIES};
use crate::Error;

/// The most that a u16 of the header counts, and the most of a block's edges and an entry's bytes.
const MOST: usize = 0xffff;
const MOST_U8: usize = 0xff;

/// The record that the text says. It need not be one that a listing accepts.
pub fn assemble(text: &[u8]) -> Result<Record, Error> {
    let mut made = Made::default();
    let mut last = 1;
    for (n, bytes) in text.split(|b| *b == b'\n').enumerate() {
        last = n + 1;
        made.line(bytes).map_err(|what| Error { line: n + 1, what })?;
    }
    made.is_whole().map_err(|what| Error { line: last, what })?;
    Ok(made.record)
}

/// The record as far as it was read.
#[derive(Default)]
struct Made {
    record: Record,
    /// The header's fields that were given.
    given: Vec<String>,
    insns: usize,
    edges: usize,
    text: usize,
}

impl Made {
    fn line(&mut self, bytes: &[u8]) -> Result<(), String> {
        let text = std::str::from_utf8(bytes).map_err(|_| "the line is not UTF-8".to_string())?;
        let mut line = Line::new(text)?;
        if line.is_empty() {
            return Ok(());
        }
        if line.is_insn() {
            return self.insn(&mut line);
        }
        let word = line.word("a word or an address")?;
        match word.as_str() {
            "bits" | "convention" | "frame" | "shift" | "indent" => self.header(&word, &mut line)?,
            "block" => self.block(&mut line)?,
            "edge" => self.edge(&mut line)?,
            "atlas" => self.entry(&mut line)?,
            "span" => self.span(&mut line)?,
            _ => return Err(format!("`{word}` begins no line: {FIRST}")),
        }
        line.end()
    }

    fn header(&mut self, field: &str, line: &mut Line) -> Result<(), String> {
        if self.given.iter().any(|g| g == field) {
            return Err(format!("`{field}` is given twice"));
        }
        if !self.record.blocks.is_empty() {
            return Err(format!("`{field}` must stand before the first block"));
        }
        self.given.push(field.to_string());
        let r = &mut self.record;
        match field {
            "bits" => r.bits = line.decimal(65535)? as u16,
            "convention" => r.convention = line.choice(CONVENTIONS, "a convention", 65535)? as u16,
            "frame" => r.frame = line.register(65535)? as u16,
            "indent" => r.indent = line.decimal(255)? as u8,
            _ => (r.shift, r.shift_given) = shift(line)?,
        }
        Ok(())
    }

    fn is_whole(&self) -> Result<(), String> {
        let missing = ["bits", "convention", "indent"].iter().find(|f| !self.given.iter().any(|g| g == *f));
        missing.map_or(Ok(()), |f| Err(format!("`{f}` is not given")))
    }

    fn block(&mut self, line: &mut Line) -> Result<(), String> {
        self.is_whole()?;
        let start = line.address()?;
        let label = match line.takes_word("label") {
            true => line.hash_number(255)?.unwrap_or(1) as u8,
            false => 0,
        };
        room(self.record.blocks.len(), MOST, "blocks")?;
        self.record.blocks.push(Block { start, label, ..Block::default() });
        Ok(())
    }

    fn last_block(&mut self) -> Result<&mut Block, String> {
        self.record.blocks.last_mut().ok_or_else(|| "no block is there yet: a line `block ADDRESS` begins one".to_string())
    }

    fn insn(&mut self, line: &mut Line) -> Result<(), String> {
        let (bits, count) = (self.record.bits, self.insns);
        let block = self.last_block()?;
        room(count, MOST, "instructions")?;
        let address = line.address()?;
        line.mark(':')?;
        block.insns.push(insn::read(line, address, bits)?);
        self.insns += 1;
        Ok(())
    }

    fn edge(&mut self, line: &mut Line) -> Result<(), String> {
        let count = self.edges;
        let block = self.last_block()?;
        room(count, MOST, "edges")?;
        room(block.edges.len(), MOST_U8, "edges of one block")?;
        let kind = line.choice(EDGES, "an edge's kind", 255)? as u8;
        block.edges.push(Edge { kind, to: line.address()? });
        self.edges += 1;
        Ok(())
    }

    fn entry(&mut self, line: &mut Line) -> Result<(), String> {
        room(self.record.atlas.len(), MOST, "atlas entries")?;
        let kind = line.choice(ENTRIES, "an atlas entry's kind", 255)? as u8;
        let address = line.address()?;
        let text = line.text()?;
        self.text += text.len();
        room(text.len().saturating_sub(1), MOST_U8, "bytes in one atlas text")?;
        room(self.text.saturating_sub(1), MOST, "bytes in all atlas texts")?;
        self.record.atlas.push(Entry { address, kind, text });
        Ok(())
    }

    fn span(&mut self, line: &mut Line) -> Result<(), String> {
        room(self.record.spans.len(), MOST, "spans")?;
        let first = line.address()?;
        self.record.spans.push((first, line.address()?));
        Ok(())
    }
}

const FIRST: &str = "a line is `ADDRESS: ...` or begins with bits, convention, frame, shift, indent, block, edge, atlas or span";

/// The shift, and the mark that says it is given.
fn shift(line: &mut Line) -> Result<(i32, u8), String> {
    let number = line.number()?;
    let signed = if number.negative { -i128::from(number.size) } else { i128::from(number.size) };
    let shift = i32::try_from(signed).map_err(|_| "a shift has 32 bits".to_string())?;
    let mark = if line.takes_word("mark") { line.decimal(255)? as u8 } else { 1 };
    Ok((shift, mark))
}

/// Whether one more can be counted.
fn room(have: usize, most: usize, what: &str) -> Result<(), String> {
    match have < most {
        true => Ok(()),
        false => Err(format!("more than {most} {what}: a record cannot count them")),
    }
}
