//! Record to text.

use std::fmt::Write;

use crate::assemble::assemble;
use crate::fields::register;
use crate::insn;
use crate::quoted;
use crate::record::{u16_at, Block, Layout, Record, HEADER};
use crate::usual::digits;
use crate::words::{spell, CONVENTIONS, EDGES, ENTRIES};

/// The text of a record, or why its bytes are none. A text that does not assemble to the same bytes is never given.
pub fn dump(bytes: &[u8]) -> Result<String, String> {
    measure(bytes)?;
    let text = text(&Record::parse(bytes));
    match assemble(text.as_bytes()) {
        Ok(record) if record.to_bytes() == bytes => Ok(text),
        Ok(_) => Err("the text would not assemble to the same bytes: please report this record".to_string()),
        Err(e) => Err(format!("the text would not assemble, {}: please report this record", e.what)),
    }
}

/// Whether the sizes agree, so that every byte is some field's.
fn measure(bytes: &[u8]) -> Result<(), String> {
    if bytes.len() < HEADER {
        return Err(format!("{} bytes, where a header alone has {HEADER}", bytes.len()));
    }
    let l = Layout::of(bytes);
    agree("bytes", l.end, bytes.len())?;
    let marks = || (0..l.b).map(|n| l.marks + 4 * n);
    agree("instructions", l.i, marks().map(|at| usize::from(u16_at(bytes, at))).sum())?;
    agree("edges", l.e, marks().map(|at| usize::from(bytes[at + 2])).sum())?;
    agree("bytes of atlas text", l.t, (0..l.a).map(|n| usize::from(bytes[l.atlas_marks + 2 * n + 1])).sum())
}

fn agree(what: &str, said: usize, found: usize) -> Result<(), String> {
    match said == found {
        true => Ok(()),
        false => Err(format!("the header says {said} {what}, there are {found}")),
    }
}

fn text(record: &Record) -> String {
    let mut out = header(record);
    for block in &record.blocks {
        put_block(&mut out, block, record.bits);
    }
    if !record.atlas.is_empty() || !record.spans.is_empty() {
        out.push('\n');
    }
    for entry in &record.atlas {
        let _ = writeln!(out, "atlas {} {:x} {}", spell(ENTRIES, entry.kind.into()), entry.address, quoted::spell(&entry.text));
    }
    for (first, last) in &record.spans {
        let _ = writeln!(out, "span {first:x} {last:x}");
    }
    out
}

fn header(record: &Record) -> String {
    let mut out = format!("bits {}\nconvention {}\n", record.bits, spell(CONVENTIONS, record.convention));
    if record.frame != 0 {
        let _ = writeln!(out, "frame {}", register(record.frame));
    }
    if record.shift != 0 || record.shift_given != 0 {
        let sign = if record.shift < 0 { "-" } else { "" };
        let mark = if record.shift_given == 1 { String::new() } else { format!(" mark {}", record.shift_given) };
        let _ = writeln!(out, "shift {sign}{}{mark}", digits(record.shift.unsigned_abs().into()));
    }
    let _ = writeln!(out, "indent {}", record.indent);
    out
}

fn put_block(out: &mut String, block: &Block, bits: u16) {
    let label = match block.label {
        0 => String::new(),
        1 => " label".to_string(),
        n => format!(" label #{n}"),
    };
    let _ = writeln!(out, "\nblock {:x}{label}", block.start);
    for i in &block.insns {
        let _ = writeln!(out, "  {:x}: {}", i.address, insn::spell(i, bits));
    }
    for e in &block.edges {
        let _ = writeln!(out, "  edge {} {:x}", spell(EDGES, e.kind.into()), e.to);
    }
}
