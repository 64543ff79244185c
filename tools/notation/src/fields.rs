//! Fields of an instruction that its spelling does not say: `#FIELD VALUE` behind the operands.

use crate::line::Line;
use crate::quoted;
use crate::record::{Insn, Operand, NAME};
use crate::usual::digits;
use crate::words::{self, CONDITIONS, KINDS};

/// Reads the fields up to the end of the line.
pub fn read(line: &mut Line, insn: &mut Insn) -> Result<(), String> {
    while let Some(field) = line.hash() {
        match field.as_str() {
            "mnemonic" => insn.mnemonic = line.decimal(255)? as u8,
            "condition" => insn.condition = line.choice(CONDITIONS, "a condition", 255)? as u8,
            "count" => insn.count = line.decimal(255)? as u8,
            "skip" => insn.skip = if line.is_done() { 1 } else { line.decimal(255)? as u8 },
            "segment" => insn.segment = line.register(255)? as u8,
            "base" => insn.base = line.register(255)? as u8,
            "index" => insn.index = line.register(255)? as u8,
            "scale" => insn.scale = line.decimal(255)? as u8,
            "size" => insn.size = line.decimal(65535)? as u16,
            "memory" => insn.memory = line.number()?.value(),
            "op1" | "op2" | "op3" | "op4" | "op5" => insn.operands[slot(&field)] = operand(line)?,
            "name" => insn.name = name(line)?,
            _ => return Err(format!("`#{field}` is no field of an instruction")),
        }
    }
    line.end()
}

fn slot(field: &str) -> usize {
    usize::from(field.as_bytes()[2] - b'1')
}

/// Kind, register and number.
fn operand(line: &mut Line) -> Result<Operand, String> {
    Ok(Operand {
        kind: line.choice(KINDS, "an operand's kind", 255)? as u8,
        register: line.register(255)? as u8,
        number: line.number()?.value(),
    })
}

/// Zeros fill the rest.
fn name(line: &mut Line) -> Result<[u8; NAME], String> {
    let text = line.text()?;
    let mut out = [0; NAME];
    let place = out.get_mut(..text.len()).ok_or_else(|| format!("a name has at most {NAME} bytes"))?;
    place.copy_from_slice(&text);
    Ok(out)
}

/// The fields that turn one instruction into the other.
pub fn spell(from: &Insn, to: &Insn) -> String {
    let mut out = String::new();
    let mut put = |differs: bool, field: &str, value: &dyn Fn() -> String| {
        if differs {
            out.push_str(&format!(" #{field} {}", value()));
        }
    };
    put(from.mnemonic != to.mnemonic, "mnemonic", &|| to.mnemonic.to_string());
    put(from.condition != to.condition, "condition", &|| words::spell(CONDITIONS, to.condition.into()));
    put(from.count != to.count, "count", &|| to.count.to_string());
    put(from.segment != to.segment, "segment", &|| register(to.segment.into()));
    put(from.base != to.base, "base", &|| register(to.base.into()));
    put(from.index != to.index, "index", &|| register(to.index.into()));
    put(from.scale != to.scale, "scale", &|| to.scale.to_string());
    put(from.size != to.size, "size", &|| to.size.to_string());
    put(from.memory != to.memory, "memory", &|| digits(to.memory));
    for (k, (a, b)) in from.operands.iter().zip(&to.operands).enumerate() {
        put(a != b, &format!("op{}", k + 1), &|| slot_words(b));
    }
    put(from.name != to.name, "name", &|| quoted::spell(name_bytes(&to.name)));
    put(from.skip != to.skip && to.skip != 1, "skip", &|| to.skip.to_string());
    if from.skip != to.skip && to.skip == 1 {
        out.push_str(" #skip");
    }
    out
}

fn slot_words(o: &Operand) -> String {
    format!("{} {} {}", words::spell(KINDS, o.kind.into()), register(o.register.into()), digits(o.number))
}

/// The name, or `#` and the number where no register has it.
pub fn register(number: u16) -> String {
    let name = u8::try_from(number).ok().and_then(words::register_name);
    name.unwrap_or_else(|| format!("#{number}"))
}

/// Without the zeros at the end.
fn name_bytes(name: &[u8; NAME]) -> &[u8] {
    let end = name.iter().rposition(|b| *b != 0).map_or(0, |n| n + 1);
    &name[..end]
}
