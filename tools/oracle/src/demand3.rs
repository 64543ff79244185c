//! Demand 3 on a listing, from document 01's words as amended by document 02: no more lines than I + 2B, exactly the lines of
//! the instructions that are not silent and in their order, braces that match, indents that follow the braces, and each line with
//! the place of its block.

use crate::listing::{Listing, Origin};
use crate::record::{kind, mnemonic as m, register as r, Insn, Record};

/// What is wrong, if something is.
pub fn check(record: &Record, from: usize, to: usize, listing: &Listing) -> Result<(), String> {
    let range = Range::new(record, from, to);
    few_lines(&range, listing)?;
    let regions = match_braces(&range, listing)?;
    right_instructions(&range, listing, &regions)?;
    right_places(&range, listing)?;
    rising_places(listing)
}

/// For each instruction of a record whether it is silent, with the regions of the record's listing.
pub fn silent(record: &Record, listing: &Listing) -> Result<Vec<bool>, String> {
    let range = Range::new(record, 0, record.blocks.len());
    let regions = match_braces(&range, listing)?;
    let all = 0..range.first[range.to];
    Ok(all.map(|n| is_silent(&range, &regions, range.place_of(n), n)).collect())
}

/// A range's blocks with the number of each block's first instruction.
struct Range<'a> {
    record: &'a Record,
    from: usize,
    to: usize,
    first: Vec<usize>,
}

impl Range<'_> {
    fn new(record: &Record, from: usize, to: usize) -> Range<'_> {
        let mut first = vec![0];
        for b in &record.blocks {
            first.push(first[first.len() - 1] + b.insns.len());
        }
        Range { record, from, to, first }
    }

    fn place_of(&self, insn: usize) -> usize {
        self.first.partition_point(|&f| f <= insn) - 1
    }

    fn insn(&self, n: usize) -> &Insn {
        let place = self.place_of(n);
        &self.record.blocks[place].insns[n - self.first[place]]
    }
}

fn few_lines(range: &Range, listing: &Listing) -> Result<(), String> {
    let most = range.first[range.to] - range.first[range.from] + 2 * (range.to - range.from);
    match listing.lines() <= most {
        true => Ok(()),
        false => Err(format!("{} lines, where {most} are the most", listing.lines())),
    }
}

/// The do-loops and if-regions of a listing: first place, and the place after the last.
#[derive(Default)]
struct Regions {
    loops: Vec<(usize, usize)>,
    ifs: Vec<(usize, usize)>,
}

/// Walks the lines with a stack of what is open. A line in n regions has the starting indent plus n.
fn match_braces(range: &Range, listing: &Listing) -> Result<Regions, String> {
    let mut open: Vec<Origin> = Vec::new();
    let mut found = Regions::default();
    for (line, origin) in listing.origins.iter().enumerate() {
        let at = |why: &str| format!("line {line}: {why}");
        match (origin, open.last().copied()) {
            (Origin::Close, Some(Origin::Open(n))) => {
                open.pop();
                found.ifs.push((range.place_of(n) + 1, target_place(range, n).ok_or_else(|| at("a region without a target"))?));
            }
            (Origin::While(n), Some(Origin::Do(place))) => {
                open.pop();
                found.loops.push((place, range.place_of(*n) + 1));
            }
            (Origin::Close | Origin::While(_), _) => return Err(at("closes nothing that is open")),
            _ => {}
        }
        let depth = range.record.indent as usize + open.len();
        let indent = (listing.line_marks[line] % 256) as usize;
        let expected = if matches!(origin, Origin::Label(_)) { depth.saturating_sub(1) } else { depth };
        if indent != expected {
            return Err(at(&format!("indent {indent} in place of {expected}")));
        }
        if matches!(origin, Origin::Open(_) | Origin::Do(_)) {
            open.push(*origin);
        }
    }
    match open.is_empty() {
        true => Ok(found),
        false => Err(format!("{} regions stay open", open.len())),
    }
}

fn target_place(range: &Range, n: usize) -> Option<usize> {
    let target = range.insn(n).operands[0].number;
    range.record.blocks.iter().position(|b| b.start == target)
}

/// The lines of instructions are those that are not silent, each once, by place and as recorded.
fn right_instructions(range: &Range, listing: &Listing, regions: &Regions) -> Result<(), String> {
    let written: Vec<usize> = listing
        .origins
        .iter()
        .filter_map(|o| match o {
            Origin::Open(n) | Origin::While(n) | Origin::Instruction(n) => Some(*n),
            _ => None,
        })
        .collect();
    let expected: Vec<usize> = (range.from..range.to)
        .flat_map(|p| (range.first[p]..range.first[p + 1]).filter(move |&n| !is_silent(range, regions, p, n)))
        .collect();
    match written == expected {
        true => Ok(()),
        false => Err(format!("lines for instructions {written:?}, where {expected:?} are not silent")),
    }
}

/// #107: "each instruction's line names its own block", the while-line's being the loop's last; a label and a do-line name the block that starts
/// at their address, a lone brace the block of the latest opening line still open.
fn right_places(range: &Range, listing: &Listing) -> Result<(), String> {
    let mut open: Vec<usize> = Vec::new();
    for (line, origin) in listing.origins.iter().enumerate() {
        let place = usize::from(listing.line_places[line]);
        let starts = |p: &usize| range.record.blocks[*p].start == listing.line_addresses[line];
        let expected = match origin {
            Origin::Label(_) | Origin::Do(_) => (range.from..range.to).find(starts),
            Origin::Open(n) | Origin::While(n) | Origin::Instruction(n) => Some(range.place_of(*n)),
            Origin::Close => open.pop(),
        };
        if expected != Some(place) {
            return Err(format!("line {line}: place {place}, where {expected:?} is its block's"));
        }
        if matches!(origin, Origin::Open(_)) {
            open.push(place);
        }
    }
    Ok(())
}

/// #107: "Instruction, opening and label lines have places that never fall from one line to the next"; nor do those of
/// while-lines.
fn rising_places(listing: &Listing) -> Result<(), String> {
    let lines = listing.origins.iter().zip(&listing.line_places);
    let places: Vec<u16> = lines.filter(|(origin, _)| **origin != Origin::Close).map(|(_, place)| *place).collect();
    match places.is_sorted() {
        true => Ok(()),
        false => Err(format!("places fall: {places:?}")),
    }
}

/// #101: "The silent list loses that entry, and the skip mark, for those jumps": a last direct jmp in a do-body is as any other.
fn is_silent(range: &Range, regions: &Regions, place: usize, n: usize) -> bool {
    let insn = range.insn(n);
    let last = n + 1 == range.first[place + 1];
    let near = insn.operands[0].kind == kind::NEAR;
    let closes_loop = regions.loops.iter().any(|l| l.1 == place + 1);
    if last && insn.condition != 0 && (near || closes_loop) {
        return false;
    }
    if insn.mnemonic == m::JMP && near {
        return !last || goes_on(range, regions, place, insn);
    }
    insn.skip == 1 || is_noise(insn, range.record) || matches!(insn.mnemonic, m::CMP | m::TEST | m::PUSH | 32..=35)
}

/// A jump to the next block when that lies in the range being written: the smallest region or do-loop around the block.
fn goes_on(range: &Range, regions: &Regions, place: usize, jump: &Insn) -> bool {
    let around = regions.ifs.iter().chain(&regions.loops).filter(|(a, b)| (*a..*b).contains(&place));
    let end = around.map(|l| l.1).min().unwrap_or(range.to);
    place + 1 < end && range.record.blocks[place + 1].start == jump.operands[0].number
}

/// `is_prologue_noise`, from the record's numbers; #114: with bits 16 "sp counts as a stack pointer wherever rsp and esp do".
fn is_noise(insn: &Insn, record: &Record) -> bool {
    let stack = |n: u8| n == r::RSP || n == r::ESP || record.bits == 16 && n == r::SP;
    let register = |k: usize| (insn.operands[k].kind == kind::REGISTER).then_some(insn.operands[k].register);
    let to = register(0);
    match insn.mnemonic {
        m::PUSH | m::POP => to.is_some_and(is_saved),
        m::SUB | m::ADD => to.is_some_and(stack) && register(1).is_none(),
        m::MOV => {
            let copies = to.is_some_and(|n| n != 0 && u16::from(n) == record.frame) && register(1).is_some_and(stack);
            copies || to.is_some_and(stack)
        }
        m::LEA => to.is_some_and(stack),
        41..=45 => true,
        _ => false,
    }
}

/// bx bp si di r12 to r15 at every width.
fn is_saved(n: u8) -> bool {
    (1..=5).contains(&(n / 16)) && matches!(n % 16, 3 | 5 | 6 | 7 | 12..=15)
}
