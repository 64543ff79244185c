//! `explain`: what each `no N` asks, what usually causes it, and what to do.

use cakirotu::Refusal;

/// The question, the usual cause and the cure of one number, or of all in the order in which they are asked.
pub fn explain(number: Option<u8>) -> Result<String, String> {
    match number {
        None => Ok(Refusal::ALL.into_iter().map(paragraph).collect::<Vec<_>>().join("\n")),
        Some(number) => {
            Refusal::from_number(number).map(paragraph).ok_or_else(|| format!("there is no question {number}: they are 1 to 19"))
        }
    }
}

fn paragraph(refusal: Refusal) -> String {
    let (cause, cure) = cause_and_cure(refusal);
    format!("{refusal}\n  asked of: {}\n  usual cause: {cause}\n  what to do: {cure}\n", asked_of(refusal))
}

fn asked_of(refusal: Refusal) -> &'static str {
    match refusal {
        Refusal::Literal => "a string of a listing, by the library alone",
        Refusal::Routine => "the number of a small routine (the program `routine`)",
        Refusal::Names => "the names for the keyer's table",
        Refusal::Rows => "rows (docs/SHEET.md)",
        Refusal::Range => "a part of a record, by the library alone",
        Refusal::TextRoom | Refusal::TokenRoom | Refusal::LineRoom => {
            "the room for an answer, by the library and by programs with fixed room; this command always has enough"
        }
        _ => "a record (docs/RECORD.md)",
    }
}

#[rustfmt::skip]
fn cause_and_cure(refusal: Refusal) -> (&'static str, &'static str) {
    match refusal {
        Refusal::Header => ("an empty or cut file", "record the routine again"),
        Refusal::Settings => ("the file is no record: text that was not assembled, or another file", "assemble text with `tools/record assemble`; a driver begins with MZ and is recorded by `cakirotu record`"),
        Refusal::Limits => ("a long routine", "record a part of it"),
        Refusal::Length => ("a cut or padded file, or more than 65,536 bytes", "copy the file again, or record the routine again"),
        Refusal::Counts => ("a recorder that counts wrongly", "correct the recorder: the blocks' counts of instructions and edges total those of the header"),
        Refusal::Starts => ("a block recorded twice", "record each block once"),
        Refusal::Edges => ("a recorder with kinds of its own", "use the kinds 0 to 4 of docs/RECORD.md"),
        Refusal::Instructions => ("a register that cannot be recorded (mm, st, k, control registers); a condition without setcc, cmovcc or a mnemonic by name; a name in upper case", "leave the instruction out by a mark, or record the part of the routine without it"),
        Refusal::Branches => ("a recorder that gave the True edge of another branch, or none; a block cut behind its branch, or before it", "take the True edge from the branch that ends the block"),
        Refusal::Atlas => ("two entries for one address; text that is not ASCII", "keep one entry for each address, by rising addresses, in ASCII"),
        Refusal::Spans => ("the two addresses exchanged", "give the first address first"),
        Refusal::Range => ("a call of the library with a wrong range", "ask for blocks that the record has"),
        Refusal::TextRoom => ("a call with a short list; in a program a listing of more than 65,536 bytes", "ask for the sizes first, or use this command"),
        Refusal::TokenRoom => ("a call with a short list; in a program more than 16,384 tokens", "ask for the sizes first, or use this command"),
        Refusal::LineRoom => ("a call with a short list", "ask for the sizes first"),
        Refusal::Rows => ("a file that a spreadsheet saved, or that was changed by hand", "`cakirotu from-sheet FILE.csv` makes rows of it, or says which field is wrong"),
        Refusal::Literal => ("a piece that is no string, or that was changed", "take the piece with the letter A as the listing has it"),
        Refusal::Routine => ("a number of 276 or more, or no number", "give a number from 0 to 275"),
        Refusal::Names => ("an empty name", "give the call's name and the register's as the listing has them"),
    }
}

#[cfg(test)]
mod tests {
    use super::*;

    #[test]
    fn every_number_is_explained() {
        for number in 1..=19 {
            let text = explain(Some(number)).unwrap();
            assert!(text.starts_with(&format!("no {number}: ")), "{text}");
            assert_eq!(text.lines().count(), 4);
        }
        assert!(explain(Some(0)).is_err() && explain(Some(20)).is_err());
        assert_eq!(explain(None).unwrap().lines().filter(|line| line.starts_with("no ")).count(), 19);
    }
}
