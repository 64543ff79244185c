//! Seven lists, as they are lent to the port and as a call leaves them.

use crate::listing;

/// What a call for a listing answers: 0 or a number, the sizes, and the looks (#111).
#[derive(Clone, Copy, Debug, PartialEq, Eq)]
pub struct Answer {
    pub no: u8,
    pub sizes: [usize; 3],
    pub looks: usize,
}

impl Answer {
    /// "A refusal reports 0."
    pub fn refusal(no: u8) -> Answer {
        Answer { no, sizes: [0; 3], looks: 0 }
    }
}

/// What a call for reading rows left: the answer, the sizes, and the seven lists whole.
pub struct Left {
    pub no: u8,
    pub sizes: [usize; 3],
    pub lists: Lists,
}

/// Seven lists, as lent to the port.
#[derive(Clone, Debug, PartialEq, Eq)]
pub struct Lists {
    pub text: Vec<u8>,
    pub ends: Vec<u32>,
    pub kinds: Vec<u8>,
    pub addresses: Vec<u64>,
    pub marks: Vec<u16>,
    pub places: Vec<u16>,
    pub line_ends: Vec<u32>,
}

/// The number that refuses a list too short, for each of the seven in turn.
pub const TOO_SHORT: [u8; 7] = [12, 13, 13, 14, 14, 14, 14];

/// The lengths of lists that fit a listing of these sizes.
pub fn fitting([text, tokens, lines]: [usize; 3]) -> [usize; 7] {
    [text, tokens, tokens, lines, lines, lines, lines]
}

impl Lists {
    /// Lists of these lengths, filled with something that no listing writes throughout.
    pub fn lent(lengths: [usize; 7]) -> Lists {
        let [text, ends, kinds, addresses, marks, places, line_ends] = lengths;
        Lists {
            text: vec![0xee; text],
            ends: vec![0xeeee_eeee; ends],
            kinds: vec![0xee; kinds],
            addresses: vec![0xeeee_eeee_eeee_eeee; addresses],
            marks: vec![0xeeee; marks],
            places: vec![0xeeee; places],
            line_ends: vec![0xeeee_eeee; line_ends],
        }
    }

    /// Lists with some entries more than a listing of these sizes has.
    pub fn longer(sizes: [usize; 3]) -> Lists {
        let [text, tokens, lines] = sizes;
        Lists::lent([text + 3, tokens + 1, tokens + 2, lines + 4, lines + 1, lines + 3, lines + 2])
    }

    /// Lists that fit a listing of these sizes but for one that is one too short, and the number that refuses it.
    pub fn one_less(sizes: [usize; 3], which: usize) -> (Lists, u8) {
        let mut lengths = fitting(sizes);
        lengths[which] -= 1;
        (Lists::lent(lengths), TOO_SHORT[which])
    }

    /// The lists as an accepted call leaves them: the Rust's, and what lies past it as it was lent.
    pub fn filled(mut self, ours: &listing::Listing) -> Lists {
        let [x, k, l] = ours.sizes();
        self.text[..x].copy_from_slice(&ours.text);
        self.ends[..k].copy_from_slice(&ours.token_ends);
        self.kinds[..k].copy_from_slice(&ours.token_kinds);
        self.addresses[..l].copy_from_slice(&ours.line_addresses);
        self.marks[..l].copy_from_slice(&ours.line_marks);
        self.places[..l].copy_from_slice(&ours.line_places);
        self.line_ends[..l].copy_from_slice(&ours.line_ends);
        self
    }

    /// The first entries, so many of each list.
    pub fn cut(mut self, [text, ends, kinds, addresses, marks, places, line_ends]: [usize; 7]) -> Lists {
        self.text.truncate(text);
        self.ends.truncate(ends);
        self.kinds.truncate(kinds);
        self.addresses.truncate(addresses);
        self.marks.truncate(marks);
        self.places.truncate(places);
        self.line_ends.truncate(line_ends);
        self
    }

    /// The lengths, list by list.
    pub fn lengths(&self) -> [usize; 7] {
        [
            self.text.len(),
            self.ends.len(),
            self.kinds.len(),
            self.addresses.len(),
            self.marks.len(),
            self.places.len(),
            self.line_ends.len(),
        ]
    }
}
