//! The lists of a call that stores bytes and their number.

/// How far the output list reaches behind what is lent of it.
const BEHIND: usize = 5;

/// The most entries that are lent for the size.
pub const SIZES: usize = 2;

/// Both lists, of which a part is lent: all that lies behind it must stay as it was.
#[derive(Debug, Default, PartialEq, Eq)]
pub struct Kept {
    out: Vec<u8>,
    size: [u64; SIZES + 1],
}

impl Kept {
    /// A call that is lent so many bytes and entries, with this byte all over them before it.
    pub fn call(&mut self, room: usize, entries: usize, fill: u8, store: impl FnOnce(&mut [u8], &mut [u64]) -> u8) -> u8 {
        self.out.clear();
        self.out.resize(room + BEHIND, fill);
        self.size = [u64::from_le_bytes([fill; 8]) ^ 1; SIZES + 1];
        store(&mut self.out[..room], &mut self.size[..entries])
    }

    /// What differs from what the port left, with both answers.
    pub fn unlike(&self, theirs: &Kept, [want, got]: [u8; 2]) -> String {
        let at = self.out.iter().zip(&theirs.out).position(|(a, b)| a != b);
        format!(
            "expected {want} with {:x?}, the port says {got} with {:x?}; first byte that differs: {at:?}",
            self.size, theirs.size
        )
    }
}
