//! The command table of a listing, for a keyer.

use crate::{ffi, Held, Refusal, Sizes, View, LITERAL_BYTES};

/// What a table is asked for: the name of the sending call, and the register that it takes the command in. Any bytes, as a listing has them.
#[derive(Clone, Copy, Debug, PartialEq, Eq, Hash)]
pub struct Names<'a> {
    pub call: &'a [u8],
    pub register: &'a [u8],
}

/// Three lists that [`command_table_into`] fills. Rows and addresses may differ in length: the shorter one counts.
#[derive(Debug, Default)]
pub struct TableLists<'a> {
    /// The bytes of all rows, one after another.
    pub bytes: &'a mut [u8],
    /// For each row twice the place in `bytes` behind its own, plus 1 if none were found.
    pub rows: &'a mut [u64],
    /// For each row the call's address.
    pub addresses: &'a mut [u64],
}

/// How long a table is.
#[derive(Clone, Copy, Debug, Default, PartialEq, Eq, Hash)]
pub struct TableSizes {
    pub bytes: usize,
    pub rows: usize,
}

impl TableLists<'_> {
    /// The rows that a call with these sizes left in the lists; none if they do not hold a table of these sizes.
    pub fn rows(&self, sizes: TableSizes) -> Option<TableRows<'_>> {
        let rows = TableRows {
            bytes: self.bytes.get(..sizes.bytes)?,
            rows: self.rows.get(..sizes.rows)?,
            addresses: self.addresses.get(..sizes.rows)?,
            begin: 0,
        };
        rows.hold_together().then_some(rows)
    }
}

/// Makes the table of what lists hold up to these sizes, in lists that the caller lends: for each call line by the name, in order, its address and
/// the bytes that the register was set to. As many rows as lines, and [`LITERAL_BYTES`] for each, always suffice. Entries past the sizes stay as
/// they were; if the call is refused, all of them do. A refusal is [`Refusal::Names`], [`Refusal::Rows`] or one of 12 to 14.
pub fn command_table_into(
    lists: &Held<'_>,
    sizes: Sizes,
    names: Names<'_>,
    table: &mut TableLists<'_>,
) -> Result<TableSizes, Refusal> {
    ffi::command_table(lists, sizes, names, table).map(|[bytes, rows]| TableSizes { bytes, rows })
}

/// Makes the table of a listing in memory of its own, of just its size. A refusal is [`Refusal::Names`] or, never of a listing of this library,
/// [`Refusal::Rows`].
pub fn command_table(view: View<'_>, names: Names<'_>) -> Result<Table, Refusal> {
    let lines = view.sizes().lines;
    let (mut bytes, mut rows, mut addresses) = (vec![0; LITERAL_BYTES * lines], vec![0; lines], vec![0; lines]);
    let mut lists = TableLists { bytes: &mut bytes, rows: &mut rows, addresses: &mut addresses };
    let sizes = command_table_into(&view.held(), view.sizes(), names, &mut lists)?;
    Ok(Table { bytes: bytes[..sizes.bytes].into(), rows: rows[..sizes.rows].into(), addresses: addresses[..sizes.rows].into() })
}

/// A table that owns its lists. They cannot be changed, so that they always hold together.
#[derive(Clone, Debug, PartialEq, Eq)]
pub struct Table {
    bytes: Box<[u8]>,
    rows: Box<[u64]>,
    addresses: Box<[u64]>,
}

impl Table {
    pub fn sizes(&self) -> TableSizes {
        TableSizes { bytes: self.bytes.len(), rows: self.rows.len() }
    }

    /// The rows in the listing's order.
    pub fn rows(&self) -> TableRows<'_> {
        TableRows { bytes: &self.bytes, rows: &self.rows, addresses: &self.addresses, begin: 0 }
    }
}

impl<'a> IntoIterator for &'a Table {
    type Item = (u64, Option<&'a [u8]>);
    type IntoIter = TableRows<'a>;

    fn into_iter(self) -> TableRows<'a> {
        self.rows()
    }
}

/// The rows of a table: the call's address, and its bytes if some were found. Bytes of an empty string are found, and there are none of them.
#[derive(Clone, Debug)]
pub struct TableRows<'a> {
    bytes: &'a [u8],
    rows: &'a [u64],
    addresses: &'a [u64],
    /// Where the next row's bytes begin.
    begin: usize,
}

impl<'a> TableRows<'a> {
    /// Ends that never fall, the last one at the last byte; a row without bytes repeats the end before it.
    fn hold_together(&self) -> bool {
        let mut end = 0;
        let rises = self.rows.iter().all(|row| {
            let before = std::mem::replace(&mut end, row / 2);
            before <= end && (row % 2 == 0 || before == end)
        });
        rises && end == self.bytes.len() as u64
    }
}

impl<'a> Iterator for TableRows<'a> {
    type Item = (u64, Option<&'a [u8]>);

    fn next(&mut self) -> Option<(u64, Option<&'a [u8]>)> {
        let ((row, rows), (address, addresses)) = (self.rows.split_first()?, self.addresses.split_first()?);
        let end = (row / 2) as usize;
        let bytes = &self.bytes[self.begin..end];
        (self.rows, self.addresses, self.begin) = (rows, addresses, end);
        Some((*address, (row % 2 == 0).then_some(bytes)))
    }

    fn size_hint(&self) -> (usize, Option<usize>) {
        (self.rows.len(), Some(self.rows.len()))
    }
}

impl ExactSizeIterator for TableRows<'_> {}
