//! The functions of the library. All unsafe code is here.

use crate::{Blocks, Held, Listed, Lists, Names, Refusal, Sizes, TableLists};

#[cfg(not(target_arch = "x86_64"))]
compile_error!("the library is for x86-64 alone");

extern "C" {
    fn cakirotu_list(
        rec: *const u8,
        rec_len: usize,
        from: usize,
        to: usize,
        text: *mut u8,
        text_len: usize,
        ends: *mut u32,
        ends_len: usize,
        kinds: *mut u8,
        kinds_len: usize,
        addresses: *mut u64,
        addresses_len: usize,
        marks: *mut u16,
        marks_len: usize,
        places: *mut u16,
        places_len: usize,
        lines: *mut u32,
        lines_len: usize,
        sizes: *mut u64,
        sizes_len: usize,
    ) -> u8;

    fn cakirotu_size(rec: *const u8, rec_len: usize, from: usize, to: usize, sizes: *mut u64, sizes_len: usize) -> u8;

    fn cakirotu_check(rec: *const u8, rec_len: usize, broken: *mut u64, broken_len: usize) -> u8;

    fn cakirotu_write_rows(
        text: *const u8,
        text_len: usize,
        ends: *const u32,
        ends_len: usize,
        kinds: *const u8,
        kinds_len: usize,
        addresses: *const u64,
        addresses_len: usize,
        marks: *const u16,
        marks_len: usize,
        places: *const u16,
        places_len: usize,
        lines: *const u32,
        lines_len: usize,
        sizes: *const u64,
        sizes_len: usize,
        out: *mut u8,
        out_len: usize,
        size: *mut u64,
        size_len: usize,
    ) -> u8;

    fn cakirotu_read_rows(
        file: *const u8,
        file_len: usize,
        text: *mut u8,
        text_len: usize,
        ends: *mut u32,
        ends_len: usize,
        kinds: *mut u8,
        kinds_len: usize,
        addresses: *mut u64,
        addresses_len: usize,
        marks: *mut u16,
        marks_len: usize,
        places: *mut u16,
        places_len: usize,
        lines: *mut u32,
        lines_len: usize,
        sizes: *mut u64,
        sizes_len: usize,
    ) -> u8;

    fn cakirotu_read_literal(
        kind: u8,
        text: *const u8,
        text_len: usize,
        out: *mut u8,
        out_len: usize,
        values: *mut u64,
        values_len: usize,
    ) -> u8;

    fn cakirotu_command_table(
        text: *const u8,
        text_len: usize,
        ends: *const u32,
        ends_len: usize,
        kinds: *const u8,
        kinds_len: usize,
        addresses: *const u64,
        addresses_len: usize,
        marks: *const u16,
        marks_len: usize,
        places: *const u16,
        places_len: usize,
        lines: *const u32,
        lines_len: usize,
        sizes: *const u64,
        sizes_len: usize,
        call: *const u8,
        call_len: usize,
        register: *const u8,
        register_len: usize,
        bytes: *mut u8,
        bytes_len: usize,
        rows: *mut u64,
        rows_len: usize,
        calls: *mut u64,
        calls_len: usize,
        counts: *mut u64,
        counts_len: usize,
    ) -> u8;

    fn cakirotu_to_columns(rec: *const u8, rec_len: usize, out: *mut u8, out_len: usize, size: *mut u64, size_len: usize) -> u8;

    fn cakirotu_from_columns(rec: *const u8, rec_len: usize, out: *mut u8, out_len: usize, size: *mut u64, size_len: usize)
        -> u8;

    fn cakirotu_routine(k: usize, out: *mut u8, out_len: usize, size: *mut u64, size_len: usize) -> u8;
}

/// What no call leaves: every call writes its sizes, looks, values or counts.
const UNWRITTEN: u64 = u64::MAX;

pub fn size(record: &[u8], blocks: Blocks) -> Result<Listed, Refusal> {
    let mut sizes = [UNWRITTEN; 4];
    // The function is total: it reads the record alone and stores into the sizes alone.
    let no = unsafe { cakirotu_size(record.as_ptr(), record.len(), blocks.from, blocks.to, sizes.as_mut_ptr(), sizes.len()) };
    listed(no, sizes)
}

pub fn list(record: &[u8], blocks: Blocks, l: &mut Lists<'_>) -> Result<Listed, Refusal> {
    let mut sizes = [UNWRITTEN; 4];
    // The function is total: it reads the record alone and stores nothing past the lists, which as `&mut` are all apart.
    let no = unsafe {
        cakirotu_list(
            record.as_ptr(),
            record.len(),
            blocks.from,
            blocks.to,
            l.text.as_mut_ptr(),
            l.text.len(),
            l.ends.as_mut_ptr(),
            l.ends.len(),
            l.kinds.as_mut_ptr(),
            l.kinds.len(),
            l.addresses.as_mut_ptr(),
            l.addresses.len(),
            l.marks.as_mut_ptr(),
            l.marks.len(),
            l.places.as_mut_ptr(),
            l.places.len(),
            l.lines.as_mut_ptr(),
            l.lines.len(),
            sizes.as_mut_ptr(),
            sizes.len(),
        )
    };
    listed(no, sizes)
}

pub fn write_rows(l: &Held<'_>, sizes: Sizes, out: &mut [u8]) -> Result<usize, Refusal> {
    let sizes = numbers(sizes);
    let mut size = [UNWRITTEN];
    // The function is total: it reads the lists and the sizes alone and stores nothing past `out` and the size, which as `&mut` are apart.
    let no = unsafe {
        cakirotu_write_rows(
            l.text.as_ptr(),
            l.text.len(),
            l.ends.as_ptr(),
            l.ends.len(),
            l.kinds.as_ptr(),
            l.kinds.len(),
            l.addresses.as_ptr(),
            l.addresses.len(),
            l.marks.as_ptr(),
            l.marks.len(),
            l.places.as_ptr(),
            l.places.len(),
            l.lines.as_ptr(),
            l.lines.len(),
            sizes.as_ptr(),
            sizes.len(),
            out.as_mut_ptr(),
            out.len(),
            size.as_mut_ptr(),
            size.len(),
        )
    };
    checked(no, size).map(|[size]| size)
}

pub fn read_rows(file: &[u8], l: &mut Lists<'_>) -> Result<Sizes, Refusal> {
    let mut sizes = [UNWRITTEN; 3];
    // The function is total: it reads the file alone and stores nothing past the lists, which as `&mut` are all apart.
    let no = unsafe {
        cakirotu_read_rows(
            file.as_ptr(),
            file.len(),
            l.text.as_mut_ptr(),
            l.text.len(),
            l.ends.as_mut_ptr(),
            l.ends.len(),
            l.kinds.as_mut_ptr(),
            l.kinds.len(),
            l.addresses.as_mut_ptr(),
            l.addresses.len(),
            l.marks.as_mut_ptr(),
            l.marks.len(),
            l.places.as_mut_ptr(),
            l.places.len(),
            l.lines.as_mut_ptr(),
            l.lines.len(),
            sizes.as_mut_ptr(),
            sizes.len(),
        )
    };
    answer(no, sizes)
}

/// The number of the first assumption that is broken, or 0.
pub fn check(record: &[u8]) -> Result<usize, Refusal> {
    let mut broken = [UNWRITTEN];
    // The function is total: it reads the record alone and stores into the one entry alone.
    let no = unsafe { cakirotu_check(record.as_ptr(), record.len(), broken.as_mut_ptr(), broken.len()) };
    checked(no, broken).map(|[number]| number)
}

/// How many bytes the string has, whether it was wide, whether it was cut.
pub fn read_literal(kind: u8, text: &[u8], out: &mut [u8]) -> Result<[usize; 3], Refusal> {
    let mut values = [UNWRITTEN; 3];
    // The function is total: it reads the text alone and stores nothing past `out` and the values, which as `&mut` are apart.
    let no = unsafe {
        cakirotu_read_literal(kind, text.as_ptr(), text.len(), out.as_mut_ptr(), out.len(), values.as_mut_ptr(), values.len())
    };
    checked(no, values)
}

/// How many bytes and rows the table has.
pub fn command_table(l: &Held<'_>, sizes: Sizes, names: Names<'_>, table: &mut TableLists<'_>) -> Result<[usize; 2], Refusal> {
    let sizes = numbers(sizes);
    let mut counts = [UNWRITTEN; 2];
    // The function is total: it reads the lists, the sizes and the names alone and stores nothing past the table's lists and the counts, which as
    // `&mut` are all apart.
    let no = unsafe {
        cakirotu_command_table(
            l.text.as_ptr(),
            l.text.len(),
            l.ends.as_ptr(),
            l.ends.len(),
            l.kinds.as_ptr(),
            l.kinds.len(),
            l.addresses.as_ptr(),
            l.addresses.len(),
            l.marks.as_ptr(),
            l.marks.len(),
            l.places.as_ptr(),
            l.places.len(),
            l.lines.as_ptr(),
            l.lines.len(),
            sizes.as_ptr(),
            sizes.len(),
            names.call.as_ptr(),
            names.call.len(),
            names.register.as_ptr(),
            names.register.len(),
            table.bytes.as_mut_ptr(),
            table.bytes.len(),
            table.rows.as_mut_ptr(),
            table.rows.len(),
            table.addresses.as_mut_ptr(),
            table.addresses.len(),
            counts.as_mut_ptr(),
            counts.len(),
        )
    };
    checked(no, counts)
}

/// How many bytes the record by columns has.
pub fn to_columns(record: &[u8], out: &mut [u8]) -> Result<usize, Refusal> {
    let mut size = [UNWRITTEN];
    // The function is total: it reads the record alone and stores nothing past `out` and the one entry, which as `&mut` are apart.
    let no =
        unsafe { cakirotu_to_columns(record.as_ptr(), record.len(), out.as_mut_ptr(), out.len(), size.as_mut_ptr(), size.len()) };
    checked(no, size).map(|[size]| size)
}

/// The way back.
pub fn from_columns(stored: &[u8], out: &mut [u8]) -> Result<usize, Refusal> {
    let mut size = [UNWRITTEN];
    // The function is total: it reads the stored record alone and stores nothing past `out` and the one entry, which as `&mut` are apart.
    let no = unsafe {
        cakirotu_from_columns(stored.as_ptr(), stored.len(), out.as_mut_ptr(), out.len(), size.as_mut_ptr(), size.len())
    };
    checked(no, size).map(|[size]| size)
}

pub fn routine(number: usize, out: &mut [u8]) -> Result<usize, Refusal> {
    let mut size = [UNWRITTEN];
    // The function is total: it reads nothing and stores nothing past `out` and the one entry, which as `&mut` are apart.
    let no = unsafe { cakirotu_routine(number, out.as_mut_ptr(), out.len(), size.as_mut_ptr(), size.len()) };
    checked(no, size).map(|[size]| size)
}

fn numbers(sizes: Sizes) -> [u64; 3] {
    [sizes.text, sizes.tokens, sizes.lines].map(|n| n as u64)
}

fn answer(no: u8, sizes: [u64; 3]) -> Result<Sizes, Refusal> {
    checked(no, sizes).map(|[text, tokens, lines]| Sizes { text, tokens, lines })
}

/// The sizes, and behind them the looks.
fn listed(no: u8, sizes: [u64; 4]) -> Result<Listed, Refusal> {
    checked(no, sizes).map(|[text, tokens, lines, _]| Listed { sizes: Sizes { text, tokens, lines }, looks: sizes[3] })
}

/// Panics on an answer that the library does not give: then another one is linked.
fn checked<const N: usize>(no: u8, values: [u64; N]) -> Result<[usize; N], Refusal> {
    if no == 0 {
        return Ok(values.map(|n| n as usize));
    }
    match Refusal::from_number(no) {
        Some(refusal) if values == [0; N] => Err(refusal),
        _ => panic!("the library answers {no} with {values:?}"),
    }
}
