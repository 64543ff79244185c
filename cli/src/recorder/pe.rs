//! What a PE file says: its sections, names and the starts of its routines.

use std::collections::{BTreeMap, BTreeSet};

use object::pe::{ImageNtHeaders32, ImageNtHeaders64};
use object::pe::{
    IMAGE_DIRECTORY_ENTRY_BASERELOC, IMAGE_DIRECTORY_ENTRY_EXCEPTION, IMAGE_FILE_MACHINE_AMD64, IMAGE_FILE_MACHINE_I386,
    IMAGE_NT_OPTIONAL_HDR32_MAGIC, IMAGE_NT_OPTIONAL_HDR64_MAGIC, IMAGE_SCN_CNT_CODE, IMAGE_SCN_MEM_EXECUTE,
};
use object::read::pe::{optional_header_magic, ImageNtHeaders, ImageOptionalHeader, PeFile};
use object::{LittleEndian as LE, Object, ObjectSymbol, SymbolKind};

use super::model::{ENTRY_BYTES, SPANS};
use super::unwind::{self, Part};
use super::{atlas, imports, relocations};

/// Windows maps no file that has more sections.
const SECTIONS: usize = 96;
/// Imports, exports and symbols that are read at most, each.
pub const NAMES: usize = 65_536;
/// Bytes of symbols' names that are read at most.
const NAME_BYTES: usize = 8 << 20;

struct Section<'a> {
    first: u64,
    last: u64,
    bytes: &'a [u8],
    runs: bool,
}

pub struct Image<'a> {
    pub bits: u16,
    base: u64,
    pub entry: Option<u64>,
    sections: Vec<Section<'a>>,
    /// By the address of the slot.
    pub imports: BTreeMap<u64, String>,
    /// Where words stand that are addresses, by rising address; empty if the file does not say so.
    relocated: Vec<u64>,
    /// Exports and symbols in code.
    pub names: BTreeMap<u64, String>,
    /// Exports that have no name.
    pub nameless: Vec<u64>,
    /// Routines and their further parts, by rising address.
    pub unwind: Vec<Part>,
    /// Further parts: where the routine begins, and where the part does.
    further: BTreeSet<(u64, u64)>,
}

impl<'a> Image<'a> {
    pub fn parse(file: &'a [u8]) -> Result<Image<'a>, String> {
        match optional_header_magic(file).map_err(|e| format!("no PE file: {e}"))? {
            IMAGE_NT_OPTIONAL_HDR32_MAGIC => read::<ImageNtHeaders32>(file, 32),
            IMAGE_NT_OPTIONAL_HDR64_MAGIC => read::<ImageNtHeaders64>(file, 64),
            other => Err(format!("neither PE32 nor PE32+: optional header {other:#x}")),
        }
    }

    /// The file's bytes from an address to its section's end; none if nothing of the file is mapped there.
    pub fn bytes_at(&self, address: u64) -> Option<&'a [u8]> {
        let section = self.section(address)?;
        section.bytes.get((address - section.first) as usize..).filter(|b| !b.is_empty())
    }

    fn section(&self, address: u64) -> Option<&Section<'a>> {
        self.sections.iter().find(|s| (s.first..=s.last).contains(&address))
    }

    /// Whether the address is mapped from the file to run.
    pub fn runs_at(&self, address: u64) -> bool {
        self.section(address).is_some_and(|s| s.runs && address - s.first < s.bytes.len() as u64)
    }

    /// The address behind the last byte of the section that holds this one.
    pub fn section_end(&self, address: u64) -> u64 {
        self.section(address).map_or(address, |s| s.first + s.bytes.len() as u64)
    }

    /// The address ranges that are mapped.
    pub fn spans(&self) -> Vec<(u64, u64)> {
        self.sections.iter().take(SPANS).map(|s| (s.first, s.last)).collect()
    }

    pub fn is_mapped(&self, address: u64) -> bool {
        self.section(address).is_some()
    }

    /// The part of the unwind table that holds the address.
    pub fn part(&self, address: u64) -> Option<&Part> {
        let n = self.unwind.partition_point(|part| part.begin <= address);
        self.unwind[..n].last().filter(|part| address < part.end)
    }

    /// The parts of the routine that begins at an address.
    pub fn parts_of(&self, routine: u64) -> impl Iterator<Item = &Part> {
        let further = self.further.range((routine, 0)..=(routine, u64::MAX));
        further.filter_map(|(_, begin)| self.part(*begin))
    }

    /// Whether a routine may begin here: aligned, or behind a return or padding, and no string.
    pub fn may_begin(&self, address: u64) -> bool {
        let before = address.checked_sub(1).and_then(|a| self.bytes_at(a)).map(|b| b[0]);
        let string = self.bytes_at(address).and_then(atlas::string).is_some();
        !string && (address % 16 == 0 || matches!(before, Some(0xcc | 0x90 | 0xc3)))
    }

    /// Whether an instruction may have an address among its numbers: one of its bytes is relocated, or the file does not say which are.
    pub fn may_name(&self, first: u64, end: u64) -> bool {
        let n = self.relocated.partition_point(|a| *a < first);
        self.relocated.is_empty() || self.relocated.get(n).is_some_and(|a| *a < end)
    }

    pub fn is_relocated(&self, address: u64) -> bool {
        self.relocated.binary_search(&address).is_ok()
    }

    /// The number at an address, as wide as an address is.
    pub fn word(&self, address: u64) -> Option<u64> {
        let [low] = self.numbers(address)?;
        let high = if self.bits == 64 { self.numbers::<2>(address)?[1] } else { 0 };
        Some(u64::from(high) << 32 | u64::from(low))
    }

    /// What the relocated words outside of the code point to, each once and rising.
    pub fn pointers(&self) -> BTreeSet<u64> {
        let words = self.relocated.iter().filter(|a| !self.runs_at(**a)).filter_map(|a| self.word(*a));
        words.filter(|a| self.runs_at(*a)).collect()
    }

    pub fn numbers<const N: usize>(&self, address: u64) -> Option<[u32; N]> {
        let bytes = self.bytes_at(address)?.get(..4 * N)?;
        Some(std::array::from_fn(|n| u32::from_le_bytes([bytes[4 * n], bytes[4 * n + 1], bytes[4 * n + 2], bytes[4 * n + 3]])))
    }

    pub fn at(&self, relative: u32) -> u64 {
        self.base.wrapping_add(relative.into())
    }

    /// A name as an atlas may hold it.
    pub fn name_at(&self, address: u64) -> Option<String> {
        let bytes = self.bytes_at(address)?;
        let bytes = &bytes[..bytes.len().min(ENTRY_BYTES + 1)];
        let end = bytes.iter().position(|b| *b == 0)?;
        named(&bytes[..end])
    }
}

pub fn named(bytes: &[u8]) -> Option<String> {
    let fits = (1..=ENTRY_BYTES).contains(&bytes.len()) && bytes.iter().all(|b| (0x20..0x7f).contains(b));
    fits.then(|| String::from_utf8_lossy(bytes).into_owned())
}

fn read<Pe: ImageNtHeaders>(file: &[u8], bits: u16) -> Result<Image<'_>, String> {
    let pe = PeFile::<Pe>::parse(file).map_err(|e| format!("no PE file: {e}"))?;
    let machine = pe.nt_headers().file_header().machine.get(LE);
    if machine != if bits == 32 { IMAGE_FILE_MACHINE_I386 } else { IMAGE_FILE_MACHINE_AMD64 } {
        return Err(format!("a PE file for another machine: {machine:#x}"));
    }
    let header = pe.nt_headers().optional_header();
    let base = header.image_base();
    let mut image = Image {
        bits,
        base,
        entry: None,
        sections: sections(&pe, file, base),
        imports: BTreeMap::new(),
        relocated: Vec::new(),
        names: BTreeMap::new(),
        nameless: Vec::new(),
        unwind: Vec::new(),
        further: BTreeSet::new(),
    };
    image.entry = Some(header.address_of_entry_point()).filter(|rva| *rva != 0).map(|rva| image.at(rva));
    put_symbols(&mut image, &pe);
    put_exports(&mut image, &pe);
    image.imports = imports::imports(&image, &directories(&pe));
    image.relocated = relocations::relocated(&image, directories(&pe)[IMAGE_DIRECTORY_ENTRY_BASERELOC]);
    if bits == 64 {
        image.unwind = unwind::parts(&image, directories(&pe)[IMAGE_DIRECTORY_ENTRY_EXCEPTION]);
        image.further = unwind::further(&image.unwind);
    }
    Ok(image)
}

/// The relative addresses and sizes of the first directories; 0 for those that the file does not have.
fn directories<Pe: ImageNtHeaders>(pe: &PeFile<Pe>) -> [(u32, u32); 16] {
    std::array::from_fn(|n| pe.data_directory(n).map_or((0, 0), |d| d.address_range()))
}

/// Sections that have an address; what a file does not have of one stays out of its bytes.
fn sections<'a, Pe: ImageNtHeaders>(pe: &PeFile<'a, Pe>, file: &'a [u8], base: u64) -> Vec<Section<'a>> {
    let table = pe.section_table();
    let section = |header: &object::pe::ImageSectionHeader| {
        let size = match header.virtual_size.get(LE) {
            0 => header.size_of_raw_data.get(LE),
            size => size,
        };
        let first = base.checked_add(header.virtual_address.get(LE).into())?;
        let last = first.checked_add(u64::from(size).checked_sub(1)?)?;
        let from = (header.pointer_to_raw_data.get(LE) as usize).min(file.len());
        let length = size.min(header.size_of_raw_data.get(LE)) as usize;
        let to = from.saturating_add(length).min(file.len());
        let runs = header.characteristics.get(LE) & (IMAGE_SCN_MEM_EXECUTE | IMAGE_SCN_CNT_CODE) != 0;
        // The address behind the last byte is a number too.
        (last < u64::MAX - 0x1000).then_some(Section { first, last, bytes: &file[from..to], runs })
    };
    table.iter().take(SECTIONS).filter_map(section).collect()
}

fn put_symbols<Pe: ImageNtHeaders>(image: &mut Image, pe: &PeFile<Pe>) {
    let mut read = 0;
    for symbol in pe.symbols().take(NAMES) {
        let Ok(name) = symbol.name_bytes() else { return };
        read += name.len();
        if read > NAME_BYTES {
            return;
        }
        let routine = symbol.kind() == SymbolKind::Text && symbol.is_definition() && !name.starts_with(b".");
        if let Some(name) = named(name).filter(|_| routine && image.runs_at(symbol.address())) {
            image.names.entry(symbol.address()).or_insert(name);
        }
    }
}

fn put_exports<Pe: ImageNtHeaders>(image: &mut Image, pe: &PeFile<Pe>) {
    let Ok(Some(table)) = pe.export_table() else { return };
    for address in table.addresses().iter().take(NAMES).map(|a| a.get(LE)) {
        if address != 0 && !table.is_forward(address) && image.runs_at(image.at(address)) {
            image.nameless.push(image.at(address));
        }
    }
    for (pointer, index) in table.name_iter().take(NAMES) {
        let Some(address) = table.addresses().get(usize::from(index)).map(|a| a.get(LE)) else { continue };
        let start = image.at(address);
        let Some(name) = image.name_at(image.at(pointer)) else { continue };
        if !table.is_forward(address) && image.runs_at(start) {
            image.names.insert(start, name);
        }
    }
}
