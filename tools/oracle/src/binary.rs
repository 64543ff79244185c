//! The lookups that the emitter makes on its binary, answered by a record's atlas and spans.

use std::collections::HashMap;

use crate::model::{Format, StringEncoding};
use crate::record::Record;

pub struct Binary {
    pub info: BinaryInfo,
    pub strings: Vec<StringEntry>,
    pub string_by_va: HashMap<u64, usize>,
    names: HashMap<u64, String>,
    spans: Vec<(u64, u64)>,
}

pub struct BinaryInfo {
    pub format: Format,
}

pub struct StringEntry {
    pub value: String,
    pub encoding: StringEncoding,
}

impl Binary {
    pub fn new(record: &Record) -> Binary {
        let format = if record.convention == 0 { Format::Pe } else { Format::Elf };
        let mut binary = Binary {
            info: BinaryInfo { format },
            strings: Vec::new(),
            string_by_va: HashMap::new(),
            names: HashMap::new(),
            spans: record.spans.clone(),
        };
        for entry in &record.atlas {
            let text = String::from_utf8(entry.text.clone()).expect("atlas texts are ASCII");
            if entry.kind == 3 {
                binary.names.insert(entry.address, text);
                continue;
            }
            let encoding = if entry.kind == 2 { StringEncoding::Utf16 } else { StringEncoding::Ascii };
            binary.string_by_va.insert(entry.address, binary.strings.len());
            binary.strings.push(StringEntry { value: text, encoding });
        }
        binary
    }

    pub fn is_executable(&self, _va: u64) -> bool {
        false
    }

    pub fn name_at(&self, va: u64) -> Option<String> {
        self.names.get(&va).cloned()
    }

    pub fn range_of(&self, va: u64) -> Option<&(u64, u64)> {
        self.spans.iter().find(|(first, last)| (*first..=*last).contains(&va))
    }
}
