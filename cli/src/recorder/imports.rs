//! The slots of imports, and of those that are loaded when they are first called.

use std::collections::BTreeMap;

use object::pe::{IMAGE_DIRECTORY_ENTRY_DELAY_IMPORT, IMAGE_DIRECTORY_ENTRY_IMPORT};

use super::pe::{named, Image, NAMES};

/// One module's imports: where its name, the names of the imports and the slots stand.
struct Module {
    name: u64,
    names: u64,
    slots: u64,
}

/// Names by the address of the slot.
pub fn imports(image: &Image, directories: &[(u32, u32); 16]) -> BTreeMap<u64, String> {
    let first = modules(image, directories[IMAGE_DIRECTORY_ENTRY_IMPORT].0, at_start);
    let then = modules(image, directories[IMAGE_DIRECTORY_ENTRY_DELAY_IMPORT].0, delayed);
    let (mut out, mut rest) = (BTreeMap::new(), NAMES);
    first.iter().chain(&then).for_each(|module| put(image, module, &mut rest, &mut out));
    out
}

/// The modules of a directory, up to one that has no name or no slots.
fn modules<const N: usize>(image: &Image, first: u32, read: fn(&Image, [u32; N]) -> Option<Module>) -> Vec<Module> {
    let descriptor = |n: u64| image.numbers(image.at(first).wrapping_add(4 * N as u64 * n)).and_then(|d| read(image, d));
    (0..NAMES as u64).take_while(|_| first != 0).map_while(descriptor).collect()
}

fn at_start(image: &Image, [names, _, _, name, slots]: [u32; 5]) -> Option<Module> {
    let names = if names == 0 { slots } else { names };
    (name != 0 && slots != 0).then(|| Module { name: image.at(name), names: image.at(names), slots: image.at(slots) })
}

/// Old compilers wrote addresses here, and no bit 0 of the attributes.
fn delayed(image: &Image, [attributes, name, _, slots, names, ..]: [u32; 8]) -> Option<Module> {
    let at = |n: u32| if attributes & 1 == 1 { image.at(n) } else { u64::from(n) };
    (name != 0 && slots != 0).then(|| Module { name: at(name), names: at(names), slots: at(slots) })
}

/// Reads the names up to one that is 0.
fn put(image: &Image, module: &Module, rest: &mut usize, out: &mut BTreeMap<u64, String>) {
    let width = u64::from(image.bits / 8);
    let label = image.name_at(module.name).unwrap_or_default();
    let mut n = 0;
    while let Some(word) = image.word(module.names.wrapping_add(width * n)).filter(|word| *word != 0 && *rest > 0) {
        let slot = module.slots.wrapping_add(width * n);
        if let Some(name) = name(image, &label, word).filter(|_| image.is_mapped(slot)) {
            out.entry(slot).or_insert(name);
        }
        *rest -= 1;
        n += 1;
    }
}

/// An import by its number has the module's name and the number.
fn name(image: &Image, module: &str, word: u64) -> Option<String> {
    if word >> (image.bits - 1) == 1 {
        return named(format!("{}_{}", module.split('.').next().unwrap_or(""), word & 0xffff).as_bytes());
    }
    image.name_at(image.at(word as u32).wrapping_add(2))
}
