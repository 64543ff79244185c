//! Which addresses have a name or a string.

use super::file::{file, put, put_numbers, DATA, TEXT};
use super::{listing, routines_of};

/// Where the directory with this number stands in a file with 32 bits.
fn directory(n: usize) -> usize {
    0x58 + 96 + 8 * n
}

/// A file whose entry calls through the slot at 4020e8, which a module that is loaded late fills.
fn with_delayed_import(attributes: u32, base: u32) -> Vec<u8> {
    let mut file = file(32);
    put(&mut file, TEXT, &[0xff, 0x15, 0xe8, 0x20, 0x40, 0, 0xc3]);
    put_numbers(&mut file, directory(13), &[0x21a0, 64]);
    put_numbers(&mut file, DATA + 0x1a0, &[attributes, base + 0x20a0, 0, base + 0x20e8, base + 0x20c0]);
    put_numbers(&mut file, DATA + 0xc0, &[0x20d0, 0x8000_0007, 0]);
    put(&mut file, DATA + 0xd2, b"LateCall");
    file
}

#[test]
fn delayed_imports_have_names() {
    for (attributes, base) in [(1, 0), (0, 0x40_0000)] {
        let mut file = with_delayed_import(attributes, base);
        assert_eq!(listing(&routines_of(&file)[0]), ["eax = LateCall();", "return eax;"]);
        // The next slot is an import by number.
        file[TEXT + 2] = 0xec;
        assert_eq!(listing(&routines_of(&file)[0])[0], "eax = ntoskrnl_7();");
    }
}

/// The line of the entry that has a string, in a file that says that these words of the code are addresses.
fn relocated(places: [u16; 2]) -> String {
    let mut file = file(32);
    put_numbers(&mut file, directory(5), &[0x21a0, 12]);
    put_numbers(&mut file, DATA + 0x1a0, &[0x1000, 12]);
    places.iter().enumerate().for_each(|(n, place)| put(&mut file, DATA + 0x1a8 + 2 * n, &(0x3000 | place).to_le_bytes()));
    listing(&routines_of(&file)[0])[6].clone()
}

#[test]
fn an_immediate_without_a_relocation_is_a_number() {
    assert_eq!(relocated([0x12, 0x18]), "eax = DbgPrint(\"started\\n\");");
    assert_eq!(relocated([0x18, 0x18]), "eax = DbgPrint(off_402100);");
}
