//! Nothing of a file does harm, whatever its bytes say.

use super::super::record_driver;
use super::file::{file, file_of, named_file, put, put_numbers, DATA, TEXT};

#[test]
fn other_bytes_are_no_driver() {
    for bytes in [&b""[..], b"MZ", b"\x7fELF and more", &[0; 4096]] {
        assert!(record_driver(bytes).is_err());
    }
}

/// Whatever the bytes say, the call ends, and what it calls a record is accepted.
fn harmless(bytes: &[u8]) {
    for routine in record_driver(bytes).map_or(Vec::new(), |driver| driver.routines) {
        if let Ok(record) = routine.record {
            assert_eq!(cakirotu::size(&record, cakirotu::blocks(&record)).map(|_| ()), Ok(()));
        }
    }
}

#[test]
fn every_truncation_is_harmless() {
    for file in [file(32), file(64), named_file()] {
        (0..file.len()).for_each(|n| harmless(&file[..n]));
    }
}

/// Numbers below the one that is asked with, the same in every run.
fn numbers() -> impl FnMut(usize) -> usize {
    let mut seed = 0x2545_f491_4f6c_dd1d_u64;
    move |n: usize| {
        seed ^= seed << 13;
        seed ^= seed >> 7;
        seed ^= seed << 17;
        (seed >> 11) as usize % n
    }
}

#[test]
fn random_changes_are_harmless() {
    let mut random = numbers();
    for whole in [file(32), file(64), named_file()] {
        for _ in 0..4000 {
            let mut file = whole.clone();
            for _ in 0..=random(8) {
                let at = random(file.len());
                file[at] = random(256) as u8;
            }
            harmless(&file);
        }
    }
}

/// Code of calls to everywhere and jumps into the middle of instructions.
#[test]
fn dense_calls_are_harmless() {
    for bits in [32, 64] {
        for filler in
            [&[0xe8u8, 1, 0, 0, 0][..], &[0xe8, 0xff, 0xff, 0xff, 0xff], &[0x75, 1], &[0xeb, 0xff, 0xc0], &[0x74, 0x7f, 0x90]]
        {
            let mut file = file(bits);
            (TEXT..DATA).for_each(|at| file[at] = filler[at % filler.len()]);
            harmless(&file);
        }
    }
}

const LARGE: usize = 0x2_0000;

/// Code of one instruction with a distance of four bytes, again and again, to anywhere in it.
fn scattered(opcode: &[u8]) -> Vec<u8> {
    let mut random = numbers();
    let mut code = Vec::new();
    while code.len() < LARGE {
        code.extend(opcode);
        let to = random(LARGE) as u32;
        code.extend(to.wrapping_sub(code.len() as u32 + 4).to_le_bytes());
    }
    code
}

/// Routines that begin everywhere, and that go to everywhere, take time in proportion to the file.
#[test]
fn large_files_end_soon() {
    for bits in [32, 64] {
        for opcode in [&[0xe8u8][..], &[0xe9], &[0x0f, 0x85], &[0x0f, 0x84, 0, 0, 0, 0, 0xe8]] {
            harmless(&file_of(bits, &scattered(opcode)));
        }
        for filler in [&[0xe8u8, 1, 0, 0, 0][..], &[0xe8, 1, 0, 0, 0, 0xc3], &[0x74, 0x7e, 0xff, 0xe0]] {
            harmless(&file_of(bits, &filler.repeat(LARGE / filler.len())));
        }
    }
}

/// More routines than are searched for, each calling the next: that there may be more is said.
#[test]
fn a_search_that_ends_at_its_limit_is_told() {
    let calls = |n: usize| file_of(32, &[0xe8u8, 1, 0, 0, 0, 0xc3].repeat(n));
    let found = |file: &[u8]| record_driver(file).map(|driver| (driver.routines.len() > 65_000, driver.may_have_more));
    assert_eq!(found(&calls(1_000)), Ok((false, false)));
    assert_eq!(found(&calls(66_000)), Ok((true, true)));
}

/// A jump through a table of 1,024 entries, each an instruction of the code, again and again.
#[test]
fn dense_tables_are_harmless() {
    // je +40; and eax, 3ff; jmp [eax*4 + the last 1000 bytes]
    let mut unit = vec![0x74, 0x40, 0x25, 0xff, 3, 0, 0, 0xff, 0x24, 0x85, 0, 0, 0, 0];
    put_numbers(&mut unit, 10, &[(0x41_0000 + LARGE - 0x1000) as u32]);
    let mut code = unit.repeat(LARGE / unit.len() + 1);
    let mut random = numbers();
    for n in 0..0x400 {
        let to = random(LARGE / unit.len() / 2) * unit.len();
        put(&mut code, LARGE - 0x1000 + 4 * n, &(0x41_0000 + to as u32).to_le_bytes());
    }
    harmless(&file_of(32, &code));
}

/// An unwind table of one routine's parts that overlap, chained in a circle.
#[test]
fn dense_unwind_information_is_harmless() {
    let mut code = [0x74, 0x10, 0x90].repeat(LARGE / 6);
    let table = code.len();
    for n in 0..LARGE as u32 / 24 {
        let next = 0x1_0000 + table as u32 + 12 * (7 * n % (LARGE as u32 / 24));
        [0x1_0000 + n, 0x1_0000 + 2 * n + 2, next | 1].iter().for_each(|part| code.extend(part.to_le_bytes()));
    }
    let mut file = file_of(64, &code);
    put_numbers(&mut file, 0x58 + 112 + 24, &[0x1_0000 + table as u32, (code.len() - table) as u32]);
    harmless(&file);
}
