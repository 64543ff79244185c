//! Where a routine ends, and which starts are routines.

use super::file::{file, put, put_numbers, DATA, TEXT};
use super::routines_of;

/// A file with this code at its entry point; the rest is int3.
fn coded(bits: u16, parts: &[(usize, &[u8])]) -> Vec<u8> {
    let mut file = file(bits);
    file[TEXT..DATA].fill(0xcc);
    parts.iter().for_each(|(at, code)| put(&mut file, TEXT + at, code));
    file
}

/// Where routines begin, without the image's base, and how many instructions each has.
fn routines(file: &[u8]) -> Vec<(u64, usize)> {
    routines_of(file).iter().map(|r| (r.address & 0xffff, r.instructions)).collect()
}

/// The addresses of the first routine's blocks, without the image's base.
fn blocks(file: &[u8]) -> Vec<u16> {
    let record = routines_of(file).remove(0).record.expect("a record");
    let n = |at: usize| u16::from_le_bytes([record[at], record[at + 1]]);
    (0..usize::from(n(4))).map(|b| n(24 + 8 * b)).collect()
}

#[test]
fn a_branch_goes_over_what_is_called_inside() {
    // 1000: call 100a; test eax, eax; je 1010; ret; 100a: xor eax, eax; ret; 1010: dec eax; ret
    let code = [0xe8, 5, 0, 0, 0, 0x85, 0xc0, 0x74, 7, 0xc3, 0x33, 0xc0, 0xc3, 0xcc, 0xcc, 0xcc, 0x48, 0xc3];
    assert_eq!(routines(&coded(32, &[(0, &code)])), [(0x1000, 6), (0x100a, 2)]);
}

#[test]
fn a_routine_runs_into_what_is_called() {
    // 1000: call 1006; inc eax; 1006: inc ecx; ret
    let code = [0xe8, 1, 0, 0, 0, 0x40, 0x41, 0xc3];
    assert_eq!(routines(&coded(32, &[(0, &code)])), [(0x1000, 4), (0x1006, 2)]);
}

#[test]
fn a_call_that_does_not_return_ends_at_the_next_start() {
    // 1000: call 1010; call 1020; nop up to 1010: ret; 1020: ret
    let code = [0xe8, 0x0b, 0, 0, 0, 0xe8, 0x16, 0, 0, 0, 0x90, 0x90, 0x90, 0x90, 0x90, 0x90, 0xc3];
    let file = coded(32, &[(0, &code), (0x20, &[0xc3])]);
    assert_eq!(routines(&file), [(0x1000, 2), (0x1010, 1), (0x1020, 1)]);
}

#[test]
fn a_jump_to_a_routine_is_a_tail_call() {
    // 1000: call 1020; jmp 1030; 1020: ret; 1030: inc eax; ret
    let code = [0xe8, 0x1b, 0, 0, 0, 0xeb, 0x29];
    let file = coded(32, &[(0, &code), (0x20, &[0xc3]), (0x30, &[0x40, 0xc3])]);
    assert_eq!(routines(&file), [(0x1000, 2), (0x1020, 1), (0x1030, 2)]);
}

#[test]
fn what_a_branch_goes_to_elsewhere_is_a_routine() {
    // 1020: the entry: test eax, eax; je 1000; ret; 1000: inc eax; jmp 1024
    let mut file = coded(32, &[(0, &[0x40, 0xeb, 0x21]), (0x20, &[0x85, 0xc0, 0x74, 0xdc, 0xc3])]);
    put_numbers(&mut file, 0x58 + 16, &[0x1020]);
    assert_eq!(routines(&file), [(0x1000, 2), (0x1020, 3)]);
}

#[test]
fn what_is_pointed_to_inside_a_routine_is_none() {
    // 1000: push 401010; jecxz 1020; jmp 1010; 1010: inc eax; jmp 1020; 1020: ret
    let code = [0x68, 0x10, 0x10, 0x40, 0, 0xe3, 0x19, 0x90, 0xeb, 6];
    let file = coded(32, &[(0, &code), (0x10, &[0x40, 0xeb, 0x0d]), (0x20, &[0xc3])]);
    assert_eq!(routines(&file), [(0x1000, 7)]);
}

/// A file with 32 bits that says that so many words of its data, from 4021c0 on, are addresses: these.
fn with_pointers(parts: &[(usize, &[u8])], pointers: &[u32]) -> Vec<u8> {
    let mut file = coded(32, parts);
    put_numbers(&mut file, 0x58 + 96 + 8 * 5, &[0x21a0, 8 + 2 * pointers.len() as u32]);
    put_numbers(&mut file, DATA + 0x1a0, &[0x2000, 8 + 2 * pointers.len() as u32]);
    for n in 0..pointers.len() {
        put(&mut file, DATA + 0x1a8 + 2 * n, &(0x31c0 + 4 * n as u16).to_le_bytes());
    }
    put_numbers(&mut file, DATA + 0x1c0, pointers);
    file
}

#[test]
fn what_only_data_points_to_is_a_routine() {
    // 1000: ret; 1010: inc eax; ret; what 1021 holds is no code where a routine may begin.
    let file = with_pointers(&[(0, &[0xc3]), (0x10, &[0x40, 0xc3]), (0x20, &[0x40, 0x40, 0xc3])], &[0x40_1010, 0x40_1021]);
    assert_eq!(routines(&file), [(0x1000, 1), (0x1010, 2)]);
}

#[test]
fn the_cases_of_a_routine_that_data_points_to_are_none() {
    // 1010: and eax, 1; jmp [eax*4 + 4021c4]; 1020: ret; 1030: call 1040; ret; 1040: ret
    let code = [0x83, 0xe0, 1, 0xff, 0x24, 0x85, 0xc4, 0x21, 0x40, 0];
    let parts: [(usize, &[u8]); 5] =
        [(0, &[0xc3]), (0x10, &code), (0x20, &[0xc3]), (0x30, &[0xe8, 0x0b, 0, 0, 0, 0xc3]), (0x40, &[0xc3])];
    let file = with_pointers(&parts, &[0x40_1010, 0x40_1020, 0x40_1030]);
    assert_eq!(routines(&file), [(0x1000, 1), (0x1010, 5), (0x1040, 1)]);
}

#[test]
fn a_case_behind_what_is_called_belongs_to_the_routine() {
    // 1000: call 1020; and eax, 1; jmp [eax*4 + 4021c0]; 1010: ret; 1020: ret; 1030: dec eax; ret
    let code = [0xe8, 0x1b, 0, 0, 0, 0x83, 0xe0, 1, 0xff, 0x24, 0x85, 0xc0, 0x21, 0x40, 0, 0xcc, 0xc3];
    let file = with_pointers(&[(0, &code), (0x20, &[0xc3]), (0x30, &[0x48, 0xc3])], &[0x40_1010, 0x40_1030]);
    assert_eq!(routines(&file), [(0x1000, 6), (0x1020, 1)]);
}

#[test]
fn a_table_without_a_bound_ends_where_its_words_do() {
    // 1000: jmp [eax*4 + 4021c0]; 1010: ret; 1020: ret. The third word is not relocated.
    let parts: [(usize, &[u8]); 3] = [(0, &[0xff, 0x24, 0x85, 0xc0, 0x21, 0x40, 0]), (0x10, &[0xc3]), (0x20, &[0xc3])];
    let mut file = with_pointers(&parts, &[0x40_1010, 0x40_1020]);
    put_numbers(&mut file, DATA + 0x1c8, &[0x40_1010]);
    assert_eq!(routines(&file), [(0x1000, 3)]);
    assert_eq!(blocks(&file), [0x1000, 0x1010, 0x1020]);
}

/// With 64 bits: an unwind table of these entries, with the information that each has.
fn unwound(parts: &[(usize, &[u8])], entries: &[[u32; 3]], information: &[u32]) -> Vec<u8> {
    let mut file = coded(64, parts);
    put_numbers(&mut file, 0x58 + 112 + 24, &[0x2180, 12 * entries.len() as u32]);
    entries.iter().enumerate().for_each(|(n, entry)| put_numbers(&mut file, DATA + 0x180 + 12 * n, entry));
    put_numbers(&mut file, DATA + 0x1c0, information);
    file
}

#[test]
fn the_unwind_table_says_where_a_routine_ends() {
    // 1000: call 100a; je 1008; ret; nop; 1008: jmp 100b; 100a: nop; 100b: ret
    let code = [0xe8, 5, 0, 0, 0, 0x74, 1, 0xc3, 0xeb, 1, 0x90, 0xc3];
    let file = unwound(&[(0, &code)], &[[0x1000, 0x100c, 0x21c0]], &[1]);
    assert_eq!(routines(&file), [(0x1000, 5), (0x100a, 2)]);
}

#[test]
fn a_chained_part_belongs_to_its_routine() {
    // 1020: test eax, eax; je 1000; ret; 1000: inc ecx; jmp 1024. The part's information has one code, then the routine's entry.
    let parts: [(usize, &[u8]); 2] = [(0, &[0xff, 0xc1, 0xeb, 0x20]), (0x20, &[0x85, 0xc0, 0x74, 0xdc, 0xc3])];
    let entries = [[0x1000, 0x1004, 0x21c8], [0x1020, 0x1025, 0x21c0]];
    let mut file = unwound(&parts, &entries, &[1, 0, 0x0001_0021, 0, 0x1020, 0x1025, 0x21c0]);
    put_numbers(&mut file, 0x58 + 16, &[0x1020]);
    assert_eq!(routines(&file), [(0x1020, 5)]);
    assert_eq!(blocks(&file), [0x1020, 0x1024, 0x1000]);
    // An entry in place of information.
    let mut file = unwound(&parts, &[[0x1000, 0x1004, 0x218d], [0x1020, 0x1025, 0x21c0]], &[1]);
    put_numbers(&mut file, 0x58 + 16, &[0x1020]);
    assert_eq!(routines(&file), [(0x1020, 5)]);
}

#[test]
fn what_handles_an_exception_belongs_to_its_routine() {
    // 1000: call [2040]; ret; 1008: xor eax, eax; ret. A handler, and a scope table of one scope and a finally block.
    let code = [0xff, 0x15, 0x3a, 0x10, 0, 0, 0xc3, 0xcc, 0x33, 0xc0, 0xc3];
    let with_target = |target: u32| {
        let information = [0x09, 0x1000, 2, 0x1000, 0x1006, 1, target, 0x1000, 0x1006, 0x1100, 0];
        unwound(&[(0, &code)], &[[0x1000, 0x100b, 0x21c0]], &information)
    };
    assert_eq!(routines(&with_target(0x1008)), [(0x1000, 4)]);
    assert_eq!(blocks(&with_target(0x1008)), [0x1000, 0x1008]);
    let listed = super::listing(&routines_of(&with_target(0x1008))[0]);
    assert_eq!(listed, ["rax = DbgPrint();", "return rax;", "loc_140001008:", "eax = 0;", "return rax;"]);
    // A table of something else.
    assert_eq!(routines(&with_target(0x1080)), [(0x1000, 2)]);
}
