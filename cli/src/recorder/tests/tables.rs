//! Jump tables as compilers write them: which cases a jump has.

use super::file::{file, put, put_numbers, DATA, TEXT};
use super::routines_of;

/// What a table's entries are.
#[derive(Clone, Copy)]
enum Entries {
    /// Distances from the table.
    Distances,
    /// Distances from the image's base.
    Relative,
    Addresses,
}

/// A file whose first routine has this code, three cases at 1040, 1048 and 1050 and another block at 1058. Tables of the cases stand at
/// 2180 and 1070, bytes 0, 2, 2, 0, 2 at 21a0.
fn with_cases(bits: u16, code: &[u8], entries: Entries) -> Vec<u8> {
    let mut file = file(bits);
    file[TEXT..DATA].fill(0xcc);
    put(&mut file, TEXT, code);
    (0x40..=0x58).step_by(8).for_each(|at| put(&mut file, TEXT + at, &[0x33, 0xc0, 0xc3]));
    let entry = |target: u32| match entries {
        Entries::Distances => target.wrapping_sub(0x2180),
        Entries::Relative => target,
        Entries::Addresses => target + 0x40_0000,
    };
    let table = [0x1040, 0x1048, 0x1050].map(entry);
    put_numbers(&mut file, DATA + 0x180, &table);
    put_numbers(&mut file, TEXT + 0x70, &table);
    put(&mut file, DATA + 0x1a0, &[0, 2, 2, 0, 2]);
    file
}

/// The targets of the Case edges of the first routine, without the image's base.
fn cases(file: &[u8]) -> Vec<u64> {
    let routine = routines_of(file).remove(0);
    let record = routine.record.expect("a record");
    assert!(cakirotu::size(&record, cakirotu::blocks(&record)).is_ok());
    let n = |at: usize| usize::from(u16::from_le_bytes([record[at], record[at + 1]]));
    let targets = 24 + 12 * n(4);
    let kinds = targets + 8 * n(8);
    let target = |e: usize| u64::from_le_bytes(record[targets + 8 * e..targets + 8 * e + 8].try_into().expect("eight bytes"));
    (0..n(8)).filter(|e| record[kinds + e] == 4).map(|e| target(e) & 0xffff).collect()
}

/// Entries are distances from the image's base.
const IMAGE_BASE: &[u8] = &[
    0x83, 0xf9, 2, // cmp ecx, 2
    0x0f, 0x87, 0x4f, 0, 0, 0, // ja 140001058
    0x48, 0x63, 0xc1, // movsxd rax, ecx
    0x48, 0x8d, 0x15, 0xed, 0xef, 0xff, 0xff, // lea rdx, [140000000]
    0x8b, 0x8c, 0x82, 0x80, 0x21, 0, 0, // mov ecx, [rdx+rax*4+2180]
    0x48, 1, 0xd1, // add rcx, rdx
    0xff, 0xe1, // jmp rcx
];
/// Bytes say which entry.
const TWO_LEVELS: &[u8] = &[
    0x83, 0xf9, 4, // cmp ecx, 4
    0x0f, 0x87, 0x4f, 0, 0, 0, // ja 140001058
    0x48, 0x63, 0xc1, // movsxd rax, ecx
    0x48, 0x8d, 0x15, 0xed, 0xef, 0xff, 0xff, // lea rdx, [140000000]
    0x0f, 0xb6, 0x84, 2, 0xa0, 0x21, 0, 0, // movzx eax, [rdx+rax*1+21a0]
    0x8b, 0x8c, 0x82, 0x80, 0x21, 0, 0, // mov ecx, [rdx+rax*4+2180]
    0x48, 1, 0xd1, // add rcx, rdx
    0xff, 0xe1, // jmp rcx
];
/// The comparison is in a block that does not stand right before.
const BOUND_ELSEWHERE: &[u8] = &[
    0x83, 0xf9, 2, // cmp ecx, 2
    0x76, 3, // jbe 140001008
    0x31, 0xc0, // xor eax, eax
    0xc3, // ret
    0x89, 0xc8, // mov eax, ecx
    0x48, 0x8d, 0x15, 0x6f, 0x11, 0, 0, // lea rdx, [140002180]
    0x48, 0x63, 4, 0x82, // movsxd rax, [rdx+rax*4]
    0x48, 1, 0xd0, // add rax, rdx
    0x3e, 0xff, 0xe0, // notrack jmp rax
];
/// A mask is a bound: two entries.
const MASK: &[u8] = &[
    0x83, 0xe1, 1, // and ecx, 1
    0x48, 0x8d, 0x15, 0x76, 0x11, 0, 0, // lea rdx, [140002180]
    0x48, 0x63, 4, 0x8a, // movsxd rax, [rdx+rcx*4]
    0x48, 1, 0xd0, // add rax, rdx
    0xff, 0xe0, // jmp rax
];
/// The index is copied before it is compared.
const COPY_BEFORE: &[u8] = &[
    0x44, 0x0f, 0xb7, 0xc2, // movzx r8d, dx
    0x66, 0x83, 0xfa, 2, // cmp dx, 2
    0x0f, 0x87, 0x4a, 0, 0, 0, // ja 140001058
    0x4c, 0x8d, 0x0d, 0x6b, 0x11, 0, 0, // lea r9, [140002180]
    0x44, 0x89, 0xc0, // mov eax, r8d
    0x49, 0x63, 4, 0x81, // movsxd rax, [r9+rax*4]
    0x4c, 1, 0xc8, // add rax, r9
    0xff, 0xe0, // jmp rax
];
/// The second branch behind the comparison says the bound, and the instruction between does not change the flags.
const TWO_BRANCHES: &[u8] = &[
    0x83, 0xfa, 2, // cmp edx, 2
    0x41, 0x0f, 0xc8, // bswap r8d
    0x0f, 0x8f, 0x4c, 0, 0, 0, // jg 140001058
    0x0f, 0x87, 0x46, 0, 0, 0, // ja 140001058
    0x4c, 0x8d, 5, 0x67, 0x11, 0, 0, // lea r8, [140002180]
    0x49, 0x63, 4, 0x90, // movsxd rax, [r8+rdx*4]
    0x4c, 1, 0xc0, // add rax, r8
    0xff, 0xe0, // jmp rax
];
/// The table's address is put into a register before a loop.
const FAR_ADDRESS: &[u8] = &[
    0x48, 0x8d, 0x35, 0x79, 0x11, 0, 0, // lea rsi, [140002180]
    0xff, 0x15, 0x33, 0x10, 0, 0, // call [140002040]
    0x83, 0xf8, 2, // cmp eax, 2
    0x77, 0xf5, // ja 140001007
    0x48, 0x63, 4, 0x86, // movsxd rax, [rsi+rax*4]
    0x48, 1, 0xf0, // add rax, rsi
    0xff, 0xe0, // jmp rax
];
/// What the index is shifted from is compared.
const SHIFTED: &[u8] = &[
    0x89, 0xc8, // mov eax, ecx
    0xc1, 0xe8, 0x10, // shr eax, 10
    0x81, 0xf9, 0xff, 0xff, 2, 0, // cmp ecx, 2ffff
    0x0f, 0x87, 0x47, 0, 0, 0, // ja 140001058
    0x48, 0x8d, 0x15, 0x68, 0x11, 0, 0, // lea rdx, [140002180]
    0x48, 0x63, 4, 0x82, // movsxd rax, [rdx+rax*4]
    0x48, 1, 0xd0, // add rax, rdx
    0xff, 0xe0, // jmp rax
];
/// Code that is not optimized reads the index again.
const FROM_A_SLOT: &[u8] = &[
    0x83, 0x7d, 0xfc, 2, // cmp [rbp-4], 2
    0x0f, 0x87, 0x4e, 0, 0, 0, // ja 140001058
    0x8b, 0x45, 0xfc, // mov eax, [rbp-4]
    0x48, 0x8d, 0x14, 0x85, 0, 0, 0, 0, // lea rdx, [rax*4+0]
    0x48, 0x8d, 5, 0x64, 0x11, 0, 0, // lea rax, [140002180]
    0x8b, 4, 2, // mov eax, [rdx+rax*1]
    0x48, 0x98, // cdqe
    0x48, 0x8d, 0x15, 0x58, 0x11, 0, 0, // lea rdx, [140002180]
    0x48, 1, 0xd0, // add rax, rdx
    0xff, 0xe0, // jmp rax
];
/// Nothing bounds the index.
const NO_BOUND: &[u8] = &[
    0x48, 0x8d, 0x15, 0x79, 0x11, 0, 0, // lea rdx, [140002180]
    0x48, 0x63, 4, 0x8a, // movsxd rax, [rdx+rcx*4]
    0x48, 1, 0xd0, // add rax, rdx
    0xff, 0xe0, // jmp rax
];
/// What is compared is not the index any more.
const OTHER_BOUND: &[u8] = &[
    0x83, 0xf9, 2, // cmp ecx, 2
    0x0f, 0x87, 0x4f, 0, 0, 0, // ja 140001058
    0x8b, 0x0a, // mov ecx, [rdx]
    0x48, 0x8d, 0x15, 0x6e, 0x11, 0, 0, // lea rdx, [140002180]
    0x48, 0x63, 4, 0x8a, // movsxd rax, [rdx+rcx*4]
    0x48, 1, 0xd0, // add rax, rdx
    0xff, 0xe0, // jmp rax
];
/// The index is greater than what is compared: entries from the fifth on.
const LESS: &[u8] = &[
    0x8d, 0x48, 0xfb, // lea ecx, [eax-5]
    0x83, 0xf9, 2, // cmp ecx, 2
    0x0f, 0x87, 0x4c, 0, 0, 0, // ja 401058
    0xff, 0x24, 0x85, 0x6c, 0x21, 0x40, 0, // jmp [eax*4+40216c]
];
/// The entry's address is computed before it is read.
const SUM_IN_A_REGISTER: &[u8] = &[
    0x83, 0x7d, 0xfc, 2, // cmp [ebp-4], 2
    0x0f, 0x87, 0x4e, 0, 0, 0, // ja 401058
    0x8b, 0x45, 0xfc, // mov eax, [ebp-4]
    0xc1, 0xe0, 2, // shl eax, 2
    5, 0x80, 0x21, 0x40, 0, // add eax, 402180
    0x8b, 0, // mov eax, [eax]
    0xff, 0xe0, // jmp eax
];
/// Bytes say which entry, with 32 bits.
const BYTES_FIRST: &[u8] = &[
    0x83, 0xf8, 4, // cmp eax, 4
    0x0f, 0x87, 0x4f, 0, 0, 0, // ja 401058
    0x0f, 0xb6, 0x80, 0xa0, 0x21, 0x40, 0, // movzx eax, [eax+4021a0]
    0xff, 0x24, 0x85, 0x80, 0x21, 0x40, 0, // jmp [eax*4+402180]
];
/// The table stands in the code.
const IN_THE_CODE: &[u8] = &[
    0x48, // dec eax
    0x83, 0xf8, 2, // cmp eax, 2
    0x0f, 0x87, 0x4e, 0, 0, 0, // ja 401058
    0xff, 0x24, 0x85, 0x70, 0x10, 0x40, 0, // jmp [eax*4+401070]
];

const SHAPES: &[(u16, &[u8], Entries, &[u64])] = &[
    (64, IMAGE_BASE, Entries::Relative, &[0x1040, 0x1048, 0x1050]),
    (64, TWO_LEVELS, Entries::Relative, &[0x1040, 0x1050]),
    (64, BOUND_ELSEWHERE, Entries::Distances, &[0x1040, 0x1048, 0x1050]),
    (64, MASK, Entries::Distances, &[0x1040, 0x1048]),
    (64, COPY_BEFORE, Entries::Distances, &[0x1040, 0x1048, 0x1050]),
    (64, TWO_BRANCHES, Entries::Distances, &[0x1040, 0x1048, 0x1050]),
    (64, FAR_ADDRESS, Entries::Distances, &[0x1040, 0x1048, 0x1050]),
    (64, SHIFTED, Entries::Distances, &[0x1040, 0x1048, 0x1050]),
    (64, FROM_A_SLOT, Entries::Distances, &[0x1040, 0x1048, 0x1050]),
    (64, NO_BOUND, Entries::Distances, &[]),
    (64, OTHER_BOUND, Entries::Distances, &[]),
    (32, LESS, Entries::Addresses, &[0x1040, 0x1048, 0x1050]),
    (32, SUM_IN_A_REGISTER, Entries::Addresses, &[0x1040, 0x1048, 0x1050]),
    (32, BYTES_FIRST, Entries::Addresses, &[0x1040, 0x1050]),
    (32, IN_THE_CODE, Entries::Addresses, &[0x1040, 0x1048, 0x1050]),
];

#[test]
fn tables_are_found() {
    for (n, (bits, code, entries, wanted)) in SHAPES.iter().enumerate() {
        assert_eq!(cases(&with_cases(*bits, code, *entries)), *wanted, "{n}");
    }
}

/// Two registers have copies of an argument: one is compared and the other is the index, far behind.
#[test]
fn copies_of_an_argument_are_the_same() {
    let code = [
        &[0x41, 0x89, 0xcc][..],               // mov r12d, ecx
        &[0x41, 0x89, 0xce],                   // mov r14d, ecx
        &[0xeb, 0x78],                         // jmp 140001080
        &[0x41, 0x83, 0xfc, 2],                // 140001008: cmp r12d, 2
        &[0x77, 0x4a],                         // ja 140001058
        &[0x48, 0x8d, 0x15, 0x6b, 0x11, 0, 0], // lea rdx, [140002180]
        &[0x4a, 0x63, 0x04, 0xb2],             // movsxd rax, [rdx+r14*4]
        &[0x48, 0x01, 0xd0, 0xff, 0xe0],       // add rax, rdx; jmp rax
    ];
    let mut file = with_cases(64, &code.concat(), Entries::Distances);
    file[TEXT + 0x80..TEXT + 0x180].fill(0x90);
    // jmp 140001008
    put(&mut file, TEXT + 0x180, &[0xe9, 0x83, 0xfe, 0xff, 0xff]);
    assert_eq!(cases(&file), [0x1040, 0x1048, 0x1050]);
    // Another value is copied: xor ecx, ecx; mov r14d, ecx.
    put(&mut file, TEXT + 3, &[0x31, 0xc9, 0xeb, 0x79, 0x90]);
    put(&mut file, TEXT + 0x80, &[0x41, 0x89, 0xce]);
    assert_eq!(cases(&file), []);
}
