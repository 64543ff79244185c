//! Small PE files built from bytes.

pub const TEXT: usize = 0x200;
pub const DATA: usize = 0x400;
const END: usize = 0x600;

/// A loop, a call of an import with a string, a call of the routine behind.
const ENTRY_64: &[u8] = &[
    0x48, 0x83, 0xec, 0x28, // sub rsp, 28
    0x33, 0xc0, // xor eax, eax
    0xb9, 3, 0, 0, 0, // mov ecx, 3
    0x03, 0xc1, // add eax, ecx
    0x83, 0xe9, 1, // sub ecx, 1
    0x75, 0xf9, // jne to the add
    0x48, 0x8d, 0x0d, 0xe7, 0x10, 0, 0, // lea rcx, [2100]
    0xff, 0x15, 0x21, 0x10, 0, 0, // call [2040]
    0x8b, 0xc8, // mov ecx, eax
    0xe8, 0x1a, 0, 0, 0, // call 1040
    0x48, 0x83, 0xc4, 0x28, // add rsp, 28
    0xc3, // ret
];
/// A jump through a table of offsets.
const CASES_64: &[u8] = &[
    0x83, 0xf9, 2, // cmp ecx, 2
    0x77, 0x1e, // ja 1063
    0x8b, 0xc1, // mov eax, ecx
    0x48, 0x8d, 0x15, 0x32, 0x11, 0, 0, // lea rdx, [2180]
    0x48, 0x63, 0x04, 0x82, // movsxd rax, [rdx+rax*4]
    0x48, 0x01, 0xd0, // add rax, rdx
    0xff, 0xe0, // jmp rax
    0xb8, 10, 0, 0, 0, 0xc3, // 1057: mov eax, a; ret
    0xb8, 20, 0, 0, 0, 0xc3, // 105d: mov eax, 14; ret
    0x33, 0xc0, 0xc3, // 1063: xor eax, eax; ret
];
const ENTRY_32: &[u8] = &[
    0x55, 0x8b, 0xec, // push ebp; mov ebp, esp
    0x33, 0xc0, // xor eax, eax
    0xb9, 3, 0, 0, 0, // mov ecx, 3
    0x03, 0xc1, // add eax, ecx
    0x83, 0xe9, 1, // sub ecx, 1
    0x75, 0xf9, // jne to the add
    0x68, 0, 0x21, 0x40, 0, // push 402100
    0xff, 0x15, 0x40, 0x20, 0x40, 0,    // call [402040]
    0x50, // push eax
    0xe8, 0x1e, 0, 0, 0,    // call 1040
    0x5d, // pop ebp
    0xc2, 8, 0, // ret 8
];
/// A jump through a table of addresses.
const CASES_32: &[u8] = &[
    0x8b, 0x44, 0x24, 4, // mov eax, [esp+4]
    0x83, 0xf8, 2, // cmp eax, 2
    0x77, 0x17, // ja 401060
    0xff, 0x24, 0x85, 0x80, 0x21, 0x40, 0, // jmp [eax*4+402180]
    0xb8, 10, 0, 0, 0, 0xc2, 4, 0, // 401050: mov eax, a; ret 4
    0xb8, 20, 0, 0, 0, 0xc2, 4, 0, // 401058: mov eax, 14; ret 4
    0x33, 0xc0, 0xc2, 4, 0, // 401060: xor eax, eax; ret 4
];

pub fn put(file: &mut [u8], at: usize, bytes: &[u8]) {
    file[at..at + bytes.len()].copy_from_slice(bytes);
}

pub fn put_numbers(file: &mut [u8], at: usize, numbers: &[u32]) {
    for (n, number) in numbers.iter().enumerate() {
        put(file, at + 4 * n, &number.to_le_bytes());
    }
}

/// Headers for two sections, code at 1000 and data at 2000, with an import directory and an entry point at 1000.
fn headers(bits: u16) -> Vec<u8> {
    let mut file = vec![0; END];
    let wide = bits == 64;
    let (machine, magic, length) = if wide { (0x8664u16, 0x20bu16, 240u16) } else { (0x14c, 0x10b, 224) };
    put(&mut file, 0, b"MZ");
    put_numbers(&mut file, 0x3c, &[0x40]);
    put(&mut file, 0x40, b"PE\0\0");
    put(&mut file, 0x44, &machine.to_le_bytes());
    put(&mut file, 0x46, &[2, 0]);
    put(&mut file, 0x54, &length.to_le_bytes());
    put(&mut file, 0x56, &[0x22, 0]);
    put(&mut file, 0x58, &magic.to_le_bytes());
    put_numbers(&mut file, 0x58 + 16, &[0x1000]);
    let (base, directories) = if wide { (24, 108) } else { (28, 92) };
    put_numbers(&mut file, 0x58 + base, &if wide { [0x4000_0000, 1] } else { [0x40_0000, 0x1000] });
    put_numbers(&mut file, 0x58 + 32, &[0x1000, 0x200]);
    put_numbers(&mut file, 0x58 + 56, &[0x3000, 0x200]);
    put_numbers(&mut file, 0x58 + directories, &[16, 0, 0, 0x2000, 40]);
    let sections = 0x58 + usize::from(length);
    put(&mut file, sections, b".text");
    put_numbers(&mut file, sections + 8, &[0x200, 0x1000, 0x200, TEXT as u32, 0, 0, 0, 0x6000_0020]);
    put(&mut file, sections + 40, b".rdata");
    put_numbers(&mut file, sections + 48, &[0x200, 0x2000, 0x200, DATA as u32, 0, 0, 0, 0x4000_0040]);
    file
}

pub fn file(bits: u16) -> Vec<u8> {
    let mut file = headers(bits);
    let wide = bits == 64;
    file[TEXT..DATA].fill(0xcc);
    put(&mut file, TEXT, if wide { ENTRY_64 } else { ENTRY_32 });
    put(&mut file, TEXT + 0x40, if wide { CASES_64 } else { CASES_32 });
    put_numbers(&mut file, DATA, &[0x2060, 0, 0, 0x20a0, 0x2040]);
    put_numbers(&mut file, DATA + 0x40, &[0x2080]);
    put_numbers(&mut file, DATA + 0x60, &[0x2080]);
    put(&mut file, DATA + 0x82, b"DbgPrint");
    put(&mut file, DATA + 0xa0, b"ntoskrnl.exe");
    put(&mut file, DATA + 0x100, b"started\n");
    let offset = |target: u32| target.wrapping_sub(0x2180);
    let table = if wide { [0x1057, 0x105d, 0x1063].map(offset) } else { [0x40_1050, 0x40_1058, 0x40_1060] };
    put_numbers(&mut file, DATA + 0x180, &table);
    file
}

/// The file with 64 bits, with an export and an unwind table whose second entry is a part of the first.
pub fn named_file() -> Vec<u8> {
    let mut file = file(64);
    let directories = 0x58 + 112;
    put_numbers(&mut file, directories, &[0x21b0, 0x40]);
    put_numbers(&mut file, directories + 24, &[0x2190, 24]);
    put_numbers(&mut file, DATA + 0x190, &[0x1040, 0x1066, 0x21a8, 0x1057, 0x105d, 0x21ac, 0x01, 0x21]);
    put_numbers(&mut file, DATA + 0x1b0, &[0, 0, 0, 0x21f4, 1, 1, 1, 0x21d8, 0x21dc, 0x21e0]);
    put_numbers(&mut file, DATA + 0x1d8, &[0x1040, 0x21e4]);
    put(&mut file, DATA + 0x1e4, b"Cases");
    file
}

/// A file whose code is this, at 10000, behind the other sections.
pub fn file_of(bits: u16, code: &[u8]) -> Vec<u8> {
    let mut file = file(bits);
    let section = 0x58 + if bits == 64 { 240 } else { 224 };
    put_numbers(&mut file, 0x58 + 16, &[0x1_0000]);
    put_numbers(&mut file, section + 8, &[code.len() as u32, 0x1_0000, code.len() as u32, END as u32]);
    file.extend(code);
    file
}
