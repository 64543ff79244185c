//! The driver of `examples/driver`, built from its bytes: a routine that writes one of four commands to a rig, by a jump table, and an entry that
//! calls it for each.

use super::file::{file, put, DATA, TEXT};

/// The entry point, at 1000.
const ENTRY: &[u8] = &[
    0x53, // push rbx
    0x48, 0x83, 0xec, 0x20, // sub rsp, 20
    0x48, 0x8d, 0x0d, 0x04, 0x11, 0, 0, // lea rcx, [2110]
    0xff, 0x15, 0x2e, 0x10, 0, 0, // call [2040]
    0x31, 0xdb, // xor ebx, ebx
    0x89, 0xd9, // 1014: mov ecx, ebx
    0xe8, 0x25, 0, 0, 0, // call 1040
    0x85, 0xc0, // test eax, eax
    0x78, 0x09, // js 1028
    0xff, 0xc3, // inc ebx
    0x83, 0xfb, 4, // cmp ebx, 4
    0x72, 0xee, // jb 1014
    0x31, 0xc0, // xor eax, eax
    0x48, 0x83, 0xc4, 0x20, // 1028: add rsp, 20
    0x5b, // pop rbx
    0xc3, // ret
];
/// `SendCommand`, at 1040, up to its cases.
const SEND: &[u8] = &[
    0x48, 0x83, 0xec, 0x28, // sub rsp, 28
    0x83, 0xf9, 3, // cmp ecx, 3
    0x77, 0x6a, // ja 10b3
    0x89, 0xc8, // mov eax, ecx
    0x4c, 0x8d, 0x15, 0x2e, 0x11, 0, 0, // lea r10, [2180]
    0x49, 0x63, 0x04, 0x82, // movsxd rax, [r10+rax*4]
    0x4c, 0x01, 0xd0, // add rax, r10
    0xff, 0xe0, // jmp rax
];
/// Behind its cases.
const SENT: &[u8] = &[
    0xb8, 0x0d, 0, 0, 0xc0, // 10b3: mov eax, c000000d
    0x48, 0x83, 0xc4, 0x28, // 10b8: add rsp, 28
    0xc3, // ret
];
const SENT_AT: u32 = 0x10b3;
/// Where each case begins, and its command with the place of it.
const CASES: [(u32, u32, &[u8]); 4] =
    [(0x105b, 0x2120, b"FA00007030000;"), (0x1071, 0x2130, b"MD3;"), (0x1087, 0x2138, b"KS020;"), (0x109d, 0x2140, b"TX1;")];
const TABLE: u32 = 0x2180;
const PORT: u32 = 0x21a0;
const RIG_WRITE: u32 = 0x2050;

/// `lea rdx, [text]`, `mov rcx, [PORT]`, `call [RIG_WRITE]`, `jmp 10b8`.
fn case(at: u32, text: u32) -> Vec<u8> {
    let mut code = Vec::new();
    for (opcode, address) in [(&[0x48, 0x8d, 0x15][..], text), (&[0x48, 0x8b, 0x0d], PORT), (&[0xff, 0x15], RIG_WRITE)] {
        code.extend(opcode);
        let next = at + code.len() as u32 + 4;
        code.extend((address - next).to_le_bytes());
    }
    let next = at + code.len() as u32 + 2;
    code.extend([0xeb, (SENT_AT + 5 - next) as u8]);
    code
}

/// At an address of the first or the second section.
fn put_at(file: &mut [u8], address: u32, bytes: &[u8]) {
    let (section, place) = if address < 0x2000 { (0x1000, TEXT) } else { (0x2000, DATA) };
    put(file, place + (address - section) as usize, bytes);
}

fn put_numbers(file: &mut [u8], address: u32, numbers: &[u32]) {
    let bytes: Vec<u8> = numbers.iter().flat_map(|n| n.to_le_bytes()).collect();
    put_at(file, address, &bytes);
}

/// DbgPrint of ntoskrnl.exe at 2040 and RigWrite of rigport.sys at 2050.
fn put_imports(file: &mut [u8]) {
    put_numbers(file, 0x2000, &[0x2060, 0, 0, 0x20a0, 0x2040, 0x2070, 0, 0, 0x20b0, RIG_WRITE]);
    for slot in [0x2040, 0x2060] {
        put_numbers(file, slot, &[0x2080, 0, 0, 0, 0x2090]);
    }
    put_at(file, 0x2082, b"DbgPrint");
    put_at(file, 0x2092, b"RigWrite");
    put_at(file, 0x20a0, b"ntoskrnl.exe");
    put_at(file, 0x20b0, b"rigport.sys");
}

/// SendCommand at 1040.
fn put_exports(file: &mut [u8]) {
    put(file, 0x58 + 112, &[0xc0, 0x20, 0, 0, 0x40, 0, 0, 0]);
    put_numbers(file, 0x20c0, &[0, 0, 0, 0x2100, 1, 1, 1, 0x20e8, 0x20ec, 0x20f0]);
    put_numbers(file, 0x20e8, &[0x1040, 0x20f4]);
    put_at(file, 0x20f4, b"SendCommand");
    put_at(file, 0x2100, b"sender.sys");
}

pub fn sender() -> Vec<u8> {
    let mut file = file(64);
    file[TEXT..DATA].fill(0xcc);
    file[DATA..].fill(0);
    put_at(&mut file, 0x1000, ENTRY);
    put_at(&mut file, 0x1040, SEND);
    put_at(&mut file, SENT_AT, SENT);
    put_imports(&mut file);
    put_exports(&mut file);
    put_at(&mut file, 0x2110, b"sender started\n");
    for (at, text_at, text) in CASES {
        put_at(&mut file, at, &case(at, text_at));
        put_at(&mut file, text_at, text);
    }
    put_numbers(&mut file, TABLE, &CASES.map(|(at, ..)| at.wrapping_sub(TABLE)));
    file
}
