//! What is recorded of small files, and how it is listed.

mod decode;
mod extent;
mod file;
mod hostile;
mod names;
mod tables;

use super::{record_driver, Routine, Unrecorded};
use file::{file, file_of, named_file, put, DATA, TEXT};

fn routines_of(file: &[u8]) -> Vec<Routine> {
    record_driver(file).expect("a PE file").routines
}

/// The first routine of a file that has this code instead.
fn coded(bits: u16, code: &[u8]) -> Vec<u8> {
    let mut file = file(bits);
    put(&mut file, TEXT, code);
    routines_of(&file).remove(0).record.expect("a record")
}

/// The skip marks of a record.
fn skips(record: &[u8]) -> Vec<u8> {
    let n = |at: usize| usize::from(u16::from_le_bytes([record[at], record[at + 1]]));
    let bodies = 24 + 12 * n(4) + 9 * n(8) + 8 * n(6);
    (0..n(6)).map(|i| record[bodies + 92 * i + 3]).collect()
}

fn recorded(bits: u16) -> Vec<Routine> {
    routines_of(&file(bits))
}

/// The listing's lines, indented from the first indent on, which is 1.
fn listing(routine: &Routine) -> Vec<String> {
    let record = routine.record.as_ref().expect("a record");
    let listing = cakirotu::list(record, cakirotu::blocks(record)).expect("an accepted record");
    let line = |l: cakirotu::Line| {
        format!("{}{}", "  ".repeat(usize::from(l.indent).saturating_sub(1)), String::from_utf8_lossy(l.text()))
    };
    listing.view().lines().map(line).collect()
}

#[test]
fn all_routines_are_recorded_and_accepted() {
    for (bits, base) in [(32, 0x40_0000), (64, 0x1_4000_0000)] {
        let routines = recorded(bits);
        let found: Vec<u64> = routines.iter().map(|r| r.address - base).collect();
        assert_eq!(found, [0x1000, 0x1040], "{bits}");
        assert_eq!(routines.iter().map(|r| r.blocks).collect::<Vec<_>>(), [3, 5], "{bits}");
        routines.iter().for_each(|r| assert!(!listing(r).is_empty()));
        routines.iter().for_each(|r| assert_eq!(r.record.as_ref().map(|bytes| bytes[21]), Ok(1)));
    }
}

#[test]
fn listing_of_the_entry() {
    let [wide, narrow] = [64, 32].map(|bits| listing(&recorded(bits)[0]));
    assert_eq!(wide, WIDE_ENTRY);
    assert_eq!(narrow, NARROW_ENTRY);
}

#[test]
fn listing_of_the_cases() {
    let [wide, narrow] = [64, 32].map(|bits| listing(&recorded(bits)[1]));
    assert_eq!(wide, WIDE_CASES);
    assert_eq!(narrow, NARROW_CASES);
}

const WIDE_ENTRY: &[&str] = &[
    "eax = 0;",
    "ecx = 3;",
    "loc_14000100B:",
    "eax += ecx;",
    "ecx -= 1;",
    "if (ecx != 0) goto loc_14000100B;",
    "rcx = \"started\\n\";",
    "rax = DbgPrint(rcx);",
    "ecx = eax;",
    "rax = sub_140001040(rcx);",
    "return rax;",
];
const NARROW_ENTRY: &[&str] = &[
    "eax = 0;",
    "ecx = 3;",
    "loc_40100A:",
    "eax += ecx;",
    "ecx -= 1;",
    "if (ecx != 0) goto loc_40100A;",
    "eax = DbgPrint(\"started\\n\");",
    "eax = sub_401040(eax);",
    "return eax;",
];
const WIDE_CASES: &[&str] = &[
    "if ((unsigned)ecx <= 2) {",
    "  eax = ecx;",
    "  rdx = &unk_140002180;",
    "  rax = (int64_t)*(uint32_t *)(rdx + (rax * 4));",
    "  rax += rdx;",
    "  goto *rax;",
    "loc_140001057:",
    "  eax = 0xa;",
    "  return rax;",
    "loc_14000105D:",
    "  eax = 0x14;",
    "  return rax;",
    "}",
    "loc_140001063:",
    "eax = 0;",
    "return rax;",
];
const NARROW_CASES: &[&str] = &[
    "eax = var_4;",
    "if ((unsigned)eax <= 2) {",
    "  return *(uint32_t *)((eax * 4) + 0x402180)();",
    "loc_401050:",
    "  eax = 0xa;",
    "  return eax;",
    "loc_401058:",
    "  eax = 0x14;",
    "  return eax;",
    "}",
    "loc_401060:",
    "eax = 0;",
    "return eax;",
];

#[test]
fn exports_and_unwind_table() {
    let routines = routines_of(&named_file());
    let found: Vec<_> = routines.iter().map(|r| (r.address, r.name.as_deref())).collect();
    assert_eq!(found, [(0x1_4000_1000, None), (0x1_4000_1040, Some("Cases"))]);
    assert!(listing(&routines[0]).contains(&"rax = Cases(rcx);".to_string()));
    assert_eq!(listing(&routines[1]), WIDE_CASES);
}

#[test]
fn saves_and_reloads_are_skipped() {
    let code = [
        &[0x48, 0x89, 0x5c, 0x24, 8][..],      // mov [rsp+8], rbx
        &[0x57, 0x48, 0x83, 0xec, 0x20],       // push rdi; sub rsp, 20
        &[0x48, 0x8b, 0xd9],                   // mov rbx, rcx
        &[0x48, 0x89, 0x5c, 0x24, 0x10],       // mov [rsp+10], rbx: no save
        &[0x48, 0x8b, 0xc3],                   // mov rax, rbx
        &[0x48, 0x8b, 0x5c, 0x24, 0x30],       // mov rbx, [rsp+30]
        &[0x48, 0x83, 0xc4, 0x20, 0x5f, 0xc3], // add rsp, 20; pop rdi; ret
    ];
    let record = coded(64, &code.concat());
    assert_eq!(skips(&record), [1, 0, 0, 0, 0, 0, 1, 0, 0, 0]);
    assert_eq!(record[14..21], [0; 7]);
}

#[test]
fn frame_and_shift() {
    // mov rax, rsp; mov [rax+8], rbx; push rdi; sub rsp, 30; ret
    let record = coded(64, &[0x48, 0x8b, 0xc4, 0x48, 0x89, 0x58, 8, 0x57, 0x48, 0x83, 0xec, 0x30, 0xc3]);
    assert_eq!(record[14..21], [80, 0, 0x38, 0, 0, 0, 1]);
    assert_eq!(skips(&record), [0, 1, 0, 0, 0]);
    // push ebp; mov ebp, esp; lea esi, [esi+0]; mov edi, edi; ret
    let record = coded(32, &[0x55, 0x8b, 0xec, 0x8d, 0x76, 0, 0x8b, 0xff, 0xc3]);
    assert_eq!(record[14..21], [69, 0, 0, 0, 0, 0, 0]);
    assert_eq!(skips(&record), [0, 0, 1, 1, 0]);
}

#[test]
fn branches_without_a_condition_number() {
    // 401000: jecxz 401005; dec ecx; loop 401000; ret
    let record = coded(32, &[0xe3, 3, 0x49, 0xe2, 0xfb, 0xc3]);
    let listed = cakirotu::list(&record, cakirotu::blocks(&record)).expect("an accepted record");
    let text: Vec<String> = listed.view().lines().map(|l| String::from_utf8_lossy(l.text()).into_owned()).collect();
    assert_eq!(text, ["__asm { jecxz loc_401005 }", "ecx--;", "__asm { loop loc_401000 }", "loc_401005:", "return;"]);
}

#[test]
fn a_call_of_what_follows_is_no_routine() {
    // call 401005; pop ebx; ret
    let mut file = file(32);
    put(&mut file, TEXT, &[0xe8, 0, 0, 0, 0, 0x5b, 0xc3]);
    let routines = routines_of(&file);
    assert_eq!(routines.iter().map(|r| (r.address, r.instructions)).collect::<Vec<_>>(), [(0x40_1000, 3)]);
}

#[test]
fn a_jump_through_an_import_has_its_name() {
    let mut file = file(32);
    put(&mut file, TEXT + 0x40, &[0xff, 0x25, 0x40, 0x20, 0x40, 0]);
    let routines = routines_of(&file);
    assert_eq!(routines[1].name.as_deref(), Some("DbgPrint"));
    assert!(listing(&routines[0]).contains(&"eax = DbgPrint(eax);".to_string()));
}

#[test]
fn strings() {
    let with = |text: &[u8]| {
        let mut file = file(32);
        file[DATA + 0x100..DATA + 0x180].fill(0);
        put(&mut file, DATA + 0x100, text);
        listing(&routines_of(&file)[0])[6].clone()
    };
    assert_eq!(with(b"four"), "eax = DbgPrint(\"four\");");
    assert_eq!(with(b"f\0o\0u\0r\0"), "eax = DbgPrint(L\"four\");");
    assert_eq!(with(b"two"), "eax = DbgPrint(off_402100);");
    assert_eq!(with(b"four\x80"), "eax = DbgPrint(off_402100);");
}

#[test]
fn padding_behind_the_last_call_is_left_out() {
    let mut file = file(32);
    // call 401040; nop; nop; bytes that do not decode
    put(&mut file, TEXT, &[0xe8, 0x3b, 0, 0, 0, 0x90, 0x90, 0xff, 0xff]);
    let routines = routines_of(&file);
    assert_eq!((routines[0].instructions, routines[0].record.is_ok()), (1, true));
}

#[test]
fn reasons_without_a_record() {
    let mut file = file(32);
    put(&mut file, TEXT, &[0xd9, 0xc0, 0xc3]);
    put(&mut file, TEXT + 0x40, &[0x0f, 0x04]);
    put(&mut file, TEXT + 0x10, &[0xe8, 0x2b, 0, 0, 0, 0xc3]);
    file[TEXT + 2] = 0x90;
    (3..0x10).for_each(|n| file[TEXT + n] = 0x90);
    let why = |reason| match reason {
        Unrecorded::Limit(why) | Unrecorded::Other(why) => why,
    };
    let reasons: Vec<String> = routines_of(&file).into_iter().map(|r| why(r.record.expect_err("no record"))).collect();
    assert_eq!(
        reasons,
        ["at 401000 a register that a record has no number for: st(0)", "bytes at 401040 that do not decode"].map(String::from)
    );
}

/// The most instructions that a record holds, and one more.
#[test]
fn a_long_routine_is_over_a_limit() {
    // inc eax, again and again; ret
    let long = |n: usize| routines_of(&file_of(32, &[vec![0x40; n - 1], vec![0xc3]].concat())).remove(0);
    assert_eq!(listing(&long(500)).len(), 500);
    let over = long(501);
    assert_eq!((over.blocks, over.instructions), (1, 501));
    assert_eq!(over.record.unwrap_err().to_string(), "no 3: 501 instructions, more than the 500 that a record holds");
}
