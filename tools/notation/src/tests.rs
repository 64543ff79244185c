//! Both ways on generated and hand-made records, and every message with its line.

use oracle::damage::Call;
use oracle::rng::Rng;

use crate::record::{example, kind, register as r, Insn, Layout, Operand, BODY};
use crate::{assemble, dump};

const EXAMPLE: &str = "bits 64
convention systemv
indent 1

block 1000
  1000: test eax, eax
  1002: jne 1010
  edge true 1010
  edge false 1004

block 1004
  1004: mov eax, 5
  edge fall 1010

block 1010 label
  1010: ret
";

/// Bytes to text and back.
fn is_exact(bytes: &[u8]) -> String {
    let text = dump(bytes).unwrap();
    let record = assemble(text.as_bytes()).unwrap_or_else(|e| panic!("line {}: {}\n{text}", e.line, e.what));
    assert!(record.to_bytes() == bytes, "{text}");
    text
}

#[test]
fn worked_example() {
    assert_eq!(is_exact(&example().to_bytes()), EXAMPLE);
}

#[test]
fn generated_records() {
    for seed in 0..4000 {
        is_exact(&oracle::compare::record(seed));
    }
    let mut rng = Rng::new(7);
    is_exact(&oracle::gen::at_limits(&mut rng).to_bytes());
    for which in 0..7 {
        is_exact(&oracle::gen::around_limit(&mut rng, which, 1).to_bytes());
    }
}

/// Whether every byte is some field's; written from document 01 alone.
fn is_measured(bytes: &[u8]) -> bool {
    let n = |at: usize| usize::from(bytes[at]) + 256 * usize::from(bytes[at + 1]);
    if bytes.len() < 24 {
        return false;
    }
    let [b, i, e, a, s, t] = [4, 6, 8, 10, 12, 22].map(n);
    if bytes.len() != 24 + 12 * b + 9 * e + 100 * i + 10 * a + 16 * s + t {
        return false;
    }
    let marks = 24 + 8 * b;
    let lengths = 24 + 12 * b + 9 * e + 100 * i + 8 * a;
    (0..b).map(|k| n(marks + 4 * k)).sum::<usize>() == i
        && (0..b).map(|k| usize::from(bytes[marks + 4 * k + 2])).sum::<usize>() == e
        && (0..a).map(|k| usize::from(bytes[lengths + 2 * k + 1])).sum::<usize>() == t
}

#[test]
fn every_byte_of_a_small_record() {
    let small = oracle::gen::small().to_bytes();
    let mut bytes = small.clone();
    let mut exact = 0;
    for at in 0..bytes.len() {
        for byte in 0..=255 {
            bytes[at] = byte;
            assert_eq!(dump(&bytes).is_ok(), is_measured(&bytes), "byte {at} is {byte}");
            exact += usize::from(is_measured(&bytes));
        }
        bytes[at] = small[at];
    }
    assert!(exact > 100_000, "{exact}");
}

#[test]
fn damaged_records() {
    let mut rng = Rng::new(3);
    let mut exact = 0;
    for seed in 0..3000 {
        let bytes = oracle::compare::record(seed);
        let to = Layout::of(&bytes).b;
        let call = oracle::damage::damaged(&mut rng, &Call { bytes, from: 0, to });
        assert_eq!(dump(&call.bytes).is_ok(), is_measured(&call.bytes));
        if is_measured(&call.bytes) {
            is_exact(&call.bytes);
            exact += 1;
        }
    }
    assert!(exact > 1000, "{exact}");
}

#[test]
fn bodies_of_any_bytes() {
    let mut rng = Rng::new(4);
    for _ in 0..20000 {
        let mut bytes = assemble(b"bits 64\nconvention systemv\nindent 1\nblock 1\n1: nop").unwrap().to_bytes();
        let from = bytes.len() - BODY;
        let often = rng.pick(&[5, 50, 100]);
        for byte in &mut bytes[from..] {
            if rng.percent(often) {
                let any = rng.u64() as u8;
                *byte = rng.pick(&[any, 0, 1, 5, 64, 80, 97, 115]);
            }
        }
        is_exact(&bytes);
    }
}

/// Lines with a character changed, added or gone: a record or a message, and a record goes both ways.
#[test]
fn texts_with_slips() {
    let mut rng = Rng::new(5);
    for seed in 0..3000 {
        let mut text = dump(&oracle::compare::record(seed)).unwrap().into_bytes();
        text.truncate(3000);
        for _ in 0..rng.range(1, 4) {
            let at = rng.below(text.len());
            match rng.below(3) {
                0 => text[at] = rng.pick(b" ,:[]+-*#;\"\\x0189afgrR?_\n\xc3"),
                1 => text.insert(at, rng.pick(b" ,:[]+-*#;\"\\x0189afgrR?_\n\xc3")),
                _ => drop(text.remove(at)),
            }
        }
        match assemble(&text) {
            Ok(record) => drop(is_exact(&record.to_bytes())),
            Err(e) => assert!((1..=text.len() + 1).contains(&e.line) && !e.what.is_empty()),
        }
    }
}

/// A text with one block of these lines.
fn with_lines(bits: u16, lines: &str) -> String {
    format!("bits {bits}\nconvention microsoft\nindent 1\n\nblock 1000\n{lines}")
}

/// The instruction of a line in code of 16, 32 or 64 bits.
fn insn(bits: u16, line: &str) -> Insn {
    let text = with_lines(bits, &format!("1000: {line}\n"));
    assemble(text.as_bytes()).unwrap_or_else(|e| panic!("{line}: {}", e.what)).blocks[0].insns[0]
}

/// Lines that a debugger could show.
const USUAL_64: &str = "bits 64
convention microsoft
indent 1

block 1000
  1000: mov eax, 5
  1000: mov eax, 0xffffffff
  1000: mov rax, -1
  1000: mov rax, 0x123456789
  1000: mov al, 0x80
  1000: mov ax, 0x1234
  1000: mov dword ptr [rsp+8], 5
  1000: mov qword ptr ss:[rsp+0x20], rbx
  1000: mov rax, qword ptr gs:[0x30]
  1000: add rsp, 0x28
  1000: add eax, -1
  1000: add eax, 0x80
  1000: add ax, -2
  1000: and rax, -0x10
  1000: cmp byte ptr [rax], 0
  1000: cmp qword ptr [rax], 0x1000
  1000: test eax, 5
  1000: test rax, -8
  1000: test al, 1
  1000: shl eax, 0x1f
  1000: bt eax, 3
  1000: imul eax, ecx, 0x64
  1000: imul rax, rcx
  1000: push 5
  1000: push -1
  1000: push 0x1000
  1000: push rbx
  1000: ret
  1000: ret 8
  1000: adc edx, 0
  1000: sbb eax, eax
  1000: lea rcx, [rel 0x402000]
  1000: lea rax, [rax+rcx*4+8]
  1000: lea rax, [rcx*1]
  1000: lea rax, [rax+rcx]
  1000: lea rax, [rcx*8-0x10]
  1000: mov eax, dword ptr [r8d-4]
  1000: mov eax, dword ptr [0x402000]
  1000: call qword ptr [rel 0x403010]
  1000: call rax
  1000: call 402000
  1000: jmp 1010
  1000: jmp qword ptr [rax+rcx*8]
  1000: jne 1010
  1000: jnz 1010
  1000: jrcxz 1010
  1000: loopne 1010
  1000: sete al
  1000: cmovb eax, ecx
  1000: cmovle rax, qword ptr [rsp+8]
  1000: movzx eax, byte ptr [rcx]
  1000: movsxd rax, ecx
  1000: xchg dword ptr [rcx], eax
  1000: cmpxchg dword ptr [rcx], edx
  1000: movups xmmword ptr [rsp+0x20], xmm0
  1000: vmovups ymm0, ymmword ptr [rax]
  1000: cdq
  1000: nop
  1000: fld tbyte ptr [rax]
  1000: int 0x21
  1000: out 0x60, al
  1000: in al, 0x60
  1000: movsb ?, ?
  1000: mov r8l, sil
  1000: mov ah, bh
  1000: push fs
  1000: rdtsc
  1000: ud2
  1000: endbr64
  1000: shld eax, ecx, 4
  1000: mov rbx, qword ptr [rsp+0x30] #skip
  1000: mov eax, none
  1000: enter imm16 0x20, 0
";

const USUAL_32: &str = "bits 32
convention microsoft
indent 1

block 1000
  1000: mov eax, dword ptr [ebp-4]
  1000: mov dword ptr ss:[ebp+8], 0xffffffff
  1000: push 0x402000
  1000: push -1
  1000: push dword ptr [esp+8]
  1000: mov eax, dword ptr fs:[0]
  1000: lea eax, [ecx+ecx*2-1]
  1000: add esp, 0xc
  1000: mov al, byte ptr [si-2]
  1000: cmp eax, 0x80000000
  1000: call dword ptr [0x402000]
  1000: jmp dword ptr [eax*4+0x402000]
  1000: or dword ptr [eax], -1
";

const USUAL_16: &str = "bits 16
convention microsoft
frame bp
indent 1

block 1000
  1000: push bp
  1000: mov bp, sp
  1000: sub sp, 0xa
  1000: sub sp, 0x100
  1000: mov ax, word ptr [bp+4]
  1000: mov word ptr ss:[bp-2], ax
  1000: mov word ptr [bp-4], 0xffff
  1000: mov byte ptr [bx+si-1], 0xd
  1000: lea dx, [bp+di-0x100]
  1000: mov al, byte ptr es:[di]
  1000: mov ax, word ptr [bx-0x8000]
  1000: mov ax, word ptr [bx+0x7fff]
  1000: mov ax, word ptr [0x3f8]
  1000: mov dx, 0x3fd
  1000: in al, dx
  1000: out dx, al
  1000: in al, 0x60
  1000: out 0x60, al
  1000: test al, 0x20
  1000: test ax, 0x8000
  1000: push 5
  1000: push -1
  1000: push 0x80
  1000: push 0xfffe
  1000: push ds
  1000: push word ptr [bp+6]
  1000: add sp, 4
  1000: add cx, -2
  1000: add cx, 0x80
  1000: cmp ax, 0xff00
  1000: and word ptr [si], -0x10
  1000: mov eax, dword ptr [ebx+ecx*4-4]
  1000: add eax, -1
  1000: call 1010
  1000: call word ptr [bx+2]
  1000: loop 1010
  1000: jcxz 1010
  1000: int 0x21
  1000: retf
  1000: retf 4
  1000: ret 4
";

/// They come back as they are, without fields but the skip mark.
#[test]
fn usual_lines() {
    for text in [USUAL_64, USUAL_32, USUAL_16] {
        assert_eq!(is_exact(&assemble(text.as_bytes()).unwrap().to_bytes()), text);
    }
}

#[test]
fn other_spellings() {
    for (other, usual) in [
        ("MOV EAX,DWORD PTR [RSP+8]", "mov eax, dword ptr [rsp+8]"),
        ("mov r8b, 1 ; a comment", "mov r8l, 1"),
        ("jmp 0x1010", "jmp 1010"),
        ("jmp near 1010", "jmp 1010"),
        ("call dword ptr [402000]", "call dword ptr [0x402000]"),
        ("lea eax, [rel 402000]", "lea eax, [rel 0x402000]"),
        ("lea eax, [rcx*4+rax+0x8]", "lea eax, [rax+rcx*4+8]"),
        ("lea eax, [rax+8+rcx]", "lea eax, [rax+rcx+8]"),
        ("setz al", "sete al"),
        ("cmovnle eax, ecx", "cmovg eax, ecx"),
        ("mov eax, -1", "mov eax, 0xffffffff"),
        ("mov al, -0x80", "mov al, 0x80"),
        ("add rax, 0xffffffffffffffff", "add rax, -1"),
        ("push rbx #skip 1", "push rbx #skip"),
    ] {
        assert_eq!(insn(64, other), insn(64, usual), "{other}");
    }
}

#[test]
fn fields_of_usual_lines() {
    let number = |bits: u16, line: &str, k: usize| {
        let o = insn(bits, line).operands[k];
        (o.kind, o.register, o.number)
    };
    assert_eq!(number(64, "mov eax, 5", 1), (5, 0, 5));
    assert_eq!(number(64, "mov eax, -1", 1), (5, 0, 0xffff_ffff));
    assert_eq!(number(64, "mov rax, -1", 1), (10, 0, u64::MAX));
    assert_eq!(number(64, "mov rax, 0x80000000", 1), (6, 0, 0x8000_0000));
    assert_eq!(number(64, "add ax, -2", 1), (7, 0, -2i64 as u64));
    assert_eq!(number(64, "add eax, -2", 1), (8, 0, -2i64 as u64));
    assert_eq!(number(64, "add rax, -2", 1), (9, 0, -2i64 as u64));
    assert_eq!(number(64, "add ax, 0x80", 1), (4, 0, 0x80));
    assert_eq!(number(64, "push 5", 0), (9, 0, 5));
    assert_eq!(number(32, "push 5", 0), (8, 0, 5));
    assert_eq!(number(32, "push 0x402000", 0), (5, 0, 0x402000));
    assert_eq!(number(16, "push 5", 0), (7, 0, 5));
    assert_eq!(number(16, "push -2", 0), (7, 0, -2i64 as u64));
    assert_eq!(number(16, "push 0x80", 0), (4, 0, 0x80));
    assert_eq!(number(16, "push -0x81", 0), (4, 0, 0xff7f));
    assert_eq!(number(16, "mov word ptr [bx], -2", 1), (4, 0, 0xfffe));
    assert_eq!(number(16, "add cx, -2", 1), (7, 0, -2i64 as u64));
    assert_eq!(number(16, "cmp word ptr [bp-2], 0x80", 1), (4, 0, 0x80));
    assert_eq!(number(16, "retf 4", 0), (4, 0, 4));
    assert_eq!(number(64, "ret 8", 0), (4, 0, 8));
    assert_eq!(number(64, "call 402000", 0), (2, 0, 0x402000));
    assert_eq!(number(64, "xor eax, near 10", 1), (2, 0, 0x10));
    assert_eq!(number(64, "mov eax, imm8to16 -1", 1), (7, 0, u64::MAX));
    assert_eq!(number(64, "mov eax, imm8 -1", 1), (3, 0, 0xff));
    assert_eq!(number(64, "mov eax, imm8 0x1ff", 1), (3, 0, 0x1ff));
    assert_eq!(number(64, "mov r15, ?", 0), (0, 95, 0));
    assert_eq!(number(64, "mov r15, ?", 1), (11, 0, 0));
    assert_eq!(insn(32, "mov eax, dword ptr [ebp-4]").memory, 0xffff_fffc);
    assert_eq!(insn(64, "mov eax, dword ptr [rbp-4]").memory, -4i64 as u64);
    assert_eq!(insn(32, "mov eax, dword ptr [bp-4]").memory, 0xfffc);
    assert_eq!(insn(16, "mov ax, word ptr [bp-4]").memory, 0xfffc);
    assert_eq!(insn(16, "mov ax, word ptr [bx+si-2]").memory, 0xfffe);
    assert_eq!(insn(16, "mov ax, word ptr [si*1-2]").memory, 0xfffe);
    assert_eq!(insn(16, "mov ax, word ptr [ebx-4]").memory, 0xffff_fffc);
    assert_eq!(insn(64, "lea rax, [rel 402000]").base, r::RIP);
    let jnz = insn(64, "jnz 1010");
    assert_eq!((jnz.mnemonic, jnz.condition, &jnz.name[..4]), (0, 6, &b"jnz\0"[..]));
    let sete = insn(64, "sete al");
    assert_eq!((sete.mnemonic, sete.condition, sete.name), (26, 5, [0; 24]));
}

#[test]
fn fields_by_name() {
    let line = "? #mnemonic 9 #condition ne #count 2 #skip 2 #segment gs #base rax #index #200 #scale 3 #size 9 #memory -1 \
                #op1 imm32 rcx 0x10 #op5 #12 none 7 #name \"a\\xff\"";
    let mut operands = [Operand::default(); 5];
    operands[0] = Operand { kind: kind::IMM32, register: r::RCX, number: 0x10 };
    operands[4] = Operand { kind: 12, register: 0, number: 7 };
    let mut name = [0; 24];
    name[..2].copy_from_slice(b"a\xff");
    let want = Insn {
        address: 0x1000,
        mnemonic: 9,
        condition: 6,
        count: 2,
        skip: 2,
        segment: r::GS,
        base: r::RAX,
        index: 200,
        scale: 3,
        size: 9,
        memory: u64::MAX,
        operands,
        name,
    };
    assert_eq!(insn(64, line), want);
}

/// Every field of the header, an empty block, and texts with each escape.
#[test]
fn the_rest_of_a_record() {
    let text = "bits 32
convention #7
frame #300
shift -0x80000000 mark 2
indent 200

block ffffffffffffffff label #3
  edge #9 0

block 0
  edge case ffffffffffffffff

atlas string 0 \"\"
atlas wide 1 \"\\0\\t\\r\\n'\\\"\\\\\\u{1}\\u{7f} ~\\x80\\xff\"
atlas name 2 \"n\"
atlas #0 2 \"; #\"
span 5 4
";
    let record = assemble(text.as_bytes()).unwrap();
    assert_eq!(record.atlas[1].text, b"\0\t\r\n'\"\\\x01\x7f ~\x80\xff");
    assert_eq!((record.shift, record.shift_given, record.frame), (i32::MIN, 2, 300));
    assert_eq!(is_exact(&record.to_bytes()), text);
    let quoted = "bits 64\nconvention microsoft\nindent 0\natlas string 1 \"\\'\\u{0}\\u{0d}\\x41\"";
    assert_eq!(assemble(quoted.as_bytes()).unwrap().atlas[0].text, b"'\0\rA");
}

/// The message of a text, with its line.
fn message(text: &[u8]) -> (usize, String) {
    let e = assemble(text).unwrap_err();
    (e.line, e.what)
}

/// Messages about a line that stands fifth, before the first block.
const BEFORE_THE_BLOCKS: &[(&str, &str)] = &[
    ("bits 64", "`bits` is given twice"),
    ("frame", "a register is wanted, not the end of the line"),
    ("frame rbq", "`rbq` is no register"),
    ("frame #65536", "`#65536` is no number from #0 to #65535"),
    ("frame rbp rbp", "the line should end before `rbp`"),
    ("shift 0x80000000", "a shift has 32 bits"),
    ("shift 32", "is `32` decimal or hexadecimal? Write 0x and hexadecimal digits"),
    ("shift x", "`x` is no number"),
    ("shift 0x10000000000000000", "`0x10000000000000000` is no number of 64 bits"),
    ("shift -0x8000000000000001", "`-0x8000000000000001` is no number of 64 bits"),
    ("shift 1 mark 256", "`256` is no decimal number from 0 to 255"),
    ("1000: nop", "no block is there yet: a line `block ADDRESS` begins one"),
    ("edge true 1000", "no block is there yet: a line `block ADDRESS` begins one"),
    ("block", "an address is wanted, not the end of the line"),
    ("block 10000000000000000", "`10000000000000000` is no address: up to sixteen hexadecimal digits"),
    ("block 1000 lable", "the line should end before `lable`"),
    ("block 1000 label 2", "the line should end before `2`"),
    ("block 1000 label #256", "`#256` is no number from #0 to #255"),
    ("span 1000", "an address is wanted, not the end of the line"),
    ("atlas text 1000 \"a\"", "`text` is not an atlas entry's kind: string wide name"),
    ("atlas string 1000 a", "a text in quotes is wanted, not `a`"),
    ("atlas string 1000 \"a", "the quotes are not closed"),
    ("atlas string 1000 \"a\\\"", "the quotes are not closed"),
    ("atlas string 1000 \"\u{e9}\"", "a byte 0xc3 in quotes: write it as \\xc3"),
    ("atlas string 1000 \"\t\"", "a byte 0x09 in quotes: write it as \\x09"),
    ("atlas string 1000 \"\\q\"", "`\\q` is no escape: there are \\0 \\t \\r \\n \\' \\\" \\\\ \\u{..} and \\xNN"),
    ("atlas string 1000 \"\\u{80}\"", "`\\u` is no escape: there are \\0 \\t \\r \\n \\' \\\" \\\\ \\u{..} and \\xNN"),
    ("atlas string 1000 \"\\x+1\"", "`\\x` is no escape: there are \\0 \\t \\r \\n \\' \\\" \\\\ \\u{..} and \\xNN"),
    (": nop", "a word or an address is wanted, not `:`"),
    (
        "1000 nop",
        "`1000` begins no line: a line is `ADDRESS: ...` or begins with bits, convention, frame, shift, indent, block, edge, \
         atlas or span",
    ),
    ("(", "`(` means nothing here"),
];

#[test]
fn messages_before_the_blocks() {
    for (line, what) in BEFORE_THE_BLOCKS {
        let text = format!("; first\nbits 64\nconvention systemv\nindent 1\n{line}\n");
        assert_eq!(message(text.as_bytes()), (5, what.to_string()), "{line}");
    }
}

/// Messages about an instruction's line, the sixth.
const ABOUT_INSTRUCTIONS: &[(&str, &str)] = &[
    ("100g: nop", "`100g` is no address: up to sixteen hexadecimal digits"),
    ("1000:", "a mnemonic is wanted, not the end of the line"),
    ("1000: a?", "`a?` is no mnemonic: a name has 1 to 24 of a-z, 0-9 and _"),
    ("1000: abcdefghijklmnopqrstuvwxy", "`abcdefghijklmnopqrstuvwxy` is no mnemonic: a name has 1 to 24 of a-z, 0-9 and _"),
    ("1000: rep movsb", "`movsb` is no operand"),
    ("1000: mov eax ecx", "`,` is wanted, not `ecx`"),
    ("1000: mov eax,", "an operand is wanted, not the end of the line"),
    ("1000: mov eax, \"a\"", "an operand is wanted, not a text in quotes"),
    ("1000: mov eax, 10", "is `10` decimal or hexadecimal? Write 0x and hexadecimal digits"),
    ("1000: mov al, 0x100", "0x100 fits no usual immediate here: write its kind, as in `imm32 0x100`"),
    ("1000: mov al, -0x81", "-0x81 fits no usual immediate here: write its kind, as in `imm32 -0x81`"),
    ("1000: mov al, imm8 -0x81", "-0x81 does not fit imm8"),
    ("1000: jmp x", "`x` is no address: up to sixteen hexadecimal digits"),
    ("1000: jmp -1", "an operand is wanted, not `-`"),
    ("1000: dq 1, 2, 3, 4, 5, 6", "6 operands, where five are the most"),
    ("1000: mov eax, [rax]", "how many bytes? Write `dword ptr [..]`, or `void ptr [..]` if that is not known"),
    ("1000: mov eax, dword [rax]", "`ptr` is wanted, not `[`"),
    ("1000: mov eax, dword ptr ax[rax]", "`:` is wanted, not `[`"),
    ("1000: mov eax, dword ptr [rax", "`+`, `-` or `]` is wanted, not the end of the line"),
    ("1000: mov eax, dword ptr [rax*3]", "a scale is 1, 2, 4 or 8"),
    ("1000: mov eax, dword ptr [rax+rcx+rdx]", "an address has one base and one index"),
    ("1000: mov eax, dword ptr [rax-rcx]", "`rcx` is no number"),
    ("1000: mov eax, dword ptr [rax+8-8]", "two numbers in one address"),
    ("1000: mov eax, dword ptr [rax+20]", "is `20` decimal or hexadecimal? Write 0x and hexadecimal digits"),
    ("1000: mov eax, dword ptr [8+rax]", "an address with registers is written `[REGISTER+NUMBER]`"),
    ("1000: mov eax, dword ptr [rip+8]", "an address relative to rip is written `[rel ADDRESS]`, with the address itself"),
    ("1000: mov eax, dword ptr [eax-0x80000001]", "-0x80000001 is too far for registers of 4 bytes"),
    ("1000: mov ax, word ptr [bx+si-0x8001]", "-0x8001 is too far for registers of 2 bytes"),
    ("1000: mov dword ptr [rax], dword ptr [rcx]", "two memory operands that differ: a record has room for one"),
    ("1000: nop #flag 1", "`#flag` is no field of an instruction"),
    ("1000: nop # 1", "`#` is no field of an instruction"),
    ("1000: nop #count", "a decimal number is wanted, not the end of the line"),
    ("1000: nop #skip 1 1", "the line should end before `1`"),
    ("1000: nop #condition q", "`q` is not a condition: none o no b ae e ne be a s ns p np l ge le g"),
    (
        "1000: nop #op1 imm9 none 0",
        "`imm9` is not an operand's kind: register memory near imm8 imm16 imm32 imm64 imm8to16 imm8to32 imm8to64 imm32to64 other",
    ),
    ("1000: nop #base #256", "`#256` is no number from #0 to #255"),
    ("1000: nop #name \"abcdefghijklmnopqrstuvwxy\"", "a name has at most 24 bytes"),
    ("edge maybe 1000", "`maybe` is not an edge's kind: uncond true false fall case"),
    ("bits 64", "`bits` is given twice"),
    ("frame rbp", "`frame` must stand before the first block"),
];

#[test]
fn messages_about_instructions() {
    for (line, what) in ABOUT_INSTRUCTIONS {
        let text = format!("bits 64\nconvention systemv\nindent 1\n\nblock 1000\n  {line}\n");
        assert_eq!(message(text.as_bytes()), (6, what.to_string()), "{line}");
    }
}

#[test]
fn messages_about_the_whole() {
    let missing = |text: &str| message(text.as_bytes());
    assert_eq!(missing(""), (1, "`bits` is not given".to_string()));
    assert_eq!(missing("bits 64\nindent 1\n\nblock 1\n"), (4, "`convention` is not given".to_string()));
    assert_eq!(missing("bits 64\nconvention systemv\n"), (3, "`indent` is not given".to_string()));
    assert_eq!(missing("bits 64\nconvention dos\n"), (2, "`dos` is not a convention: microsoft systemv".to_string()));
    assert_eq!(missing("bits sixty\n"), (1, "`sixty` is no decimal number from 0 to 65535".to_string()));
    assert_eq!(missing("; a \u{e9}\nindent 256\n"), (2, "`256` is no decimal number from 0 to 255".to_string()));
    assert_eq!(message(b"bits 64\n; \xff\n"), (2, "the line is not UTF-8".to_string()));
}

/// One line more than a record can count.
#[test]
fn messages_about_counts() {
    let head = "bits 64\nconvention systemv\nindent 1\nblock 1\n";
    let long = |n: usize| format!("atlas string 1 \"{}\"\n", "a".repeat(n));
    for (line, most, what) in [
        ("block 1\n", 65534, "65535 blocks"),
        ("1: nop\n", 65535, "65535 instructions"),
        ("edge true 1\n", 255, "255 edges of one block"),
        ("atlas string 1 \"\"\n", 65535, "65535 atlas entries"),
        ("span 1 1\n", 65535, "65535 spans"),
        (&long(255), 257, "65535 bytes in all atlas texts"),
    ] {
        let full = head.to_string() + &line.repeat(most);
        is_exact(&assemble(full.as_bytes()).unwrap().to_bytes());
        let over = (5 + most, format!("more than {what}: a record cannot count them"));
        assert_eq!(message((full + line).as_bytes()), over);
    }
    let over = (5, "more than 255 bytes in one atlas text: a record cannot count them".to_string());
    assert_eq!(message((head.to_string() + &long(256)).as_bytes()), over);
    let edges = ("block 1\n".to_string() + &"edge true 1\n".repeat(255)).repeat(257);
    let last = 4 + 256 * 257 + 2;
    let over = (last, "more than 65535 edges: a record cannot count them".to_string());
    assert_eq!(message((head.to_string() + &edges + "block 1\nedge true 1\n").as_bytes()), over);
}

#[test]
fn messages_of_dump() {
    let example = example().to_bytes();
    let changed = |at: usize, byte: u8| {
        let mut bytes = example.clone();
        bytes[at] = byte;
        dump(&bytes).unwrap_err()
    };
    assert_eq!(dump(&example[..23]).unwrap_err(), "23 bytes, where a header alone has 24");
    assert_eq!(dump(&example[..80]).unwrap_err(), "the header says 487 bytes, there are 80");
    assert_eq!(changed(48, 3), "the header says 4 instructions, there are 5");
    assert_eq!(changed(50, 3), "the header says 3 edges, there are 4");
    let texts = assemble(b"bits 64\nconvention systemv\nindent 1\natlas string 1 \"ab\"").unwrap().to_bytes();
    let mut short = texts.clone();
    short[33] = 1;
    assert_eq!(dump(&short).unwrap_err(), "the header says 2 bytes of atlas text, there are 1");
}
