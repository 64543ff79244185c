//! Document 01's example and cases, on the unchanged Rust, and document 02's departures, on the amended one.

use crate::damage::Call;
use crate::emitter::PseudoLine;
use crate::listing::{list, list_changed, unchanged, Listing, Origin};
use crate::record::{edge, example, kind, mnemonic as m, name, register as r, Block, Edge, Entry, Insn, Operand, Record};

const EXAMPLE: &str = "lines=5
0000000000001002   if (eax == 0) {
0000000000001004     eax = 5;
----------------   }
0000000000001010 loc_1010:
0000000000001010   return;
";

fn reg(register: u8) -> Operand {
    Operand { kind: kind::REGISTER, register, number: 0 }
}

fn imm(kind: u8, number: u64) -> Operand {
    Operand { kind, register: 0, number }
}

const MEM: Operand = Operand { kind: kind::MEMORY, register: 0, number: 0 };

fn insn(mnemonic: u8, operands: &[Operand]) -> Insn {
    let mut i = Insn { mnemonic, count: operands.len() as u8, ..Insn::default() };
    i.operands[..operands.len()].copy_from_slice(operands);
    i
}

fn jcc(text: &str, condition: u8, target: u64) -> Insn {
    Insn { condition, name: name(text), ..insn(m::OTHER, &[imm(kind::NEAR, target)]) }
}

fn one_block(insns: Vec<Insn>) -> Record {
    Record { bits: 64, convention: 1, blocks: vec![Block { start: 0x1000, insns, ..Block::default() }], ..Record::default() }
}

/// The lines of a record without their addresses.
fn lines(record: &Record) -> Vec<String> {
    let bytes = record.to_bytes();
    let to = record.blocks.len();
    assert_eq!(crate::questions::first_no(&bytes, 0, to), 0);
    let listing = list(&bytes, 0, to).unwrap();
    crate::demand3::check(record, 0, to, &listing).unwrap();
    (0..listing.lines()).map(|n| String::from_utf8(listing.line(n).to_vec()).unwrap()).collect()
}

/// The text of `eax = SOURCE;`.
fn source(insn: Insn) -> String {
    source_in(one_block(vec![]), insn)
}

fn source_in(mut record: Record, insn: Insn) -> String {
    record.blocks[0].insns = vec![insn];
    let line = lines(&record).remove(0);
    line.strip_prefix("eax = ").unwrap().strip_suffix(';').unwrap().to_string()
}

fn mov_imm(kind: u8, number: u64) -> String {
    source(insn(m::MOV, &[reg(r::EAX), imm(kind, number)]))
}

fn mov_mem(base: u8, disp: u64, size: u16) -> Insn {
    Insn { base, memory: disp, size, ..insn(m::MOV, &[reg(r::EAX), MEM]) }
}

#[test]
fn worked_example() {
    let bytes = example().to_bytes();
    assert_eq!(crate::questions::first_no(&bytes, 0, 3), 0);
    assert_eq!(String::from_utf8(list(&bytes, 0, 3).unwrap().print()).unwrap(), EXAMPLE);
}

/// The program's own limits: 65,536 text bytes, 16,384 tokens, and longer input cut.
#[test]
fn limits_of_the_program() {
    let program = |record: &Record| String::from_utf8(crate::listing::program(&record.to_bytes()).unwrap()).unwrap();
    assert_eq!(program(&example()), EXAMPLE);
    let cut = crate::listing::program(&[&example().to_bytes()[..], &[0; 70_000]].concat()).unwrap();
    assert_eq!(cut, b"no 4\n");
    assert_eq!(crate::listing::program(&[]).unwrap(), b"no 1\n");
    let literal = imm(5, 0x5000);
    let pushes = |pushed: Operand, n: usize, calls: usize| {
        let mut insns = vec![insn(m::PUSH, &[pushed]); n];
        insns.resize(n + calls, insn(m::JMP, &[MEM]));
        Record {
            bits: 32,
            atlas: vec![Entry { address: 0x5000, kind: 1, text: vec![b'a'; 80] }],
            spans: vec![(0x5000, 0x5000)],
            ..one_block(insns)
        }
    };
    // Each line is `return unk_0(A, A, ..);` with n arguments, a literal having 82 bytes.
    let text = |n: usize, calls: usize| calls * ("return unk_0();".len() + 82 * n + 2 * (n - 1));
    assert!(text(10, 76) <= 65_536 && text(10, 77) > 65_536);
    assert!(program(&pushes(literal, 10, 76)).starts_with("lines=76\n"));
    assert_eq!(program(&pushes(literal, 10, 77)), "no 12\n");
    let tokens = |n: usize, calls: usize| calls * (4 + 2 * n);
    assert!(tokens(126, 64) == 16_384 && tokens(126, 65) > 16_384);
    assert!(program(&pushes(reg(r::EAX), 126, 64)).starts_with("lines=64\n"));
    assert_eq!(program(&pushes(reg(r::EAX), 126, 65)), "no 13\n");
}

#[test]
fn lists_of_the_example() {
    let listing = list(&example().to_bytes(), 0, 3).unwrap();
    assert_eq!(listing.line_addresses, [0x1002, 0x1004, 0, 0x1010, 0x1010]);
    assert_eq!(listing.line_marks, [257, 258, 1, 256, 257]);
    assert_eq!(listing.line_places, [0, 1, 0, 2, 2]);
    assert_eq!(listing.line_ends, [6, 10, 11, 13, 15]);
    assert_eq!(listing.token_kinds, [3, 6, 1, 6, 2, 6, 1, 6, 2, 6, 6, 4, 6, 3, 6]);
    assert_eq!(listing.token_ends.last(), Some(&(listing.text.len() as u32)));
}

#[test]
fn case_a_numbers() {
    assert_eq!([9, 10].map(|n| mov_imm(6, n)), ["9", "0xa"]);
    assert_eq!([-9i64, -10].map(|n| mov_imm(6, n as u64)), ["-9", "-0xa"]);
}

#[test]
fn case_b_kind_5() {
    assert_eq!(mov_imm(5, 0xFFFFF000), "-0x1000");
    assert_eq!(mov_imm(5, 0xFFFFEFFF), "0xffffefff");
}

#[test]
fn case_c_kind_7() {
    let values = [0xFFFF, 0xF000, 0xEFFF, 0x1FFFE];
    assert_eq!(values.map(|v| mov_imm(7, v)), ["-1", "-0x1000", "0xefff", "-2"]);
}

#[test]
fn case_d_base_index() {
    let i = Insn { index: r::RCX, scale: 4, ..mov_mem(r::RAX, 8, 4) };
    assert_eq!(source(i), "*(uint32_t *)((rax + (rcx * 4)) + 8)");
}

#[test]
fn case_e_stack() {
    assert_eq!(source(mov_mem(r::RSP, 0x20, 4)), "var_20");
    assert_eq!(source(mov_mem(r::RSP, -8i64 as u64, 8)), "*(uint64_t *)(rsp - 8)");
}

#[test]
fn case_f_shifted_frame() {
    let record = Record { frame: r::RBP.into(), shift: 0x20, shift_given: 1, ..one_block(vec![]) };
    assert_eq!(source_in(record, mov_mem(r::RBP, -0x30i64 as u64, 8)), "*(uint64_t *)(rsp - 0x30)");
}

#[test]
fn case_g_frame_of_32_bits() {
    let record = Record { bits: 32, frame: r::EBP.into(), ..one_block(vec![]) };
    assert_eq!(source_in(record, mov_mem(r::EBP, 0xFFFFFFF8, 4)), "arg_FFFFFFF8");
}

#[test]
fn case_h_unsigned() {
    let mut record = one_block(vec![insn(m::CMP, &[reg(r::EAX), imm(5, 5)]), jcc("jb", 3, 0x2000)]);
    record.blocks[0].edges = vec![Edge { to: 0x2000, kind: edge::TRUE }];
    assert_eq!(lines(&record), ["if ((unsigned)eax < 5) goto loc_2000;"]);
}

#[test]
fn case_i_backslash() {
    let record = Record {
        atlas: vec![Entry { address: 0x5000, kind: 1, text: b"\\".to_vec() }],
        spans: vec![(0x5000, 0x5000)],
        ..one_block(vec![])
    };
    assert_eq!(source_in(record, insn(m::MOV, &[reg(r::EAX), imm(5, 0x5000)])), "\"\\\\\"");
}

#[test]
fn case_j_self_loop() {
    let mut record = one_block(vec![insn(m::DEC, &[reg(r::EAX)]), jcc("jne", 6, 0x1000)]);
    record.blocks[0].edges = vec![Edge { to: 0x1000, kind: edge::TRUE }];
    assert_eq!(lines(&record), ["eax--;", "if (eax != 0) goto loc_1000;"]);
}

#[test]
fn settled_readings() {
    // 2 and 7: mnemonic 0 is other, whatever its name.
    let sete = Insn { condition: 5, name: name("sete"), ..insn(m::OTHER, &[reg(r::AL)]) };
    let clc = Insn { name: name("clc"), ..insn(m::OTHER, &[]) };
    assert_eq!(lines(&one_block(vec![sete, clc])), ["__asm { sete al }", "__asm { clc  }"]);
    // 3: a near branch reads its own operand's number.
    let two = insn(m::XOR, &[imm(kind::NEAR, 0x2000), imm(kind::NEAR, 0x3000)]);
    assert_eq!(lines(&one_block(vec![two])), ["loc_2000 ^= loc_3000;"]);
    // 1: skip marks go by instruction.
    let skipped = Insn { skip: 1, ..insn(m::DEC, &[reg(r::EAX)]) };
    assert_eq!(lines(&one_block(vec![skipped, insn(m::INC, &[reg(r::EAX)])])), ["eax++;"]);
    // 11: slots of 32 bits do not wrap.
    let esp = Insn { memory: 0xFFFFFFF8, ..mov_mem(r::ESP, 0, 4) };
    assert_eq!(source_in(Record { bits: 32, ..one_block(vec![]) }, esp), "var_FFFFFFF8");
    // 12: kinds 5 and 8 test the low 32 bits.
    assert_eq!(mov_imm(8, 0x1_FFFF_FFFF), "-1");
    assert_eq!(mov_imm(8, 0xFFFF_FFFF_FFFF_EFFF), "0xffffffffffffefff");
}

#[test]
fn registers_are_spelled_as_listed() {
    let spell = |n: u8| source(insn(m::MOV, &[reg(r::EAX), reg(n)]));
    let some = [0, 16, 20, 24, 32, 35, 48, 56, 64, 72, 80, 88, 95, 96, 97, 112, 117, 128, 143, 144, 159];
    let names = [
        "none", "al", "spl", "r8l", "ah", "bh", "ax", "r8w", "eax", "r8d", "rax", "r8", "r15", "eip", "rip", "es", "gs", "xmm0",
        "xmm15", "ymm0", "ymm15",
    ];
    assert_eq!(some.map(spell), names);
}

#[test]
fn pieces_of_the_example() {
    use crate::pieces::{conditions, memory, operands};
    let text = |t: &crate::pieces::Tokens| String::from_utf8(t.text.clone()).unwrap();
    let record = example();
    assert_eq!(operands(&record)[2].each_ref().map(text), ["eax", "5", "none", "none", "none"]);
    assert_eq!(text(&memory(&record, false)[0]), "&unk_0");
    assert_eq!(
        conditions(&record, 6).iter().map(text).collect::<Vec<_>>(),
        ["__flags_ne", "eax != 0", "__flags_ne", "__flags_ne"]
    );
}

/// With bits 32 and 64 the amended Rust prints otherwise only where a request is said to depart, and an operand always where one is.
#[test]
fn amended_where_a_request_departs() {
    use crate::departures::{condition, operand};
    use crate::{amended, emitter};
    let mut rng = crate::rng::Rng::new(3);
    let text = |tokens: &[crate::model::Token]| tokens.iter().map(|t| t.t.as_str()).collect::<String>();
    let mut unlike = [0; 2];
    for _ in 0..500 {
        let record = Record::parse(&crate::damage::valid_call(&mut rng).bytes);
        if record.bits == 16 {
            continue;
        }
        for ((rust, amended), i) in emitter::operands(&record).iter().zip(&amended::operands(&record)).zip(record.insns()) {
            for k in 0..5 {
                assert_eq!(text(&rust[k]) != text(&amended[k]), operand(&record, &i.operands[k]));
                unlike[0] += usize::from(operand(&record, &i.operands[k]));
            }
        }
        for c in 1..=16 {
            let both = emitter::conditions(&record, c).into_iter().zip(amended::conditions(&record, c));
            let blocks = record.blocks.iter().map(|b| &b.insns);
            let departs = blocks.flat_map(|i| (0..i.len()).map(|n| condition(&record, &i[..n], c)));
            for ((rust, amended), departs) in both.zip(departs) {
                assert!(departs || text(&rust) == text(&amended));
                unlike[1] += usize::from(text(&rust) != text(&amended));
            }
        }
    }
    assert!(unlike[0] > 100 && unlike[1] > 1000, "{unlike:?}");
}

/// With bits 32 and 64 #114 changes nothing: memory operands are the unchanged Rust's, and so is every line but those that #104 and #106
/// depart on and #101 adds, which the merged listing has from the amended one.
#[test]
fn bits_16_alone_change_the_rest() {
    use crate::{amended, emitter, listing};
    let mut rng = crate::rng::Rng::new(5);
    let mut lines = 0;
    for _ in 0..2000 {
        let call = crate::damage::valid_call(&mut rng);
        let record = Record::parse(&call.bytes);
        if record.bits == 16 {
            continue;
        }
        for read in [true, false] {
            let both = emitter::memory(&record, read).into_iter().zip(amended::memory(&record, read));
            both.for_each(|(rust, amended)| assert!(rust.iter().map(|t| &t.t).eq(amended.iter().map(|t| &t.t))));
        }
        let merged = listing::list_record(&record, call.from, call.to).unwrap();
        let amended = listing::amended_alone(&record, call.from, call.to).unwrap();
        assert_eq!(merged.difference(&amended), None);
        assert_eq!(merged.amended_16, 0);
        lines += merged.lines();
    }
    assert!(lines > 10_000, "{lines}");
}

/// A do-loop of these blocks and one that closes it, at 0x1000, 0x1010 and so on, with a return behind it. All labels are wanted.
fn do_loop(bits: u16, bodies: &[&[Insn]]) -> Record {
    let closing = [insn(m::DEC, &[reg(r::EAX)]), jcc("jne", 6, 0x1000)];
    let ret = [insn(m::RET, &[])];
    let block = |(place, insns): (usize, &[Insn])| {
        let mut block = Block { start: 0x1000 + 16 * place as u64, label: 1, insns: insns.to_vec(), ..Block::default() };
        block.edges.extend(block.jump_target().map(|to| Edge { to, kind: edge::UNCOND }));
        block.edges.extend(block.branch_target().map(|to| Edge { to, kind: edge::TRUE }));
        block
    };
    let blocks = bodies.iter().copied().chain([&closing[..], &ret]).enumerate().map(block).collect();
    Record { bits, convention: 1, blocks, ..Record::default() }
}

fn jmp(target: u64) -> Insn {
    insn(m::JMP, &[imm(kind::NEAR, target)])
}

fn inc() -> Insn {
    insn(m::INC, &[reg(r::EAX)])
}

/// The lines of a loop's first block, where a second one and the closing one follow.
fn first_block(bits: u16, insns: &[Insn]) -> Vec<String> {
    let lines = lines(&do_loop(bits, &[insns, &[inc()]]));
    let end = lines.iter().position(|l| l == "loc_1010:").unwrap();
    assert_eq!(lines[end..], ["loc_1010:", "eax++;", "loc_1020:", "eax--;", "} while (eax != 0);", "loc_1030:", "return;"]);
    assert_eq!(lines[0], "do {");
    lines[1..end].to_vec()
}

#[test]
fn jump_in_a_loop() {
    let mut record = do_loop(64, &[&[inc(), jmp(0x1020)], &[inc()]]);
    record.indent = 3;
    record.blocks[0].insns[1].address = 0x1002;
    let bytes = record.to_bytes();
    assert_eq!(crate::questions::first_no(&bytes, 0, 4), 0);
    let listing = list(&bytes, 0, 4).unwrap();
    assert_eq!(listing.line(2), b"goto loc_1020;");
    assert_eq!((listing.line_addresses[2], listing.line_marks[2]), (0x1002, 256 + 4));
    assert_eq!(listing.tokens(2).map(|(k, _)| k).collect::<Vec<_>>(), [3, 0, 4, 6]);
    assert_eq!((listing.added, listing.amended, listing.amended_16), (vec![2], 1, 0));
    // A range without the closing block has no loop, and the line is the unchanged Rust's.
    let part = list(&bytes, 0, 2).unwrap();
    assert_eq!((part.line(2), part.amended), (&b"goto loc_1020;"[..], 0));
}

#[test]
fn jump_in_a_loop_to_a_block() {
    let goto = |target: u64| first_block(64, &[inc(), jmp(target)]);
    assert_eq!(goto(0x1020), ["eax++;", "goto loc_1020;"]);
    assert_eq!(goto(0x1030), ["eax++;", "goto loc_1030;"]);
    // To itself, and a do-head has no label where no block outside the loop leads to it.
    assert_eq!(goto(0x1000), ["eax++;", "goto loc_1000;"]);
    let named = Entry { address: 0x1030, kind: 3, text: b"done".to_vec() };
    let record = Record { atlas: vec![named], ..do_loop(64, &[&[jmp(0x1030)], &[]]) };
    assert_eq!(lines(&record)[1], "goto done;");
    // The second block's jumps: back to the head, and to no block.
    for (target, line) in [(0x1000, "goto loc_1000;"), (0x1018, "return sub_1018();")] {
        let both = do_loop(64, &[&[jmp(0x1020)], &[jmp(target)]]);
        assert_eq!(lines(&both)[..5], ["do {", "goto loc_1020;", "loc_1010:", line, "loc_1020:"]);
    }
}

#[test]
fn jump_in_a_loop_to_no_block() {
    let moves = [insn(m::MOV, &[reg(r::RDI), imm(5, 5)]), insn(m::MOV, &[reg(r::RSI), reg(r::RAX)]), jmp(0x5000)];
    assert_eq!(first_block(64, &moves), ["rdi = 5;", "rsi = rax;", "return sub_5000(rdi, rsi);"]);
    let pushes = [insn(m::PUSH, &[imm(5, 5)]), insn(m::PUSH, &[reg(r::EAX)]), jmp(0x5000)];
    for bits in [16, 32] {
        assert_eq!(first_block(bits, &pushes), ["return sub_5000(eax, 5);"]);
    }
    // #106 departs on what is pushed, and the line is added all the same.
    let negative = [insn(m::PUSH, &[imm(kind::IMM8TO16, 0xffff)]), jmp(0x5000)];
    assert_eq!(first_block(32, &negative), ["return sub_5000(-1);"]);
    assert_eq!(first_block(64, &[jmp(0x5000)]), ["return sub_5000();"]);
}

/// What the skip mark silences: no last jump but one to the next block, which is silent anyway.
#[test]
fn jump_in_a_loop_silent() {
    let skipped = |target: u64| Insn { skip: 1, ..jmp(target) };
    assert_eq!(first_block(64, &[inc(), jmp(0x1010)]), ["eax++;"]);
    assert_eq!(first_block(64, &[inc(), skipped(0x1010)]), ["eax++;"]);
    assert_eq!(first_block(64, &[inc(), skipped(0x1020)]), ["eax++;", "goto loc_1020;"]);
    assert_eq!(first_block(64, &[inc(), skipped(0x5000)]), ["eax++;", "return sub_5000();"]);
    // A jump that is not last is silent, and an indirect one is as before.
    assert_eq!(first_block(64, &[jmp(0x1030), skipped(0x5000), inc()]), ["eax++;"]);
    let indirect = insn(m::JMP, &[reg(r::RAX)]);
    assert_eq!(first_block(64, &[inc(), indirect]), ["eax++;", "goto *rax;"]);
    assert_eq!(first_block(64, &[inc(), Insn { skip: 1, ..indirect }]), ["eax++;"]);
}

/// A range's lines, each behind its place.
fn placed(record: &Record, from: usize, to: usize) -> Vec<String> {
    let bytes = record.to_bytes();
    assert_eq!(crate::questions::first_no(&bytes, from, to), 0);
    let listing = list(&bytes, from, to).unwrap();
    crate::demand3::check(record, from, to, &listing).unwrap();
    (0..listing.lines()).map(|n| format!("{} {}", listing.line_places[n], String::from_utf8_lossy(listing.line(n)))).collect()
}

/// A do-line has the place of the loop's first block, as its label has, and the while-line that of the last.
#[test]
fn places_of_a_loop() {
    let mut record = do_loop(64, &[&[inc(), jmp(0x1020)], &[]]);
    record.blocks.insert(0, Block { start: 0xff0, edges: vec![Edge { to: 0x1000, kind: edge::UNCOND }], ..Block::default() });
    let lines = [
        "1 loc_1000:", "1 do {", "1 eax++;", "1 goto loc_1020;", "2 loc_1010:", "3 loc_1020:", "3 eax--;",
        "3 } while (eax != 0);", "4 loc_1030:", "4 return;",
    ];
    assert_eq!(placed(&record, 0, 5), lines);
    assert_eq!(placed(&record, 1, 4), lines[..8]);
    // Without the last block there is no loop.
    assert_eq!(placed(&record, 1, 3), ["1 loc_1000:", "1 eax++;", "1 goto loc_1020;", "2 loc_1010:"]);
}

/// Two if-regions that end together, with a do-loop inside.
fn nested() -> Record {
    let block = |place: u64, insns: Vec<Insn>| {
        let mut block = Block { start: 0x1000 + 16 * place, label: 1, insns, ..Block::default() };
        block.edges.extend(block.branch_target().map(|to| Edge { to, kind: edge::TRUE }));
        block
    };
    let blocks = vec![
        block(0, vec![inc()]),
        block(1, vec![jcc("jne", 6, 0x1050)]),
        block(2, vec![inc(), jcc("jo", 1, 0x1050)]),
        block(3, vec![inc()]),
        block(4, vec![jcc("js", 9, 0x1030)]),
        block(5, vec![insn(m::RET, &[])]),
    ];
    Record { bits: 64, convention: 1, indent: 1, blocks, ..Record::default() }
}

const NESTED: [&str; 13] = [
    "0 eax++;", "1 loc_1010:", "1 if (__flags_e) {", "2 eax++;", "2 if (__flags_no) {", "3 do {", "3 eax++;", "4 loc_1040:",
    "4 } while (__flags_s);", "2 }", "1 }", "5 loc_1050:", "5 return;",
];

/// A brace has the place of its own opening line, whatever block's line stands before it.
#[test]
fn places_of_braces() {
    assert_eq!(placed(&nested(), 0, 6), NESTED);
}

/// Places are the record's in a part of it too.
#[test]
fn places_of_a_part() {
    assert_eq!(placed(&nested(), 1, 6), NESTED[2..]);
    assert_eq!(placed(&nested(), 3, 5), NESTED[5..9]);
    assert_eq!(placed(&nested(), 5, 6), NESTED[11..]);
    assert_eq!(placed(&example(), 1, 3), ["1 eax = 5;", "2 loc_1010:", "2 return;"]);
    assert_eq!(placed(&example(), 3, 3), [""; 0]);
}

/// Demand 3 is refused of a listing with another place in any line, and of one whose places fall.
#[test]
fn other_places_are_refused() {
    use crate::demand3::check;
    let record = nested();
    let right = list(&record.to_bytes(), 0, 6).unwrap();
    for (line, place) in (0..right.lines()).flat_map(|line| (0..6).map(move |place| (line, place))) {
        let mut other = right.clone();
        other.line_places[line] = place;
        assert_eq!(check(&record, 0, 6, &other).is_ok(), place == right.line_places[line]);
    }
    let mut plain = record;
    plain.blocks[1].insns = vec![inc()];
    plain.blocks[1].edges = vec![];
    let mut fallen = list(&plain.to_bytes(), 0, 2).unwrap();
    assert_eq!(fallen.line_places, [0, 1, 1]);
    fallen.origins.swap(0, 1);
    fallen.line_places.swap(0, 1);
    fallen.line_addresses.swap(0, 1);
    fallen.line_marks.swap(0, 1);
    assert!(check(&plain, 0, 2, &fallen).unwrap_err().contains("fall"));
}

/// The merged listing is refused if the amended Rust adds another line than #101 says, lacks one, or moves another.
#[test]
fn amended_lines_are_held_to_the_request() {
    let record = do_loop(64, &[&[jmp(0x1020)], &[inc(), jmp(0x1000)]]);
    let listing = list_changed(&record, |_| ()).unwrap();
    assert_eq!(listing.added, [1, 4]);
    assert!(list_changed(&record, |lines| drop(lines.remove(4))).unwrap_err().contains("each jump that #101 names"));
    assert!(list_changed(&record, |lines| lines[4].address = lines[1].address).unwrap_err().contains("each jump"));
    assert!(list_changed(&record, |lines| lines[1].address = lines[3].address).unwrap_err().contains("each jump"));
    for n in [0, 2, 3, 5, 6, 7, 8, 9] {
        assert!(list_changed(&record, |lines| lines[n].indent += 1).unwrap_err().contains("other lines"));
        assert!(list_changed(&record, |lines| drop(lines.remove(n))).unwrap_err().contains("other lines"));
    }
    let silent = do_loop(64, &[&[inc(), jmp(0x1010)], &[]]);
    let shown = |lines: &mut Vec<PseudoLine>| {
        let (address, tokens) = (lines[1].address.map(|a| a + 1), lines[1].tokens.clone());
        lines.insert(2, PseudoLine { address, indent: 1, tokens });
    };
    assert!(list_changed(&silent, shown).unwrap_err().contains("other lines"));
}

/// The merged listing without the lines that #101 adds is the unchanged Rust's but where #104 and #106 depart. Each added line is "the same
/// goto or return line as elsewhere": what the unchanged Rust writes if the range ends behind the jump's block, so that no loop is around it.
/// Gotos and tail calls, skip-marked jumps, jumps to themselves and arguments are generated.
#[test]
fn added_lines_alone_are_new() {
    let mut rng = crate::rng::Rng::new(7);
    let (mut lines, mut gotos, mut calls, mut skipped, mut to_itself, mut arguments) = (0, 0, 0, 0, 0, 0);
    for _ in 0..20_000 {
        let Call { bytes, from, to } = crate::damage::valid_call(&mut rng);
        let record = Record::parse(&bytes);
        if record.bits == 16 {
            continue;
        }
        let merged = crate::listing::list_record(&record, from, to).unwrap();
        lines += same_without_added(&record, &merged, &unchanged(&record, from, to).unwrap());
        for line in merged.added.iter().copied() {
            let Origin::Instruction(n) = merged.origins[line] else { panic!("an instruction's line") };
            let (jump, place) = (record.insns().nth(n).unwrap(), record.place_of(n));
            let elsewhere = unchanged(&record, from, place + 1).unwrap();
            let there = elsewhere.origins.iter().position(|o| *o == merged.origins[line]).unwrap();
            assert!(crate::departures::lines(&record)[n] || merged.tokens(line).eq(elsewhere.tokens(there)));
            let is_call = record.blocks.iter().all(|b| b.start != jump.operands[0].number);
            gotos += usize::from(!is_call);
            calls += usize::from(is_call);
            skipped += usize::from(jump.skip == 1);
            to_itself += usize::from(record.blocks[place].start == jump.operands[0].number);
            arguments += usize::from(is_call && !merged.line(line).ends_with(b"();"));
        }
    }
    let counts = [gotos, calls, skipped, to_itself, arguments];
    assert!(lines > 100_000 && gotos > 500 && calls > 500 && skipped > 100 && to_itself > 40 && arguments > 100, "{counts:?}");
}

/// Compares the lines that are not added, one by one, and says how many they are.
fn same_without_added(record: &Record, merged: &Listing, unchanged: &Listing) -> usize {
    use Origin::*;
    let departs = crate::departures::lines(record);
    let kept: Vec<usize> = (0..merged.lines()).filter(|n| !merged.added.contains(n)).collect();
    assert_eq!(kept.len(), unchanged.lines());
    for (there, n) in kept.iter().enumerate() {
        assert_eq!(merged.origins[*n], unchanged.origins[there]);
        assert_eq!(merged.line_addresses[*n], unchanged.line_addresses[there]);
        assert_eq!(merged.line_marks[*n], unchanged.line_marks[there]);
        let is_departing = matches!(merged.origins[*n], Open(i) | While(i) | Instruction(i) if departs[i]);
        assert!(is_departing || merged.tokens(*n).eq(unchanged.tokens(there)));
    }
    assert_eq!(unchanged.added, []);
    kept.len()
}

/// A block of 16-bit code with this frame register.
fn real(frame: u8, insns: Vec<Insn>) -> Record {
    Record { bits: 16, frame: frame.into(), ..one_block(insns) }
}

/// The source of `eax = [base+disp]` of two bytes in 16-bit code.
fn real_mem(frame: u8, base: u8, disp: u64) -> String {
    source_in(real(frame, vec![]), mov_mem(base, disp, 2))
}

#[test]
fn bits_16_ax() {
    let call = insn(m::CALL, &[imm(kind::NEAR, 0x2000)]);
    let cmpxchg = Insn { base: r::BX, size: 2, ..insn(m::CMPXCHG, &[MEM, reg(r::CX)]) };
    let ret = insn(m::RET, &[]);
    assert_eq!(
        lines(&real(0, vec![call, cmpxchg, ret])),
        ["ax = sub_2000();", "ax = _InterlockedCompareExchange(&*(uint16_t *)bx, cx, ax);", "return ax;"]
    );
    assert_eq!(lines(&real(0, vec![insn(m::MOV, &[reg(r::CX), reg(r::DX)]), ret])), ["cx = dx;", "return;"]);
    // "All else is as with 32 bits."
    assert_eq!(lines(&real(0, vec![insn(30, &[]), insn(31, &[])])), ["rax = __rdtsc();", "__cpuid(eax, ecx);"]);
}

#[test]
fn bits_16_pushes() {
    let pushes = [imm(kind::IMM8TO16, 0xfffe), reg(r::AX), MEM, reg(r::SI)].map(|o| insn(m::PUSH, &[o]));
    let mut insns = pushes.to_vec();
    insns[2] = Insn { base: r::BP, memory: 4, size: 2, ..insns[2] };
    insns.push(insn(m::MOV, &[reg(r::CX), imm(kind::IMM16, 7)]));
    insns.push(insn(m::CALL, &[imm(kind::NEAR, 0x2000)]));
    let call = "ax = sub_2000(arg_4, ax, -2);";
    assert_eq!(lines(&real(r::BP, insns.clone())), ["cx = 7;", call]);
    insns.last_mut().unwrap().mnemonic = m::JMP;
    insns.last_mut().unwrap().operands[0] = MEM;
    assert_eq!(lines(&real(r::BP, insns)), ["cx = 7;", "return unk_0(arg_4, ax, -2);"]);
}

#[test]
fn bits_16_slots() {
    assert_eq!(
        [0xfffc, 4, 0x7fff, 0x8000, 0x1_0004, 0xdead_fffc].map(|d| real_mem(r::BP, r::BP, d)),
        ["var_4", "arg_4", "arg_7FFF", "var_8000", "arg_4", "var_4"]
    );
    assert_eq!([4, 0, 0x1_0004].map(|d| real_mem(0, r::SP, d)), ["var_4", "var_0", "var_4"]);
    assert_eq!(real_mem(0, r::SP, 0xfffc), "*(uint16_t *)(sp - 4)");
    assert_eq!(real_mem(r::SP, r::SP, 4), "var_4");
    assert_eq!([4, 0xfffc].map(|d| real_mem(r::SI, r::SI, d)), ["arg_4", "var_4"]);
    // esp and rsp are stack pointers at every width, and their displacements are read as with 32 bits.
    assert_eq!([r::ESP, r::RSP].map(|base| real_mem(0, base, 0xfffc)), ["var_FFFC"; 2]);
    assert_eq!([0xfffc, -4i64 as u64].map(|d| real_mem(r::EBP, r::EBP, d)), ["arg_FFFC", "var_4"]);
}

#[test]
fn bits_16_addresses() {
    let pair = |base: u8, index: u8, disp: u64| source_in(real(r::BP, vec![]), Insn { index, ..mov_mem(base, disp, 2) });
    assert_eq!(pair(r::BX, r::SI, 0xfffe), "*(uint16_t *)((bx + si) - 2)");
    assert_eq!(pair(r::BP, r::DI, 0x8000), "*(uint16_t *)((bp + di) - 0x8000)");
    assert_eq!(pair(r::BX, r::DI, 0x7_7fff), "*(uint16_t *)((bx + di) + 0x7fff)");
    assert_eq!(pair(r::BX, 0, 0x1_0000), "*(uint16_t *)bx");
    // A word register as base or index suffices; without one an address has 32 bits.
    assert_eq!(pair(r::EBX, r::SI, 0xfffe), "*(uint16_t *)((ebx + si) - 2)");
    assert_eq!(pair(0, r::SI, 0xfffe), "*(uint16_t *)(si - 2)");
    assert_eq!([0xfffe, 0xffff_fffe].map(|d| pair(r::EBX, 0, d)), ["*(uint16_t *)(ebx + 0xfffe)", "*(uint16_t *)(ebx - 2)"]);
    // A segment register is no word register, and an absolute address is added to none.
    assert_eq!(pair(r::DS, 0, 0xfffe), "*(uint16_t *)(ds + 0xfffe)");
    assert_eq!(pair(0, 0, 0xfffe), "word_FFFE");
    assert_eq!(source_in(real(0, vec![]), Insn { segment: r::FS, ..mov_mem(0, 0xfffe, 4) }), "__readfsdword(0xfffe)");
    let lea = Insn { base: r::BX, index: r::SI, memory: 0xfffe, ..insn(m::LEA, &[reg(r::AX), MEM]) };
    assert_eq!(lines(&real(0, vec![lea])), ["ax = (bx + si) - 2;"]);
}

#[test]
fn bits_16_shift_puts_sp() {
    let shifted = |frame: u8, shift: i32, disp: u64| {
        let record = Record { shift, shift_given: 1, ..real(frame, vec![]) };
        source_in(record, mov_mem(frame, disp, 2))
    };
    assert_eq!(shifted(r::BP, 0x20, 0xfffc), "var_1C");
    assert_eq!(shifted(r::BP, 0x20, 0xffd0), "*(uint16_t *)(sp - 0x30)");
    assert_eq!(shifted(r::BP, -8, 4), "*(uint16_t *)(sp + 4)");
    // Whatever the frame register's width; the recorded base says how the displacement is read.
    assert_eq!(shifted(r::EBP, 0x20, 0xfffc), "var_1001C");
    assert_eq!(shifted(r::EBP, 0x20, 0xffff_ffff_ffff_ffd0), "*(uint16_t *)(sp - 0x30)");
    assert_eq!(shifted(r::RBP, -0x20, 4), "*(uint16_t *)(sp + 4)");
    // With 32 bits it is esp.
    let wide = Record { bits: 32, shift: -8, shift_given: 1, ..real(r::BP, vec![]) };
    assert_eq!(source_in(wide, mov_mem(r::BP, 4, 2)), "*(uint16_t *)(esp + 4)");
}

/// What sets up and takes down a frame by sp, and what is then left of it.
#[test]
fn bits_16_noise() {
    let lea = Insn { base: r::BP, memory: 0xfffc, ..insn(m::LEA, &[reg(r::SP), MEM]) };
    let insns = vec![
        insn(m::PUSH, &[reg(r::BP)]),
        insn(m::MOV, &[reg(r::BP), reg(r::SP)]),
        insn(m::SUB, &[reg(r::SP), imm(kind::IMM8TO16, 4)]),
        insn(m::ADD, &[reg(r::SP), imm(kind::IMM8TO16, 4)]),
        insn(m::MOV, &[reg(r::SP), reg(r::BP)]),
        lea,
        insn(m::POP, &[reg(r::BP)]),
    ];
    assert_eq!(lines(&real(r::BP, insns.clone())), [""; 0]);
    // The frame register alone is set silently, and a register is not taken off sp silently.
    let shown = vec![insns[1], insn(m::SUB, &[reg(r::SP), reg(r::AX)])];
    assert_eq!(lines(&real(0, shown)), ["bp = sp;", "sp -= ax;"]);
    // sp is no stack pointer with 32 bits.
    let wide = Record { bits: 32, ..real(r::BP, insns) };
    assert_eq!(lines(&wide), ["bp = sp;", "sp -= 4;", "sp += 4;", "sp = bp;", "sp = &arg_FFFC;"]);
    let word = |bits: u16| source_in(Record { bits, ..real(0, vec![]) }, mov_mem(r::SP, 4, 2));
    assert_eq!([16, 32, 64].map(word), ["var_4", "*(uint16_t *)(sp + 4)", "*(uint16_t *)(sp + 4)"]);
}

/// Pieces and lines of 16-bit code are all the amended Rust's, and counted so.
#[test]
fn bits_16_depart_as_a_whole() {
    let record = real(r::BP, vec![mov_mem(r::BP, 0xfffc, 2), insn(m::MOV, &[reg(r::SP), reg(r::BP)]), insn(m::RET, &[])]);
    let text = |read: bool| String::from_utf8(crate::pieces::memory(&record, read)[0].text.clone()).unwrap();
    assert_eq!([true, false].map(text), ["var_4", "&var_4"]);
    let pieces = crate::pieces::all(&record);
    assert!(!pieces.is_empty() && pieces.iter().all(|p| p.amended));
    let listing = list(&record.to_bytes(), 0, 1).unwrap();
    assert_eq!((listing.lines(), listing.amended, listing.amended_16), (2, 2, 2));
    let wide = Record { bits: 32, ..record };
    assert!(crate::pieces::all(&wide).iter().all(|p| !p.amended));
    let listing = list(&wide.to_bytes(), 0, 1).unwrap();
    assert_eq!((listing.lines(), listing.amended, listing.amended_16), (3, 0, 0));
}

/// With 32 and 64 bits a word register's displacement is read as before.
#[test]
fn word_registers_at_other_widths() {
    let read = |bits: u16, disp: u64| source_in(Record { bits, ..real(0, vec![]) }, mov_mem(r::BX, disp, 2));
    assert_eq!(
        [16, 32, 64].map(|bits| read(bits, 0xfffe)),
        ["*(uint16_t *)(bx - 2)", "*(uint16_t *)(bx + 0xfffe)", "*(uint16_t *)(bx + 0xfffe)"]
    );
    assert_eq!(read(32, 0xffff_fffe), "*(uint16_t *)(bx - 2)");
}

/// Every shape of 16-bit code that #114 speaks of is generated.
#[test]
fn generated_code_of_16_bits() {
    let mut rng = crate::rng::Rng::new(6);
    let (mut records, mut pairs, mut slots, mut sp_lines, mut negative, mut shifted) = (0, 0, 0, 0, 0, 0);
    for _ in 0..5000 {
        let record = crate::gen::valid(&mut rng);
        if record.bits != 16 {
            continue;
        }
        records += 1;
        shifted += usize::from(record.shift_given == 1 && record.frame == u16::from(r::BP));
        for i in record.insns() {
            pairs += usize::from([r::BX, r::BP].contains(&i.base) && [r::SI, r::DI].contains(&i.index));
            slots += usize::from(i.base == r::BP && record.frame == u16::from(r::BP) && i.index == 0);
            sp_lines += usize::from(i.operands[0] == reg(r::SP));
            negative += usize::from(i.base / 16 == 3 && i.memory as u16 >= 0x8000);
        }
    }
    assert!((500..1000).contains(&records), "{records}");
    assert!(
        [pairs, slots, sp_lines, negative].iter().all(|n| *n > 200) && shifted > 50,
        "{pairs} {slots} {sp_lines} {negative} {shifted}"
    );
}

#[test]
fn generated_records_are_sane() {
    assert_eq!(crate::compare::sanity(11, 2000), Ok(true));
}

/// The first no after a change of the small record.
fn no_after(change: impl FnOnce(&mut Record)) -> u8 {
    let mut record = crate::gen::small();
    change(&mut record);
    crate::questions::first_no(&record.to_bytes(), 0, 3)
}

#[test]
fn questions_in_order() {
    assert_eq!(no_after(|_| ()), 0);
    assert_eq!(crate::questions::first_no(&[0; 23], 9, 0), 1);
    assert_eq!(no_after(|r| r.shift_given = 0), 2);
    assert_eq!([16, 32, 64].map(|bits| no_after(|r| r.bits = bits)), [0; 3]);
    assert_eq!([0, 8, 15, 17, 48, 128, 16 + 256].map(|bits| no_after(|r| r.bits = bits)), [2; 7]);
    assert_eq!(no_after(|r| r.indent = 56), 3);
    let mut longer = crate::gen::small().to_bytes();
    longer.push(0);
    assert_eq!(crate::questions::first_no(&longer, 9, 0), 4);
    assert_eq!(no_after(|r| r.blocks[2].label = 2), 5);
    assert_eq!(no_after(|r| r.blocks[2].start = 0x1000), 6);
    assert_eq!(no_after(|r| r.blocks[0].edges[1].kind = 5), 7);
    assert_eq!(no_after(|r| r.frame = 98), 8);
    assert_eq!(no_after(|r| r.blocks[0].insns[0].name[10] = b'a'), 8);
    assert_eq!(no_after(|r| r.atlas[1].address = 0x2000), 9);
    assert_eq!(no_after(|r| r.atlas[2].text = vec![]), 9);
    assert_eq!(no_after(|r| r.spans[0] = (1, 0)), 10);
    assert_eq!(crate::questions::first_no(&crate::gen::small().to_bytes(), 2, 1), 11);
    assert_eq!(crate::questions::first_no(&crate::gen::small().to_bytes(), 3, 4), 11);
}

/// Question 15 in every way, and between 8 and 9.
#[test]
fn true_edges_and_branches() {
    let to = |to: u64, kind: u8| Edge { to, kind };
    assert_eq!(no_after(|r| r.blocks[0].edges.clear()), 15);
    assert_eq!(no_after(|r| r.blocks[0].edges[0].kind = edge::FALSE), 15);
    assert_eq!(no_after(|r| r.blocks[0].edges.push(to(0x1000, edge::TRUE))), 15);
    assert_eq!(no_after(|r| r.blocks[0].edges[1].kind = edge::TRUE), 15);
    assert_eq!(no_after(|r| r.blocks[0].edges[0].to = 0x1100), 15);
    assert_eq!(no_after(|r| r.blocks[0].edges[0].to = 0x8000_0000_0000_1000), 15);
    assert_eq!(no_after(|r| r.blocks[0].insns[1].operands[0].number = 0x1100), 15);
    assert_eq!(no_after(|r| r.blocks[1].edges[0].kind = edge::TRUE), 15);
    assert_eq!(no_after(|r| r.blocks[2].edges[0].kind = edge::TRUE), 15);
    assert_eq!(no_after(|r| r.blocks[0].insns[1].operands[0].kind = kind::IMM32), 15);
    assert_eq!(no_after(|r| r.blocks[0].insns[1].condition = 0), 15);
    assert_eq!(no_after(|r| r.blocks[0].insns.reverse()), 15);
    assert_eq!(no_after(|r| r.blocks[0].insns.clear()), 15);
    // The True edge may stand anywhere and lead anywhere; other edges are free.
    assert_eq!(no_after(|r| r.blocks[0].edges.reverse()), 0);
    assert_eq!(no_after(|r| r.blocks[0].edges.push(to(0x1000, edge::UNCOND))), 0);
    let far = |r: &mut Record| {
        r.blocks[0].edges[0].to = 5;
        r.blocks[0].insns[1].operands[0].number = 5;
    };
    assert_eq!(no_after(far), 0);
    // The operand's slot is read beyond the count, and a setcc or cmovcc with a near branch first counts as a branch.
    assert_eq!([0, 5].map(|count| no_after(|r| r.blocks[0].insns[1].count = count)), [0; 2]);
    for mnemonic in [m::SETCC, m::CMOVCC] {
        let set = |r: &mut Record| r.blocks[0].insns[1] = Insn { mnemonic, name: [0; 24], ..r.blocks[0].insns[1] };
        assert_eq!(no_after(set), 0);
        assert_eq!(no_after(|r| (set(r), r.blocks[0].edges.remove(0)).0), 15);
    }
    let plain = |r: &mut Record| r.blocks[1].edges[0].kind = edge::TRUE;
    assert_eq!(no_after(|r| (plain(r), r.blocks[0].edges[1].kind = 5).0), 7);
    assert_eq!(no_after(|r| (plain(r), r.frame = 98).0), 8);
    assert_eq!(no_after(|r| (plain(r), r.atlas[1].address = 0x2000).0), 15);
    assert_eq!(no_after(|r| (plain(r), r.spans[0] = (1, 0)).0), 15);
}

/// Every way to break question 15 is generated, alone and beside 8 and 9.
#[test]
fn generated_contradictions() {
    let mut rng = crate::rng::Rng::new(8);
    let mut ways = [0; 8];
    let (mut with_8, mut with_9) = (0, 0);
    for _ in 0..20_000 {
        let base = crate::damage::valid_call(&mut rng);
        let call = crate::damage::damaged(&mut rng, &base);
        let first = crate::questions::first_no(&call.bytes, call.from, call.to);
        if ![8, 15].contains(&first) {
            continue;
        }
        let broken = crate::questions::every_no(&call.bytes, call.from, call.to);
        with_8 += usize::from(first == 8 && broken.contains(&15));
        with_9 += usize::from(first == 15 && broken.contains(&9));
        if broken == [15] {
            Record::parse(&call.bytes).blocks.iter().filter_map(way_of).for_each(|way| ways[way] += 1);
        }
    }
    assert!(ways.iter().all(|n| *n > 50) && with_8 > 100 && with_9 > 100, "{ways:?} {with_8} {with_9}");
}

/// In which way a block breaks question 15.
fn way_of(block: &Block) -> Option<usize> {
    let taken: Vec<u64> = block.edges.iter().filter(|e| e.kind == edge::TRUE).map(|e| e.to).collect();
    match (block.branch_target(), &taken[..], block.insns.last()) {
        (None, [], _) => None,
        (Some(target), [one], _) if target == *one => None,
        (Some(_), [], Some(last)) => Some(if last.count == 0 { 0 } else { 1 }),
        (Some(_), [_], _) => Some(2),
        (Some(_), _, _) => Some(3),
        (None, _, None) => Some(4),
        (None, _, Some(last)) if last.condition != 0 => Some(5),
        (None, _, Some(last)) if last.operands[0].kind == kind::NEAR => Some(6),
        (None, _, _) => Some(7),
    }
}

/// Records with something special are accepted too: those of the benchmark, those at each limit, the long and the deep ones.
#[test]
fn special_records_are_accepted() {
    use crate::gen;
    let makers = [gen::at_limits, gen::deepest, gen::one_block, gen::straight, gen::flow_rich, gen::pushes, gen::named];
    let mut rng = crate::rng::Rng::new(9);
    for _ in 0..50 {
        let mut records: Vec<Record> = makers.iter().map(|make| make(&mut rng)).collect();
        records.extend((0..7).map(|which| gen::around_limit(&mut rng, which, 0)));
        records.extend([25, 50, 100, 200].map(gen::repeated));
        for r in records {
            assert_eq!(crate::questions::first_no(&r.to_bytes(), 0, r.blocks.len()), 0);
        }
    }
}

/// Of generated branches the True edge stands first and elsewhere, a setcc or cmovcc is among them, and other edges contradict.
#[test]
fn generated_branches() {
    let mut rng = crate::rng::Rng::new(10);
    let (mut first, mut behind, mut sets, mut uncounted, mut others) = (0, 0, 0, 0, 0);
    for _ in 0..5000 {
        for block in crate::gen::valid(&mut rng).blocks.iter().filter(|b| b.branch_target().is_some()) {
            let at = block.edges.iter().position(|e| e.kind == edge::TRUE).unwrap();
            let last = block.insns.last().unwrap();
            first += usize::from(at == 0);
            behind += usize::from(at > 0);
            sets += usize::from(last.mnemonic != m::OTHER);
            uncounted += usize::from(last.count == 0);
            others += usize::from(block.edges.iter().any(|e| [edge::UNCOND, edge::CASE].contains(&e.kind)));
        }
    }
    let least = [first, behind, sets, uncounted, others].into_iter().min();
    assert!(least > Some(50), "{first} {behind} {sets} {uncounted} {others}");
}

/// A case of the stored replay corpus, read by the offsets that replay.rs lists.
struct Stored {
    record: Vec<u8>,
    lent: [usize; 7],
    no: u8,
    sizes: [usize; 3],
    range: [usize; 2],
    sums: [u64; 7],
}

fn stored_corpus() -> Vec<u8> {
    std::fs::read(concat!(env!("CARGO_MANIFEST_DIR"), "/../../crates/replay/stdin")).unwrap()
}

fn stored_cases() -> Vec<Stored> {
    use crate::record::{u32_at, u64_at};
    let bytes = stored_corpus();
    let mut at = 4;
    let mut out = Vec::new();
    for _ in 0..u32_at(&bytes, 0) {
        let small = |k: usize| u32_at(&bytes, at + k) as usize;
        let large = |k: usize| u64_at(&bytes, at + k);
        out.push(Stored {
            record: bytes[at + 120..at + 120 + small(0)].to_vec(),
            lent: std::array::from_fn(|k| small(4 + 4 * k)),
            no: small(32) as u8,
            sizes: std::array::from_fn(|k| small(36 + 4 * k)),
            range: [large(48) as usize, large(56) as usize],
            sums: std::array::from_fn(|k| large(64 + 8 * k)),
        });
        at += 120 + small(0);
    }
    assert_eq!(at, bytes.len());
    out
}

#[test]
fn corpus_is_what_the_oracle_writes() {
    assert!(crate::replay::corpus(crate::replay::COUNT, crate::replay::SEED).unwrap() == stored_corpus());
}

/// Every answer from 0 to 15 is there, gotos and tail calls that #101 adds too, and each case is as the questions and the Rust have it.
#[test]
fn corpus_is_right() {
    let mut seen = [0; 16];
    let mut added = Vec::new();
    for case in stored_cases() {
        let [from, to] = case.range;
        seen[case.no as usize] += 1;
        let no = crate::questions::first_no(&case.record, from, to);
        assert_eq!(no, if [12, 13, 14].contains(&case.no) { 0 } else { case.no });
        let most = crate::lists::fitting([65_536, 16_384, 900]);
        assert!(case.record.len() <= 65_536 && case.lent.iter().zip(most).all(|(lent, most)| *lent <= most));
        let mut lists = crate::lists::Lists::lent(case.lent);
        if case.no == 0 {
            let ours = list(&case.record, from, to).unwrap();
            assert_eq!(case.sizes, ours.sizes());
            lists = lists.filled(&ours);
            added.extend(ours.added.iter().map(|n| ours.line(*n)[..4].to_vec()));
        }
        assert_eq!(case.sums, crate::replay::sums(&lists));
    }
    assert!(seen.iter().all(|n| *n > 0));
    let count = |word: &[u8]| added.iter().filter(|line| *line == word).count();
    assert!(count(b"goto") > 2 && count(b"retu") > 2);
}

/// Of the refusals by 12 to 14 some have one list alone too short, each of the seven in turn, and by one entry.
#[test]
fn corpus_has_each_list_one_too_short() {
    let mut alone = [0; 7];
    for case in stored_cases().iter().filter(|case| [12, 13, 14].contains(&case.no)) {
        let fit = crate::lists::fitting(list(&case.record, case.range[0], case.range[1]).unwrap().sizes());
        let lacks: Vec<usize> = fit.iter().zip(case.lent).map(|(fit, lent)| fit - lent).collect();
        if lacks.iter().sum::<usize>() == 1 {
            lacks.iter().zip(&mut alone).for_each(|(lack, count)| *count += lack);
        }
    }
    assert!(alone.iter().all(|n| *n > 2), "{alone:?}");
}

/// The corpus does not have the looks; they are counted.
#[cfg(feature = "abi")]
#[test]
fn port_replays_the_corpus() {
    for Stored { record, lent, no, sizes, range: [from, to], sums } in stored_cases() {
        let (answer, left) = crate::port::list(&record, from, to, crate::lists::Lists::lent(lent));
        let looks = if no == 0 { crate::looks::looks(&Record::parse(&record), from, to) } else { 0 };
        assert_eq!((answer, crate::replay::sums(&left)), (crate::lists::Answer { no, sizes, looks }, sums));
    }
}
