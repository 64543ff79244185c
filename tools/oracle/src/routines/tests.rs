//! The second implementation of small routines by the request's words, and wrong ones in the port's place, which the comparison must notice.

use super::*;
use crate::compare::routines::compared;
use crate::questions;

/// "There are 2, 18 and 256.", "Each comes exactly once, none is missing, and all are accepted."
#[test]
fn the_set() {
    let all = all();
    let of = |blocks: usize| all.iter().filter(|r| r.blocks.len() == blocks).count();
    assert_eq!([of(1), of(2), of(3)], [2, 18, 256]);
    assert!(bytes().iter().zip(&all).all(|(b, r)| questions::first_no(b, 0, r.blocks.len()) == 0));
    let told: Vec<told::Told> = all.iter().map(|r| told::routine(r).unwrap()).collect();
    assert!(told.is_sorted_by(|one, next| one < next));
    assert_eq!(bytes().iter().map(Vec::len).max(), Some(405));
}

/// Some by hand: the first and last of each number of blocks, and one in the middle.
#[test]
fn some_of_them() {
    use Ending::*;
    let told = |k: usize| told::routine(&all()[k]).unwrap().endings;
    assert_eq!([0, 1].map(told), [vec![Ret], vec![Jmp(0)]]);
    assert_eq!(
        [2, 3, 4, 5, 19].map(told),
        [[Ret, Ret], [Ret, Jmp(0)], [Ret, Jmp(1)], [Fall, Ret], [Jne(1), Jmp(1)]].map(Vec::from)
    );
    assert_eq!(
        [20, 24, 28, 52, 275].map(told),
        [[Ret, Ret, Ret], [Ret, Fall, Ret], [Ret, Jmp(0), Ret], [Fall, Ret, Ret], [Jne(2), Jne(2), Jmp(2)]].map(Vec::from)
    );
    assert_eq!(told(150), [Jmp(2), Ret, Jmp(1)]);
}

/// Routine 0's bytes, and those of the first jne by their places.
#[test]
fn bytes_by_hand() {
    let ret = &bytes()[0];
    let header = [64, 0, 1, 0, 1, 0, 1, 0, 0, 0, 0, 0, 0, 0, 0, 0, 0, 0, 0, 0, 0, 1, 0, 0];
    assert_eq!((ret.len(), &ret[..24]), (136, &header[..]));
    let set: Vec<(usize, u8)> = ret.iter().copied().enumerate().skip(24).filter(|(_, byte)| *byte != 0).collect();
    // A start, a mark of one instruction, no edge and a label, an address, the mnemonic, the scale.
    assert_eq!(set, [(25, 0x10), (32, 1), (35, 1), (37, 0x10), (44, 24), (51, 1)]);
    let jne = &bytes()[14];
    assert_eq!(jne.len(), 24 + 2 * 112 + 2 * 9);
    let (targets, body) = (48, 24 + 2 * 12 + 2 * 9 + 2 * 8);
    assert_eq!(jne[targets..targets + 18], [0, 0x10, 0, 0, 0, 0, 0, 0, 0x10, 0x10, 0, 0, 0, 0, 0, 0, 1, 2]);
    assert_eq!(jne[body..body + 8], [0, 6, 1, 0, 0, 0, 0, 1]);
    assert_eq!(jne[body + 18..body + 28], [2, 0, 0, 0x10, 0, 0, 0, 0, 0, 0]);
    assert_eq!(&jne[body + 68..body + 72], b"jne\0");
}

/// A call with room for so many bytes, each 0xee before it, and so many entries for the size.
fn called(k: usize, room: usize, entries: usize) -> (u8, Vec<u8>, Vec<u64>) {
    let (mut out, mut size) = (vec![0xee; room], vec![7; entries]);
    let no = make(k, &mut out, &mut size);
    (no, out, size)
}

#[test]
fn lists_of_a_call() {
    let ret = bytes()[0].clone();
    assert_eq!(called(0, 136, 1), (0, ret.clone(), vec![136]));
    assert_eq!(called(0, 138, 2), (0, [&ret[..], &[0xee; 2]].concat(), vec![136, 7]));
    assert_eq!(called(0, 135, 1), (12, vec![0xee; 135], vec![0]));
    assert_eq!(called(275, 0, 0), (12, vec![], vec![]));
    assert_eq!(called(276, 0, 1), (18, vec![], vec![0]));
    assert_eq!(called(usize::MAX, 500, 2), (18, vec![0xee; 500], vec![0, 7]));
}

#[test]
fn what_the_program_prints() {
    for (text, k) in [("0", 0), ("0\n", 0), ("9", 9), ("150\n", 150), ("275", 275)] {
        assert_eq!(programs::routine(text.as_bytes()), bytes()[k]);
    }
    for text in [
        "", "\n", "276", "007", "x", "12 ", " 12", "12\n\n", "12\r\n", "+5", "-0", "0x1", "1234567890123456", "12345678901234567",
    ] {
        assert_eq!(programs::routine(text.as_bytes()), b"no 18\n");
    }
}

/// A wrong maker: how many calls differ, and whether the set that it makes passes.
fn wrong(routines: &[Record]) -> (usize, bool) {
    let routines: Vec<Vec<u8>> = routines.iter().map(Record::to_bytes).collect();
    compared(&|k, out, size| store(&routines, first_no(&routines, k, out.len()), k, out, size)).unwrap()
}

/// Both notice it: the calls, which are compared with the second implementation, and the set, which is held to the request's words alone.
fn noticed(what: &str, routines: &[Record]) {
    let (calls, passes) = wrong(routines);
    println!("{what}: {calls} calls differ");
    assert!(calls > 0 && !passes, "{what} is not noticed: {calls} calls differ, the set passes: {passes}");
}

#[test]
fn the_second_implementation_agrees_with_itself() {
    assert_eq!(wrong(&all()), (0, true));
}

/// Endings of the request in another order.
fn by_rank<K: Ord>(count: usize, place: usize, key: fn(&Ending) -> K) -> Vec<Ending> {
    let mut endings = endings(count, place);
    endings.sort_by_key(key);
    endings
}

/// The request's and one more for the last block.
fn last_may(count: usize, place: usize, more: Ending) -> Vec<Ending> {
    let mut endings = endings(count, place);
    if place + 1 == count {
        endings.push(more);
        endings.sort();
    }
    endings
}

#[test]
fn wrong_endings_are_noticed() {
    use Ending::*;
    let wrong: [(&str, Endings); 12] = [
        ("fall before ret", |n, p| by_rank(n, p, |e| (*e != Fall, *e))),
        ("jmp before fall", |n, p| by_rank(n, p, |e| (*e == Fall, *e > Jne(0), *e))),
        ("jne before jmp", |n, p| by_rank(n, p, |e| (*e > Fall, *e < Jne(0), *e))),
        ("jmp by falling t", |n, p| by_rank(n, p, |e| if let Jmp(t) = e { Jmp(9 - t) } else { *e })),
        ("jne by falling t", |n, p| by_rank(n, p, |e| if let Jne(t) = e { Jne(9 - t) } else { *e })),
        ("ret last", |n, p| by_rank(n, p, |e| (*e == Ret, *e))),
        ("the last block may fall", |n, p| last_may(n, p, Fall)),
        ("the last block may branch", |n, p| last_may(n, p, Jne(0))),
        ("no jump to the block itself", |n, p| endings(n, p).into_iter().filter(|e| *e != Jmp(p)).collect()),
        ("no branch back", |n, p| endings(n, p).into_iter().filter(|e| !(0..p).any(|t| *e == Jne(t))).collect()),
        ("a jump behind the last block", |n, p| [endings(n, p), vec![Jmp(n)]].concat()),
        ("ret only at the end", |n, p| endings(n, p).into_iter().filter(|e| *e != Ret || p + 1 == n).collect()),
    ];
    for (what, endings) in wrong {
        noticed(what, &ranked(endings));
    }
}

#[test]
fn wrong_orders_are_noticed() {
    let wrong: [(&str, fn(&mut Vec<Record>)); 8] = [
        ("more blocks first", |all| all.sort_by_key(|r| 9 - r.blocks.len())),
        ("the last block decides first", |all| all.sort_by_cached_key(backwards)),
        ("two exchanged", |all| all.swap(150, 151)),
        ("275 routines", |all| drop(all.pop())),
        ("the first is missing", |all| drop(all.remove(0))),
        ("277 routines", |all| all.push(record(&[Ending::Jmp(3); 4]))),
        ("one twice", |all| all[100] = all[99].clone()),
        ("one twice and 277", |all| all.insert(100, all[99].clone())),
    ];
    for (what, change) in wrong {
        let mut routines = all();
        change(&mut routines);
        let (calls, passes) = self::wrong(&routines);
        println!("{what}: {calls} calls differ");
        assert!(calls > 0, "{what} is not noticed");
        // A routine behind the last of 276 is none of the set's, but a call for it is answered.
        assert_eq!(passes, what == "277 routines", "{what}");
    }
}

fn backwards(routine: &Record) -> (usize, Vec<Ending>) {
    let endings = told::routine(routine).unwrap().endings;
    (endings.len(), endings.into_iter().rev().collect())
}

/// Every block changed where it is so.
fn blocks(change: impl Fn(&mut Block)) -> Vec<Record> {
    let mut routines = all();
    routines.iter_mut().flat_map(|r| &mut r.blocks).for_each(change);
    routines
}

/// Every instruction likewise.
fn insns(mnemonic: u8, change: impl Fn(&mut Insn)) -> Vec<Record> {
    blocks(|block| block.insns.iter_mut().filter(|insn| insn.mnemonic == mnemonic).for_each(&change))
}

/// Every edge of a kind likewise.
fn edges(kind: u8, change: impl Fn(&mut Edge)) -> Vec<Record> {
    blocks(|block| block.edges.iter_mut().filter(|edge| edge.kind == kind).for_each(&change))
}

#[test]
fn wrong_blocks_are_noticed() {
    noticed("False before True", &blocks(|block| block.edges.sort_by_key(|edge| 9 - edge.kind)));
    noticed("no True edge", &blocks(|block| block.edges.retain(|edge| edge.kind != edge::TRUE)));
    noticed("no False edge", &blocks(|block| block.edges.retain(|edge| edge.kind != edge::FALSE)));
    noticed("no Fall edge", &blocks(|block| block.edges.retain(|edge| edge.kind != edge::FALL)));
    noticed("no Uncond edge", &blocks(|block| block.edges.retain(|edge| edge.kind != edge::UNCOND)));
    noticed("Fall for False", &edges(edge::FALSE, |edge| edge.kind = edge::FALL));
    noticed("False for Fall", &edges(edge::FALL, |edge| edge.kind = edge::FALSE));
    noticed("Case for Uncond", &edges(edge::UNCOND, |edge| edge.kind = edge::CASE));
    noticed("Uncond to the first block", &edges(edge::UNCOND, |edge| edge.to = 0x1000));
    noticed("False to the first block", &edges(edge::FALSE, |edge| edge.to = 0x1000));
    noticed("no label wanted", &blocks(|block| block.label = 0));
    noticed("the first block wants no label", &blocks(|block| block.label = (block.start > 0x1000).into()));
    noticed("an instruction too many", &blocks(|block| block.insns.push(Insn { address: 0x1001, ..block.insns[0] })));
    noticed("addresses one up", &blocks(|block| block.insns[0].address += 1));
    noticed("addresses 0", &blocks(|block| block.insns[0].address = 0));
    noticed("starts alone moved", &blocks(|block| block.start += 0x1000));
}

#[test]
fn wrong_instructions_are_noticed() {
    noticed("je for jne", &insns(m::OTHER, |jne| (jne.condition, jne.name) = (5, name("je"))));
    noticed("another condition", &insns(m::OTHER, |jne| jne.condition = 5));
    noticed("another name", &insns(m::OTHER, |jne| jne.name = name("jnz")));
    noticed("a longer name", &insns(m::OTHER, |jne| jne.name = name("jnee")));
    noticed("jne without operands", &insns(m::OTHER, |jne| jne.count = 0));
    noticed("jmp of two operands", &insns(m::JMP, |jmp| jmp.count = 2));
    noticed("jmp to the next byte", &insns(m::JMP, |jmp| jmp.operands[0].number += 1));
    noticed("jmp by a number", &insns(m::JMP, |jmp| jmp.operands[0].kind = kind::IMM32));
    noticed("mov of one operand", &insns(m::MOV, |mov| mov.count = 1));
    noticed("mov rax", &insns(m::MOV, |mov| mov.operands[0].register = r::RAX));
    noticed("mov of 0", &insns(m::MOV, |mov| mov.operands[1].number = 0));
    noticed("mov of a byte", &insns(m::MOV, |mov| mov.operands[1].kind = kind::IMM8));
    noticed("ret of one operand", &insns(m::RET, |ret| ret.count = 1));
    noticed("ret skip-marked", &insns(m::RET, |ret| ret.skip = 1));
    noticed("scale 0", &insns(m::RET, |ret| ret.scale = 0));
    noticed("scale 2", &insns(m::MOV, |mov| mov.scale = 2));
    noticed("memory of 4 bytes", &insns(m::MOV, |mov| mov.size = 4));
    noticed("a memory address", &insns(m::JMP, |jmp| jmp.memory = 0x1000));
    noticed("a second operand", &insns(m::JMP, |jmp| jmp.operands[1].number = 1));
    noticed("a fifth operand", &insns(m::RET, |ret| ret.operands[4].number = 1 << 63));
}

#[test]
fn wrong_settings_are_noticed() {
    let wrong: [(&str, fn(&mut Record)); 7] = [
        ("bits 32", |r| r.bits = 32),
        ("convention 0", |r| r.convention = 0),
        ("indent 0", |r| r.indent = 0),
        ("a frame register", |r| r.frame = r::RBP.into()),
        ("a shift of 0", |r| r.shift_given = 1),
        ("a span", |r| r.spans.push((0, 9))),
        ("an atlas entry", |r| r.atlas.push(crate::record::Entry { address: 0x1000, kind: 3, text: b"x".to_vec() })),
    ];
    for (what, change) in wrong {
        let mut routines = all();
        routines.iter_mut().for_each(change);
        noticed(what, &routines);
    }
}

/// The second implementation with another answer to a number and room.
macro_rules! asks {
    ($asked:expr) => {
        |k, out, size| {
            let no: u8 = $asked(k, out.len());
            store(bytes(), no, k, out, size)
        }
    };
}

fn right(k: usize, room: usize) -> u8 {
    first_no(bytes(), k, room)
}

#[test]
fn wrong_calls_are_noticed() {
    let wrong: [(&str, Maker); 14] = [
        ("12 before 18", asks!(|k, room| if k >= 276 && room < 405 { 12 } else { right(k, room) })),
        ("12 before 18 in an empty list", asks!(|k, room| if room == 0 { 12 } else { right(k, room) })),
        ("18 of 275", asks!(|k, room| if k >= 275 { 18 } else { right(k, room) })),
        ("11 for 18", asks!(|k, room| if k >= 276 { 11 } else { right(k, room) })),
        ("an exact fit refused", asks!(|k, room: usize| right(k, room.saturating_sub(1)))),
        ("405 bytes asked for", asks!(|k, room| if k < 276 && room < 405 { 12 } else { right(k, room) })),
        ("8 bits of the number", |k, out, size| make(k % (1 << 8), out, size)),
        ("16 bits of the number", |k, out, size| make(k % (1 << 16), out, size)),
        ("32 bits of the number", |k, out, size| make(k % (1 << 32), out, size)),
        ("the last one for 276", |k, out, size| make(if k == 276 { 275 } else { k }, out, size)),
        ("numbers around again", |k, out, size| make(k % 276, out, size)),
        ("numbers from 1", |k, out, size| make(k.wrapping_sub(1), out, size)),
        ("all of a longer list written", |k, out, size| {
            out.iter_mut().skip(405).for_each(|byte| *byte = 0);
            make(k, out, size)
        }),
        ("405 bytes written", |k, out, size| {
            let written = if right(k, out.len()) == 0 { 405 } else { 0 };
            out.iter_mut().take(written).for_each(|byte| *byte = 0);
            make(k, out, size)
        }),
    ];
    for (what, make) in wrong {
        let (calls, _) = compared(&make).unwrap();
        println!("{what}: {calls} calls differ");
        assert!(calls > 0, "{what} is not noticed");
    }
}

#[test]
fn wrong_lists_are_noticed() {
    let wrong: [(&str, fn(u8, &mut [u8], &mut [u64])); 7] = [
        ("a size with a number", |no, _, size| size.iter_mut().take((no != 0).into()).for_each(|n| *n = 136)),
        ("no size with a number", |no, _, size| size.iter_mut().take((no != 0).into()).for_each(|n| *n = 7)),
        ("the size of the list", |no, out, size| size.iter_mut().take((no == 0).into()).for_each(|n| *n = out.len() as u64)),
        ("a size of 8 bits", |_, _, size| size.iter_mut().take(1).for_each(|n| *n %= 256)),
        ("a second size", |_, _, size| size.iter_mut().skip(1).for_each(|n| *n = 0)),
        ("a byte stored with a number", |no, out, _| out.iter_mut().take((no != 0).into()).for_each(|byte| *byte = !*byte)),
        ("bytes from 405 on changed", |_, out, _| out.iter_mut().skip(405).for_each(|byte| *byte = !*byte)),
    ];
    for (what, change) in wrong {
        let left = |k: usize, out: &mut [u8], size: &mut [u64]| {
            let no = make(k, out, size);
            change(no, out, size);
            no
        };
        let (calls, _) = compared(&left).unwrap();
        println!("{what}: {calls} calls differ");
        assert!(calls > 0, "{what} is not noticed");
    }
}
