//! Single instructions, against the record's numbers.

use super::super::decode::Decoder;

/// A decoded instruction as short text: mnemonic, condition, memory, operands, name.
fn decoded(bits: u16, bytes: &[u8]) -> String {
    let decoded = Decoder::new(bits).expect("a decoder").decode(bytes, 0x1000).expect("an instruction");
    if let Some(problem) = decoded.problem {
        return problem;
    }
    let i = decoded.insn;
    assert_eq!(i.length as usize, bytes.len());
    assert!(i.operands.iter().skip(i.count.into()).all(|o| *o == Default::default()), "unused operands are zeros");
    let mut out = format!("{}/{} {}", i.mnemonic, i.condition, String::from_utf8_lossy(i.name()));
    for (n, o) in i.operands.iter().take(i.count.into()).enumerate() {
        if i.is_memory(n) {
            out += &format!(" [{} {}+{}*{}+{:x} {}]", i.segment, i.base, i.index, i.scale, i.memory, i.size);
        } else {
            out += &format!(" {}:{}:{:x}", o.kind, o.register, o.number);
        }
    }
    out
}

const DECODED: &[(u16, &[u8], &str)] = &[
    (64, &[0x48, 0x83, 0xe4, 0xf0], "7/0  0:84:0 9:0:fffffffffffffff0"),
    (64, &[0x83, 0xc8, 0xff], "8/0  0:64:0 8:0:ffffffffffffffff"),
    (64, &[0x66, 0x83, 0xc1, 0xfe], "9/0  0:49:0 7:0:fffffffffffffffe"),
    (64, &[0x04, 0xfe], "9/0  0:16:0 3:0:fe"),
    (64, &[0x48, 0xc7, 0xc0, 0xfe, 0xff, 0xff, 0xff], "1/0  0:80:0 10:0:fffffffffffffffe"),
    (64, &[0x48, 0xb8, 1, 2, 3, 4, 5, 6, 7, 0x88], "1/0  0:80:0 6:0:8807060504030201"),
    (64, &[0xb8, 0xff, 0xff, 0xff, 0xff], "1/0  0:64:0 5:0:ffffffff"),
    (64, &[0x66, 0xb8, 0xff, 0xff], "1/0  0:48:0 4:0:ffff"),
    (64, &[0x41, 0xb0, 0xff], "1/0  0:24:0 3:0:ff"),
    (64, &[0x6a, 0xff], "21/0  9:0:ffffffffffffffff"),
    (32, &[0x6a, 0xff], "21/0  8:0:ffffffffffffffff"),
    (64, &[0x68, 0, 0x10, 0, 0x80], "21/0  10:0:ffffffff80001000"),
    (32, &[0x68, 0, 0x10, 0, 0x80], "21/0  5:0:80001000"),
    (64, &[0x48, 0x6b, 0xc1, 0xf8], "20/0  0:80:0 0:81:0 9:0:fffffffffffffff8"),
    (64, &[0x48, 0x69, 0xc1, 0, 1, 0, 0], "20/0  0:80:0 0:81:0 10:0:100"),
    (64, &[0xd1, 0xe0], "11/0  0:64:0 3:0:1"),
    (64, &[0xc1, 0xe0, 4], "11/0  0:64:0 3:0:4"),
    (64, &[0x0f, 0xba, 0xe0, 3], "40/0  0:64:0 3:0:3"),
    (64, &[0xf7, 0xc1, 0, 0, 0, 0x80], "39/0  0:65:0 5:0:80000000"),
    (64, &[0xf6, 0x05, 0, 1, 0, 0, 8], "39/0  [0 97+0*1+1107 1] 3:0:8"),
    (64, &[0x48, 0x8d, 0x44, 0x88, 0xfc], "5/0  0:80:0 [0 80+81*4+fffffffffffffffc 0]"),
    (32, &[0x8b, 0x45, 0xfc], "1/0  0:64:0 [0 69+0*1+fffffffffffffffc 4]"),
    (32, &[0xa1, 0, 0x10, 0, 0x80], "1/0  0:64:0 [0 0+0*1+80001000 4]"),
    (32, &[0x64, 0xa1, 0x30, 0, 0, 0], "1/0  0:64:0 [116 0+0*1+30 4]"),
    (64, &[0x65, 0x48, 0x8b, 0x04, 0x25, 0x30, 0, 0, 0], "1/0  0:80:0 [117 0+0*1+30 8]"),
    (64, &[0x75, 0xfe], "0/6 jne 2:0:1000"),
    (64, &[0x0f, 0x94, 0xc0], "26/5  0:16:0"),
    (64, &[0x48, 0x0f, 0x42, 0xc1], "27/3  0:80:0 0:81:0"),
    (64, &[0xf3, 0x0f, 0x1e, 0xfa], "44/0 "),
    (64, &[0xf3, 0x48, 0xab], "0/0 stosq 11:0:0 0:80:0"),
    (64, &[0xf0, 0x0f, 0xb1, 0x11], "28/0  [0 81+0*1+0 4] 0:66:0"),
    (32, &[0xc2, 8, 0], "24/0  4:0:8"),
    (64, &[0xff, 0x15, 0, 0, 0, 0], "23/0  [0 97+0*1+1006 8]"),
    (64, &[0xe3, 0xfe], "0/0 jrcxz 2:0:1000"),
    (32, &[0x8d, 0xb4, 0x26, 0, 0, 0, 0], "5/0  0:70:0 [0 70+0*1+0 0]"),
    (32, &[0xd9, 0xc0], "a register that a record has no number for: st(0)"),
    (64, &[0x0f, 0x20, 0xc0], "a register that a record has no number for: cr0"),
    (64, &[0x66, 0x0f, 0x6f, 0xc1], "0/0 movdqa 0:128:0 0:129:0"),
    (64, &[0x66, 0x0f, 0x2f, 0], "0/0 comisd 0:128:0 [0 80+0*1+0 8]"),
    (64, &[0x0f, 0x2e, 0], "0/0 ucomiss 0:128:0 [0 80+0*1+0 4]"),
    (64, &[0xcd, 0x29], "0/0 int 3:0:29"),
    (32, &[0x0f, 0xae, 0x06], "0/0 fxsave [0 70+0*1+0 512]"),
    (32, &[0xdd, 0x70, 0x1c], "0/0 fnsave [0 64+0*1+1c 108]"),
    (32, &[0x66, 0xdd, 0x70, 0x1c], "0/0 fnsave [0 64+0*1+1c 94]"),
    (32, &[0x66, 0xd9, 0x30], "0/0 fnstenv [0 64+0*1+0 14]"),
    (32, &[0x0f, 0xae, 0x08], "0/0 fxrstor [0 64+0*1+0 512]"),
    (32, &[0xdd, 0x20], "0/0 frstor [0 64+0*1+0 108]"),
    (32, &[0x66, 0xd9, 0x20], "0/0 fldenv [0 64+0*1+0 14]"),
    (32, &[0xf3, 0x0f, 0x01, 0x28], "0/0 rstorssp [0 64+0*1+0 8]"),
    (64, &[0xf3, 0x0f, 0xae, 0x30], "0/0 clrssbsy [0 80+0*1+0 8]"),
    (32, &[0xc4, 0x00], "0/0 les 0:64:0 [0 64+0*1+0 6]"),
    (64, &[0x41, 0xff, 0x2e], "25/0  [0 94+0*1+0 6]"),
    (64, &[0x48, 0xff, 0x2e], "25/0  [0 86+0*1+0 10]"),
    (32, &[0xff, 0x5a, 0xa3], "23/0  [0 66+0*1+ffffffffffffffa3 6]"),
    (64, &[0x0f, 0xb2, 0x00], "0/0 lss 0:64:0 [0 80+0*1+0 6]"),
    (32, &[0x66, 0x0f, 0xb2, 0x00], "0/0 lss 0:48:0 [0 64+0*1+0 4]"),
    (32, &[0x8d, 0x14, 0x95, 0xfc, 0xff, 0xff, 0xff], "5/0  0:66:0 [0 0+66*4+fffffffffffffffc 0]"),
    (32, &[0xea, 0xf3, 0x0e, 0x7a, 0x86, 0x91, 0xe2], "25/0  11:0:0"),
    (32, &[0xd1, 0x97, 0x94, 0xc5, 0x27, 0xdc], "0/0 rcl [0 71+0*1+ffffffffdc27c594 4] 3:0:1"),
    (32, &[0xc1, 0xf0, 4], "11/0  0:64:0 3:0:4"),
    (64, &[0xf2, 0x4b, 0x0f, 0xbc, 0x7e, 0xf6], "0/0 bsf 0:87:0 [0 94+0*1+fffffffffffffff6 8]"),
    (64, &[0x66, 0x4e, 0xed], "0/0 in 0:64:0 0:50:0"),
    (64, &[0x67, 0xe3, 0xfd], "0/0 jecxz 2:0:1000"),
    (64, &[0x67, 0xe8, 0xfa, 0xff, 0xff, 0xff], "23/0  2:0:1000"),
    (32, &[0x67, 0xa1, 0xf0, 0xff], "1/0  0:64:0 [0 0+0*1+fff0 4]"),
    (32, &[0xc4, 0xe3, 0x71, 0x4c, 0xc2, 0xb0], "0/0 vpblendvb 0:128:0 0:129:0 0:130:0 0:131:0"),
    (64, &[0xc4, 0xe3, 0x71, 0x4c, 0xc2, 0xb0], "0/0 vpblendvb 0:128:0 0:129:0 0:130:0 0:139:0"),
    (64, &[0x66, 0x48, 0x6a, 1], "21/0  9:0:1"),
];

#[test]
fn instructions_are_decoded_as_the_record_has_them() {
    for (bits, bytes, wanted) in DECODED {
        assert_eq!(decoded(*bits, bytes), *wanted, "{bits} {bytes:x?}");
    }
}

/// Near branches that Capstone reads otherwise than the processor.
#[test]
fn branches_with_a_prefix_do_not_decode() {
    let cases: [(u16, &[u8]); 4] = [
        (32, &[0x67, 0x0f, 0x8f, 0x21, 0xbe, 0x45, 0x27]),
        (32, &[0x66, 0xe2, 0x5a]),
        (64, &[0x66, 0x0f, 0x81, 0, 0, 0, 0]),
        (64, &[0x67, 0x49, 0xe3, 0x15]),
    ];
    for (bits, bytes) in cases {
        assert!(Decoder::new(bits).expect("a decoder").decode(bytes, 0x1000).is_none(), "{bytes:x?}");
    }
}
