#include "names.h"

#include <stdio.h>
#include <string.h>

enum { NAME = 68, NAME_BYTES = 24, SETCC = 26, CMOVCC = 27 };

static const char *const mnemonics[] = {
    "mov", "movzx", "movsx", "movsxd", "lea", "xor", "and", "or", "add", "sub", "shl", "shr", "sar", "rol", "ror",
    "inc", "dec", "neg", "not", "imul", "push", "pop", "call", "ret", "jmp", "setcc", "cmovcc", "cmpxchg", "xchg", "rdtsc",
    "cpuid", "cdq", "cqo", "cdqe", "cwde", "ud2", "hlt", "cmp", "test", "bt", "leave", "nop", "int3", "endbr64", "endbr32",
};

static const char *const conditions[] = {"o", "no", "b", "ae", "e", "ne", "be", "a", "s", "ns", "p", "np", "l", "ge", "le", "g"};

/* Intel's manual, volume 2, appendix B.1.4.7: the condition is the opcode's low four bits, in this order. */
static int has_condition(const ZydisDecodedInstruction *insn) {
    int high = insn->opcode & 0xf0, wide = insn->opcode_map == ZYDIS_OPCODE_MAP_0F;
    if (insn->encoding != ZYDIS_INSTRUCTION_ENCODING_LEGACY)
        return 0;
    return wide ? high == 0x40 || high == 0x80 || high == 0x90 : insn->opcode_map == ZYDIS_OPCODE_MAP_DEFAULT && high == 0x70;
}

static void put_conditional(uint8_t *body, const ZydisDecodedInstruction *insn) {
    int condition = insn->opcode & 15;
    body[1] = (uint8_t)(condition + 1);
    if (insn->opcode_map == ZYDIS_OPCODE_MAP_0F && (insn->opcode & 0xf0) == 0x90)
        body[0] = SETCC;
    else if (insn->opcode_map == ZYDIS_OPCODE_MAP_0F && (insn->opcode & 0xf0) == 0x40)
        body[0] = CMOVCC;
    else
        snprintf((char *)body + NAME, NAME_BYTES, "j%s", conditions[condition]);
}

void put_name(uint8_t *body, const ZydisDecodedInstruction *insn) {
    const char *name = ZydisMnemonicGetString(insn->mnemonic);
    if (has_condition(insn)) {
        put_conditional(body, insn);
        return;
    }
    for (size_t n = 0; n < sizeof mnemonics / sizeof *mnemonics; n++)
        if (strcmp(name, mnemonics[n]) == 0)
            body[0] = (uint8_t)(n + 1);
    if (body[0] == 0)
        strncpy((char *)body + NAME, name, NAME_BYTES);
}
