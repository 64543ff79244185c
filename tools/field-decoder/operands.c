#include "operands.h"

#include "bytes.h"
#include "registers.h"

enum { OPERANDS = 18, OPERAND = 10, MOST = 5 };
enum { MEMORY = 1, NEAR_BRANCH = 2, IMMEDIATE_8 = 3, IMMEDIATE_8_TO_16 = 7, IMMEDIATE_32_TO_64 = 10, ANY_OTHER = 11 };

/* The address that rip and eip come to is Zydis' own sum; else the displacement in the width of addresses. */
static uint64_t memory_address(const struct decoded *decoded, const ZydisDecodedOperand *operand) {
    ZyanU64 sum = 0;
    ZydisRegister base = operand->mem.base;
    if ((base == ZYDIS_REGISTER_RIP || base == ZYDIS_REGISTER_EIP) &&
        ZYAN_SUCCESS(ZydisCalcAbsoluteAddress(&decoded->insn, operand, decoded->address, &sum)))
        return sum;
    return (uint64_t)operand->mem.disp.value;
}

/* The decoder that gives docs/RECORD.md's segment names none without a prefix; Zydis names the default one too. */
static uint8_t segment_number(const ZydisDecodedInstruction *insn, const ZydisDecodedOperand *operand) {
    return insn->attributes & ZYDIS_ATTRIB_HAS_SEGMENT ? register_number(operand->mem.segment) : 0;
}

static void put_memory(uint8_t *body, const struct decoded *decoded, const ZydisDecodedOperand *operand) {
    body[4] = segment_number(&decoded->insn, operand);
    body[5] = register_number(operand->mem.base);
    body[6] = register_number(operand->mem.index);
    body[7] = operand->mem.index == ZYDIS_REGISTER_NONE ? 1 : operand->mem.scale;
    put(body + 8, operand->mem.type == ZYDIS_MEMOP_TYPE_AGEN ? 0 : operand->size / 8, 2);
    put(body + 10, memory_address(decoded, operand), 8);
}

/* log2 of the bytes of 8, 16, 32 and 64 bits. */
static unsigned width(unsigned bits) { return bits == 64 ? 3 : bits == 32 ? 2 : bits == 16 ? 1 : 0; }

static uint64_t low(uint64_t number, unsigned bits) { return bits >= 64 ? number : number & (((uint64_t)1 << bits) - 1); }

/* The kind by the bits that the instruction has of it, and by those that it is extended to; an extended number fills all 64 bits
 * (tools/notation/README.md). An immediate that is part of the opcode, as that of `shl eax, 1`, is of 8 bits. */
static void put_immediate(uint8_t *at, const struct decoded *decoded, const ZydisDecodedOperand *operand) {
    unsigned encoded = operand->size, extended = decoded->insn.operand_width;
    int is_extended = operand->imm.is_signed && encoded < extended;
    if (is_extended && encoded == 8)
        at[0] = (uint8_t)(IMMEDIATE_8_TO_16 + width(extended) - 1);
    else
        at[0] = (uint8_t)(is_extended ? IMMEDIATE_32_TO_64 : IMMEDIATE_8 + width(encoded));
    put(at + 2, is_extended ? operand->imm.value.u : low(operand->imm.value.u, encoded), 8);
}

/* With 32 bits a target has 32, with the prefix 66 it has 16. */
static void put_branch(uint8_t *at, const struct decoded *decoded, const ZydisDecodedOperand *operand) {
    ZyanU64 target = 0;
    int wide = decoded->insn.machine_mode == ZYDIS_MACHINE_MODE_LONG_64;
    at[0] = NEAR_BRANCH;
    ZydisCalcAbsoluteAddress(&decoded->insn, operand, decoded->address, &target);
    put(at + 2, wide ? target : low(target, decoded->insn.operand_width), 8);
}

static void put_operand(uint8_t *body, const struct decoded *decoded, int n) {
    const ZydisDecodedOperand *operand = &decoded->operands[n];
    uint8_t *at = body + OPERANDS + n * OPERAND;
    switch (operand->type) {
    case ZYDIS_OPERAND_TYPE_REGISTER:
        at[1] = register_number(operand->reg.value);
        break;
    case ZYDIS_OPERAND_TYPE_MEMORY:
        at[0] = MEMORY;
        put_memory(body, decoded, operand);
        break;
    case ZYDIS_OPERAND_TYPE_IMMEDIATE:
        if (operand->imm.is_relative)
            put_branch(at, decoded, operand);
        else
            put_immediate(at, decoded, operand);
        break;
    default:
        at[0] = ANY_OTHER;
    }
}

void put_operands(uint8_t *body, const struct decoded *decoded) {
    int count = decoded->insn.operand_count_visible;
    body[2] = (uint8_t)count;
    body[7] = 1;
    for (int n = 0; n < count && n < MOST; n++)
        put_operand(body, decoded, n);
}
