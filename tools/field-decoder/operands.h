/* The operands of an instruction, and its memory operand (docs/RECORD.md, "An instruction"). */
#ifndef OPERANDS_H
#define OPERANDS_H

#include <Zydis/Zydis.h>

struct decoded {
    ZydisDecodedInstruction insn;
    ZydisDecodedOperand operands[ZYDIS_MAX_OPERAND_COUNT];
    uint64_t address;
    const uint8_t *bytes;
};

/* Puts the fields into a body of zeros. */
void put_operands(uint8_t *body, const struct decoded *decoded);

#endif
