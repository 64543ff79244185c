/* Mnemonic, condition and name of an instruction (docs/RECORD.md, "Mnemonics" and "Conditions"). */
#ifndef NAMES_H
#define NAMES_H

#include <Zydis/Zydis.h>

/* Puts the three fields into a body of zeros. */
void put_name(uint8_t *body, const ZydisDecodedInstruction *insn);

#endif
