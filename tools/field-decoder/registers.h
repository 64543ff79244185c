/* A record's register numbers (docs/RECORD.md, "Registers"). */
#ifndef REGISTERS_H
#define REGISTERS_H

#include <Zydis/Zydis.h>

/* 0 for no register, UNRECORDED for one that a record has no number for. */
enum { UNRECORDED = 255 };

uint8_t register_number(ZydisRegister reg);

#endif
