#include "registers.h"

#include <stddef.h>

/* Zydis has these registers in the order of a record's class, from the first to the last named. */
static const struct {
    ZydisRegister first, last;
    uint8_t number;
} runs[] = {
    {ZYDIS_REGISTER_AL, ZYDIS_REGISTER_BL, 1 * 16},
    {ZYDIS_REGISTER_AH, ZYDIS_REGISTER_BH, 2 * 16},
    {ZYDIS_REGISTER_SPL, ZYDIS_REGISTER_R15B, 1 * 16 + 4},
    {ZYDIS_REGISTER_AX, ZYDIS_REGISTER_R15W, 3 * 16},
    {ZYDIS_REGISTER_EAX, ZYDIS_REGISTER_R15D, 4 * 16},
    {ZYDIS_REGISTER_RAX, ZYDIS_REGISTER_R15, 5 * 16},
    {ZYDIS_REGISTER_EIP, ZYDIS_REGISTER_EIP, 6 * 16},
    {ZYDIS_REGISTER_RIP, ZYDIS_REGISTER_RIP, 6 * 16 + 1},
    {ZYDIS_REGISTER_ES, ZYDIS_REGISTER_GS, 7 * 16},
    {ZYDIS_REGISTER_XMM0, ZYDIS_REGISTER_XMM15, 8 * 16},
    {ZYDIS_REGISTER_YMM0, ZYDIS_REGISTER_YMM15, 9 * 16},
};

uint8_t register_number(ZydisRegister reg) {
    if (reg == ZYDIS_REGISTER_NONE)
        return 0;
    for (size_t n = 0; n < sizeof runs / sizeof *runs; n++)
        if (reg >= runs[n].first && reg <= runs[n].last)
            return (uint8_t)(runs[n].number + (reg - runs[n].first));
    return UNRECORDED;
}
