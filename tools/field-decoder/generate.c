/* Writes a PE file of generated instructions: generate BITS SEED > FILE
 * Each is a routine of its own, the instruction and a ret, exported without a name. Prefixes, opcode, ModRM and what follows are drawn at
 * random over the opcode maps that have no EVEX; what Zydis does not decode is left out. The same seed gives the same file. */
#include "bytes.h"

#include <Zydis/Zydis.h>
#include <stdio.h>
#include <stdlib.h>
#include <string.h>

enum { ROUTINES = 40000, SLOT = 32, HEADERS = 0x400, TEXT = 0x1000, TEXT_SIZE = ROUTINES * SLOT, LONGEST = 15, RET = 0xc3 };
enum { EXPORTS = TEXT + TEXT_SIZE, EXPORTS_SIZE = 40 + 4 * ROUTINES, FILE_SIZE = HEADERS + TEXT_SIZE + EXPORTS_SIZE };

static uint64_t state;

/* splitmix64 */
static unsigned draw(unsigned below) {
    uint64_t z = state += 0x9e3779b97f4a7c15;
    z = (z ^ z >> 30) * 0xbf58476d1ce4e5b9;
    z = (z ^ z >> 27) * 0x94d049bb133111eb;
    return (unsigned)((z ^ z >> 31) >> 32) % below;
}

static uint8_t one_of(const char *bytes, size_t count) { return (uint8_t)bytes[draw((unsigned)count)]; }

/* A VEX prefix: with 32 bits its inverted high bits are set, or it would be lds or les. The third register is 1111, none, every other time. */
static void draw_vex(uint8_t *out, int bits) {
    uint8_t high = bits == 64 ? (uint8_t)(draw(8) << 5) : 0xe0, third = draw(2) ? 0x78 : (uint8_t)(draw(16) << 3 | (bits == 64 ? 0 : 0x40));
    uint8_t rest = (uint8_t)(third | draw(8));
    if (draw(2)) {
        out[0] = 0xc5;
        out[1] = (uint8_t)((high & 0x80) | rest);
    } else {
        out[0] = 0xc4;
        out[1] = (uint8_t)(high | (1 + draw(3)));
        out[2] = (uint8_t)(draw(2) << 7 | rest);
    }
}

/* Bytes that may begin an instruction: prefixes now and then, then an opcode of one of the maps or a VEX prefix. */
static void draw_bytes(uint8_t *out, int bits) {
    size_t n = 0;
    for (int byte = 0; byte < LONGEST; byte++)
        out[byte] = (uint8_t)draw(256);
    unsigned map = draw(8);
    if (map == 4) {
        draw_vex(out, bits);
        return;
    }
    if (draw(4) == 0)
        out[n++] = one_of("\x66\x67\xf2\xf3\x64\x65\x2e\xf0", 8);
    if (bits == 64 && draw(2) == 0)
        out[n++] = (uint8_t)(0x40 + draw(16));
    if (map < 3)
        out[n] = 0x0f;
    else if (map == 3)
        memcpy(out + n, draw(2) ? "\x0f\x38" : "\x0f\x3a", 2);
}

static int has_prefix(const ZydisDecodedInstruction *insn, uint8_t value) {
    for (int n = 0; n < insn->raw.prefix_count; n++)
        if (insn->raw.prefixes[n].value == value && insn->raw.prefixes[n].type != ZYDIS_PREFIX_TYPE_MANDATORY)
            return 1;
    return 0;
}

/* Left out, as no compiler makes it and it is decoded otherwise by the recorder now and then (docs/FIELD.md): 66 with REX.W, F2 or F3 before
 * 90 with REX, and AMD's extensions XOP and FMA4. */
static int is_wanted(const ZydisDecodedInstruction *insn) {
    int known = insn->encoding == ZYDIS_INSTRUCTION_ENCODING_LEGACY || insn->encoding == ZYDIS_INSTRUCTION_ENCODING_VEX;
    int wide = insn->encoding == ZYDIS_INSTRUCTION_ENCODING_LEGACY && insn->raw.rex.W && has_prefix(insn, 0x66);
    int pause = insn->opcode_map == ZYDIS_OPCODE_MAP_DEFAULT && insn->opcode == 0x90 && insn->raw.prefix_count > 0;
    return known && !wide && !pause && insn->meta.isa_ext != ZYDIS_ISA_EXT_FMA4 && insn->meta.isa_ext != ZYDIS_ISA_EXT_XOP;
}

/* A branch into the section would begin a routine in the middle of another's bytes. */
static int leads_inside(const ZydisDecodedInstruction *insn, size_t at) {
    int64_t target = (int64_t)at + insn->length + insn->raw.imm[0].value.s;
    return insn->raw.imm[0].is_relative && target >= 0 && target < TEXT_SIZE;
}

/* The length of an instruction for this place of the section. */
static size_t draw_insn(uint8_t *out, size_t at, const ZydisDecoder *decoder) {
    int bits = decoder->machine_mode == ZYDIS_MACHINE_MODE_LONG_64 ? 64 : 32;
    ZydisDecodedInstruction insn;
    do
        draw_bytes(out, bits);
    while (!ZYAN_SUCCESS(ZydisDecoderDecodeInstruction(decoder, NULL, out, LONGEST, &insn)) || !is_wanted(&insn) || leads_inside(&insn, at));
    return insn.length;
}

/* A section's header: what is mapped where, from where in the file. */
static void put_section(uint8_t *at, uint32_t address, uint32_t size, uint32_t from, uint32_t flags) {
    put(at + 8, size, 4);
    put(at + 12, address, 4);
    put(at + 16, size, 4);
    put(at + 20, from, 4);
    put(at + 36, flags, 4);
}

static void put_headers(uint8_t *file, int bits) {
    int wide = bits == 64;
    uint8_t *header = file + 64, *optional = header + 24;
    size_t size = wide ? 240 : 224, directories = wide ? 112 : 96;
    memcpy(file, "MZ", 2);
    put(file + 60, 64, 4);
    memcpy(header, "PE", 2);
    put(header + 4, wide ? 0x8664 : 0x14c, 2);
    put(header + 6, 2, 2);
    put(header + 20, size, 2);
    put(header + 22, 0x2022, 2);
    put(optional, wide ? 0x20b : 0x10b, 2);
    put(optional + (wide ? 24 : 28), wide ? 0x140000000 : 0x400000, wide ? 8 : 4);
    put(optional + 32, TEXT, 4);
    put(optional + 36, 0x200, 4);
    put(optional + 56, EXPORTS + EXPORTS_SIZE, 4);
    put(optional + 60, HEADERS, 4);
    put(optional + directories - 4, 16, 4);
    put(optional + directories, EXPORTS, 4);
    put(optional + directories + 4, EXPORTS_SIZE, 4);
    memcpy(optional + size, ".text", 5);
    put_section(optional + size, TEXT, TEXT_SIZE, HEADERS, 0x60000020);
    memcpy(optional + size + 40, ".edata", 6);
    put_section(optional + size + 40, EXPORTS, EXPORTS_SIZE, HEADERS + TEXT_SIZE, 0x40000040);
}

/* The table of exports has addresses and no names. */
static void put_exports(uint8_t *file) {
    uint8_t *exports = file + HEADERS + TEXT_SIZE;
    put(exports + 16, 1, 4);
    put(exports + 20, ROUTINES, 4);
    put(exports + 28, EXPORTS + 40, 4);
    for (uint32_t n = 0; n < ROUTINES; n++)
        put(exports + 40 + 4 * n, TEXT + n * SLOT, 4);
}

int main(int count, char **arguments) {
    static uint8_t file[FILE_SIZE];
    ZydisDecoder decoder;
    int bits = count == 3 ? atoi(arguments[1]) : 0;
    if (bits != 32 && bits != 64) {
        fputs("usage: generate 32|64 SEED > FILE\n", stderr);
        return 2;
    }
    state = strtoull(arguments[2], NULL, 10);
    ZydisDecoderInit(&decoder, bits == 64 ? ZYDIS_MACHINE_MODE_LONG_64 : ZYDIS_MACHINE_MODE_LEGACY_32,
                     bits == 64 ? ZYDIS_STACK_WIDTH_64 : ZYDIS_STACK_WIDTH_32);
    put_headers(file, bits);
    memset(file + HEADERS, RET, TEXT_SIZE);
    for (size_t n = 0; n < ROUTINES; n++) {
        uint8_t drawn[LONGEST];
        size_t length = draw_insn(drawn, n * SLOT, &decoder);
        memcpy(file + HEADERS + n * SLOT, drawn, length);
    }
    put_exports(file);
    return fwrite(file, 1, FILE_SIZE, stdout) != FILE_SIZE ? 2 : 0;
}
