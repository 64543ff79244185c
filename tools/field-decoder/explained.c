#include "explained.h"

#include "bytes.h"
#include "registers.h"

#include <stdio.h>
#include <string.h>

enum { KINDS = 18, OPERAND = 10, ANY_OTHER = 11 };

static int is_field(const struct difference *d, const char *field) { return strcmp(d->field, field) == 0; }

/* The field's name begins so: `kind` is that of any operand. */
static int begins(const struct difference *d, const char *field) { return strncmp(d->field, field, strlen(field)) == 0; }

static int is_operand(const struct difference *d) {
    return is_field(d, "operands") || begins(d, "kind") || begins(d, "register") || begins(d, "number");
}

static const char *zydis_name(const struct difference *d) { return ZydisMnemonicGetString(d->decoded->insn.mnemonic); }

/* The recorded name is this one. */
static int is_recorded(const struct difference *d, const char *name) { return strncmp((const char *)d->recorded + 68, name, 24) == 0; }

/* Zydis' name is one of a list of words between spaces. */
static int is_named(const struct difference *d, const char *words) {
    char word[64];
    snprintf(word, sizeof word, " %s ", zydis_name(d));
    return strstr(words, word) != NULL;
}

static int is_far(const struct difference *d) { return d->decoded->insn.meta.branch_type == ZYDIS_BRANCH_TYPE_FAR; }

/* The recorded segment is that of a prefix which the instruction has. */
static int is_prefixed(const struct difference *d) {
    static const uint8_t prefixes[] = {0x26, 0x2e, 0x36, 0x3e, 0x64, 0x65}; /* es cs ss ds fs gs, from 112 on */
    const ZydisDecodedInstruction *insn = &d->decoded->insn;
    for (int n = 0; n < insn->raw.prefix_count; n++)
        if (d->recorded[4] >= 112 && d->recorded[4] <= 117 && insn->raw.prefixes[n].value == prefixes[d->recorded[4] - 112])
            return 1;
    return 0;
}

static int idle_segment(const struct difference *d) {
    int plain = d->recorded[4] <= 115 && d->decoded->insn.machine_mode == ZYDIS_MACHINE_MODE_LONG_64;
    return is_field(d, "segment") && is_prefixed(d) && (plain || is_named(d, " lea "));
}

static int nop_operands(const struct difference *d) {
    return is_named(d, " nop ") && d->recorded[2] == 1 && (is_operand(d) || is_field(d, "size"));
}

/* The hidden memory of a string instruction has the recorded size; each recorded operand is memory of another kind or a hidden register. */
static int string_operands(const struct difference *d) {
    const ZydisDecodedInstruction *insn = &d->decoded->insn;
    int is_string = insn->meta.category == ZYDIS_CATEGORY_STRINGOP || insn->meta.category == ZYDIS_CATEGORY_IOSTRINGOP;
    int sizes = 0, registers = 0, count = d->recorded[2];
    for (int n = 0; n < insn->operand_count; n++) {
        const ZydisDecodedOperand *operand = &d->decoded->operands[n];
        int is_memory = operand->type == ZYDIS_OPERAND_TYPE_MEMORY;
        sizes += is_memory && operand->size / 8 == get(d->recorded + 8, 2);
        for (int at = 0; at < count && operand->type == ZYDIS_OPERAND_TYPE_REGISTER; at++)
            registers += d->recorded[KINDS + OPERAND * at] == 0 && d->recorded[KINDS + OPERAND * at + 1] == register_number(operand->reg.value);
    }
    int others = 0;
    for (int at = 0; at < count; at++)
        others += d->recorded[KINDS + OPERAND * at] == ANY_OTHER;
    return is_string && (is_operand(d) || is_field(d, "size")) && sizes == others && others + registers == count && count == 2;
}

/* 0F 1C /0 of memory is cldemote with F3 alone by Intel's manual, and a nop where the processor does not know it. */
static int cldemote(const struct difference *d) {
    return is_named(d, " nop ") && is_recorded(d, "cldemote") && (is_field(d, "name") || is_field(d, "mnemonic"));
}

/* Two spellings of one instruction. */
static int spelling(const struct difference *d) {
    static const char *const pairs[][2] = {{"fwait", "wait"}, {"xlat", "xlatb"}, {"sysexit", "sysexitq"}, {"wbinvd", "wbnoinvd"}};
    for (size_t n = 0; n < sizeof pairs / sizeof *pairs; n++)
        if (is_field(d, "name") && strcmp(zydis_name(d), pairs[n][0]) == 0 && is_recorded(d, pairs[n][1]))
            return 1;
    return 0;
}

static int far_return(const struct difference *d) {
    return is_far(d) && is_named(d, " ret ") && (is_field(d, "name") || is_field(d, "mnemonic")) && is_recorded(d, "retf");
}

/* `cmpltsd xmm1, xmm2` is `cmpsd xmm1, xmm2, 1`: the name has the predicate of the immediate, and one operand less. */
static int predicate_in_name(const struct difference *d) {
    static const char *const words[] = {"eq", "lt", "le", "unord", "neq", "nlt", "nle", "ord", "eq_uq", "nge", "ngt",
                                        "false", "neq_oq", "ge", "gt", "true", "eq_os", "lt_oq", "le_oq", "unord_s", "neq_us", "nlt_uq", "nle_uq",
                                        "ord_s", "eq_us", "nge_uq", "ngt_uq", "false_os", "neq_os", "ge_oq", "gt_oq", "true_us"};
    const char *name = zydis_name(d);
    int vector = name[0] == 'v', last = d->decoded->insn.operand_count_visible - 1;
    const ZydisDecodedOperand *operand = &d->decoded->operands[last];
    char want[32];
    if (!is_named(d, " cmpps cmppd cmpss cmpsd vcmpps vcmppd vcmpss vcmpsd ") || operand->type != ZYDIS_OPERAND_TYPE_IMMEDIATE ||
        operand->imm.value.u >= sizeof words / sizeof *words)
        return 0;
    snprintf(want, sizeof want, "%scmp%s%s", vector ? "v" : "", words[operand->imm.value.u], name + (vector ? 4 : 3));
    return is_recorded(d, want) && d->recorded[2] == last && (is_operand(d) || is_field(d, "name"));
}

/* A register operand of which 16 bits, or less than all, are used is spelled in another width. */
static int register_width(const struct difference *d) {
    int n = begins(d, "register") ? d->field[9] - '1' : 0;
    uint8_t recorded = d->recorded[KINDS + OPERAND * n + 1], made = d->made[KINDS + OPERAND * n + 1];
    int general = recorded >= 48 && recorded < 96 && made >= 48 && made < 96 && recorded % 16 == made % 16;
    int segment = is_named(d, " mov ") && d->made[19] >= 112 && d->made[19] <= 117;
    return begins(d, "register") && general && (segment || is_named(d, " lar lsl movmskps movmskpd vmovmskps vmovmskpd pmovmskb vpmovmskb "));
}

static int plain_address(const struct difference *d) {
    uint64_t recorded = get(d->recorded + 10, 8), made = get(d->made + 10, 8);
    uint64_t mask = d->decoded->insn.address_width == 16 ? 0xffff : 0xffffffff;
    return is_field(d, "memory address") && d->made[5] == 0 && d->made[6] == 0 && recorded == (made & mask);
}

static int stopped(const struct difference *d) { return is_named(d, " ud0 ud1 ") && !is_field(d, "name") && !is_field(d, "mnemonic"); }

static int untransferred(const struct difference *d) {
    return is_field(d, "size") && is_named(d, " clflush clflushopt clwb cldemote prefetchw prefetchwt1 prefetchnta prefetcht0 prefetcht1 prefetcht2 invlpg ");
}

static int state_size(const struct difference *d) {
    return is_field(d, "size") && (strncmp(zydis_name(d), "xsave", 5) == 0 || strncmp(zydis_name(d), "xrstor", 6) == 0);
}

static int hidden_register(const struct difference *d) { return is_operand(d) && is_named(d, " clzero ") && d->recorded[2] == 0; }

static int gathered(const struct difference *d) {
    return is_field(d, "size") && (strncmp(zydis_name(d), "vpgather", 8) == 0 || strncmp(zydis_name(d), "vgather", 7) == 0);
}

/* SIB base 101 with mod 0 is no base, whatever REX.B says. */
static int zydis_base(const struct difference *d) {
    const ZydisDecodedInstruction *insn = &d->decoded->insn;
    int none = (insn->attributes & ZYDIS_ATTRIB_HAS_SIB) != 0 && insn->raw.modrm.mod == 0 && insn->raw.sib.base == 5;
    return none && d->recorded[5] == 0 && d->made[5] != 0 && (is_field(d, "base") || is_field(d, "memory address"));
}

const struct explanation explanations[] = {
    {"segment prefix that the processor ignores (es, cs, ss and ds with 64 bits; any of lea): Capstone names it, Zydis does not", idle_segment},
    {"nop with ModRM: Intel's manual has one operand, Zydis a second one; nothing is read", nop_operands},
    {"string instruction: Intel's manual has it with operands and without; the recorder has them, Zydis hides them", string_operands},
    {"two spellings of one instruction: fwait and wait, xlat and xlatb, sysexit and sysexitq; with F3 wbinvd and wbnoinvd", spelling},
    {"cldemote: a nop where the processor does not know it", cldemote},
    {"far return: Intel's manual and Zydis say ret, Capstone retf", far_return},
    {"comparison of vectors: Intel's manual has the predicate as an immediate and in the name; Zydis has the first, Capstone the second", predicate_in_name},
    {"register of which the instruction uses a part (mov to a segment register, lar, lsl, movmsk): spelled in another width", register_width},
    {"address of 16 or 32 bits without base and index: Zydis extends it by its sign, the recorder by zeros, as addresses of sections are", plain_address},
    {"ud0 and ud1: Zydis reads operands, Capstone none; the processor stops there", stopped},
    {"size of a cache line: Zydis says the line, Capstone a byte; nothing is transferred", untransferred},
    {"size of xsave and its like: it depends on the processor", state_size},
    {"clzero: Zydis has its register, Capstone does not", hidden_register},
    {"size of a gather: Zydis says one element, Capstone the vector", gathered},
    {"base with prefix 67, SIB 101, mod 0 and REX.B: Zydis 4.0.0 names r13d and is wrong, there is none", zydis_base},
};
const size_t explanation_count = sizeof explanations / sizeof *explanations;

int explanation_of(const struct difference *difference) {
    for (size_t n = 0; n < explanation_count; n++)
        if (explanations[n].explains(difference))
            return (int)n;
    return -1;
}
