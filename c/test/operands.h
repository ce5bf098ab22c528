/* Reads the columns name and fields of crates/vectors/data/instructions.tsv: which line it is, and its operands, of which an
 * instruction is made. */
#include "huqmeris_names.h"
#include <stdlib.h>
#include <string.h>

static int line_of(const char *name)
{
    for (int line = 0; line < HQ_LINE_COUNT; line++)
        if (strcmp(hq_line_names[line], name) == 0)
            return line;
    return -1;
}

/* The number behind a word of a text. */
static int has(const char *text, const char *word, long *number)
{
    const char *at = strstr(text, word);
    if (at)
        *number = atol(at + strlen(word));
    return at != NULL;
}

typedef struct {
    uint16_t reg, vvvv;
    hq_place place;
    int64_t imm;
    int fixed; /* a register that the line fixes is given */
} operands;

/* Memory, as base:1,index:2,scale:3,disp:4,late:5,trap:6, or relative to the end. */
static hq_place memory_of(const char *text)
{
    long base = 0, index = 0, scale = 0, disp = 0, late = 0, trap = 0, number = 0;
    hq_place p;
    if (has(text, "rip:label:", &number))
        return hq_label((uint32_t)number);
    if (has(text, "rip:const:", &number))
        return hq_constant((uint32_t)number);
    if (strstr(text, "rip:none")) {
        p = hq_nothing();
        p.place = HQ_PLACE_UNTOLD;
        return p;
    }
    has(text, "base:", &base);
    has(text, "disp:", &disp);
    if (has(text, "index:", &index)) {
        has(text, "scale:", &scale);
        p = hq_index((uint8_t)base, (uint8_t)index, (uint8_t)scale, (int32_t)disp);
    } else
        p = hq_mem((uint8_t)base, (int32_t)disp);
    p.has_offset = (uint8_t)has(text, "late:", &late);
    p.offset = (uint8_t)late;
    p.trap = (uint8_t)(has(text, "trap:", &trap) ? trap : 0);
    return p;
}

/* Operands, as r8=1 m8=base:1,disp:2 imm8=3: the first register stands in reg, the second in vvvv. */
static void operands_of(char *text, operands *out)
{
    static const char *const fixed[] = {"al=", "ax=", "eax=", "edx=", "rax=", "rbx=", "rcx=", "rdx="};
    out->reg = out->vvvv = HQ_NO_REG;
    out->place = hq_nothing();
    out->imm = HQ_NO_IMM;
    out->fixed = 0;
    for (char *word = strtok(text, " "); word; word = strtok(NULL, " ")) {
        const char *value = strchr(word, '=');
        int is_fixed = 0;
        for (size_t i = 0; i < sizeof fixed / sizeof *fixed; i++)
            is_fixed |= strncmp(word, fixed[i], strlen(fixed[i])) == 0;
        if (!value || is_fixed) {
            out->fixed |= is_fixed;
            continue;
        }
        value++;
        if (strncmp(word, "imm", 3) == 0)
            out->imm = atoll(value);
        else if (word[0] == 'm' || strncmp(word, "rm", 2) == 0 || strncmp(word, "xmm_m", 5) == 0)
            out->place = strncmp(value, "reg:", 4) == 0 ? hq_reg((uint8_t)atoi(value + 4)) : strchr(value, ':') ? memory_of(value) : hq_reg((uint8_t)atoi(value));
        else if (out->reg == HQ_NO_REG)
            out->reg = (uint16_t)atoi(value);
        else
            out->vvvv = (uint16_t)atoi(value);
    }
}

/* The instruction, whose immediate may be given without its sign. */
static int32_t make(int line, const operands *o, hq_inst *out)
{
    int32_t status = hq_make((uint16_t)line, o->reg, o->vvvv, &o->place, o->imm, out);
    if (status == HQ_BAD_OPERANDS + (4 << 8) && o->imm >= 128 && o->imm < 256)
        status = hq_make((uint16_t)line, o->reg, o->vvvv, &o->place, o->imm - 256, out);
    if (status == HQ_BAD_OPERANDS + (4 << 8) && o->imm >= INT64_C(1) << 31)
        status = hq_make((uint16_t)line, o->reg, o->vvvv, &o->place, o->imm - (INT64_C(1) << 32), out);
    return status;
}
