/* Runs the cases of crates/core_vectors/data/core.tsv, whose path is the argument, through the library: makes each instruction,
 * encodes it, and reads it, each time at the end of a page behind which no page is, and compares with the wanted bytes. Tells how
 * many are as wanted; the status is 0 where all are. */
#define _GNU_SOURCE
#include "guard.h"
#include "huqmeris.h"
#include <stdio.h>
#include <stdlib.h>
#include <string.h>

static uint8_t *guard; /* the first byte that can't be touched */

/* So many bytes right before it, filled with 0xA5. */
static uint8_t *before(size_t n) { return filled_before(guard, n); }

static int place_of(char *text, hq_place *out)
{
    long base, index, scale, disp;
    if (strcmp(text, "-") == 0)
        *out = hq_nothing();
    else if (sscanf(text, "r%ld", &base) == 1)
        *out = hq_reg((uint8_t)base);
    else if (sscanf(text, "%ld:%ld:%ld:%ld", &base, &index, &scale, &disp) == 4)
        *out = hq_index((uint8_t)base, (uint8_t)index, (uint8_t)(scale == 8 ? 3 : scale == 4 ? 2 : scale == 2), (int32_t)disp);
    else if (sscanf(text, "%ld:%ld", &base, &disp) == 2)
        *out = hq_mem((uint8_t)base, (int32_t)disp);
    else
        return 0;
    return 1;
}

static size_t bytes_of(const char *hex, uint8_t *out)
{
    size_t n = 0;
    unsigned byte;
    for (; n < 16 && sscanf(hex + 2 * n, "%2x", &byte) == 1; n++)
        out[n] = (uint8_t)byte;
    return n;
}

/* What isn't as wanted of one instruction, or NULL. */
static const char *encoded(const hq_inst *inst, const uint8_t *want, size_t size)
{
    uint32_t len = 77;
    hq_use told = {7, 7, 7};
    for (size_t room = 0; room < size; room++) {
        uint8_t *code = before(room);
        if (hq_encode(inst, code, room, &len, &told) != HQ_FULL || len != 77 || told.at != 7 || !is_filled(code, room))
            return "a slice that is too short isn't refused, or is written";
    }
    /* Up to more than sixteen bytes, from which on they are put another way. */
    for (size_t room = size; room < 18; room++) {
        uint8_t *code = before(room);
        if (hq_encode(inst, code, room, &len, &told) != HQ_OK || len != size || told.kind != HQ_TOLD_NOTHING)
            return "it isn't encoded";
        if (memcmp(code, want, size) || !is_filled(code + size, room - size))
            return "the bytes are others";
        len = 77;
    }
    return hq_length(inst, &len) == HQ_OK && len == size ? NULL : "the length is another";
}

static const char *decoded(const uint8_t *want, size_t size, long line, const hq_inst *inst)
{
    hq_inst again;
    hq_reading r;
    for (size_t n = 0; n < size; n++)
        if (hq_decode(memcpy(before(n), want, n), n, &r) != HQ_NONE)
            return "a front is read";
    if (hq_decode(memcpy(before(size), want, size), size, &r) != HQ_OK || r.line != line || r.length != size)
        return "it's read otherwise";
    memset(&again, 0xA5, sizeof again);
    if (hq_inst_of_reading(&r, &again) != HQ_OK || memcmp(&again, inst, sizeof again))
        return "what is read is another instruction";
    r.reserved_word = 1;
    if (hq_inst_of_reading(&r, &again) != HQ_BAD_READING || memcmp(&again, inst, sizeof again))
        return "what is no reading isn't refused";
    return NULL;
}

/* All bytes one behind the other, and how many instructions they are. */
static uint8_t all[16 * 9000];
static size_t all_len, all_count;

static const char *outcome(char **column)
{
    uint8_t want[16];
    hq_place place;
    hq_inst inst, again;
    uint8_t homes[256];
    long line = atol(column[0]);
    size_t size = bytes_of(column[5], want);
    if (all_len + size <= sizeof all && all_count < 9000) {
        memcpy(all + all_len, want, size);
        all_len += size;
        all_count++;
    }
    uint16_t reg = column[2][0] == '-' ? HQ_NO_REG : (uint16_t)atoi(column[2]);
    int64_t imm = column[4][0] == '-' && !column[4][1] ? HQ_NO_IMM : atoll(column[4]);
    if (!place_of(column[3], &place))
        return "the place isn't of its form";
    if (hq_make((uint16_t)line, reg, HQ_NO_REG, &place, imm, &inst) != HQ_OK || hq_check(&inst) != HQ_OK)
        return "it can't be made";
    const char *why = encoded(&inst, want, size);
    if (!why)
        why = decoded(want, size, line, &inst);
    if (why)
        return why;
    uint16_t its_reg = 77, its_vvvv = 77;
    int64_t its_imm = 77;
    hq_place its_place = hq_reg(77);
    if (hq_operands(&inst, &its_reg, &its_vvvv, &its_place, &its_imm) != HQ_OK || its_reg != reg || its_vvvv != HQ_NO_REG || its_imm != imm
        || memcmp(&its_place, &place, sizeof place))
        return "it has other operands than it's made of";
    for (int i = 0; i < 256; i++)
        homes[i] = (uint8_t)i;
    again = inst;
    if (hq_rename(&again, homes) != HQ_OK || memcmp(&again, &inst, sizeof inst))
        return "each register in its own place makes another";
    again.reserved = 1;
    uint32_t len = 77;
    if (hq_check(&again) != HQ_BAD_INST || hq_length(&again, &len) != HQ_BAD_INST || len != 77
        || hq_operands(&again, &its_reg, &its_vvvv, &its_place, &its_imm) != HQ_BAD_INST || its_reg != reg || its_imm != imm)
        return "what is no instruction isn't refused";
    return NULL;
}

/* A field 4 bytes long at 10 that is to lead to 100, and one that can't reach. */
static int is_patched(void)
{
    int32_t field = 7;
    return hq_patched(10, 1ull << 33, 0, &field) == HQ_OUT_OF_RANGE && field == 7 && hq_patched(10, 100, -1, &field) == HQ_OK && field == 85;
}

/* A label is told where its four bytes stand, and a null slice of no bytes is read as nothing. */
static int tells(void)
{
    hq_place place = hq_label(9);
    hq_inst inst;
    hq_use told;
    hq_reading r;
    uint32_t len;
    uint8_t *code = before(7);
    return hq_make(HQ_LINE_LEAQ_RM, 0, HQ_NO_REG, &place, HQ_NO_IMM, &inst) == HQ_OK && hq_encode(&inst, code, 7, &len, &told) == HQ_OK
        && len == 7 && told.at == 3 && told.kind == HQ_TOLD_LABEL && told.number == 9 && hq_decode(NULL, 0, &r) == HQ_NONE;
}

/* All of them are read in one call, and the places behind them are as before; with one place too few the last one isn't. */
static int are_read(void)
{
    static hq_reading readings[9001];
    hq_reading blank, one;
    size_t count = 0, end = 0, at = 0;
    memset(&blank, 0xA5, sizeof blank);
    readings[all_count] = blank;
    if (hq_decode_all(all, all_len, readings, all_count + 1, &count, &end) != HQ_OK || count != all_count || end != all_len)
        return 0;
    for (size_t i = 0; i < count; at += readings[i++].length)
        if (hq_decode(all + at, all_len - at, &one) != HQ_OK || memcmp(&one, &readings[i], sizeof one))
            return 0;
    if (at != end || memcmp(&readings[count], &blank, sizeof blank))
        return 0;
    readings[all_count - 1] = blank;
    return hq_decode_all(all, all_len, readings, all_count - 1, &count, &end) == HQ_OK && count == all_count - 1 && end < all_len
        && !memcmp(&readings[count], &blank, sizeof blank) && hq_decode_all(NULL, 0, NULL, 0, &count, &end) == HQ_OK && !count && !end;
}

int main(int argc, char **argv)
{
    FILE *file = argc == 2 ? fopen(argv[1], "r") : NULL;
    char text[512];
    unsigned number = 0, lines = 0, equal = 0;
    guard = guarded(1);
    if (!file || !guard || hq_version() != HQ_VERSION)
        return 2;
    if (!is_patched() || !tells())
        return 3;
    while (fgets(text, sizeof text, file)) {
        char *column[7] = {0}, *rest = text;
        number++;
        for (int i = 0; i < 7 && rest; i++)
            column[i] = strsep(&rest, "\t");
        if (number == 1 || !column[6])
            continue;
        const char *why = outcome(column);
        lines++;
        equal += !why;
        if (why)
            printf("line %u, %s: %s\n", number, column[1], why);
    }
    if (lines && !are_read()) {
        printf("they aren't read one behind the other\n");
        return 1;
    }
    printf("core through C: %u lines, %u as wanted\n", lines, equal);
    return !(lines && lines == equal);
}
