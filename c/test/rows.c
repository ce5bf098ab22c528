/* Runs the cases of crates/vectors/data of the port's rows through the library: those of instructions.tsv and faults.tsv, of which
 * no late offset is known, are made of their operands and encoded, and all of reader.tsv are read, each slice at the end of a page
 * behind which no page is. The arguments are the paths of the three, in this order. Tells how many are as wanted; the status is 0
 * where all are. */
#define _GNU_SOURCE
#include "guard.h"
#include "operands.h"
#include <stdio.h>
#include <stdlib.h>
#include <string.h>

static uint8_t *guard; /* the first byte that can't be touched */

static uint8_t *before(size_t n) { return filled_before(guard, n); }

static size_t bytes_of(const char *hex, uint8_t *out)
{
    size_t n = 0;
    unsigned byte;
    for (; n < 16 && sscanf(hex + 2 * n, "%2x", &byte) == 1; n++)
        out[n] = (uint8_t)byte;
    return n;
}

/* What is told, as trap@0=7 or target@3=label:9. */
static int is_told(const char *text, const hq_use *told)
{
    long at = 0, number = 0;
    if (strcmp(text, "-") == 0)
        return told->kind == HQ_TOLD_NOTHING;
    has(text, "@", &at);
    if (has(text, "trap@", &number))
        return told->kind == HQ_TOLD_TRAP && has(text, "=", &number) && told->number == (uint32_t)number && told->at == (uint32_t)at;
    if (has(text, "label:", &number))
        return told->kind == HQ_TOLD_LABEL && told->number == (uint32_t)number && told->at == (uint32_t)at;
    if (has(text, "const:", &number))
        return told->kind == HQ_TOLD_CONSTANT && told->number == (uint32_t)number && told->at == (uint32_t)at;
    return told->kind == HQ_TOLD_PLACE && told->at == (uint32_t)at;
}

/* NULL where an instruction is as wanted, or why not. Of three rows the port puts a prefix that nothing asks for: the second bytes of
 * a line are those without it. */
static const char *instruction(char **column, int *skipped)
{
    uint8_t want[16];
    operands o;
    hq_inst inst;
    hq_use told;
    uint32_t len = 77;
    size_t size = bytes_of(column[7], want);
    int line = line_of(column[0]);
    operands_of(column[1], &o);
    if (line < 0 || strcmp(column[2], "-") != 0 || make(line, &o, &inst) != HQ_OK) {
        *skipped = line < 0 || strcmp(column[2], "-") != 0;
        return *skipped ? NULL : "it can't be made";
    }
    if (hq_encode(&inst, before(size - 1), size - 1, &len, &told) != HQ_FULL || len != 77)
        return "a slice that is too short isn't refused";
    /* Up to more than sixteen bytes, from which on they are put another way. */
    for (size_t room = size; room < 18; room++) {
        uint8_t *code = before(room);
        if (hq_encode(&inst, code, room, &len, &told) != HQ_OK || len != size || memcmp(code, want, size) || !is_filled(code + size, room - size))
            return "the bytes are others";
        if (!is_told(column[9], &told))
            return "something else is told";
    }
    return NULL;
}

/* The same of a fault. Those of registers are counted in another order here, and those of fixed registers don't cross. */
static const char *fault(char **column, int *skipped)
{
    operands o;
    hq_inst inst;
    long key;
    int line = line_of(column[0]), is_unknown = has(column[3], "Unknown:", &key);
    operands_of(column[1], &o);
    if (line < 0 || strncmp(column[3], "Fixed", 5) == 0 || strncmp(column[3], "Range", 5) == 0 || (o.fixed && strcmp(column[3], "-") != 0) || make(line, &o, &inst) != HQ_OK) {
        *skipped = 1;
        return NULL;
    }
    int32_t status = hq_check(&inst);
    if (strcmp(column[3], "-") == 0) /* a late offset that isn't known here is one */
        return status == (o.place.has_offset ? HQ_FAULT_UNKNOWN + (o.place.offset << 8) : HQ_OK) ? NULL : "it has a fault";
    if (is_unknown)
        return status == HQ_FAULT_UNKNOWN + (key << 8) ? NULL : "the late offset is known";
    return hq_code(status) == HQ_FAULT_REGISTER || hq_code(status) == HQ_FAULT_INDEX ? NULL : "it has no such fault";
}

/* What was read of a register: low:1 or high:1. */
static int is_view(const char *text, uint8_t kind, uint8_t number)
{
    long n = 0;
    if (strcmp(text, "-") == 0)
        return kind == HQ_READ_NOTHING;
    return has(text, "low:", &n) ? kind == HQ_READ_REGISTER && number == n : has(text, "high:", &n) && kind == HQ_READ_HIGH_BYTE && number == n;
}

static int is_place(const char *text, const hq_reading *r)
{
    long base = 0, index = 0, disp = 0;
    if (strncmp(text, "reg:", 4) == 0)
        return is_view(text + 4, r->place_kind, r->base);
    if (strncmp(text, "rip:", 4) == 0)
        return r->place_kind == HQ_READ_RELATIVE && has(text, "rip:", &disp) && r->disp == disp;
    if (strcmp(text, "-") == 0)
        return r->place_kind == HQ_READ_NOTHING;
    has(text, "disp=", &disp);
    if (r->place_kind != HQ_READ_MEMORY || r->disp != disp || r->has_base != !strstr(text, "base=-") || r->has_index != !strstr(text, "index=-"))
        return 0;
    const char *factor = strchr(text, '*');
    return (!r->has_base || (has(text, "base=", &base) && r->base == base))
        && (!r->has_index || (has(text, "index=", &index) && r->index == index && factor && r->factor == atoi(factor + 1)));
}

/* The same of bytes: those that no row reads may be read by a line of the core that is none. */
static const char *reading(char **column, int *skipped)
{
    uint8_t bytes[16];
    hq_reading r;
    size_t size = column[0][0] == '-' ? 0 : bytes_of(column[0], bytes);
    int32_t status = hq_decode(memcpy(before(size), bytes, size), size, &r);
    if (strcmp(column[2], "none") == 0)
        return status == HQ_NONE || r.line >= 158 ? NULL : "a row reads it";
    if (status != HQ_OK)
        return "it isn't read";
    if (r.line >= 158) {
        *skipped = 1;
        return NULL;
    }
    if (strcmp(hq_line_names[r.line], column[2]) != 0 || r.length != atoi(column[3]) || r.tail != atoi(column[4]))
        return "line or length is another";
    if (!is_view(column[5], r.reg_kind, r.reg) || r.has_vvvv != (column[6][0] != '-') || (r.has_vvvv && r.vvvv != atoi(column[6])))
        return "a register is another";
    if (!is_place(column[7], &r))
        return "the place is another";
    return r.has_imm == (strcmp(column[8], "-") != 0) && (!r.has_imm || r.imm == atoll(column[8])) ? NULL : "the immediate is another";
}

static int run(const char *path, const char *(*outcome)(char **, int *), int columns)
{
    FILE *file = fopen(path, "r");
    char text[2048];
    unsigned number = 0, lines = 0, equal = 0, others = 0;
    if (!file)
        return 1;
    while (fgets(text, sizeof text, file)) {
        char *column[16] = {0}, *rest = text;
        int skipped = 0;
        if (number++ == 0)
            continue;
        text[strcspn(text, "\n")] = 0;
        for (int i = 0; i < 16 && rest; i++)
            column[i] = strsep(&rest, "\t");
        if (!column[columns - 1])
            continue;
        const char *why = outcome(column, &skipped);
        others += (unsigned)skipped;
        lines += !skipped;
        equal += !skipped && !why;
        if (why)
            printf("%s, line %u, %s: %s\n", strrchr(path, '/') + 1, number, column[0], why);
    }
    fclose(file);
    printf("%s through C: %u lines, %u as wanted, %u aren't of these calls\n", strrchr(path, '/') + 1, lines, equal, others);
    return !(lines && lines == equal);
}

int main(int argc, char **argv)
{
    guard = guarded(1);
    if (argc != 4 || !guard)
        return 2;
    return run(argv[1], instruction, 10) | run(argv[2], fault, 4) | run(argv[3], reading, 9);
}
