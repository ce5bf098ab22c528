/* What lines read and write, as C is told: worked rows, after the manual's pages of the named instructions (Intel SDM, volume 2),
 * and of all lines that the answers are such as the header says. The status is 0 where all is as wanted. */
#include "huqmeris.h"
#include <stdio.h>
#include <string.h>

#define ALL_FLAGS (HQ_FLAG_CF | HQ_FLAG_PF | HQ_FLAG_AF | HQ_FLAG_ZF | HQ_FLAG_SF | HQ_FLAG_OF)

/* Operands as rows have them. */
#define REG(bits, access) {HQ_HOME_REG, 0, HQ_CLASS_GENERAL, access, bits, 1}
#define RM(bits, access) {HQ_HOME_PLACE, 0, HQ_CLASS_GENERAL, access, bits, 1}
#define MEM(bits, access) {HQ_HOME_PLACE, 0, HQ_CLASS_NONE, access, bits, 1}
#define XMM(access) {HQ_HOME_REG, 0, HQ_CLASS_VECTOR, access, 128, 1}
#define XMM_OR_MEM(bits, access) {HQ_HOME_PLACE, 0, HQ_CLASS_VECTOR, access, bits, 1}
#define IMM(bits) {HQ_HOME_IMM, 0, HQ_CLASS_NONE, READ, bits, 1}
#define FIXED(number, bits, access, printed) {HQ_HOME_FIXED, number, HQ_CLASS_GENERAL, access, bits, printed}
#define STACK(bits, access) {HQ_HOME_STACK, 0, HQ_CLASS_NONE, access, bits, 0}
#define NONE HQ_ACCESS_NONE
#define READ HQ_ACCESS_READ
#define WRITE HQ_ACCESS_WRITE
#define BOTH HQ_ACCESS_READ_WRITE

typedef struct row {
    uint16_t line, count;
    hq_operand operands[5];
    hq_flags flags;
} row;

static const row rows[] = {
    {HQ_LINE_ADCQ_MR, 2, {RM(64, BOTH), REG(64, READ)}, {HQ_FLAG_CF, ALL_FLAGS, 0}},
    {HQ_LINE_MOVW_RM, 2, {REG(16, WRITE), RM(16, READ)}, {0, 0, 0}},
    {HQ_LINE_LEAQ_RM, 2, {REG(64, WRITE), MEM(64, NONE)}, {0, 0, 0}},
    {HQ_LINE_DIVL_M, 3, {FIXED(0, 32, BOTH, 0), FIXED(2, 32, BOTH, 0), RM(32, READ)}, {0, 0, ALL_FLAGS}},
    {HQ_LINE_SHRL_MC, 2, {RM(32, BOTH), FIXED(1, 8, READ, 1)},
     {ALL_FLAGS, ALL_FLAGS - HQ_FLAG_AF - HQ_FLAG_OF, HQ_FLAG_AF | HQ_FLAG_OF}},
    {HQ_LINE_CMOVAL_RM, 2, {REG(32, BOTH), RM(32, READ)}, {HQ_FLAG_CF | HQ_FLAG_ZF, 0, 0}},
    {HQ_LINE_PUSHQ_I8, 3, {IMM(8), FIXED(4, 64, BOTH, 0), STACK(64, WRITE)}, {0, 0, 0}},
    {HQ_LINE_POPW_M, 3, {RM(16, WRITE), FIXED(4, 64, BOTH, 0), STACK(16, READ)}, {0, 0, 0}},
    {HQ_LINE_CALLQ_M, 3, {RM(64, READ), FIXED(4, 64, BOTH, 0), STACK(64, WRITE)}, {0, 0, 0}},
    {HQ_LINE_RETQ_ZO, 2, {FIXED(4, 64, BOTH, 0), STACK(64, READ)}, {0, 0, 0}},
    {HQ_LINE_LEAVEQ_ZO, 3, {FIXED(4, 64, WRITE, 0), FIXED(5, 64, BOTH, 0), STACK(64, READ)}, {0, 0, 0}},
    {HQ_LINE_SQRTSS_A, 2, {XMM(BOTH), XMM_OR_MEM(32, READ)}, {0, 0, 0}},
    {HQ_LINE_MOVSS_A_M, 2, {XMM(WRITE), MEM(32, READ)}, {0, 0, 0}},
    {HQ_LINE_UCOMISD_A, 2, {XMM(READ), XMM_OR_MEM(64, READ)}, {0, ALL_FLAGS, 0}},
    {HQ_LINE_CMPXCHG16B_M, 5, {MEM(128, BOTH), FIXED(0, 64, BOTH, 0), FIXED(2, 64, BOTH, 0), FIXED(1, 64, READ, 0), FIXED(3, 64, READ, 0)},
     {0, HQ_FLAG_ZF, 0}},
    {HQ_LINE_UD2_ZO, 0, {{0, 0, 0, 0, 0, 0}}, {0, 0, 0}},
};

static int is_row(const row *row)
{
    hq_operand operand;
    hq_flags flags;
    for (size_t i = 0; i < row->count; i++)
        if (hq_line_operand(row->line, i, &operand) != HQ_OK || memcmp(&operand, &row->operands[i], sizeof operand))
            return 0;
    if (hq_line_operand(row->line, row->count, &operand) != HQ_NONE || hq_line_flags(row->line, &flags) != HQ_OK)
        return 0;
    return memcmp(&flags, &row->flags, sizeof flags) == 0;
}

/* What isn't there is refused, and nothing is written. */
static int are_refused(void)
{
    hq_operand operand, as_before;
    hq_flags flags = {7, 7, 7};
    memset(&operand, 0xA5, sizeof operand);
    as_before = operand;
    if (hq_line_operand(HQ_LINE_COUNT, 0, &operand) != HQ_BAD_LINE || hq_line_operand(UINT16_MAX, SIZE_MAX, &operand) != HQ_BAD_LINE)
        return 0;
    if (hq_line_operand(HQ_LINE_RETQ_ZO, SIZE_MAX, &operand) != HQ_NONE || memcmp(&operand, &as_before, sizeof operand))
        return 0;
    return hq_line_flags(HQ_LINE_COUNT, &flags) == HQ_BAD_LINE && flags.read == 7 && flags.written == 7 && flags.undefined == 7;
}

/* The answers of a line are of those that the header names, and as many operands stand in its bytes as may. */
static int is_a_line(uint16_t line)
{
    hq_operand o;
    hq_flags flags;
    size_t count = 0, homes[HQ_HOME_STACK + 1] = {0};
    for (; hq_line_operand(line, count, &o) == HQ_OK; count++) {
        if (o.home > HQ_HOME_STACK || o.registers > HQ_CLASS_VECTOR || o.access > HQ_ACCESS_READ_WRITE || o.printed > 1)
            return 0;
        if ((o.number != 0 && o.home != HQ_HOME_FIXED) || o.number > 5 || o.bits < 8 || o.bits > 128 || (o.home == HQ_HOME_STACK && o.printed))
            return 0;
        homes[o.home]++;
    }
    if (hq_line_flags(line, &flags) != HQ_OK || (flags.written & flags.undefined) || ((flags.read | flags.written | flags.undefined) & ~ALL_FLAGS))
        return 0;
    return count <= 5 && homes[HQ_HOME_REG] <= 1 && homes[HQ_HOME_VVVV] <= 1 && homes[HQ_HOME_PLACE] <= 1 && homes[HQ_HOME_IMM] <= 1;
}

int main(void)
{
    size_t equal = 0;
    for (size_t i = 0; i < sizeof rows / sizeof *rows; i++) {
        equal += is_row(&rows[i]) != 0;
        if (!is_row(&rows[i]))
            printf("line %u does something else\n", (unsigned)rows[i].line);
    }
    for (uint16_t line = 0; line < HQ_LINE_COUNT; line++)
        if (!is_a_line(line)) {
            printf("of line %u something else is said than the header names\n", (unsigned)line);
            return 1;
        }
    printf("uses through C: %zu of %zu rows as wanted\n", equal, sizeof rows / sizeof *rows);
    return equal != sizeof rows / sizeof *rows || !are_refused();
}
