/* Assembles the function that adds up an array, prints its bytes and its text, and calls it. */
#define _DEFAULT_SOURCE
#include "huqmeris.h"
#include <inttypes.h>
#include <stdio.h>
#include <string.h>
#include <sys/mman.h>

enum { RAX = 0, RCX = 1, RSI = 6, RDI = 7 };
enum { AGAIN = 0, TEST = 1 };

static hq_item items[16];
static size_t count;

/* Puts one instruction behind the others. */
static int put(uint16_t line, uint16_t reg, hq_place place, int64_t imm)
{
    hq_inst inst;
    int32_t status = hq_make(line, reg, HQ_NO_REG, &place, imm, &inst);
    if (status != HQ_OK) {
        printf("line %u is refused: status %" PRId32 ", detail %" PRId32 "\n", line, hq_code(status), hq_detail(status));
        return 0;
    }
    items[count++] = hq_item_of(&inst);
    return 1;
}

/* A label's place, or a jump to it. */
static int put_label(uint32_t kind, uint32_t label)
{
    items[count++] = hq_item_at(kind, label);
    return 1;
}

/* Prints the instructions of some bytes, each with its text. A jump's text has its distance from its beginning. */
static int list(const uint8_t *code, size_t len)
{
    for (size_t at = 0; at < len;) {
        hq_reading r;
        hq_inst inst;
        uint8_t text[64];
        size_t n = 0;
        if (hq_decode(code + at, len - at, &r) != HQ_OK || hq_inst_of_reading(&r, &inst) != HQ_OK || hq_format(&inst, text, sizeof text, &n) != HQ_OK)
            return 0;
        printf("%2zu:", at);
        for (unsigned i = 0; i < r.length; i++)
            printf(" %02x", code[at + i]);
        printf("%*s%.*s\n", 16 - 3 * r.length, "", (int)n, (const char *)text);
        at += r.length;
    }
    return 1;
}

/* Calls the code with an array: it's copied to a page, which can be executed then. */
static int64_t call(const uint8_t *code, size_t len, const int64_t *numbers, size_t how_many)
{
    int64_t (*sum)(const int64_t *, size_t);
    void *page = mmap(NULL, 4096, PROT_READ | PROT_WRITE, MAP_PRIVATE | MAP_ANONYMOUS, -1, 0);
    if (page == MAP_FAILED)
        return -1;
    memcpy(page, code, len);
    if (mprotect(page, 4096, PROT_READ | PROT_EXEC))
        return -1;
    memcpy(&sum, &page, sizeof sum);
    int64_t answer = sum(numbers, how_many);
    munmap(page, 4096);
    return answer;
}

int main(void)
{
    static const int64_t numbers[] = {3, 4, 5, 30};
    uint8_t code[64];
    hq_done done;
    if (hq_version() != HQ_VERSION)
        return 2;
    int all = put(HQ_LINE_XORL_RM, RAX, hq_reg(RAX), HQ_NO_IMM) && put(HQ_LINE_XORL_RM, RCX, hq_reg(RCX), HQ_NO_IMM)
        && put_label(HQ_ITEM_JMP, TEST)
        && put_label(HQ_ITEM_LABEL, AGAIN) && put(HQ_LINE_ADDQ_RM, RAX, hq_index(RDI, RCX, 3, 0), HQ_NO_IMM)
        && put(HQ_LINE_ADDQ_MI_SXB, HQ_NO_REG, hq_reg(RCX), 1)
        && put_label(HQ_ITEM_LABEL, TEST) && put(HQ_LINE_CMPQ_RM, RCX, hq_reg(RSI), HQ_NO_IMM) && put_label(HQ_ITEM_JB, AGAIN)
        && put(HQ_LINE_RETQ_ZO, HQ_NO_REG, hq_nothing(), HQ_NO_IMM);
    int32_t status = all ? hq_assemble(items, count, code, sizeof code, NULL, 0, &done) : HQ_BAD_INST;
    if (status != HQ_OK) {
        printf("item %zu is refused: status %" PRId32 "\n", done.items, hq_code(status));
        return 1;
    }
    if (!list(code, done.bytes))
        return 1;
    printf("3 + 4 + 5 + 30 = %" PRId64 "\n", call(code, done.bytes, numbers, 4));
    /* An immediate that isn't in the line's range. */
    return put(HQ_LINE_ADDQ_MI_SXB, HQ_NO_REG, hq_reg(RCX), 128);
}
