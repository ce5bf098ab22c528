/* Puts each jump that an item may be, near and far, and compares with what GNU as makes of the mnemonic that the item's name has. The
 * status is 0 where all is as wanted. */
#include "filled.h"
#include "huqmeris.h"
#include "jumps.h"
#include <stdio.h>
#include <string.h>

enum { MOST = GAP + 2, ROOM = GAP + 16 };

typedef struct {
    const char *name;
    uint32_t kind;
    const char *near;
    size_t near_len;
    const char *far;
    size_t far_len;
} row;

#define JUMP(name, near, near_len, far, far_len) {#name, HQ_ITEM_##name, near, near_len, far, far_len},
static const row rows[] = {JUMPS(JUMP)};
enum { COUNT = sizeof rows / sizeof *rows };

/* A list gives these bytes and so many behind them, and nothing more is written. */
static int gives(const hq_item *items, size_t count, const char *wanted, size_t len, size_t behind)
{
    static uint8_t code[ROOM];
    hq_done done;
    memset(code, FILLING, sizeof code);
    return hq_assemble(items, count, code, sizeof code, NULL, 0, &done) == HQ_OK && done.items == count && done.bytes == len + behind &&
           memcmp(code, wanted, len) == 0 && is_filled(code + len + behind, ROOM - len - behind);
}

static int is_near(const row *of)
{
    hq_item items[] = {hq_item_at(HQ_ITEM_LABEL, 0), hq_item_at(of->kind, 0)};
    return gives(items, 2, of->near, of->near_len, 0);
}

static int is_far(const row *of)
{
    static hq_item items[MOST];
    hq_place nothing = hq_nothing();
    hq_inst ret;
    if (hq_make(HQ_LINE_RETQ_ZO, HQ_NO_REG, HQ_NO_REG, &nothing, HQ_NO_IMM, &ret) != HQ_OK)
        return 0;
    items[0] = hq_item_at(of->kind, 0);
    for (size_t i = 1; i <= GAP; i++)
        items[i] = hq_item_of(&ret);
    items[MOST - 1] = hq_item_at(HQ_ITEM_LABEL, 0);
    return gives(items, MOST, of->far, of->far_len, GAP);
}

int main(void)
{
    size_t failed = 0;
    for (const row *of = rows; of < rows + COUNT; of++) {
        if (of->kind == (uint32_t)(HQ_ITEM_JMP + (of - rows)) && is_near(of) && is_far(of))
            continue;
        failed++;
        printf("HQ_ITEM_%s isn't what as makes\n", of->name);
    }
    printf("jumps: %d kinds, %zu differ\n", (int)COUNT, failed);
    return failed || COUNT != HQ_ITEM_JG - HQ_ITEM_JMP + 1;
}
