/* Three functions of a program's own in the place of those of heap.c: each growth is refused in turn, and then each call answers
 * HQ_NO_MEMORY, what it could write is as before, `done` of a list is all 0, and all memory is given back. The status is 0 where that
 * is so. */
#include "filled.h"
#include "huqmeris.h"
#include "own_heap.h"
#include <stdio.h>
#include <string.h>

enum { LABELS = 40, CONSTANTS = 40, MOST = 3 * LABELS + 3 * CONSTANTS + 2, ROOM = 4096 };

/* Loads of many constants, and behind them the constants. */
static int add_constants(hq_item *items, size_t *count)
{
    static const uint8_t bytes[24] = {1, 2, 3};
    for (uint32_t constant = 0; constant < CONSTANTS; constant++) {
        hq_place place = hq_constant(constant);
        hq_inst load;
        if (hq_make(HQ_LINE_MOVUPS_A, 1, HQ_NO_REG, &place, HQ_NO_IMM, &load) != HQ_OK)
            return 0;
        items[(*count)++] = hq_item_of(&load);
    }
    items[(*count)++] = hq_item_at(HQ_ITEM_ALIGN, 6);
    for (uint32_t constant = 0; constant < CONSTANTS; constant++) {
        items[(*count)++] = hq_item_at(HQ_ITEM_CONSTANT, constant);
        items[(*count)++] = hq_item_bytes(bytes, sizeof bytes);
    }
    items[(*count)++] = hq_item_at(HQ_ITEM_ALIGN, 6);
    return 1;
}

/* Each addition's trap is told where it begins; without a code none is. */
static int are_told(uint8_t trap, const hq_use *uses, const uint8_t *code)
{
    static const uint8_t front[] = {0x48, 0x03, 0x88};
    for (size_t i = 0; trap && i < LABELS; i++) {
        if (uses[i].kind != HQ_TOLD_TRAP || uses[i].number != trap || uses[i].at > ROOM - sizeof front || (i && uses[i].at <= uses[i - 1].at))
            return 0;
        if (memcmp(code + uses[i].at, front, sizeof front))
            return 0;
    }
    return trap || is_filled(uses, LABELS * sizeof *uses);
}

/* A list that lets all that grows grow: many labels, many bytes, many constants, and where there is a code many traps. Answers how
 * many growths it was refused in. */
static size_t assembles(uint8_t trap, int *is_wanted)
{
    static hq_item items[MOST];
    static hq_use uses[LABELS];
    static uint8_t code[ROOM];
    hq_place place = hq_mem(0, 1 << 20);
    hq_inst inst;
    hq_done done;
    size_t refusals = 0, count = 0;
    place.trap = trap;
    *is_wanted = hq_make(HQ_LINE_ADDQ_RM, 1, HQ_NO_REG, &place, HQ_NO_IMM, &inst) == HQ_OK;
    for (uint32_t label = 0; label < LABELS; label++) {
        items[count++] = hq_item_at(HQ_ITEM_LABEL, label);
        items[count++] = hq_item_of(&inst);
        items[count++] = hq_item_at(HQ_ITEM_JE, LABELS - 1 - label);
    }
    *is_wanted &= add_constants(items, &count);
    for (refused_at = 1; *is_wanted; refused_at++) {
        asked = 0;
        memset(code, 0xA5, sizeof code);
        memset(uses, 0xA5, sizeof uses);
        memset(&done, 0xA5, sizeof done);
        int32_t status = hq_assemble(items, count, code, sizeof code, uses, LABELS, &done);
        int is_put = status == HQ_OK && done.items == count && done.uses == (trap ? LABELS : 0) && are_told(trap, uses, code);
        int is_refused = status == HQ_NO_MEMORY && is_filled(code, sizeof code) && is_filled(uses, sizeof uses) && !done.items && !done.bytes && !done.uses;
        *is_wanted = held == 0 && refused_at < 1000 && (is_put || (is_refused && asked >= refused_at));
        if (asked < refused_at)
            break;
        refusals += is_refused; /* else it did with less */
    }
    refused_at = 0;
    if (trap) /* there is one place too few */
        *is_wanted &= hq_assemble(items, count, code, sizeof code, uses, LABELS - 1, &done) == HQ_FULL && held == 0;
    return refusals;
}

static size_t formats(int *is_wanted)
{
    hq_place place = hq_index(1, 2, 3, -0x12345678);
    hq_inst inst;
    uint8_t text[64];
    size_t refusals = 0, len;
    *is_wanted = hq_make(HQ_LINE_ADDQ_MI_SXL, HQ_NO_REG, HQ_NO_REG, &place, -1, &inst) == HQ_OK;
    for (refused_at = 1;; refused_at++) {
        asked = 0;
        len = 77;
        memset(text, 0xA5, sizeof text);
        int32_t status = hq_format(&inst, text, sizeof text, &len);
        *is_wanted &= held == 0;
        if (asked < refused_at)
            break;
        refusals++;
        *is_wanted &= status == HQ_NO_MEMORY && len == 77 && is_filled(text, sizeof text) && refused_at < 1000;
        if (!*is_wanted)
            return 0;
    }
    *is_wanted &= len > 20;
    return refusals;
}

int main(void)
{
    int lists = 0, traps = 0, texts = 0;
    size_t of_lists = assembles(0, &lists), of_traps = assembles(1, &traps), of_texts = formats(&texts);
    printf("heap of the program's own: %zu growths of a list refused, %zu of one with traps, %zu of a text\n", of_lists, of_traps, of_texts);
    return !(lists && traps && texts && of_lists && of_traps > of_lists && of_texts);
}
