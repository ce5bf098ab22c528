/* Runs lists through the library: all cases of crates/core_vectors/data/core.tsv, whose path is the argument, in one call of
 * hq_encode_all and in one of hq_assemble, each into a slice at the end of a page behind which no page is, and compares with the wanted
 * bytes; each instruction's text with the wanted one; and lists with labels, jumps, data and traps. The status is 0 where all is as
 * wanted. */
#define _GNU_SOURCE
#include "guard.h"
#include "huqmeris_names.h"
#include <stdio.h>
#include <stdlib.h>
#include <string.h>

enum { ROOM = 1 << 18, MOST = 9000 };

static uint8_t *guard; /* the first byte that can't be touched */
static hq_use *uses_guard; /* and the first use */
static hq_inst insts[MOST];
static hq_item items[MOST];
static uint8_t want[ROOM];
static size_t starts[MOST]; /* where each case begins in it */
static size_t count, size;

static uint8_t *before(size_t n) { return filled_before(guard, n); }

/* So many places right before what can't be touched; null where it's none. */
static hq_use *uses_before(size_t n) { return n ? filled_before(uses_guard, n * sizeof(hq_use)) : NULL; }

static int are_filled(const hq_use *uses, size_t n) { return is_filled((const uint8_t *)uses, n * sizeof *uses); }

static int refused(const char *what)
{
    printf("%s\n", what);
    return 0;
}

static int place_of(char *text, hq_place *out)
{
    long base, index, scale, disp;
    if (strcmp(text, "-") == 0)
        *out = hq_nothing();
    else if (sscanf(text, "r%ld", &base) == 1)
        *out = hq_reg((uint8_t)base);
    else if (sscanf(text, "%ld:%ld:%ld:%ld", &base, &index, &scale, &disp) == 4)
        *out = hq_index((uint8_t)base, (uint8_t)index, (uint8_t)(scale == 8 ? 3 : scale == 4 ? 2 : scale == 2), (int32_t)disp);
    else if (sscanf(text, "%ld:%ld", &base, &disp) == 2)
        *out = hq_mem((uint8_t)base, (int32_t)disp);
    else
        return 0;
    return 1;
}

/* A text, its mnemonic, and the name of an extension, each also where there is too little room. */
static int is_text(const hq_inst *inst, const char *wanted)
{
    size_t n = strlen(wanted), len = 77;
    for (size_t room = 0; room < n; room += 3) {
        uint8_t *text = before(room);
        if (hq_format(inst, text, room, &len) != HQ_FULL || len != n || !is_filled(text, room))
            return refused("a slice too short for a text isn't refused");
    }
    uint8_t *text = before(n + 1);
    if (hq_format(inst, text, n + 1, &len) != HQ_OK || len != n || memcmp(text, wanted, n) || text[n] != 0xA5)
        return refused("the text is another");
    text = before(n);
    if (hq_mnemonic(inst, text, n, &len) != HQ_OK || len > n || !is_filled(text + len, n - len))
        return refused("the mnemonic isn't told");
    const char *rest = wanted + len;
    if (memcmp(text, wanted, len) || (*rest && *rest != ' ' && *rest != 'x'))
        return refused("the mnemonic is another");
    text = before(16);
    return hq_extension(inst->line, text, 16, &len) == HQ_OK && len <= 10 && is_filled(text + len, 16 - len);
}

/* The cases of the file. */
static int read_cases(FILE *file)
{
    char text[512];
    unsigned number = 0;
    while (fgets(text, sizeof text, file)) {
        char *column[7] = {0}, *rest = text;
        hq_place place;
        unsigned byte;
        text[strcspn(text, "\n")] = 0;
        for (int i = 0; i < 7 && rest; i++)
            column[i] = strsep(&rest, "\t");
        if (number++ == 0 || !column[6])
            continue;
        uint16_t reg = column[2][0] == '-' ? HQ_NO_REG : (uint16_t)atoi(column[2]);
        int64_t imm = column[4][0] == '-' && !column[4][1] ? HQ_NO_IMM : atoll(column[4]);
        if (count == MOST || size + 16 > ROOM || !place_of(column[3], &place) || hq_make((uint16_t)atoi(column[0]), reg, HQ_NO_REG, &place, imm, &insts[count]) != HQ_OK)
            return refused("an instruction can't be made");
        if (strcmp(hq_line_name(insts[count].line), column[1]) != 0)
            return refused("a line has another name");
        starts[count] = size;
        for (const char *hex = column[5]; sscanf(hex, "%2x", &byte) == 1; hex += 2)
            want[size++] = (uint8_t)byte;
        if (!is_text(&insts[count], column[6])) {
            printf("line %u, %s\n", number, column[6]);
            return 0;
        }
        items[count] = hq_item_of(&insts[count]);
        count++;
    }
    return count > 0;
}

/* All in one call, with just enough room, one byte too few, and the one in the middle spoiled. */
static int are_encoded(void)
{
    hq_done done = {7, 7, 7};
    hq_use use = {7, 7, 7};
    uint8_t *code = before(size);
    if (hq_encode_all(insts, count, code, size, NULL, 0, &done) != HQ_OK || done.items != count || done.bytes != size || done.uses != 0 || memcmp(code, want, size))
        return refused("a list isn't encoded");
    code = before(size - 1);
    if (hq_encode_all(insts, count, code, size - 1, &use, 1, &done) != HQ_FULL || done.items != count || done.bytes != size || done.uses != 0 || !is_filled(code, size - 1))
        return refused("a slice that is too short isn't refused");
    code = before(size + 2);
    if (hq_encode_all(insts, count, code, size + 2, &use, 1, &done) != HQ_OK || memcmp(code, want, size) || !is_filled(code + size, 2) || use.at != 7)
        return refused("bytes behind a list are written");
    insts[count / 2].reserved = 1;
    code = before(size);
    if (hq_encode_all(insts, count, code, size, &use, 1, &done) != HQ_BAD_INST || done.items != count / 2 || !is_filled(code, size) || use.at != 7)
        return refused("a list with a bad instruction is encoded");
    insts[count / 2].reserved = 0;
    return hq_encode_all(NULL, 0, NULL, 0, NULL, 0, &done) == HQ_OK && done.items == 0 && done.bytes == 0;
}

static int are_assembled(void)
{
    hq_done done = {7, 7, 7};
    uint8_t *code = before(size);
    if (hq_assemble(items, count, code, size, NULL, 0, &done) != HQ_OK || done.items != count || done.bytes != size || done.uses != 0 || memcmp(code, want, size))
        return refused("items aren't assembled");
    code = before(size - 1);
    if (hq_assemble(items, count, code, size - 1, NULL, 0, &done) != HQ_FULL || done.bytes != size || !is_filled(code, size - 1))
        return refused("a slice too short for items isn't refused");
    items[count / 2].inst.reserved = 1;
    code = before(size);
    if (hq_assemble(items, count, code, size, NULL, 0, &done) != HQ_BAD_INST || done.items != count / 2 || !is_filled(code, size))
        return refused("items with a bad instruction are assembled");
    items[count / 2].inst.reserved = 0;
    return hq_assemble(NULL, 0, NULL, 0, NULL, 0, &done) == HQ_OK && done.items == 0 && done.bytes == 0 && done.uses == 0;
}

static int has_memory(const hq_item *item)
{
    return item->kind == HQ_ITEM_INST && (item->inst.place == HQ_PLACE_BASE || item->inst.place == HQ_PLACE_INDEX);
}

/* All memory operands of the cases have a trap: each is told where its case begins, and the bytes are the same. */
static int are_all_told(void)
{
    hq_done done = {7, 7, 7};
    size_t told = 0, at = 0;
    for (size_t i = 0; i < count; i++)
        if (has_memory(&items[i]))
            items[i].inst.trap = (uint8_t)(told++ % 255 + 1);
    if (told == 0)
        return refused("no case has memory");
    uint8_t *code = before(size);
    hq_use *uses = uses_before(told - 1);
    if (hq_assemble(items, count, code, size, uses, told - 1, &done) != HQ_FULL || done.items != count || done.bytes != size || done.uses != told)
        return refused("too few places for traps aren't refused");
    if (!is_filled(code, size) || !are_filled(uses, told - 1))
        return refused("a refused list tells traps");
    uses = uses_before(told);
    if (hq_assemble(items, count, code, size, uses, told, &done) != HQ_OK || done.bytes != size || done.uses != told || memcmp(code, want, size))
        return refused("items with traps aren't assembled");
    for (size_t i = 0; i < count; i++)
        if (has_memory(&items[i])) {
            if (uses[at].at != starts[i] || uses[at].kind != HQ_TOLD_TRAP || uses[at].number != items[i].inst.trap)
                return refused("a trap of a case isn't told");
            items[i].inst.trap = 0;
            at++;
        }
    return at == told;
}

static hq_inst made(uint16_t line, uint16_t reg, hq_place place, int64_t imm)
{
    hq_inst inst;
    memset(&inst, 0xFF, sizeof inst);
    hq_make(line, reg, HQ_NO_REG, &place, imm, &inst);
    return inst;
}

/* What a list tells: a trap at its instruction, a label and a constant at their fields. */
static int are_told(void)
{
    hq_place trapping = hq_mem(3, 5);
    trapping.trap = 7;
    hq_inst list[] = {made(HQ_LINE_MOVQ_RM, 0, trapping, HQ_NO_IMM), made(HQ_LINE_RETQ_ZO, HQ_NO_REG, hq_nothing(), HQ_NO_IMM),
                      made(HQ_LINE_LEAQ_RM, 1, hq_label(9), HQ_NO_IMM), made(HQ_LINE_MOVQ_RM, 2, hq_constant(3), HQ_NO_IMM)};
    static const uint8_t bytes[] = {0x48, 0x8b, 0x43, 0x05, 0xc3, 0x48, 0x8d, 0x0d, 0, 0, 0, 0, 0x48, 0x8b, 0x15, 0, 0, 0, 0};
    hq_use uses[4] = {{1, 1, 1}, {1, 1, 1}, {1, 1, 1}, {1, 1, 1}};
    hq_done done;
    uint8_t *code = before(sizeof bytes);
    if (hq_encode_all(list, 4, code, sizeof bytes, uses, 2, &done) != HQ_FULL || done.uses != 3 || done.bytes != sizeof bytes || uses[0].at != 1 || !is_filled(code, sizeof bytes))
        return refused("too few places for uses aren't refused");
    if (hq_encode_all(list, 4, code, sizeof bytes, uses, 4, &done) != HQ_OK || done.uses != 3 || memcmp(code, bytes, sizeof bytes))
        return refused("a list that tells isn't encoded");
    return uses[0].at == 0 && uses[0].kind == HQ_TOLD_TRAP && uses[0].number == 7 && uses[1].at == 8 && uses[1].kind == HQ_TOLD_LABEL && uses[1].number == 9
        && uses[2].at == 15 && uses[2].kind == HQ_TOLD_CONSTANT && uses[2].number == 3 && uses[3].at == 1;
}

static int is_refused(const hq_item *list, size_t n, int32_t status, size_t number)
{
    hq_done done;
    uint8_t *code = before(64);
    hq_use *uses = uses_before(4);
    return hq_assemble(list, n, code, 64, uses, 4, &done) == status && done.items == number && is_filled(code, 64) && are_filled(uses, 4);
}

/* Jumps to labels before and behind them, each condition, a call, an instruction that refers to a label, and what is refused. */
static int are_linked(void)
{
    hq_inst ret = made(HQ_LINE_RETQ_ZO, HQ_NO_REG, hq_nothing(), HQ_NO_IMM), lea = made(HQ_LINE_LEAQ_RM, 0, hq_label(1), HQ_NO_IMM),
            far = made(HQ_LINE_LEAQ_RM, 0, hq_label(3), HQ_NO_IMM);
    hq_item list[] = {hq_item_at(HQ_ITEM_LABEL, 0), hq_item_of(&lea), hq_item_at(HQ_ITEM_JMP, 0), hq_item_at(HQ_ITEM_JMP, 1), hq_item_at(HQ_ITEM_CALL, 0),
                      hq_item_at(HQ_ITEM_LABEL, 1), hq_item_of(&ret)};
    /* leaq 9(%rip), %rax; jmp -9; jmp 5; callq -16; retq */
    static const uint8_t bytes[] = {0x48, 0x8d, 0x05, 0x09, 0, 0, 0, 0xeb, 0xf7, 0xeb, 0x05, 0xe8, 0xf0, 0xff, 0xff, 0xff, 0xc3};
    hq_done done;
    uint8_t *code = before(sizeof bytes);
    if (hq_assemble(list, 7, code, sizeof bytes, NULL, 0, &done) != HQ_OK || done.bytes != sizeof bytes || done.items != 7 || memcmp(code, bytes, sizeof bytes))
        return refused("jumps are others");
    for (uint32_t condition = 0; condition < 16; condition++) {
        hq_item both[] = {hq_item_at(HQ_ITEM_JO + condition, 1), hq_item_at(HQ_ITEM_LABEL, 1), hq_item_at(HQ_ITEM_JO + condition, 1)};
        uint8_t wanted[] = {(uint8_t)(0x70 + condition), 0, (uint8_t)(0x70 + condition), 0xfe};
        code = before(sizeof wanted);
        if (hq_assemble(both, 3, code, sizeof wanted, NULL, 0, &done) != HQ_OK || memcmp(code, wanted, sizeof wanted))
            return refused("a condition is another");
    }
    hq_item bad[] = {hq_item_at(HQ_ITEM_ALIGN + 1, 0)}, none[] = {hq_item_at(HQ_ITEM_JMP, 0), hq_item_of(&ret)},
            twice[] = {hq_item_at(HQ_ITEM_LABEL, 0), hq_item_of(&ret), hq_item_at(HQ_ITEM_LABEL, 0)}, large[] = {hq_item_of(&ret), hq_item_at(HQ_ITEM_LABEL, 2)},
            unbound[] = {hq_item_of(&ret), hq_item_of(&far)},
            both[] = {hq_item_at(HQ_ITEM_JMP, 0), hq_item_at(HQ_ITEM_LABEL, 9), hq_item_at(HQ_ITEM_ALIGN + 1, 0)};
    return is_refused(bad, 1, HQ_BAD_ITEM, 0) && is_refused(none, 2, HQ_UNBOUND, 0) && is_refused(twice, 3, HQ_BOUND_TWICE, 2)
        && is_refused(large, 2, HQ_BAD_LABEL, 1) && is_refused(unbound, 2, HQ_UNBOUND, 1)
        && is_refused(both, 3, HQ_BAD_ITEM, 2) && is_refused(both, 2, HQ_BAD_LABEL, 1);
}

/* A jump over 127 bytes has two; over one more it has five, and then so has the one that jumps over it. */
static int are_least(void)
{
    enum { MIDDLE = 124 };
    hq_inst ret = made(HQ_LINE_RETQ_ZO, HQ_NO_REG, hq_nothing(), HQ_NO_IMM);
    hq_item list[MIDDLE + 16];
    hq_done done;
    for (size_t more = 0; more < 3; more++) {
        /* jmp 1; jmp 2; retq ..; 1: retq ..; 2: */
        size_t n = 0, rest = 3 + more;
        list[n++] = hq_item_at(HQ_ITEM_JMP, 1);
        list[n++] = hq_item_at(HQ_ITEM_JMP, 2);
        for (size_t i = 0; i < MIDDLE; i++)
            list[n++] = hq_item_of(&ret);
        list[n++] = hq_item_at(HQ_ITEM_LABEL, 1);
        for (size_t i = 0; i < rest; i++)
            list[n++] = hq_item_of(&ret);
        list[n++] = hq_item_at(HQ_ITEM_LABEL, 2);
        size_t second = MIDDLE + rest <= 127 ? 2 : 5, first = MIDDLE + second <= 127 ? 2 : 5;
        uint8_t *code = before(ROOM);
        if (hq_assemble(list, n, code, ROOM, NULL, 0, &done) != HQ_OK || done.bytes != first + second + MIDDLE + rest || done.items != n)
            return refused("a layout isn't the least");
        if (code[0] != (first == 2 ? 0xeb : 0xe9) || code[1] != MIDDLE + second || code[first] != (second == 2 ? 0xeb : 0xe9) || code[first + 1] != MIDDLE + rest)
            return refused("a jump of a layout is another");
    }
    return 1;
}

/* A list becomes these bytes and tells these traps, where there is so much room; where there is too little of one, neither is written. */
static int is_put_in(size_t room, size_t places, const hq_item *list, size_t n, const uint8_t *wanted, size_t len, const hq_use *traps, size_t told)
{
    hq_done done;
    uint8_t *code = before(room);
    hq_use *uses = uses_before(places);
    int32_t status = hq_assemble(list, n, code, room, uses, places, &done);
    if (done.items != n || done.bytes != len || done.uses != told)
        return 0;
    if (room < len || places < told)
        return status == HQ_FULL && is_filled(code, room) && are_filled(uses, places);
    if (status != HQ_OK || memcmp(code, wanted, len) || !is_filled(code + len, room - len))
        return 0;
    return !places || ((!told || memcmp(uses, traps, told * sizeof *uses) == 0) && are_filled(uses + told, places - told));
}

/* And so with one byte or one place too few, with as many, and with more. */
static int is_put_and_told(const hq_item *list, size_t n, const uint8_t *wanted, size_t len, const hq_use *traps, size_t told)
{
    for (size_t room = len - 1; room < len + 3; room++)
        for (size_t places = told ? told - 1 : 0; places < told + 3; places++)
            if (!is_put_in(room, places, list, n, wanted, len, traps, told))
                return 0;
    return 1;
}

/* A list without traps. */
static int is_put(const hq_item *list, size_t n, const uint8_t *wanted, size_t len) { return is_put_and_told(list, n, wanted, len, NULL, 0); }

static hq_item trapping(uint16_t line, uint16_t reg, hq_place place, int64_t imm, uint8_t trap)
{
    place.trap = trap;
    hq_inst inst = made(line, reg, place, imm);
    return hq_item_of(&inst);
}

/* Traps between jumps of both forms, and data behind. What refers to a label or a constant isn't told. */
static int are_trapped(void)
{
    hq_inst lea = made(HQ_LINE_LEAQ_RM, 0, hq_constant(0), HQ_NO_IMM), ret = made(HQ_LINE_RETQ_ZO, HQ_NO_REG, hq_nothing(), HQ_NO_IMM);
    hq_item list[] = {hq_item_at(HQ_ITEM_LABEL, 0), trapping(HQ_LINE_MOVQ_RM, 0, hq_mem(3, 5), HQ_NO_IMM, 7), hq_item_at(HQ_ITEM_JMP, 1),
                      trapping(HQ_LINE_ADDQ_RM, 0, hq_index(7, 1, 3, 0), HQ_NO_IMM, 255), hq_item_at(HQ_ITEM_LABEL, 1), hq_item_at(HQ_ITEM_JG, 2),
                      hq_item_at(HQ_ITEM_CALL, 0), trapping(HQ_LINE_CMPL_MI_SXB, HQ_NO_REG, hq_mem(4, -1), 5, 1), hq_item_of(&lea), hq_item_of(&ret),
                      hq_item_at(HQ_ITEM_ALIGN, 3), hq_item_at(HQ_ITEM_CONSTANT, 0), hq_item_bytes("abcd", 4), hq_item_at(HQ_ITEM_LABEL, 2), hq_item_bytes("U", 1)};
    /* movq 5(%rbx), %rax; jmp 4; addq (%rdi,%rcx,8), %rax; jg 28; callq -21; cmpl $5, -1(%rsp); leaq 7(%rip), %rax; retq; zeros; abcd; U */
    static const uint8_t wanted[] = {0x48, 0x8b, 0x43, 5, 0xeb, 4, 0x48, 0x03, 0x04, 0xcf, 0x0f, 0x8f, 0x1c, 0, 0, 0, 0xe8, 0xeb, 0xff, 0xff, 0xff,
                                     0x83, 0x7c, 0x24, 0xff, 5, 0x48, 0x8d, 0x05, 7, 0, 0, 0, 0xc3, 0, 0, 0, 0, 0, 0, 'a', 'b', 'c', 'd', 'U'};
    static const hq_use traps[] = {{0, HQ_TOLD_TRAP, 7}, {6, HQ_TOLD_TRAP, 255}, {21, HQ_TOLD_TRAP, 1}};
    return is_put_and_told(list, 15, wanted, sizeof wanted, traps, 3) || refused("traps are told otherwise");
}

/* A jump over loads, each with a trap: over 124 bytes it has two, over 128 it has five, and the traps stand as far behind it. */
static int are_trapped_behind(void)
{
    enum { LOADS = 32 };
    hq_item list[LOADS + 2];
    hq_use traps[LOADS];
    uint8_t wanted[4 * LOADS + 5];
    for (size_t loads = LOADS - 1; loads <= LOADS; loads++) {
        static const uint8_t load[] = {0x48, 0x8b, 0x43, 5}, far[] = {0xe9, 4 * LOADS, 0, 0, 0}, near[] = {0xeb, 4 * (LOADS - 1)};
        size_t at = loads < LOADS ? sizeof near : sizeof far;
        memcpy(wanted, loads < LOADS ? near : far, at);
        list[0] = hq_item_at(HQ_ITEM_JMP, 0);
        for (size_t i = 0; i < loads; i++, at += sizeof load) {
            list[i + 1] = trapping(HQ_LINE_MOVQ_RM, 0, hq_mem(3, 5), HQ_NO_IMM, (uint8_t)(255 - i));
            memcpy(wanted + at, load, sizeof load);
            traps[i].at = (uint32_t)at;
            traps[i].kind = HQ_TOLD_TRAP;
            traps[i].number = (uint32_t)(255 - i);
        }
        list[loads + 1] = hq_item_at(HQ_ITEM_LABEL, 0);
        if (!is_put_and_told(list, loads + 2, wanted, at, traps, loads))
            return refused("traps behind a jump are told otherwise");
    }
    return 1;
}

/* A list that is refused tells no trap, wherever the item stands that it's refused for. */
static int are_not_told(void)
{
    hq_item load = trapping(HQ_LINE_MOVQ_RM, 0, hq_mem(3, 5), HQ_NO_IMM, 7), label = hq_item_at(HQ_ITEM_LABEL, 0), constant = hq_item_at(HQ_ITEM_CONSTANT, 0);
    hq_item none[] = {load, hq_item_at(HQ_ITEM_ALIGN + 1, 0), load}, twice[] = {load, label, label, load}, large[] = {load, hq_item_at(HQ_ITEM_LABEL, 2)},
            open[] = {load, hq_item_at(HQ_ITEM_JE, 0), load}, unbound[] = {load, load, hq_item_at(HQ_ITEM_JMP, 0), constant, constant},
            behind[] = {load, constant, load}, bad[] = {load, load, load}, fault[] = {load, load, load};
    bad[1].inst.reserved = 1;
    fault[2].inst.base = 16;
    return (is_refused(none, 3, HQ_BAD_ITEM, 1) && is_refused(twice, 4, HQ_BOUND_TWICE, 2) && is_refused(large, 2, HQ_BAD_LABEL, 1)
            && is_refused(open, 3, HQ_UNBOUND, 1) && is_refused(unbound, 5, HQ_BOUND_TWICE, 4) && is_refused(unbound, 4, HQ_UNBOUND, 2)
            && is_refused(behind, 3, HQ_BAD_ITEM, 2) && is_refused(bad, 3, HQ_BAD_INST, 1)
            && is_refused(fault, 3, hq_check(&fault[2].inst), 2) && hq_check(&fault[2].inst) != HQ_OK) || refused("a refused list tells traps");
}

/* A function that loads a constant of 16 bytes, which stands behind it at a multiple of 16. */
static int is_loaded(void)
{
    static const uint8_t vector[] = {1, 2, 3, 4, 5, 6, 7, 0x80, 0x90, 0xa0, 0xb0, 0xc0, 0xd0, 0xe0, 0xf0, 0xff};
    hq_inst load = made(HQ_LINE_MOVAPS_A, 1, hq_constant(7), HQ_NO_IMM), ret = made(HQ_LINE_RETQ_ZO, HQ_NO_REG, hq_nothing(), HQ_NO_IMM);
    hq_item list[] = {hq_item_of(&load), hq_item_of(&ret), hq_item_at(HQ_ITEM_ALIGN, 4), hq_item_at(HQ_ITEM_CONSTANT, 7), hq_item_bytes(vector, 16)};
    /* movaps 9(%rip), %xmm1; retq; zeros; the constant */
    static const uint8_t wanted[] = {0x0f, 0x28, 0x0d, 9, 0, 0, 0, 0xc3, 0, 0, 0, 0, 0, 0, 0, 0,
                                     1, 2, 3, 4, 5, 6, 7, 0x80, 0x90, 0xa0, 0xb0, 0xc0, 0xd0, 0xe0, 0xf0, 0xff};
    return is_put(list, 5, wanted, sizeof wanted) || refused("a constant isn't loaded");
}

/* Instructions that refer to data, each by the distance from its end. A constant and a label of one number are two. */
static int are_referred_to(void)
{
    hq_inst load = made(HQ_LINE_MOVUPS_A, 1, hq_constant(UINT32_MAX), HQ_NO_IMM), lea = made(HQ_LINE_LEAQ_RM, 0, hq_label(2), HQ_NO_IMM),
            compare = made(HQ_LINE_CMPL_MI_SXB, HQ_NO_REG, hq_constant(2), 5), end = made(HQ_LINE_LEAQ_RM, 0, hq_constant(0), HQ_NO_IMM);
    hq_item list[] = {hq_item_of(&load), hq_item_of(&lea), hq_item_of(&compare), hq_item_at(HQ_ITEM_ALIGN, 3),
                      hq_item_at(HQ_ITEM_CONSTANT, UINT32_MAX), hq_item_at(HQ_ITEM_CONSTANT, 2), hq_item_bytes("abc", 3),
                      hq_item_at(HQ_ITEM_LABEL, 2), hq_item_bytes("d", 1)},
            last[] = {hq_item_of(&end), hq_item_of(&end), hq_item_at(HQ_ITEM_CONSTANT, 0)};
    /* movups 17(%rip), %xmm1; leaq 13(%rip), %rax; cmpl $5, 3(%rip); zeros; abc; d */
    static const uint8_t wanted[] = {0x0f, 0x10, 0x0d, 0x11, 0, 0, 0, 0x48, 0x8d, 0x05, 0x0d, 0, 0, 0, 0x83, 0x3d, 3, 0, 0, 0, 5,
                                     0, 0, 0, 'a', 'b', 'c', 'd'};
    /* leaq 7(%rip), %rax; leaq 0(%rip), %rax */
    static const uint8_t ends[] = {0x48, 0x8d, 0x05, 7, 0, 0, 0, 0x48, 0x8d, 0x05, 0, 0, 0, 0};
    return (is_put(list, 9, wanted, sizeof wanted) && is_put(last, 3, ends, sizeof ends)) || refused("data isn't referred to");
}

/* Bytes, none, one, and as many as an item holds, as they stand in memory. */
static int are_held(void)
{
    static const uint8_t wanted[] = {0xc3, 'U', 1, 2, 3, 4, 5, 6, 7, 8, 9, 10, 11, 12, 0xfe, 0xff, 0xff, 0xff, 0x81, 0x82, 0x83, 0x84, 0xfc, 0xfd, 0xfe, 0xff};
    hq_inst ret = made(HQ_LINE_RETQ_ZO, HQ_NO_REG, hq_nothing(), HQ_NO_IMM);
    hq_inst fields = {0x0201, 3, 4, 5, 6, 7, 8, 9, 10, 11, 12, -2, 0x84838281, 0xfffefdfc};
    hq_item list[] = {hq_item_of(&ret), hq_item_bytes(NULL, 0), hq_item_bytes("U", 1), hq_item_bytes(wanted + 2, 24)};
    if (!is_put(list, 4, wanted, sizeof wanted))
        return refused("bytes are others");
    list[1].inst = list[3].inst = fields; /* of which none is put, and all */
    memset((uint8_t *)&list[2].inst + 1, 0xff, sizeof fields - 1);
    return is_put(list, 4, wanted, sizeof wanted) || refused("bytes of a struct are others");
}

/* Padding up to each power of 2, behind as many bytes as an item holds, and fewer. */
static int are_padded(void)
{
    static const uint8_t held[24] = {1, 2, 3, 4, 5, 6, 7, 8, 9, 10, 11, 12, 13, 14, 15, 16, 17, 18, 19, 20, 21, 22, 23, 24};
    for (uint32_t power = 0; power <= 6; power++)
        for (uint32_t count = 0; count <= 24; count++) {
            hq_item list[] = {hq_item_bytes(held, count), hq_item_at(HQ_ITEM_ALIGN, power), hq_item_bytes("U", 1), hq_item_at(HQ_ITEM_ALIGN, 0)};
            uint8_t wanted[65] = {0};
            size_t at = count;
            memcpy(wanted, held, count);
            while (at % ((size_t)1 << power))
                at++;
            wanted[at] = 'U';
            memset(&list[1].inst, 0xff, sizeof list[1].inst);
            if (!is_put(list, 4, wanted, at + 1))
                return refused("padding is another");
        }
    return 1;
}

/* A jump to a label behind data has its long form where a short one would reach too; one to the end of the code is short. */
static int are_far(void)
{
    hq_inst ret = made(HQ_LINE_RETQ_ZO, HQ_NO_REG, hq_nothing(), HQ_NO_IMM);
    hq_item end[] = {hq_item_at(HQ_ITEM_JMP, 0), hq_item_at(HQ_ITEM_LABEL, 0), hq_item_at(HQ_ITEM_CONSTANT, 0)},
            behind[] = {hq_item_at(HQ_ITEM_JMP, 0), hq_item_at(HQ_ITEM_CONSTANT, 0), hq_item_at(HQ_ITEM_LABEL, 0)},
            over[] = {hq_item_at(HQ_ITEM_JMP, 1), hq_item_at(HQ_ITEM_JG, 0), hq_item_at(HQ_ITEM_CALL, 0), hq_item_at(HQ_ITEM_LABEL, 1),
                      hq_item_of(&ret), hq_item_at(HQ_ITEM_ALIGN, 4), hq_item_at(HQ_ITEM_LABEL, 0), hq_item_bytes("U", 1)};
    static const uint8_t near_jump[] = {0xeb, 0}, far_jump[] = {0xe9, 0, 0, 0, 0};
    /* jmp 11; jg 8; callq 3; retq; two zeros; U */
    static const uint8_t all[] = {0xeb, 0x0b, 0x0f, 0x8f, 8, 0, 0, 0, 0xe8, 3, 0, 0, 0, 0xc3, 0, 0, 'U'};
    return (is_put(end, 3, near_jump, sizeof near_jump) && is_put(behind, 3, far_jump, sizeof far_jump) && is_put(over, 8, all, sizeof all))
        || refused("a jump to data is another");
}

/* More bytes than an item holds, padding to more than 64, and code behind data are no items. */
static int are_no_items(void)
{
    static const uint32_t counts[] = {25, 64, 256, UINT32_MAX}, powers[] = {7, 32, 64, 70, UINT32_MAX};
    static const uint8_t bytes[25];
    hq_inst ret = made(HQ_LINE_RETQ_ZO, HQ_NO_REG, hq_nothing(), HQ_NO_IMM), bad = ret;
    bad.reserved = 1;
    for (size_t i = 0; i < 4; i++) {
        hq_item many[] = {hq_item_of(&ret), hq_item_bytes(bytes, counts[i])};
        if (!is_refused(many, 2, HQ_BAD_ITEM, 1))
            return refused("too many bytes are put");
    }
    for (size_t i = 0; i < 5; i++) {
        hq_item wide[] = {hq_item_of(&ret), hq_item_at(HQ_ITEM_ALIGN, powers[i])};
        if (!is_refused(wide, 2, HQ_BAD_ITEM, 1))
            return refused("too much padding is put");
    }
    hq_item code[] = {hq_item_of(&ret), hq_item_bytes(bytes, 0), hq_item_at(HQ_ITEM_LABEL, 0), hq_item_of(&ret)},
            jump[] = {hq_item_at(HQ_ITEM_CONSTANT, 0), hq_item_at(HQ_ITEM_LABEL, 0), hq_item_at(HQ_ITEM_JMP, 0)},
            behind[] = {hq_item_at(HQ_ITEM_ALIGN, 0), hq_item_of(&bad)}, in_front[] = {hq_item_of(&bad), hq_item_at(HQ_ITEM_ALIGN, 7)};
    return (is_refused(code, 4, HQ_BAD_ITEM, 3) && is_refused(jump, 3, HQ_BAD_ITEM, 2) && is_refused(behind, 2, HQ_BAD_ITEM, 1)
            && is_refused(in_front, 2, HQ_BAD_INST, 0)) || refused("code stands behind data");
}

/* Constants and labels that can't be bound behind code, or have no place; and which of two refusals comes first. */
static int are_not_bound(void)
{
    static const uint8_t bytes[25];
    hq_inst lea = made(HQ_LINE_LEAQ_RM, 0, hq_constant(1), HQ_NO_IMM);
    hq_item load = hq_item_of(&lea), constant = hq_item_at(HQ_ITEM_CONSTANT, 0), label = hq_item_at(HQ_ITEM_LABEL, 0), other = hq_item_at(HQ_ITEM_LABEL, 1);
    hq_item twice[] = {load, constant, constant}, again[] = {label, constant, label}, both[] = {constant, label, hq_item_bytes(bytes, 24), constant},
            large[] = {load, constant, hq_item_at(HQ_ITEM_LABEL, 3)}, open[] = {label, load, constant, other}, none[] = {label, load},
            first[] = {hq_item_at(HQ_ITEM_LABEL, 9), constant, constant, hq_item_bytes(bytes, 25)};
    return (is_refused(twice, 3, HQ_BOUND_TWICE, 2) && is_refused(again, 3, HQ_BOUND_TWICE, 2) && is_refused(both, 4, HQ_BOUND_TWICE, 3)
            && is_refused(large, 3, HQ_BAD_LABEL, 2) && is_refused(open, 4, HQ_UNBOUND, 1) && is_refused(none, 2, HQ_UNBOUND, 1)
            && is_refused(first, 4, HQ_BAD_ITEM, 3) && is_refused(first, 3, HQ_BAD_LABEL, 0) && is_refused(first + 1, 2, HQ_BOUND_TWICE, 1))
        || refused("data isn't refused");
}

/* More items than there may be. None is looked at, so none of the memory that they would take is. */
static int are_too_many(void)
{
    enum { TOO_MANY = 165191050 };
    hq_done listed = {77, 77, 77}, laid = {77, 77, 77};
    uint8_t code = FILLING;
    void *all = mmap(NULL, TOO_MANY * sizeof(hq_item), PROT_READ, MAP_PRIVATE | MAP_ANONYMOUS | MAP_NORESERVE, -1, 0);
    int is_wanted = all != MAP_FAILED && hq_encode_all(all, TOO_MANY, &code, 1, NULL, 0, &listed) == HQ_TOO_MANY
                    && hq_assemble(all, TOO_MANY, &code, 1, NULL, 0, &laid) == HQ_TOO_MANY && code == FILLING;
    int are_nothing = !listed.items && !listed.bytes && !listed.uses && !laid.items && !laid.bytes && !laid.uses;
    return (is_wanted && are_nothing && munmap(all, TOO_MANY * sizeof(hq_item)) == 0) || refused("too many items aren't refused");
}

/* A virtual register has no name, and there is no line 584. */
static int are_named(void)
{
    hq_inst virtual_register = made(HQ_LINE_MOVQ_RM, 16, hq_reg(0), HQ_NO_IMM);
    size_t len = 77;
    uint8_t *text = before(64);
    if (hq_format(&virtual_register, text, 64, &len) != HQ_NO_NAME || hq_extension(HQ_LINE_COUNT, text, 64, &len) != HQ_BAD_LINE)
        return refused("a text without a name is handed out");
    virtual_register.reserved = 1;
    if (hq_format(&virtual_register, text, 64, &len) != HQ_BAD_INST || hq_mnemonic(&virtual_register, text, 64, &len) != HQ_BAD_INST || len != 77 || !is_filled(text, 64))
        return refused("a bad instruction has a text");
    return hq_extension(HQ_LINE_POPCNTQ_RM, text, 6, &len) == HQ_OK && len == 6 && memcmp(text, "popcnt", 6) == 0 && hq_extension(HQ_LINE_ADDQ_RM, NULL, 0, &len) == HQ_OK && len == 0;
}

int main(int argc, char **argv)
{
    FILE *file = argc == 2 ? fopen(argv[1], "r") : NULL;
    guard = guarded(ROOM);
    uses_guard = (hq_use *)(void *)guarded(ROOM);
    if (!file || !guard || !uses_guard)
        return 2;
    if (!read_cases(file) || !are_encoded() || !are_assembled() || !are_all_told() || !are_told() || !are_linked() || !are_least() || !is_loaded()
        || !are_referred_to() || !are_held() || !are_padded() || !are_far() || !are_no_items() || !are_not_bound() || !are_trapped() || !are_trapped_behind()
        || !are_not_told() || !are_too_many() || !are_named())
        return refused("lists through C: not as wanted") + 1;
    printf("lists through C: %zu instructions of %zu bytes, as wanted\n", count, size);
    return 0;
}
