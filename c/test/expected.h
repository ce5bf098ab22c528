/* What lists are to get, computed by hq_encode and hq_check of each instruction, and by the lengths that hq_decode tells. */
#ifndef EXPECTED_H
#define EXPECTED_H
#include "filled.h"
#include "huqmeris.h"
#include <string.h>

enum { MOST_ITEMS = 24 };

/* A list of instructions has the answer of hq_encode_all that follows from those of hq_encode, in slices that were filled. */
static int is_encoded(const hq_inst *insts, size_t n, int32_t status, const hq_done *done, const uint8_t *code, size_t room, const hq_use *uses,
    size_t places)
{
    hq_use use;
    uint8_t one[13];
    uint32_t len;
    size_t at = 0, told = 0, i = 0;
    int32_t wanted = HQ_OK;
    for (; i < n && (wanted = hq_encode(&insts[i], one, sizeof one, &len, &use)) == HQ_OK; i++) {
        if (status == HQ_OK && (at + len > room || memcmp(code + at, one, len)))
            return 0;
        if (use.kind != HQ_TOLD_NOTHING) {
            if (status == HQ_OK && (told >= places || uses[told].at != at + use.at || uses[told].kind != use.kind || uses[told].number != use.number))
                return 0;
            told++;
        }
        at += len;
    }
    if (wanted == HQ_OK && (at > room || told > places))
        wanted = HQ_FULL;
    if (status != wanted || done->items != i || done->bytes != at || done->uses != told)
        return 0;
    if (status != HQ_OK)
        at = told = 0;
    return is_filled(code + at, room - at) && is_filled(uses + told, (places - told) * sizeof *uses);
}

static int is_data(const hq_item *item) { return item->kind >= HQ_ITEM_CONSTANT && item->kind <= HQ_ITEM_ALIGN; }

static int is_jump(const hq_item *item) { return item->kind >= HQ_ITEM_JMP && item->kind <= HQ_ITEM_JG; }

/* Why this is no item, behind data or before. */
static int32_t badness(const hq_item *item, int behind)
{
    switch (item->kind) {
    case HQ_ITEM_LABEL: case HQ_ITEM_CONSTANT: return HQ_OK;
    case HQ_ITEM_BYTES: return item->number > 24 ? HQ_BAD_ITEM : HQ_OK;
    case HQ_ITEM_ALIGN: return item->number > 6 ? HQ_BAD_ITEM : HQ_OK;
    case HQ_ITEM_INST: return behind ? HQ_BAD_ITEM : hq_check(&item->inst) == HQ_BAD_INST ? HQ_BAD_INST : HQ_OK;
    default: return behind || !is_jump(item) ? HQ_BAD_ITEM : HQ_OK;
    }
}

/* The first item that is the place of a label or a constant; as many as there are where none is. */
static size_t bound_by(const hq_item *items, size_t n, uint32_t kind, uint32_t number)
{
    for (size_t i = 0; i < n; i++)
        if (items[i].kind == kind && items[i].number == number)
            return i;
    return n;
}

/* Why an item can't stand behind those before it. */
static int32_t fault(const hq_item *items, size_t n, size_t i)
{
    if (items[i].kind == HQ_ITEM_INST)
        return hq_check(&items[i].inst);
    if (items[i].kind == HQ_ITEM_LABEL && items[i].number >= n)
        return HQ_BAD_LABEL;
    if (items[i].kind == HQ_ITEM_LABEL || items[i].kind == HQ_ITEM_CONSTANT)
        return bound_by(items, i, items[i].kind, items[i].number) < i ? HQ_BOUND_TWICE : HQ_OK;
    return HQ_OK;
}

/* An item refers to a label or a constant: which item is its place. */
static int refers(const hq_item *items, size_t n, size_t i, size_t *place)
{
    const hq_item *item = &items[i];
    if (item->kind != HQ_ITEM_INST) {
        *place = bound_by(items, n, HQ_ITEM_LABEL, item->number);
        return is_jump(item);
    }
    *place = bound_by(items, n, item->inst.place == HQ_PLACE_LABEL ? HQ_ITEM_LABEL : HQ_ITEM_CONSTANT, item->inst.target);
    return item->inst.place == HQ_PLACE_LABEL || item->inst.place == HQ_PLACE_CONSTANT;
}

/* Why items are refused, and which of them. */
static int32_t refusal(const hq_item *items, size_t n, size_t *number)
{
    size_t place;
    int32_t status = HQ_OK;
    int behind = 0;
    for (*number = 0; *number < n; behind |= is_data(&items[*number]), ++*number)
        if ((status = badness(&items[*number], behind)) != HQ_OK)
            return status;
    for (*number = 0; *number < n; ++*number)
        if ((status = fault(items, n, *number)) != HQ_OK)
            return status;
    for (*number = 0; *number < n; ++*number)
        if (refers(items, n, *number, &place) && place == n)
            return HQ_UNBOUND;
    return HQ_OK;
}

/* A jump has its opcode, the distance, and the short form exactly where that reaches a label before data. */
static int is_jump_put(const hq_item *item, const uint8_t *code, size_t len, int64_t distance, int is_behind)
{
    uint8_t wanted[6] = {0};
    uint32_t condition = item->kind - HQ_ITEM_JO;
    int is_always = item->kind == HQ_ITEM_JMP, is_call = item->kind == HQ_ITEM_CALL;
    size_t most = is_always || is_call ? 5 : 6, bytes = len == 2 ? 1 : 4;
    int64_t near = distance < 0 ? distance + (int64_t)len - 2 : distance; /* from the end of the short form */
    if (len != (!is_call && !is_behind && near >= -128 && near < 128 ? 2 : most))
        return 0;
    wanted[len == 6] = (uint8_t)(is_call ? 0xe8 : is_always ? len == 2 ? 0xeb : 0xe9 : (len == 2 ? 0x70 : 0x80) + condition);
    if (len == 6)
        wanted[0] = 0x0f;
    for (size_t i = 0; i < bytes; i++)
        wanted[len - bytes + i] = (uint8_t)((uint64_t)distance >> 8 * i);
    return memcmp(code, wanted, len) == 0;
}

/* An instruction has the bytes that hq_encode puts, and where it refers to something, the distance. */
static int is_inst_put(const hq_inst *inst, const uint8_t *code, size_t len, int64_t distance)
{
    uint8_t one[13];
    uint32_t n;
    hq_use use;
    if (hq_encode(inst, one, sizeof one, &n, &use) != HQ_OK || n != len)
        return 0;
    if (use.kind == HQ_TOLD_LABEL || use.kind == HQ_TOLD_CONSTANT)
        for (size_t i = 0; i < 4; i++)
            one[use.at + i] = (uint8_t)((uint64_t)distance >> 8 * i);
    return memcmp(code, one, len) == 0;
}

/* The places of items, and behind them that of the end: code is read, and data is what they hold. */
static int are_placed(const hq_item *items, size_t n, const uint8_t *code, size_t len, size_t *places)
{
    size_t at = 0;
    hq_reading r;
    for (size_t i = 0, behind = 0; i < n; i++) {
        const hq_item *item = &items[i];
        places[i] = at;
        behind |= is_data(item);
        if (item->kind == HQ_ITEM_BYTES) {
            if (item->number > len - at || memcmp(code + at, &item->inst, item->number))
                return 0;
            at += item->number;
        } else if (item->kind == HQ_ITEM_ALIGN) {
            for (; at % ((size_t)1 << item->number); at++)
                if (at == len || code[at])
                    return 0;
        } else if (!behind && item->kind != HQ_ITEM_LABEL) {
            if (hq_decode(code + at, len - at, &r) != HQ_OK)
                return 0;
            at += r.length;
        }
    }
    places[n] = at;
    return at == len;
}

/* The traps are those of the instructions, each where the instruction begins, and there are no more. */
static int are_told(const hq_item *items, size_t n, const size_t *places, const hq_use *uses, size_t count)
{
    size_t told = 0;
    for (size_t i = 0; i < n; i++) {
        if (items[i].kind != HQ_ITEM_INST || !items[i].inst.trap)
            continue;
        if (told == count || uses[told].at != places[i] || uses[told].kind != HQ_TOLD_TRAP || uses[told].number != items[i].inst.trap)
            return 0;
        told++;
    }
    return told == count;
}

/* The bytes and the traps are those of the items. */
static int are_put(const hq_item *items, size_t n, const uint8_t *code, size_t len, const hq_use *uses, size_t count)
{
    size_t places[MOST_ITEMS + 1], first = 0, place;
    if (!are_placed(items, n, code, len, places) || !are_told(items, n, places, uses, count))
        return 0;
    while (first < n && !is_data(&items[first]))
        first++;
    for (size_t i = 0; i < first; i++) {
        const uint8_t *at = code + places[i];
        size_t has = places[i + 1] - places[i];
        int64_t distance = refers(items, n, i, &place) ? (int64_t)places[place] - (int64_t)places[i + 1] : 0;
        if (items[i].kind == HQ_ITEM_INST && !is_inst_put(&items[i].inst, at, has, distance))
            return 0;
        if (is_jump(&items[i]) && !is_jump_put(&items[i], at, has, distance, place > first))
            return 0;
    }
    return 1;
}

/* Items have the answer of hq_assemble that is computed here, in slices that were filled. */
static int is_assembled(const hq_item *items, size_t n, int32_t status, const hq_done *done, const uint8_t *code, size_t room, const hq_use *uses,
    size_t places)
{
    size_t number, bytes = 0, told = 0;
    int32_t wanted = refusal(items, n, &number);
    if (wanted == HQ_OK && (done->bytes > room || done->uses > places))
        wanted = HQ_FULL;
    if (status != wanted || done->items != number)
        return 0;
    if (status != HQ_OK && status != HQ_FULL && (done->bytes || done->uses))
        return 0;
    if (status == HQ_OK) {
        bytes = done->bytes;
        told = done->uses;
        if (!are_put(items, n, code, bytes, uses, told))
            return 0;
    }
    return is_filled(code + bytes, room - bytes) && is_filled(uses + told, (places - told) * sizeof *uses);
}

#endif
