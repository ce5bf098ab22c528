/* Hands the library structs of random integers, most of them near an instruction, and random bytes, and prints a number of all
 * answers: two archives that answer alike print the same. Tests besides that a refusal leaves all as it was, and that what is encoded
 * is read again as the same instruction. The status is 0 where that is so. */
#include "random.h"
#include <inttypes.h>
#include <stdio.h>
#include <string.h>

enum { ROUNDS = 400000 };

static uint64_t sum = 14695981039346656037u; /* of all answers */

static void add(const void *what, size_t n)
{
    for (size_t i = 0; i < n; i++)
        sum = (sum ^ ((const uint8_t *)what)[i]) * 1099511628211u;
}

static uint32_t often(uint32_t likely) { return next() % 4 ? likely : next(); }

static void fill(hq_inst *inst)
{
    memset(inst, 0, sizeof *inst);
    inst->line = (uint16_t)(next() % 600);
    inst->place = (uint8_t)(next() % 8);
    inst->reg = (uint8_t)(next() % 3 ? next() % 20 : 0);
    inst->vvvv = (uint8_t)(next() % 8 ? 0 : next() % 20);
    inst->base = (uint8_t)(inst->place ? next() % 18 : 0);
    inst->index = (uint8_t)(inst->place == HQ_PLACE_INDEX ? next() % 17 : 0);
    inst->scale = (uint8_t)(inst->place == HQ_PLACE_INDEX ? next() % 5 : 0);
    inst->trap = (uint8_t)(next() % 3 ? 0 : next() % 3);
    inst->has_offset = next() % 16 == 0;
    inst->disp = inst->place == HQ_PLACE_BASE || inst->place == HQ_PLACE_INDEX ? (int32_t)often(next() % 300) - 150 : 0;
    inst->target = inst->place == HQ_PLACE_LABEL || inst->place == HQ_PLACE_CONSTANT ? next() % 9 : 0;
    inst->imm = next() % 2 ? 0 : often(next() % 300 - 150);
    if (inst->place >= HQ_PLACE_LABEL)
        inst->base = 0;
    if (next() % 16 == 0)
        ((uint8_t *)inst)[next() % sizeof *inst] = (uint8_t)next();
}

/* Whether one struct gets the answers that it has to get. */
static int is_wanted(const hq_inst *inst, unsigned *encoded)
{
    static const uint8_t blank[16] = {1, 2, 3, 4, 5, 6, 7, 8, 9, 10, 11, 12, 13, 14, 15, 16};
    uint8_t code[16], wide[16];
    hq_use told = {7, 7, 7}, other = {7, 7, 7};
    uint32_t len = 77, length = 77, same = 77;
    hq_reading r;
    hq_inst back, bare = *inst;
    memcpy(code, blank, sizeof code);
    int32_t check = hq_check(inst), status = hq_encode(inst, code, 13, &len, &told);
    add(&check, sizeof check);
    add(code, sizeof code);
    add(&told, sizeof told);
    /* With sixteen bytes of room they are put another way. */
    memcpy(wide, blank, sizeof wide);
    if (hq_encode(inst, wide, sizeof wide, &same, &other) != status || same != len || memcmp(wide, code, sizeof code) || memcmp(&other, &told, sizeof told))
        return 0;
    if (status != check || hq_length(inst, &length) != check || length != len)
        return 0;
    if (status != HQ_OK)
        return len == 77 && told.at == 7 && !memcmp(code, blank, sizeof code);
    ++*encoded;
    if (memcmp(code + len, blank + len, sizeof code - len) || hq_decode(code, sizeof code, &r) != HQ_OK || r.length != len || r.line != inst->line)
        return 0;
    if (inst->place >= HQ_PLACE_LABEL)
        return told.kind >= HQ_TOLD_LABEL && told.at + 4 <= len && hq_inst_of_reading(&r, &back) == HQ_NO_INST;
    bare.trap = 0;
    return hq_inst_of_reading(&r, &back) == HQ_OK && !memcmp(&back, &bare, sizeof bare) && told.kind == (inst->trap ? HQ_TOLD_TRAP : HQ_TOLD_NOTHING)
        && told.number == inst->trap;
}

/* Whether random bytes get the answers that they have to get: what is read is put again in no more bytes. */
static int is_read(unsigned *read)
{
    static const uint8_t prefixes[] = {0xf0, 0x66, 0x48, 0x0f, 0xf2, 0xf3, 0x41, 0xc5};
    uint8_t bytes[16], code[13];
    hq_reading r, blank;
    hq_inst inst;
    hq_use told;
    uint32_t len;
    size_t n = next() % 17;
    for (size_t i = 0; i < n; i++)
        bytes[i] = next() % 3 ? (uint8_t)next() : prefixes[next() % sizeof prefixes];
    memset(&r, 0xA5, sizeof r);
    blank = r;
    int32_t status = hq_decode(bytes, n, &r);
    add(&r, sizeof r);
    if (status != HQ_OK)
        return status == HQ_NONE && !memcmp(&r, &blank, sizeof r);
    ++*read;
    if (r.length > n || hq_decode(bytes, r.length, &blank) != HQ_OK || memcmp(&r, &blank, sizeof r))
        return 0;
    status = hq_inst_of_reading(&r, &inst);
    add(&status, sizeof status);
    if (status != HQ_OK)
        return status == HQ_NO_INST;
    return hq_encode(&inst, code, sizeof code, &len, &told) == HQ_OK && len <= r.length && hq_decode(code, len, &blank) == HQ_OK
        && blank.line == r.line && blank.disp == r.disp && blank.imm == r.imm && blank.base == r.base && blank.index == r.index && blank.reg == r.reg;
}

int main(void)
{
    unsigned encoded = 0, read = 0;
    for (int round = 0; round < ROUNDS; round++) {
        hq_inst inst;
        fill(&inst);
        if (!is_wanted(&inst, &encoded) || !is_read(&read)) {
            printf("round %d isn't as wanted\n", round);
            return 1;
        }
    }
    printf("random through C: %d structs, %u of them encoded; %d strings, %u of them read; answers %016" PRIx64 "\n", ROUNDS, encoded, ROUNDS, read, sum);
    return !(encoded && read);
}
