/* Random numbers, by Marsaglia's generator of 64 bits, and instructions that can be made, most of them. */
#ifndef RANDOM_H
#define RANDOM_H
#include "huqmeris.h"

static uint64_t state = 88172645463325252u;

static uint32_t next(void)
{
    state ^= state << 13;
    state ^= state >> 7;
    state ^= state << 17;
    return (uint32_t)(state >> 32);
}

/* Mostly an instruction that can be made. */
static inline void fill_likely(hq_inst *inst)
{
    hq_place place = hq_nothing();
    memset(inst, 0, sizeof *inst);
    for (int tries = 0; tries < 40; tries++) {
        uint16_t line = (uint16_t)(next() % HQ_LINE_COUNT), reg = next() % 2 ? HQ_NO_REG : (uint16_t)(next() % 16);
        int64_t imm = next() % 2 ? HQ_NO_IMM : (int64_t)(next() % 200) - 100;
        switch (next() % 8) {
        case 0: place = hq_nothing(); break;
        case 1: case 2: place = hq_reg((uint8_t)(next() % 16)); break;
        case 3: place = hq_index((uint8_t)(next() % 16), (uint8_t)(next() % 17), (uint8_t)(next() % 4), (int32_t)next() % 300); break;
        case 4: place = next() % 2 ? hq_label(next() % 4) : hq_constant(next() % 4); break;
        default: place = hq_mem((uint8_t)(next() % 16), (int32_t)next() % 300); break;
        }
        if (place.place >= HQ_PLACE_BASE && place.place <= HQ_PLACE_INDEX && next() % 2)
            place.trap = (uint8_t)(1 + next() % 255);
        if (hq_make(line, reg, next() % 8 ? HQ_NO_REG : (uint16_t)(next() % 16), &place, imm, inst) == HQ_OK)
            break;
    }
    if (next() % 100 == 0)
        ((uint8_t *)inst)[next() % sizeof *inst] = (uint8_t)next();
}

#endif
