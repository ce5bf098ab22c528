/* Hands the library lists of random instructions and items, most of them near ones that can be assembled, and slices of random
 * bytes of any length, and prints a number of all answers: two archives that answer alike print the same. Tests besides that a refusal
 * leaves the slices as they were, that what is encoded is what hq_encode puts for each, and that of items the refusal is the one that is
 * computed here, and so are, by what hq_encode puts and by the lengths that hq_decode tells, all bytes and traps. The status is 0 where
 * that is so. */
#include "expected.h"
#include "random.h"
#include <inttypes.h>
#include <stdio.h>
#include <string.h>

enum { ROUNDS = 20000, MOST = 12, ROOM = 13 * MOST, MOST_DATA = 8, MOST_BYTES = 1024 };

_Static_assert(MOST + 4 + MOST_DATA <= MOST_ITEMS, "random items");

static uint64_t sum = 14695981039346656037u; /* of all answers */

/* How many lists were encoded and assembled; and how many of these have data and traps, and had too few places for the traps alone. */
static unsigned encoded, assembled, with_data, with_traps, without_places;

static void add(const void *what, size_t n)
{
    for (size_t i = 0; i < n; i++)
        sum = (sum ^ ((const uint8_t *)what)[i]) * 1099511628211u;
}

static int are_encoded(void)
{
    hq_inst insts[MOST];
    hq_use uses[MOST];
    hq_done done = {77, 77, 77};
    uint8_t code[ROOM];
    size_t n = next() % MOST, room = next() % 8 ? sizeof code : next() % sizeof code, places = next() % 8 ? n : next() % (n + 1);
    memset(code, FILLING, sizeof code);
    memset(uses, FILLING, sizeof uses);
    for (size_t i = 0; i < n; i++)
        fill_likely(&insts[i]);
    int32_t status = hq_encode_all(insts, n, code, room, uses, places, &done);
    add(&status, sizeof status);
    add(&done, sizeof done);
    add(code, sizeof code);
    add(uses, sizeof uses);
    encoded += status == HQ_OK;
    return is_encoded(insts, n, status, &done, code, room, uses, places) && is_filled(code + room, sizeof code - room)
        && is_filled(uses + places, (MOST - places) * sizeof *uses);
}

/* Items of data, and now and then what can't stand there. Most constants and labels have a number that no other has. */
static size_t add_data(hq_item *items, size_t n, uint32_t labels)
{
    uint32_t constants = 0;
    for (size_t i = 0, more = next() % (MOST_DATA + 1); i < more; i++) {
        uint8_t bytes[24];
        for (size_t k = 0; k < sizeof bytes; k++)
            bytes[k] = (uint8_t)next();
        switch (next() % 8) {
        case 0: case 1: case 2: items[n] = hq_item_at(HQ_ITEM_CONSTANT, next() % 32 ? constants++ : next() % 4); break;
        case 3: case 4: items[n] = next() % 32 ? hq_item_bytes(bytes, next() % 25) : hq_item_at(HQ_ITEM_BYTES, next() % 30); break;
        case 5: items[n] = hq_item_at(HQ_ITEM_ALIGN, next() % 32 ? next() % 7 : next() % 10); break;
        case 6: items[n] = hq_item_at(HQ_ITEM_LABEL, next() % 32 ? labels++ : next() % 32); break;
        default: items[n] = hq_item_at(next() % 16 ? HQ_ITEM_CONSTANT : next() % 30, next() % 8 ? constants++ : next() % 4); break;
        }
        n++;
    }
    return n;
}

static size_t random_items(hq_item *items)
{
    size_t n = 0, labels = next() % 4, all = next() % MOST;
    for (size_t i = 0; i < all; i++) {
        hq_inst inst;
        fill_likely(&inst);
        items[n] = next() % 4 ? hq_item_of(&inst) : hq_item_at(HQ_ITEM_JMP + next() % 18, next() % (uint32_t)(labels + 1));
        if (next() % 100 == 0)
            items[n].kind = next() % 30;
        n++;
    }
    for (size_t i = 0; i < labels; i++)
        items[n++] = hq_item_at(HQ_ITEM_LABEL, (uint32_t)i);
    for (size_t i = 0; i < n; i++) { /* in any order */
        size_t k = next() % n;
        hq_item item = items[i];
        items[i] = items[k];
        items[k] = item;
    }
    return next() % 2 ? n : add_data(items, n, (uint32_t)labels);
}

static int are_assembled(void)
{
    hq_item items[MOST_ITEMS];
    hq_done done = {77, 77, 77}, again = {77, 77, 77};
    hq_use uses[MOST_ITEMS];
    uint8_t code[MOST_BYTES];
    size_t n = random_items(items), room = next() % 8 ? sizeof code : next() % 200, places = next() % 4 ? MOST_ITEMS : next() % 4;
    memset(code, FILLING, sizeof code);
    memset(uses, FILLING, sizeof uses);
    int32_t status = hq_assemble(items, n, code, room, places ? uses : NULL, places, &done);
    add(&status, sizeof status);
    add(&done, sizeof done);
    add(code, sizeof code);
    add(uses, sizeof uses);
    if (!is_assembled(items, n, status, &done, code, room, uses, places) || !is_filled(code + room, sizeof code - room)
        || !is_filled(uses + places, (MOST_ITEMS - places) * sizeof *uses))
        return 0;
    if (status == HQ_FULL) { /* with as much room as is told, it's put */
        without_places += done.bytes <= room;
        if (done.bytes > sizeof code || done.uses > MOST_ITEMS)
            return 0;
        status = hq_assemble(items, n, code, done.bytes, uses, done.uses, &again);
        if (memcmp(&again, &done, sizeof done) || !is_assembled(items, n, status, &again, code, done.bytes, uses, done.uses))
            return 0;
    }
    if (status != HQ_OK)
        return 1;
    assembled++;
    with_traps += done.uses > 0;
    for (size_t i = 0; i < n; i++)
        if (is_data(&items[i])) {
            with_data++;
            break;
        }
    return 1;
}

/* Any bytes at all, as lists. */
static int are_answered(void)
{
    static union {
        uint8_t bytes[64 * 32];
        hq_inst insts[64];
        hq_item items[64];
    } any;
    hq_use uses[4];
    hq_done done;
    uint8_t code[64], text[32];
    size_t len = 77;
    for (size_t i = 0; i < sizeof any.bytes; i++)
        any.bytes[i] = next() % 2 ? 0 : (uint8_t)next();
    memset(code, FILLING, sizeof code);
    memset(uses, FILLING, sizeof uses);
    int32_t first = hq_encode_all(any.insts, next() % 64, code, next() % 64, uses, next() % 4, &done);
    add(&first, sizeof first);
    int32_t second = first == HQ_OK ? HQ_OK : hq_assemble(any.items, next() % 64, code, next() % 64, uses, next() % 4, &done);
    add(&second, sizeof second);
    int32_t third = hq_format(&any.insts[0], text, next() % 32, &len), fourth = hq_mnemonic(&any.insts[1], text, next() % 32, &len);
    add(&third, sizeof third);
    add(&fourth, sizeof fourth);
    return first == HQ_OK || second == HQ_OK || (is_filled(code, sizeof code) && is_filled(uses, sizeof uses));
}

int main(void)
{
    for (int round = 0; round < ROUNDS; round++)
        if (!are_encoded() || !are_assembled() || !are_answered()) {
            printf("round %d isn't as wanted\n", round);
            return 1;
        }
    printf("random lists through C: %d, %u of them encoded and %u assembled, %u with data, %u with traps and %u of these after too few places; "
           "answers %016" PRIx64 "\n", ROUNDS, encoded, assembled, with_data, with_traps, without_places, sum);
    return !(encoded && assembled && with_data && with_traps && without_places);
}
