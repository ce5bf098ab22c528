/* Assembles a function with a constant behind it, prints its bytes, and calls it. */
#define _DEFAULT_SOURCE
#include "huqmeris.h"
#include <stdio.h>
#include <string.h>
#include <sys/mman.h>

enum { XMM0 = 0 };
enum { HALF = 0 };

/* Calls the code with a number: it's copied to a page, which can be executed then. */
static double call(const uint8_t *code, size_t len, double number)
{
    double (*function)(double);
    void *page = mmap(NULL, 4096, PROT_READ | PROT_WRITE, MAP_PRIVATE | MAP_ANONYMOUS, -1, 0);
    if (page == MAP_FAILED)
        return -1;
    memcpy(page, code, len);
    if (mprotect(page, 4096, PROT_READ | PROT_EXEC))
        return -1;
    memcpy(&function, &page, sizeof function);
    double answer = function(number);
    munmap(page, 4096);
    return answer;
}

int main(void)
{
    const double half = 0.5;
    hq_place at = hq_constant(HALF), nothing = hq_nothing();
    hq_inst multiply, ret;
    hq_done done;
    uint8_t code[64];
    if (hq_make(HQ_LINE_MULSD_A, XMM0, HQ_NO_REG, &at, HQ_NO_IMM, &multiply) != HQ_OK
        || hq_make(HQ_LINE_RETQ_ZO, HQ_NO_REG, HQ_NO_REG, &nothing, HQ_NO_IMM, &ret) != HQ_OK)
        return 1;
    hq_item items[] = {hq_item_of(&multiply), hq_item_of(&ret), hq_item_at(HQ_ITEM_ALIGN, 3), hq_item_at(HQ_ITEM_CONSTANT, HALF), hq_item_bytes(&half, sizeof half)};
    if (hq_assemble(items, sizeof items / sizeof *items, code, sizeof code, NULL, 0, &done) != HQ_OK)
        return 1;
    for (size_t i = 0; i < done.bytes; i++)
        printf("%02x%c", code[i], i + 1 < done.bytes ? ' ' : '\n');
    printf("7 * 0.5 = %g\n", call(code, done.bytes, 7));
    return 0;
}
