/* How long the calls take. The argument is a list of instructions, a line each: name and operands as in the first two columns of
 * crates/vectors/data/instructions.tsv, which is such a list itself. 20,000 of those that the core has are taken in turn, in an
 * order that is mixed with one seed, and grouped by their lines. Prints the nanoseconds of one instruction, the best of 15 rounds,
 * of each call; with a second argument one round of the call of this name alone, for callgrind. */
#define _GNU_SOURCE
#include "operands.h"
#include <stdio.h>
#include <time.h>

enum { COUNT = 20000, ROUNDS = 15, TURNS = 10 };

static hq_inst insts[COUNT], scratch[COUNT];
static uint8_t code[16 * COUNT];
static uint8_t homes[256];
static uint32_t lens[COUNT];
static hq_use uses[COUNT];
static hq_reading readings[COUNT];
static hq_done done;
static size_t code_len;

static void encode(void)
{
    size_t at = 0;
    for (size_t i = 0; i < COUNT; i++) {
        if (hq_encode(&insts[i], code + at, sizeof code - at, &lens[i], &uses[i]) != HQ_OK)
            abort();
        at += lens[i];
    }
    code_len = at;
}

static void encode_all(void)
{
    if (hq_encode_all(insts, COUNT, code, sizeof code, uses, COUNT, &done) != HQ_OK || done.bytes != code_len)
        abort();
}

static void decode(void)
{
    size_t at = 0;
    for (size_t i = 0; i < COUNT; i++, at += readings[i - 1].length)
        if (hq_decode(code + at, code_len - at, &readings[i]) != HQ_OK)
            abort();
}

static void decode_all(void)
{
    size_t count, end;
    if (hq_decode_all(code, code_len, readings, COUNT, &count, &end) != HQ_OK || end != code_len)
        abort();
}

static void check(void)
{
    for (size_t i = 0; i < COUNT; i++)
        if (hq_check(&insts[i]) != HQ_OK)
            abort();
}

static void change(void)
{
    for (size_t i = 0; i < COUNT; i++)
        if (hq_rename(&scratch[i], homes) != HQ_OK)
            abort();
}

static const struct {
    const char *name;
    void (*run)(void);
} jobs[] = {{"hq_encode", encode}, {"hq_encode_all", encode_all}, {"hq_decode", decode}, {"hq_decode_all", decode_all}, {"hq_check", check}, {"hq_rename", change}};

enum { JOBS = sizeof jobs / sizeof *jobs };

static double now(void)
{
    struct timespec t;
    clock_gettime(CLOCK_MONOTONIC, &t);
    return (double)t.tv_sec * 1e9 + (double)t.tv_nsec;
}

static double best(void (*run)(void))
{
    double least = 1e300;
    for (int round = 0; round < ROUNDS; round++) {
        double from = now();
        for (int turn = 0; turn < TURNS; turn++)
            run();
        double took = (now() - from) / ((double)COUNT * TURNS);
        if (took < least)
            least = took;
    }
    return least;
}

/* The instructions of each line one behind the other, in the order in which they stood. */
static void group(void)
{
    size_t count = 0;
    memcpy(scratch, insts, sizeof insts);
    for (unsigned line = 0; line < HQ_LINE_COUNT; line++)
        for (size_t i = 0; i < COUNT; i++)
            if (scratch[i].line == line)
                insts[count++] = scratch[i];
}

/* The order of a list, mixed. */
static void mix(void)
{
    uint64_t state = 1;
    for (size_t i = COUNT - 1; i > 0; i--) {
        state = state * UINT64_C(6364136223846793005) + UINT64_C(1442695040888963407);
        size_t j = (size_t)(state >> 33) % (i + 1);
        hq_inst kept = insts[i];
        insts[i] = insts[j];
        insts[j] = kept;
    }
}

static size_t take(const char *path)
{
    FILE *file = fopen(path, "r");
    char text[4096];
    size_t count = 0;
    if (!file)
        return 0;
    while (fgets(text, sizeof text, file) && count < COUNT) {
        operands o;
        char *rest = text, *name, *fields;
        text[strcspn(text, "\n")] = 0;
        name = strsep(&rest, "\t");
        fields = strsep(&rest, "\t");
        int line = line_of(name);
        if (line < 0 || !fields)
            continue;
        operands_of(fields, &o);
        if (make(line, &o, &insts[count]) == HQ_OK && hq_check(&insts[count]) == HQ_OK)
            count++;
    }
    fclose(file);
    for (size_t i = count; count && i < COUNT; i++)
        insts[i] = insts[i - count];
    return count;
}

int main(int argc, char **argv)
{
    double took[2][JOBS];
    size_t count = argc > 1 ? take(argv[1]) : 0;
    if (!count || hq_version() != HQ_VERSION)
        return 2;
    for (int i = 0; i < 256; i++)
        homes[i] = (uint8_t)i;
    for (int order = 0; order < 2; order++) {
        if (order)
            group();
        else
            mix();
        memcpy(scratch, insts, sizeof insts);
        encode();
        for (int job = 0; job < JOBS; job++) {
            if (argc > 2 && strcmp(argv[2], jobs[job].name) == 0)
                return jobs[job].run(), 0;
            if (argc == 2)
                took[order][job] = best(jobs[job].run);
        }
    }
    if (argc > 2)
        return 2;
    printf("%zu instructions, ns of each\n%-14s %8s %8s\n", count, "", "random", "grouped");
    for (int job = 0; job < JOBS; job++)
        printf("%-14s %8.1f %8.1f\n", jobs[job].name, took[0][job], took[1][job]);
    return 0;
}
