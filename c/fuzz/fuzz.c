/* A libFuzzer target over the archive: the bytes of an input are the structs and the strings that the calls are handed, each slice at
 * the end of a page behind which no page is. Where an answer isn't what docs/C.md promises, the program says which promise it is, and
 * ends. The archive isn't instrumented: what counts as covered is what each call answered, of each line. See docs/FUZZING.md. */
#define _GNU_SOURCE
#include "../test/expected.h"
#include "../test/guard.h"
#include "../test/own_heap.h"
#include "../test/random.h"
#include <stdio.h>

enum call { MAKE, OPERANDS, CHECK, LENGTH, ENCODE, ENCODE_ALL, ASSEMBLE, RENAME, FORMAT, MNEMONIC, EXTENSION, DECODE, DECODE_ALL, OF_READING, PATCHED, CALLS };

static const char *const names[CALLS] = {"hq_make", "hq_operands", "hq_check", "hq_length", "hq_encode", "hq_encode_all", "hq_assemble", "hq_rename",
    "hq_format", "hq_mnemonic", "hq_extension", "hq_decode", "hq_decode_all", "hq_inst_of_reading", "hq_patched"};

enum { STATUSES = 22, DETAILS = 16, MOST = 16, MOST_BYTES = 1024, MOST_READINGS = 8 };

/* What libFuzzer is told: a counter for each line, of those calls that come first in what an input is taken for, and one for each
 * status and detail, of each call. The height of hq_encode's and of hq_decode's tells the kinds of places apart. The compiler has to
 * keep what is only written. */
__attribute__((used, section("__libfuzzer_extra_counters"))) static struct {
    uint8_t lines[CALLS][HQ_LINE_COUNT];
    uint8_t statuses[CALLS][STATUSES][DETAILS];
} covered;

/* The same of all inputs, for the report. */
static uint8_t lines_met[CALLS][HQ_LINE_COUNT], statuses_met[CALLS][STATUSES];
static unsigned long long answers[CALLS];

static void report(void)
{
    for (int call = 0; call < CALLS; call++) {
        unsigned lines = 0;
        for (int line = 0; line < HQ_LINE_COUNT; line++)
            lines += lines_met[call][line];
        fprintf(stderr, "%-18s %11llu answers, HQ_OK of %3u lines; statuses", names[call], answers[call], lines);
        for (int status = 0; status < STATUSES; status++)
            if (statuses_met[call][status])
                fprintf(stderr, " %d", status);
        fprintf(stderr, "\n");
    }
}

static void promise(int is_kept, const char *broken)
{
    if (is_kept)
        return;
    fprintf(stderr, "fuzz: %s\n", broken);
    abort();
}

/* A status is one of those that there are; of a call that speaks of no line, the line is HQ_LINE_COUNT. */
static void met(enum call call, int32_t status, uint16_t line, unsigned kind)
{
    static const uint8_t heights[] = {1, 2, 3, 4, 8, 16, 32, 128};
    int code = hq_code(status);
    promise(status >= 0 && code < STATUSES && hq_detail(status) < 256, "a status is none");
    answers[call]++;
    statuses_met[call][code] = 1;
    covered.statuses[call][code][hq_detail(status) % DETAILS] = 1;
    if (status == HQ_OK && line < HQ_LINE_COUNT) {
        int is_first = call == MAKE || call == ENCODE_ALL || call == ASSEMBLE || call == DECODE_ALL || call == OF_READING;
        lines_met[call][line] = 1;
        if (is_first || call == ENCODE || call == DECODE)
            covered.lines[call][line] = is_first ? 1 : heights[kind % 8];
    }
}

/* An input: the first bytes are small numbers, as rooms and lengths, which begin again where they end; behind them the structs and
 * strings stand. */
typedef struct {
    uint8_t numbers[32];
    size_t taken;
    const uint8_t *at;
    size_t left;
} input;

static uint8_t take_byte(input *in) { return in->numbers[in->taken++ % sizeof in->numbers]; }

static void take_bytes(input *in, void *out, size_t n)
{
    for (size_t i = 0; i < n; i++)
        ((uint8_t *)out)[i] = take_byte(in);
}

/* Behind the end of an input there are zeros. */
static void take(input *in, void *out, size_t n)
{
    size_t there = n < in->left ? n : in->left;
    memset(out, 0, n);
    if (there)
        memcpy(out, in->at, there);
    in->at += there;
    in->left -= there;
}

/* How many structs there are, at most so many. */
static size_t count_of(const input *in, size_t size, size_t most) { return in->left / size < most ? in->left / size : most; }

/* Each argument has a page of its own behind it. A slice of no length is null where it's even in this input. */
enum argument { IN, TABLE, CODE, USES, OUT, LEN, TOLD, REG, VVVV, PLACE, IMM, ARGUMENTS };

static uint8_t *guards[ARGUMENTS];
static int nulls;

static void *filled(enum argument argument, size_t n) { return n || !nulls ? filled_before(guards[argument], n) : NULL; }

static void *handed(enum argument argument, const void *from, size_t n)
{
    void *at = filled(argument, n);
    return n ? memcpy(at, from, n) : at;
}

static int kind_of(const hq_inst *inst) { return inst->trap ? 7 : inst->place; }

/* Why an instruction can't be encoded: of the registers that it has, in the order reg, vvvv, base, index, the first that isn't real or
 * that is no index, by its place among them; or a late offset. */
static int32_t fault_of(const hq_inst *inst)
{
    uint16_t reg, vvvv;
    hq_place place;
    int64_t imm;
    if (hq_operands(inst, &reg, &vvvv, &place, &imm) != HQ_OK)
        return HQ_BAD_INST;
    int has_base = place.place >= HQ_PLACE_REGISTER && place.place <= HQ_PLACE_INDEX, at = 0;
    const uint16_t registers[] = {reg, vvvv, has_base ? place.base : HQ_NO_REG, place.place == HQ_PLACE_INDEX ? place.index : HQ_NO_REG};
    for (int i = 0; i < 4; i++) {
        if (registers[i] != HQ_NO_REG && registers[i] > 15)
            return HQ_FAULT_REGISTER + (at << 8);
        if (i == 3 && registers[i] == 4)
            return HQ_FAULT_INDEX + (at << 8);
        at += registers[i] != HQ_NO_REG;
    }
    return place.has_offset ? HQ_FAULT_UNKNOWN + (place.offset << 8) : HQ_OK;
}

static uint32_t told_kind(const hq_inst *inst)
{
    switch (inst->place) {
    case HQ_PLACE_LABEL: return HQ_TOLD_LABEL;
    case HQ_PLACE_CONSTANT: return HQ_TOLD_CONSTANT;
    case HQ_PLACE_UNTOLD: return HQ_TOLD_PLACE;
    default: return inst->trap ? HQ_TOLD_TRAP : HQ_TOLD_NOTHING;
    }
}

static void is_told(const hq_inst *inst, const hq_use *told, uint32_t len)
{
    promise(told->kind == told_kind(inst), "hq_encode tells of another kind");
    if (told->kind == HQ_TOLD_TRAP)
        promise(told->at == 0 && told->number == inst->trap, "hq_encode tells another trap");
    if (told->kind >= HQ_TOLD_LABEL)
        promise(told->at >= 2 && told->at + 4 <= len && told->number == inst->target, "hq_encode tells another target");
}

/* Puts an instruction that has so many bytes, or a fault, into so much room. */
static int32_t put(const hq_inst *inst, int32_t check, uint32_t length, size_t room, uint8_t *out, hq_use *use)
{
    uint8_t *code = filled(CODE, room);
    uint32_t *len = filled(LEN, sizeof *len);
    hq_use *told = filled(TOLD, sizeof *told);
    int32_t status = hq_encode(inst, code, room, len, told);
    met(ENCODE, status, inst->line, (unsigned)kind_of(inst));
    promise(status == (check == HQ_OK && room < length ? HQ_FULL : check), "hq_encode answers something else than hq_check and the room");
    if (status != HQ_OK) {
        promise(is_filled(code, room) && is_filled(len, sizeof *len) && is_filled(told, sizeof *told), "hq_encode refuses and writes");
        return status;
    }
    promise(*len == length, "hq_encode puts another number of bytes than hq_length says");
    promise(is_filled(code + *len, room - *len), "hq_encode writes behind the instruction");
    is_told(inst, told, *len);
    memcpy(out, code, *len);
    *use = *told;
    return status;
}

/* The field of a label or a constant leads to what is told of hq_patched. */
static void is_patched(const hq_inst *inst, const hq_reading *read, const uint8_t *code, uint32_t len, const hq_use *told, uint64_t place, uint64_t target)
{
    uint8_t patched[13];
    hq_reading r;
    int32_t stored, *field = filled(OUT, sizeof *field);
    memcpy(&stored, code + told->at, sizeof stored);
    promise(read->place_kind == HQ_READ_RELATIVE && read->disp == stored, "what is read of a target isn't its field");
    place = place <= UINT64_MAX - len ? place : 0;
    int32_t status = hq_patched(place + told->at, target, stored, field);
    met(PATCHED, status, HQ_LINE_COUNT, 0);
    __int128 distance = (__int128)target - place - len;
    promise((status == HQ_OK) == (distance == (int32_t)distance), "hq_patched refuses another distance");
    if (status != HQ_OK)
        return;
    memcpy(patched, code, len);
    memcpy(patched + told->at, field, sizeof *field);
    promise(hq_decode(patched, len, &r) == HQ_OK && r.disp == distance && r.line == inst->line, "a field that was patched doesn't lead to its target");
}

/* What was put reads as the instruction, whatever follows it, and no shorter front of it does. */
static void reads_back(const hq_inst *inst, const uint8_t *code, uint32_t len, const hq_use *told, input *in)
{
    uint8_t bytes[32];
    uint64_t numbers[2];
    size_t behind = take_byte(in) % 16, front = take_byte(in) % len;
    hq_reading *r = filled(OUT, sizeof *r), read;
    hq_inst back, bare = *inst;
    take_bytes(in, bytes + len, behind);
    memcpy(bytes, code, len);
    promise(hq_decode(handed(IN, bytes, len + behind), len + behind, r) == HQ_OK, "what hq_encode puts isn't read");
    read = *r;
    promise(read.line == inst->line && read.length == len, "what hq_encode puts is read by another line, or with another length");
    promise(hq_decode(handed(IN, bytes, front), front, filled(OUT, sizeof *r)) == HQ_NONE, "a front of an instruction is read");
    int32_t status = hq_inst_of_reading(&read, &back);
    if (inst->place >= HQ_PLACE_LABEL) {
        promise(status == HQ_NO_INST, "an instruction is made of a place that isn't known");
        take_bytes(in, numbers, sizeof numbers);
        is_patched(inst, &read, code, len, told, numbers[0], numbers[1] % 3 ? numbers[0] + (uint64_t)(int64_t)(int32_t)numbers[1] : numbers[1]);
        return;
    }
    bare.trap = 0;
    promise(status == HQ_OK && memcmp(&back, &bare, sizeof back) == 0, "what hq_encode puts is read as another instruction");
}

/* hq_check, hq_length and hq_encode agree. */
static void encodes(const hq_inst *inst, input *in)
{
    uint8_t code[13], again[13];
    hq_use told, other;
    size_t room = take_byte(in) % 24;
    int32_t check = hq_check(inst);
    met(CHECK, check, inst->line, (unsigned)kind_of(inst));
    promise(check == fault_of(inst), "hq_check finds another fault");
    uint32_t *len = filled(LEN, sizeof *len);
    int32_t status = hq_length(inst, len);
    uint32_t length = *len;
    met(LENGTH, status, inst->line, (unsigned)kind_of(inst));
    promise(status == check, "hq_length answers something else than hq_check");
    promise(check == HQ_OK ? length >= 1 && length <= 13 : is_filled(len, sizeof *len), "hq_length tells what is no length, or tells one and refuses");
    if (put(inst, check, length, check == HQ_OK ? length : room, code, &told) != HQ_OK)
        return;
    if (put(inst, check, length, room, again, &other) == HQ_OK)
        promise(memcmp(code, again, length) == 0 && memcmp(&told, &other, sizeof told) == 0, "with another room hq_encode puts other bytes");
    reads_back(inst, code, length, &told, in);
}

static int is_given(const hq_inst *inst, hq_inst *changed, const uint8_t *homes)
{
    uint16_t *reg = filled(REG, sizeof *reg), *vvvv = filled(VVVV, sizeof *vvvv);
    hq_place *place = filled(PLACE, sizeof *place);
    int64_t *imm = filled(IMM, sizeof *imm);
    int32_t status = hq_operands(inst, reg, vvvv, place, imm);
    met(OPERANDS, status, inst->line, (unsigned)kind_of(inst));
    if (status != HQ_OK) {
        promise(is_filled(reg, sizeof *reg) && is_filled(vvvv, sizeof *vvvv), "hq_operands refuses and writes a register");
        promise(is_filled(place, sizeof *place) && is_filled(imm, sizeof *imm), "hq_operands refuses and writes");
        return 0;
    }
    hq_inst *made = filled(OUT, sizeof *made);
    status = hq_make(inst->line, *reg, *vvvv, place, *imm, made);
    met(MAKE, status, inst->line, (unsigned)kind_of(inst));
    promise(status == HQ_OK && memcmp(made, inst, sizeof *made) == 0, "hq_make makes another instruction of what hq_operands gives");
    *changed = *inst;
    changed->reg = *reg < HQ_NO_REG ? homes[inst->reg] : 0;
    changed->vvvv = *vvvv < HQ_NO_REG ? homes[inst->vvvv] : 0;
    if (inst->place >= HQ_PLACE_REGISTER && inst->place <= HQ_PLACE_INDEX)
        changed->base = homes[inst->base];
    if (inst->place == HQ_PLACE_INDEX)
        changed->index = homes[inst->index];
    return 1;
}

static void is_renamed(const hq_inst *inst, input *in)
{
    uint8_t homes[256];
    hq_inst changed = *inst, *out;
    for (unsigned i = 0; i < 256; i++)
        homes[i] = i < 24 || i > 250 ? take_byte(in) : (uint8_t)i;
    int is_inst = is_given(inst, &changed, homes);
    out = handed(OUT, inst, sizeof *inst);
    int32_t status = hq_rename(out, handed(TABLE, homes, sizeof homes));
    met(RENAME, status, inst->line, (unsigned)kind_of(inst));
    promise(status == (is_inst ? HQ_OK : HQ_BAD_INST), "hq_rename and hq_operands don't agree whether it's an instruction");
    promise(memcmp(out, &changed, sizeof changed) == 0, "hq_rename changes something else than the registers, or not all of them");
}

/* What was told of a text: its length where it stands there or doesn't fit, and nothing else. */
static size_t text_of(int32_t status, const uint8_t *text, size_t room, const size_t *len)
{
    int is_there = status == HQ_OK;
    size_t put = is_there ? *len : 0;
    promise(put <= room && is_filled(text + put, room - put), "a text is written behind its end, or where it's refused");
    promise(status != HQ_FULL || *len > room, "a text that fits is refused");
    promise(is_there || status == HQ_FULL || is_filled(len, sizeof *len), "a length is told of a text that isn't there");
    for (size_t i = 0; i < put; i++)
        promise(text[i] >= ' ' && text[i] < 0x7f, "a text has something else than letters and signs");
    return is_there || status == HQ_FULL ? *len : 0;
}

static void is_written(const hq_inst *inst, int is_inst, input *in)
{
    static uint8_t whole[256];
    size_t room = take_byte(in), *len = filled(LEN, sizeof *len), refuse = take_byte(in);
    uint8_t *text = filled(CODE, room);
    int is_named = inst->reg < 16 && inst->vvvv < 16 && inst->base < 16 && inst->index < 16;
    asked = 0;
    refused_at = refuse < 8 ? refuse : 0;
    int32_t status = hq_format(inst, text, room, len);
    promise(held == 0, "hq_format keeps memory");
    met(FORMAT, status, inst->line, (unsigned)kind_of(inst));
    size_t n = text_of(status, text, room, len);
    if (status == HQ_NO_MEMORY)
        promise(refused_at && asked >= refused_at, "hq_format lacks memory that wasn't refused");
    else
        promise(status == (!is_inst ? HQ_BAD_INST : !is_named ? HQ_NO_NAME : n > room ? HQ_FULL : HQ_OK), "hq_format answers something else");
    refused_at = 0;
    if (status == HQ_FULL)
        promise(hq_format(inst, text = filled(CODE, n), n, len) == HQ_OK && *len == n, "a text has another length than hq_format told");
    int is_text = status == HQ_OK || status == HQ_FULL;
    if (is_text)
        memcpy(whole, text, n < sizeof whole ? n : sizeof whole);
    text = filled(CODE, room);
    status = hq_mnemonic(inst, text, room, len = filled(LEN, sizeof *len));
    met(MNEMONIC, status, inst->line, (unsigned)kind_of(inst));
    size_t letters = text_of(status, text, room, len);
    promise(status == (!is_inst ? HQ_BAD_INST : letters > room ? HQ_FULL : HQ_OK), "hq_mnemonic answers something else");
    if (status == HQ_OK && is_text)
        promise(letters <= n && memcmp(text, whole, letters) == 0, "a text doesn't begin with its mnemonic");
}

static void is_extended(uint16_t line, input *in)
{
    size_t room = take_byte(in) % 16, *len = filled(LEN, sizeof *len);
    uint8_t *text = filled(CODE, room);
    int32_t status = hq_extension(line, text, room, len);
    met(EXTENSION, status, line, 0);
    size_t n = text_of(status, text, room, len);
    promise(status == (line >= HQ_LINE_COUNT ? HQ_BAD_LINE : n > room ? HQ_FULL : HQ_OK), "hq_extension answers something else");
    promise(n <= 10, "an extension has a longer name");
}

/* All that can be done with one struct. */
static void an_instruction(const hq_inst *given, input *in)
{
    const hq_inst *inst = handed(IN, given, sizeof *given);
    is_renamed(inst, in);
    is_written(inst, hq_check(inst) != HQ_BAD_INST, in);
    is_extended(inst->line, in);
    encodes(given, in);
}

static void operands(input *in)
{
    struct {
        uint16_t line, reg, vvvv;
        uint8_t no_imm, is_short;
        int64_t imm;
        hq_place place;
    } given;
    uint16_t reg, vvvv;
    hq_place place;
    int64_t imm;
    take(in, &given, sizeof given);
    if (given.no_imm % 2)
        given.imm = HQ_NO_IMM;
    if (given.is_short % 2)
        given.imm = (int8_t)given.imm;
    hq_inst *inst = filled(OUT, sizeof *inst), made;
    int32_t status = hq_make(given.line, given.reg, given.vvvv, handed(PLACE, &given.place, sizeof given.place), given.imm, inst);
    met(MAKE, status, given.line, given.place.trap ? 7 : given.place.place);
    promise((hq_code(status) == HQ_BAD_LINE) == (given.line >= HQ_LINE_COUNT), "hq_make refuses another line");
    if (status != HQ_OK) {
        promise(is_filled(inst, sizeof *inst), "hq_make refuses and writes");
        promise(hq_code(status) == HQ_BAD_OPERANDS ? hq_detail(status) < 5 : status == HQ_BAD_LINE || status == HQ_BAD_PLACE, "hq_make answers something else");
        return;
    }
    made = *inst;
    promise(hq_operands(&made, &reg, &vvvv, &place, &imm) == HQ_OK, "what hq_make makes is no instruction");
    int is_same = made.line == given.line && imm == given.imm && memcmp(&place, &given.place, sizeof place) == 0;
    int are_same = reg == (given.reg < HQ_NO_REG ? given.reg : HQ_NO_REG) && vvvv == (given.vvvv < HQ_NO_REG ? given.vvvv : HQ_NO_REG);
    promise(is_same && are_same, "hq_operands gives others than hq_make was handed");
    an_instruction(&made, in);
}

static unsigned kind_of_reading(const hq_reading *r)
{
    if (r->reg_kind == HQ_READ_HIGH_BYTE)
        return 7;
    return r->place_kind == HQ_READ_RELATIVE ? 6 : r->place_kind == HQ_READ_MEMORY ? 3u + r->has_base + r->has_index * (r->has_base ? 1 : 2) : r->place_kind;
}

/* The same but for how many bytes it was read of. */
static int is_same(const hq_reading *one, const hq_reading *other)
{
    hq_reading r = *other;
    r.length = one->length;
    r.tail = one->tail;
    return memcmp(one, &r, sizeof r) == 0;
}

/* What a reading is an instruction of, which reads so again. */
static int32_t is_instruction(const hq_reading *given, size_t most, hq_inst *out)
{
    uint8_t code[13];
    uint32_t len;
    hq_use told;
    hq_reading again;
    hq_inst *inst = filled(OUT, sizeof *inst);
    int32_t status = hq_inst_of_reading(handed(IN, given, sizeof *given), inst);
    met(OF_READING, status, given->line, kind_of_reading(given));
    if (status != HQ_OK) {
        promise(is_filled(inst, sizeof *inst), "hq_inst_of_reading refuses and writes");
        promise(status == HQ_NO_INST || status == HQ_BAD_READING, "hq_inst_of_reading answers something else");
        return status;
    }
    *out = *inst;
    promise(out->trap == 0 && out->has_offset == 0, "an instruction of a reading has a trap or a late offset");
    promise(hq_encode(out, code, sizeof code, &len, &told) == HQ_OK, "an instruction of a reading can't be encoded");
    promise(len <= most, "an instruction of a reading has more bytes than were read");
    promise(hq_decode(code, len, &again) == HQ_OK && is_same(given, &again), "an instruction of a reading is read as something else");
    return status;
}

static void readings(const uint8_t *bytes, size_t n, input *in)
{
    hq_reading wanted[MOST_READINGS];
    size_t places = take_byte(in) % (MOST_READINGS + 1), count = 0, at = 0;
    while (count < places && hq_decode(bytes + at, n - at, &wanted[count]) == HQ_OK)
        at += wanted[count++].length;
    hq_reading *all = filled(OUT, places * sizeof *all);
    size_t *told = filled(LEN, sizeof *told), *end = filled(TOLD, sizeof *end);
    int32_t status = hq_decode_all(handed(IN, bytes, n), n, all, places, told, end);
    met(DECODE_ALL, status, HQ_LINE_COUNT, 0);
    for (size_t i = 0; status == HQ_OK && i < count; i++)
        met(DECODE_ALL, status, wanted[i].line, kind_of_reading(&wanted[i]));
    promise(status == HQ_OK && *told == count && *end == at, "hq_decode_all reads another number of instructions or bytes");
    promise(memcmp(count ? all : wanted, wanted, count * sizeof *all) == 0, "hq_decode_all reads others than hq_decode");
    promise(is_filled(all + count, (places - count) * sizeof *all), "hq_decode_all writes into places that it leaves");
}

static void bytes(input *in)
{
    uint8_t given[64];
    size_t n = count_of(in, 1, sizeof given);
    hq_reading *r, read;
    hq_inst inst;
    take(in, given, n);
    readings(given, n, in);
    r = filled(OUT, sizeof *r);
    int32_t status = hq_decode(handed(IN, given, n), n, r);
    read = *r;
    if (status != HQ_OK) {
        met(DECODE, status, HQ_LINE_COUNT, 0);
        promise(status == HQ_NONE && is_filled(r, sizeof *r), "hq_decode answers something else, or reads nothing and writes");
        return;
    }
    met(DECODE, status, read.line, kind_of_reading(&read));
    promise(read.line < HQ_LINE_COUNT && read.length >= 1 && read.length <= 13 && read.length <= n, "hq_decode reads what is no reading");
    r = filled(OUT, sizeof *r);
    status = hq_decode(handed(IN, given, read.length), read.length, r);
    promise(status == HQ_OK && memcmp(r, &read, sizeof read) == 0, "what follows an instruction changes its reading");
    size_t front = take_byte(in) % read.length;
    promise(hq_decode(handed(IN, given, front), front, r) == HQ_NONE, "a front of an instruction is read");
    status = is_instruction(&read, read.length, &inst);
    promise(status != HQ_BAD_READING, "what hq_decode reads is no reading");
    int is_high = read.reg_kind == HQ_READ_HIGH_BYTE || read.place_kind == HQ_READ_HIGH_BYTE;
    int is_without = read.place_kind == HQ_READ_RELATIVE || (read.place_kind == HQ_READ_MEMORY && !read.has_base);
    promise(status == HQ_OK || is_high || is_without, "no instruction is made of a reading that is one");
    if (status == HQ_OK)
        an_instruction(&inst, in);
}

static void reading(input *in)
{
    hq_reading given;
    hq_inst inst;
    take(in, &given, sizeof given);
    if (is_instruction(&given, 13, &inst) == HQ_OK)
        an_instruction(&inst, in);
}

/* The lines of a list. */
static void met_all(enum call call, int32_t status, const hq_inst *inst, size_t n, size_t step)
{
    met(call, status, HQ_LINE_COUNT, 0);
    for (size_t i = 0; i < n; i++, inst = (const hq_inst *)(const void *)((const uint8_t *)inst + step))
        if (status == HQ_OK && inst->line < HQ_LINE_COUNT)
            met(call, status, inst->line, (unsigned)kind_of(inst));
}

static void instructions(input *in)
{
    hq_inst given[MOST];
    uint8_t head[2];
    take_bytes(in, head, sizeof head);
    size_t n = count_of(in, sizeof *given, MOST), room = head[0] % 8 ? 13 * n : head[0], places = head[1] % 8 ? n : head[1] % (n + 1);
    take(in, given, n * sizeof *given);
    if (n)
        an_instruction(&given[0], in);
    uint8_t *code = filled(CODE, room);
    hq_use *uses = filled(USES, places * sizeof *uses);
    hq_done *done = filled(TOLD, sizeof *done);
    int32_t status = hq_encode_all(handed(IN, given, n * sizeof *given), n, code, room, uses, places, done);
    met_all(ENCODE_ALL, status, given, n, sizeof *given);
    promise(is_encoded(given, n, status, done, code, room, uses, places), "hq_encode_all isn't hq_encode, again and again");
}

static void items(input *in)
{
    hq_item given[MOST_ITEMS];
    uint8_t head[3];
    take_bytes(in, head, sizeof head);
    size_t n = count_of(in, sizeof *given, MOST_ITEMS), room = head[0] % 8 ? MOST_BYTES : head[0], places = head[1] % 8 ? n : head[1] % (n + 1);
    take(in, given, n * sizeof *given);
    if (n)
        an_instruction(&given[n - 1].inst, in);
    uint8_t *code = filled(CODE, room);
    hq_use *uses = filled(USES, places * sizeof *uses);
    hq_done *done = filled(TOLD, sizeof *done), whole;
    asked = 0;
    refused_at = head[2] < 16 ? head[2] : 0;
    int32_t status = hq_assemble(handed(IN, given, n * sizeof *given), n, code, room, uses, places, done);
    promise(held == 0, "hq_assemble keeps memory");
    met(ASSEMBLE, status, HQ_LINE_COUNT, 0);
    for (size_t i = 0; i < n; i++)
        if (given[i].kind == HQ_ITEM_INST)
            met_all(ASSEMBLE, status, &given[i].inst, 1, 0);
        else if (status == HQ_OK) /* which kinds of items there are */
            covered.statuses[ASSEMBLE][HQ_BAD_LINE - given[i].kind / 16][given[i].kind % 16] = 1;
    if (status == HQ_NO_MEMORY) {
        promise(refused_at && asked >= refused_at, "hq_assemble lacks memory that wasn't refused");
        promise(is_filled(code, room) && is_filled(uses, places * sizeof *uses), "hq_assemble lacks memory and writes");
        promise(!done->items && !done->bytes && !done->uses, "hq_assemble lacks memory and names an item");
        refused_at = 0;
        return;
    }
    refused_at = 0;
    promise(is_assembled(given, n, status, done, code, room, uses, places), "hq_assemble puts something else than the items, or refuses another item");
    if (status != HQ_FULL)
        return;
    whole = *done;
    promise(whole.bytes <= MOST_BYTES && whole.uses <= n, "hq_assemble tells of more than there can be");
    code = filled(CODE, whole.bytes);
    uses = filled(USES, whole.uses * sizeof *uses);
    status = hq_assemble(handed(IN, given, n * sizeof *given), n, code, whole.bytes, uses, whole.uses, done);
    promise(status == HQ_OK && memcmp(done, &whole, sizeof whole) == 0, "with as much room as hq_assemble told it refuses, or tells something else");
    promise(is_assembled(given, n, status, done, code, whole.bytes, uses, whole.uses), "with as much room as it told hq_assemble puts something else");
}

static void patch(input *in)
{
    struct {
        uint64_t place, target;
        int32_t stored, is_near;
    } given;
    take(in, &given, sizeof given);
    if (given.is_near % 2)
        given.target = given.place + (uint64_t)(int64_t)given.is_near;
    int32_t *field = filled(OUT, sizeof *field);
    int32_t status = hq_patched(given.place, given.target, given.stored, field);
    __int128 sum = (__int128)given.target - given.place - 4 + given.stored;
    met(PATCHED, status, HQ_LINE_COUNT, 0);
    promise(status == (sum == (int32_t)sum ? HQ_OK : HQ_OUT_OF_RANGE), "hq_patched refuses another sum");
    promise(status == HQ_OK ? *field == sum : is_filled(field, sizeof *field), "hq_patched tells another sum, or refuses and writes");
}

int LLVMFuzzerInitialize(int *argc, char ***argv)
{
    (void)argc;
    (void)argv;
    for (int i = 0; i < ARGUMENTS; i++)
        if (!(guards[i] = guarded(4096)))
            return 1;
    promise(hq_version() == HQ_VERSION, "the header and the archive are of two versions");
    atexit(report);
    return 0;
}

static void (*const jobs[])(input *) = {instructions, items, bytes, reading, operands, patch};

/* What the first byte says. */
static unsigned job_of(uint8_t first) { return first % 128 % (sizeof jobs / sizeof *jobs); }

int LLVMFuzzerTestOneInput(const uint8_t *data, size_t size)
{
    input in = {{0}, 1, data, size};
    take(&in, in.numbers, sizeof in.numbers);
    nulls = in.numbers[0] >= 128;
    jobs[job_of(in.numbers[0])](&in);
    return 0;
}

static hq_item likely_item(const hq_inst *inst, uint32_t items)
{
    switch (next() % 12) {
    case 0: case 1: return hq_item_at(HQ_ITEM_LABEL, next() % (items + 1));
    case 2: case 3: return hq_item_at(HQ_ITEM_JMP + next() % 18, next() % (items + 1));
    case 4: return hq_item_at(HQ_ITEM_CONSTANT, next() % 4);
    case 5: return hq_item_bytes(inst, next() % 25);
    case 6: return hq_item_at(HQ_ITEM_ALIGN, next() % 7);
    default: return hq_item_of(inst);
    }
}

size_t LLVMFuzzerMutate(uint8_t *data, size_t size, size_t max);

/* Most changes are libFuzzer's own. The others put what is likely taken by the calls in the place of a struct, or behind them. */
size_t LLVMFuzzerCustomMutator(uint8_t *data, size_t size, size_t max, unsigned seed)
{
    static const size_t steps[] = {sizeof(hq_inst), sizeof(hq_item), 1, sizeof(hq_reading)};
    const size_t front = sizeof((input *)0)->numbers;
    hq_inst inst;
    hq_item item;
    hq_reading r = {0};
    hq_use told;
    uint8_t code[16];
    uint32_t len = 0;
    unsigned job = size > front ? job_of(data[0]) : 0;
    if (seed % 4 || size <= front || job > 3)
        return LLVMFuzzerMutate(data, size, max);
    state = seed * UINT64_C(2654435761) + 1;
    size_t count = (size - front) / steps[job];
    fill_likely(&inst);
    item = likely_item(&inst, (uint32_t)count);
    if (hq_encode(&inst, code, sizeof code, &len, &told) != HQ_OK || hq_decode(code, len, &r) != HQ_OK)
        len = 0;
    const void *from[] = {&inst, &item, code, &r};
    size_t n = job == 2 ? len : steps[job], at = front + next() % (count + 1) * steps[job];
    if (at + n > max)
        return LLVMFuzzerMutate(data, size, max);
    memcpy(data + at, from[job], n);
    return at + n > size ? at + n : size;
}
