/* Executes one instruction at a time on the processor, in a traced child, and says what it did. Linux, x86-64.

     cc -O2 -o step step.c
     step REQUESTS ANSWERS     files of the fixed records below
     step sizes                the sizes of both records

   The child runs no code of its own: it has three shared pages (code, data, stack), mapped where a request wants them, a
   second view of the data page that can only be read, and nothing else that a request names. System calls aren't executed
   (PTRACE_SYSEMU_SINGLESTEP), so wrong bytes can't make one. The status is 0, or 3 where a child can't be traced. */
#define _GNU_SOURCE
#include <cpuid.h>
#include <elf.h>
#include <fcntl.h>
#include <signal.h>
#include <stdint.h>
#include <stdio.h>
#include <stdlib.h>
#include <string.h>
#include <sys/mman.h>
#include <sys/prctl.h>
#include <sys/ptrace.h>
#include <sys/stat.h>
#include <sys/syscall.h>
#include <sys/uio.h>
#include <sys/user.h>
#include <sys/wait.h>
#include <unistd.h>

#define PAGE 4096
#define STUB 0x600000000000ull      /* a system call's instruction, with which pages are mapped in the child */
#define READ_ONLY 0x312345677000ull /* the second view of the data page */
#define SYSEMU_SINGLESTEP 32
#define CANT_TRACE 3
enum { CODE, DATA, STACK, PAGES };

struct request {
    uint64_t page[PAGES]; /* where each page stands, or 0 */
    uint64_t rip, general[16], flags;
    uint32_t mxcsr, pokes;
    uint8_t vector[16][64]; /* what the processor has of each: 16, 32 or 64 bytes */
    struct { uint64_t address; uint32_t length; uint8_t bytes[36]; } poke[4];
} __attribute__((packed));

struct answer {
    uint64_t general[16], rip;
    uint8_t vector[16][64];
    uint64_t flags, fault;
    uint32_t signal, code, mxcsr, other, changes, unused;
    uint64_t changed[32]; /* addresses of bytes that changed, and what they are now */
    uint8_t now[32];
} __attribute__((packed));

static pid_t child;
static int memory;
static uint8_t *window[PAGES], before[PAGES][PAGE];
static uint64_t stands_at[PAGES];
static struct user_regs_struct first;

/* The extended state as XSAVE lays it out: at the beginning, before a step, and after it. (SDM, volume 1, 13.4.) */
static uint8_t first_extended[16384], extended[16384], extended_after[16384];
static size_t extended_length;
static unsigned upper_128, upper_256, masks, vectors_16_to_31;

static void fail(const char *what)
{
    perror(what);
    if (child > 0) kill(child, SIGKILL);
    exit(2);
}

static void await_stop(int *status)
{
    if (waitpid(child, status, 0) != child) fail("waitpid");
}

static void set_general(struct user_regs_struct *registers)
{
    if (ptrace(PTRACE_SETREGS, child, 0, registers)) fail("PTRACE_SETREGS");
}

static void get_general(struct user_regs_struct *registers)
{
    if (ptrace(PTRACE_GETREGS, child, 0, registers)) fail("PTRACE_GETREGS");
}

static size_t get_extended(uint8_t *into)
{
    struct iovec view = {into, sizeof extended};
    if (ptrace(PTRACE_GETREGSET, child, NT_X86_XSTATE, &view)) fail("PTRACE_GETREGSET");
    return view.iov_len;
}

/* A system call, made by the child. */
static long call(long number, uint64_t a, uint64_t b, uint64_t c, uint64_t d, uint64_t e, uint64_t f)
{
    struct user_regs_struct registers = first;
    int status;
    registers.rip = STUB;
    registers.rax = number;
    registers.orig_rax = -1;
    registers.rdi = a; registers.rsi = b; registers.rdx = c;
    registers.r10 = d; registers.r8 = e; registers.r9 = f;
    set_general(&registers);
    if (ptrace(PTRACE_SINGLESTEP, child, 0, 0)) fail("PTRACE_SINGLESTEP");
    await_stop(&status);
    if (!WIFSTOPPED(status)) fail("a call of the child");
    get_general(&registers);
    return registers.rax;
}

static void be_traced(void)
{
    uint8_t *stub;
    prctl(PR_SET_PDEATHSIG, SIGKILL);
    stub = mmap((void *)STUB, PAGE, PROT_READ | PROT_WRITE | PROT_EXEC, MAP_PRIVATE | MAP_ANONYMOUS | MAP_FIXED, -1, 0);
    if (stub == MAP_FAILED) _exit(CANT_TRACE);
    memcpy(stub, "\x0f\x05\xcc", 3);
    if (ptrace(PTRACE_TRACEME, 0, 0, 0)) _exit(CANT_TRACE);
    raise(SIGSTOP);
    _exit(CANT_TRACE);
}

static void begin_child(void)
{
    int status;
    child = fork();
    if (child < 0) fail("fork");
    if (!child) be_traced();
    await_stop(&status);
    if (!WIFSTOPPED(status)) {
        fprintf(stderr, "step: a child can't be traced here\n");
        exit(CANT_TRACE);
    }
    ptrace(PTRACE_SETOPTIONS, child, 0, PTRACE_O_EXITKILL | PTRACE_O_TRACESYSGOOD);
    get_general(&first);
    first.orig_rax = -1;
    extended_length = get_extended(first_extended);
    memset(stands_at, 0, sizeof stands_at);
    if (call(SYS_mmap, READ_ONLY, PAGE, PROT_READ, MAP_SHARED | MAP_FIXED, memory, DATA * PAGE) != (long)READ_ONLY)
        fail("mmap in the child");
}

static void end_child(void)
{
    int status;
    kill(child, SIGKILL);
    while (waitpid(child, &status, 0) == child && !WIFEXITED(status) && !WIFSIGNALED(status)) { }
    child = 0;
}

static void remove_page(int page)
{
    call(SYS_munmap, stands_at[page], PAGE, 0, 0, 0, 0);
    stands_at[page] = 0;
}

static void put_page(int page, uint64_t address)
{
    int rights = PROT_READ | PROT_WRITE | (page == CODE ? PROT_EXEC : 0);
    if (stands_at[page] == address) return;
    if (stands_at[page]) remove_page(page);
    for (int other = 0; other < PAGES; other++)
        if (stands_at[other] == address) stands_at[other] = 0;
    if (call(SYS_mmap, address, PAGE, rights, MAP_SHARED | MAP_FIXED, memory, page * PAGE) == (long)address)
        stands_at[page] = address;
    else
        fprintf(stderr, "step: nothing can be mapped at %llx\n", (unsigned long long)address);
}

static uint64_t *general(struct user_regs_struct *registers, int number)
{
    struct user_regs_struct *r = registers;
    uint64_t *all[16] = {(uint64_t *)&r->rax, (uint64_t *)&r->rcx, (uint64_t *)&r->rdx, (uint64_t *)&r->rbx,
                         (uint64_t *)&r->rsp, (uint64_t *)&r->rbp, (uint64_t *)&r->rsi, (uint64_t *)&r->rdi,
                         (uint64_t *)&r->r8, (uint64_t *)&r->r9, (uint64_t *)&r->r10, (uint64_t *)&r->r11,
                         (uint64_t *)&r->r12, (uint64_t *)&r->r13, (uint64_t *)&r->r14, (uint64_t *)&r->r15};
    return all[number];
}

static int page_of(const struct request *request, uint64_t address)
{
    uint64_t start = address & ~(uint64_t)(PAGE - 1);
    if (start == request->page[CODE]) return CODE;
    if (start == request->page[DATA] || start == READ_ONLY) return DATA;
    return start == request->page[STACK] ? STACK : -1;
}

static void put_memory(const struct request *request)
{
    /* behind the code there is nothing but what the request wants there */
    for (int page = 0; page < PAGES; page++)
        if (stands_at[page] && stands_at[page] == request->page[CODE] + PAGE && request->page[page] != stands_at[page])
            remove_page(page);
    for (int page = 0; page < PAGES; page++)
        if (request->page[page]) put_page(page, request->page[page]);
    for (uint32_t number = 0; number < request->pokes && number < 4; number++)
        for (uint32_t at = 0; at < request->poke[number].length; at++) {
            uint64_t address = request->poke[number].address + at;
            int page = page_of(request, address);
            if (page >= 0)
                window[page][address & (PAGE - 1)] = before[page][address & (PAGE - 1)] = request->poke[number].bytes[at];
        }
}

static struct user_regs_struct put_registers(const struct request *request)
{
    struct user_regs_struct registers = first;
    struct iovec view = {extended, extended_length};
    for (int number = 0; number < 16; number++) *general(&registers, number) = request->general[number];
    registers.rip = request->rip;
    registers.eflags = request->flags;
    memcpy(extended, first_extended, extended_length);
    memcpy(extended + 24, &request->mxcsr, 4);
    for (int number = 0; number < 16; number++) {
        memcpy(extended + 160 + 16 * number, request->vector[number], 16);
        if (upper_128) memcpy(extended + upper_128 + 16 * number, request->vector[number] + 16, 16);
        if (upper_256) memcpy(extended + upper_256 + 32 * number, request->vector[number] + 32, 32);
    }
    extended[512] |= 3 | (upper_128 ? 4 : 0) | (upper_256 ? 0x40 : 0);
    set_general(&registers);
    if (ptrace(PTRACE_SETREGSET, child, NT_X86_XSTATE, &view)) fail("PTRACE_SETREGSET");
    return registers;
}

/* What an instruction here may not change: x87, mask registers, vector registers 16 to 31, segments. */
static uint32_t others_changed(const struct user_regs_struct *old, const struct user_regs_struct *now)
{
    uint32_t found = 0;
    if (memcmp(extended, extended_after, 24) || memcmp(extended + 32, extended_after + 32, 128)) found |= 1;
    if (masks && memcmp(extended + masks, extended_after + masks, 64)) found |= 2;
    if (vectors_16_to_31 && memcmp(extended + vectors_16_to_31, extended_after + vectors_16_to_31, 1024)) found |= 4;
    if (old->cs != now->cs || old->ss != now->ss || old->ds != now->ds || old->es != now->es) found |= 8;
    if (old->fs != now->fs || old->gs != now->gs || old->fs_base != now->fs_base || old->gs_base != now->gs_base)
        found |= 16;
    return found;
}

static void tell_registers(const struct request *request, struct user_regs_struct *old, struct answer *answer)
{
    struct user_regs_struct now;
    get_general(&now);
    get_extended(extended_after);
    for (int number = 0; number < 16; number++) answer->general[number] = *general(&now, number);
    answer->rip = now.rip;
    answer->flags = now.eflags;
    memcpy(&answer->mxcsr, extended_after + 24, 4);
    for (int number = 0; number < 16; number++) {
        uint8_t *vector = answer->vector[number];
        memcpy(vector, request->vector[number], 64);
        memcpy(vector, extended_after + 160 + 16 * number, 16);
        if (upper_128) memcpy(vector + 16, extended_after + upper_128 + 16 * number, 16);
        if (upper_256) memcpy(vector + 32, extended_after + upper_256 + 32 * number, 32);
    }
    answer->other = others_changed(old, &now);
}

/* The bytes that changed; they are put back. */
static void tell_memory(struct answer *answer)
{
    for (int page = 0; page < PAGES; page++) {
        if (!memcmp(window[page], before[page], PAGE)) continue;
        for (int at = 0; at < PAGE; at++) {
            if (window[page][at] == before[page][at]) continue;
            if (answer->changes < 32) {
                answer->changed[answer->changes] = stands_at[page] + at;
                answer->now[answer->changes] = window[page][at];
            }
            answer->changes++;
            window[page][at] = before[page][at];
        }
    }
}

static void step(const struct request *request, struct answer *answer)
{
    struct user_regs_struct old;
    int status;
    memset(answer, 0, sizeof *answer);
    put_memory(request);
    old = put_registers(request);
    if (ptrace(SYSEMU_SINGLESTEP, child, 0, 0)) fail("PTRACE_SYSEMU_SINGLESTEP");
    await_stop(&status);
    if (!WIFSTOPPED(status)) {
        answer->signal = 0xff00;
        begin_child();
        return;
    }
    answer->signal = WSTOPSIG(status);
    if (answer->signal < 0x80) {
        siginfo_t told;
        memset(&told, 0, sizeof told);
        if (ptrace(PTRACE_GETSIGINFO, child, 0, &told)) fail("PTRACE_GETSIGINFO");
        answer->code = told.si_code;
        answer->fault = (uint64_t)told.si_addr;
    }
    tell_registers(request, &old, answer);
    tell_memory(answer);
    if (answer->signal != SIGTRAP && answer->signal != SIGSEGV && answer->signal != SIGILL &&
        answer->signal != SIGBUS && answer->signal != SIGFPE) {
        end_child(); /* a system call, or something rarer */
        begin_child();
    }
}

/* Where the parts of the extended state stand. (SDM, volume 2, CPUID, leaf 0DH.) */
static void find_extended(void)
{
    unsigned has, at, eax, ecx, edx;
    __cpuid_count(13, 0, has, at, ecx, edx);
    if (has & 0x04) { __cpuid_count(13, 2, eax, at, ecx, edx); upper_128 = at; }
    if (has & 0x20) { __cpuid_count(13, 5, eax, at, ecx, edx); masks = at; }
    if (has & 0x40) { __cpuid_count(13, 6, eax, at, ecx, edx); upper_256 = at; }
    if (has & 0x80) { __cpuid_count(13, 7, eax, at, ecx, edx); vectors_16_to_31 = at; }
}

static void make_pages(void)
{
    uint64_t random = 88172645463325252ull;
    memory = memfd_create("pages", 0);
    if (memory < 0 || ftruncate(memory, PAGE * PAGES)) fail("memfd_create");
    for (int page = 0; page < PAGES; page++) {
        window[page] = mmap(0, PAGE, PROT_READ | PROT_WRITE, MAP_SHARED, memory, page * PAGE);
        if (window[page] == MAP_FAILED) fail("mmap");
        for (int at = 0; at < PAGE; at++) {
            random ^= random << 13; random ^= random >> 7; random ^= random << 17;
            window[page][at] = before[page][at] = random >> 20;
        }
    }
}

int main(int count, char **words)
{
    struct stat found;
    if (count == 2 && !strcmp(words[1], "sizes")) {
        printf("%zu %zu\n", sizeof(struct request), sizeof(struct answer));
        return 0;
    }
    if (count != 3) return 1;
    find_extended();
    make_pages();
    int in = open(words[1], O_RDONLY), out = open(words[2], O_RDWR | O_CREAT | O_TRUNC, 0600);
    if (in < 0 || out < 0 || fstat(in, &found)) fail("files");
    size_t requests = found.st_size / sizeof(struct request);
    begin_child(); /* before the files are mapped, so that the child has no part in them */
    if (requests) {
        struct request *request = mmap(0, found.st_size, PROT_READ, MAP_PRIVATE, in, 0);
        if (request == MAP_FAILED || ftruncate(out, requests * sizeof(struct answer))) fail("files");
        struct answer *answer = mmap(0, requests * sizeof(struct answer), PROT_READ | PROT_WRITE, MAP_SHARED, out, 0);
        if (answer == MAP_FAILED) fail("files");
        for (size_t at = 0; at < requests; at++) step(request + at, answer + at);
    }
    end_child();
    return 0;
}
