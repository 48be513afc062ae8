/*
 * How much stack the library's calls take: each runs on a stack of its own, which was painted before, and what was
 * written over is counted, from the caller's stack pointer to the deepest byte that changed. Arguments on the stack and
 * the return address are in it; nothing of the caller is. x86-64 alone, as the archive.
 */
#include "nbiot_numbers.h"
#include <stdio.h>
#include <string.h>

enum { STACK = 1 << 16, ARGUMENTS = 18, REGISTERS = 6 };

static unsigned char stack[STACK] __attribute__((aligned(16)));

static uint64_t answer[8], candidates[NBIOT_SEARCH_NUMBERS];
static float output[336], pair[2];
static const uint64_t cell[] = {1, 0, 5, 1, 4, 1, 1, 40}, down[] = {1000, 3, 64, 7, 9}, control[] = {1000, 64, 0, 1};
static const uint64_t up[] = {1000, 1, 14, 5, 6, 2, 3}, ack[] = {1000, 1, 6, 5}, space[] = {1000, 64, 3, 1};
static const uint64_t windows[17] = {3, 160, 8, 688128, 0, 320, 64, 786432, 20, 2560, 256, 6291456, 8};
static const uint8_t anchor[] = {0xff, 0xf7, 0xdb, 0xff, 0xff}, other[5], bits[320];
/* The same cell with four schedules: windows that meet, windows alone, and times with none. */
static const uint64_t messages[] = {1, 0, 5, 1, 4, 1, 1, 40, 480, 3, 4, 64, 4, 2, 128, 2, 2, 512, 8, 8, 4096, 2, 8};

/* Walks: the position, cell and grant from above, in the last two the messages. A step moves the position on. */
static uint64_t walk_up[] = {100, 1000, 1, 14, 5, 6, 2, 3}, walk_ack[] = {100, 1000, 1, 6, 5};
static uint64_t walk_down[] = {5000, 1, 0, 5, 1, 4, 1, 1, 40, 1000, 3, 64, 7, 9};
static uint64_t walk_control[] = {100, 1, 0, 5, 1, 4, 1, 1, 40, 1000, 64, 0, 1};
static uint64_t walk_down_messages[] = {5000, 1, 0, 5, 1, 4, 1, 1, 40, 1000, 3, 64, 7, 9,
                                        480, 3, 4, 64, 4, 2, 128, 2, 2, 512, 8, 8, 4096, 2, 8};
static uint64_t walk_control_messages[] = {100, 1, 0, 5, 1, 4, 1, 1, 40, 1000, 64, 0, 1,
                                           480, 3, 4, 64, 4, 2, 128, 2, 2, 512, 8, 8, 4096, 2, 8};

/* A call: its name, the function, and its arguments but for a level, each as wide as a pointer. */
struct call {
    const char *name;
    void (*function)(void);
    size_t many;
    const void *arguments[ARGUMENTS];
};

#define N(number) ((const void *)(uintptr_t)(number))
#define LENT(buffer) buffer, N(sizeof buffer / sizeof *buffer)
#define BITMAPS LENT(anchor), LENT(other)
#define CELL LENT(cell), BITMAPS
#define MESSAGES LENT(messages), BITMAPS
#define ANSWER LENT(answer)
#define ASK(name, function, ...) \
    {name, (void (*)(void))function, sizeof((const void *[]){__VA_ARGS__}) / sizeof(void *), {__VA_ARGS__}}

static const struct call calls[] = {
    ASK("judge", nbiot_judge, CELL),
    ASK("bitmap", nbiot_bitmap, CELL, ANSWER),
    ASK("count", nbiot_count, CELL, ANSWER),
    ASK("cause", nbiot_cause, CELL, N(1001), ANSWER),
    ASK("plan up", nbiot_plan_up, LENT(up), ANSWER),
    ASK("plan ack", nbiot_plan_ack, LENT(ack), ANSWER),
    ASK("plan down", nbiot_plan_down, CELL, LENT(down), ANSWER),
    ASK("plan control", nbiot_plan_control, CELL, LENT(control), ANSWER),
    ASK("forward up", nbiot_forward_up, LENT(up), N(100), ANSWER),
    ASK("forward ack", nbiot_forward_ack, LENT(ack), N(100), ANSWER),
    ASK("forward down", nbiot_forward_down, CELL, LENT(down), N(5000), ANSWER),
    ASK("forward control", nbiot_forward_control, CELL, LENT(control), N(100), ANSWER),
    ASK("backward up", nbiot_backward_up, LENT(up), N(2100), N(2), N(7), ANSWER),
    ASK("backward ack", nbiot_backward_ack, LENT(ack), N(2040), N(0), N(2), ANSWER),
    ASK("backward down", nbiot_backward_down, CELL, LENT(down), N(1100), N(1), N(2), N(7), ANSWER),
    ASK("backward control", nbiot_backward_control, CELL, LENT(control), N(1011), N(1), N(2), N(7), ANSWER),
    ASK("step up", nbiot_step_up, LENT(walk_up), ANSWER),
    ASK("step ack", nbiot_step_ack, LENT(walk_ack), ANSWER),
    ASK("step down", nbiot_step_down, LENT(walk_down), BITMAPS, ANSWER),
    ASK("step control", nbiot_step_control, LENT(walk_control), BITMAPS, ANSWER),
    ASK("search", nbiot_search, CELL, LENT(space), LENT(candidates)),
    ASK("element", nbiot_element, CELL, LENT(down), N(20), N(1), N(2), N(7), LENT(bits), ANSWER, LENT(pair)),
    ASK("fill", nbiot_fill, CELL, LENT(down), N(20), LENT(bits), LENT(output)),
    ASK("forward npbch", nbiot_forward_npbch, CELL, N(5000), ANSWER),
    ASK("forward sib1", nbiot_forward_sib1, CELL, N(5000), ANSWER),
    ASK("backward npbch", nbiot_backward_npbch, CELL, N(1100), N(1), N(2), N(7), ANSWER),
    ASK("backward sib1", nbiot_backward_sib1, CELL, N(1124), N(1), N(2), N(7), ANSWER),
    ASK("plan up, windows", nbiot_plan_up_windows, LENT(up), LENT(windows), ANSWER),
    ASK("plan ack, windows", nbiot_plan_ack_windows, LENT(ack), LENT(windows), ANSWER),
    ASK("forward up, windows", nbiot_forward_up_windows, LENT(up), LENT(windows), N(100), ANSWER),
    ASK("forward ack, windows", nbiot_forward_ack_windows, LENT(ack), LENT(windows), N(100), ANSWER),
    ASK("backward up, windows", nbiot_backward_up_windows, LENT(up), LENT(windows), N(2100), N(2), N(7), ANSWER),
    ASK("backward ack, windows", nbiot_backward_ack_windows, LENT(ack), LENT(windows), N(2040), N(0), N(2), ANSWER),
    ASK("step up, windows", nbiot_step_up_windows, LENT(walk_up), LENT(windows), ANSWER),
    ASK("step ack, windows", nbiot_step_ack_windows, LENT(walk_ack), LENT(windows), ANSWER),
    ASK("forward up, plain", nbiot_forward_up_plain, LENT(up), LENT(windows), N(100), ANSWER),
    ASK("forward ack, plain", nbiot_forward_ack_plain, LENT(ack), LENT(windows), N(100), ANSWER),
    ASK("forward down, plain", nbiot_forward_down_plain, CELL, LENT(down), N(5000), ANSWER),
    ASK("forward control, plain", nbiot_forward_control_plain, CELL, LENT(control), N(100), ANSWER),
    ASK("step up, plain", nbiot_step_up_plain, LENT(walk_up), LENT(windows), ANSWER),
    ASK("step ack, plain", nbiot_step_ack_plain, LENT(walk_ack), LENT(windows), ANSWER),
    ASK("step down, plain", nbiot_step_down_plain, LENT(walk_down), BITMAPS, ANSWER),
    ASK("step control, plain", nbiot_step_control_plain, LENT(walk_control), BITMAPS, ANSWER),
    ASK("judge, messages", nbiot_judge, MESSAGES),
    ASK("bitmap, messages", nbiot_bitmap, MESSAGES, ANSWER),
    ASK("count, messages", nbiot_count, MESSAGES, ANSWER),
    ASK("cause, messages", nbiot_cause, MESSAGES, N(1001), ANSWER),
    ASK("plan down, messages", nbiot_plan_down, MESSAGES, LENT(down), ANSWER),
    ASK("plan control, messages", nbiot_plan_control, MESSAGES, LENT(control), ANSWER),
    ASK("forward down, messages", nbiot_forward_down, MESSAGES, LENT(down), N(5000), ANSWER),
    ASK("forward control, messages", nbiot_forward_control, MESSAGES, LENT(control), N(100), ANSWER),
    ASK("backward down, messages", nbiot_backward_down, MESSAGES, LENT(down), N(1100), N(1), N(2), N(7), ANSWER),
    ASK("backward control, messages", nbiot_backward_control, MESSAGES, LENT(control),
        N(1011), N(1), N(2), N(7), ANSWER),
    ASK("forward down, plain, messages", nbiot_forward_down_plain, MESSAGES, LENT(down), N(5000), ANSWER),
    ASK("step down, messages", nbiot_step_down, LENT(walk_down_messages), BITMAPS, ANSWER),
    ASK("step control, messages", nbiot_step_control, LENT(walk_control_messages), BITMAPS, ANSWER),
    ASK("search, messages", nbiot_search, MESSAGES, LENT(space), LENT(candidates)),
    ASK("element, messages", nbiot_element, MESSAGES, LENT(down),
        N(20), N(1), N(2), N(7), LENT(bits), ANSWER, LENT(pair)),
    ASK("fill, messages", nbiot_fill, MESSAGES, LENT(down), N(20), LENT(bits), LENT(output)),
    ASK("forward npbch, messages", nbiot_forward_npbch, MESSAGES, N(5000), ANSWER),
    ASK("forward sib1, messages", nbiot_forward_sib1, MESSAGES, N(5000), ANSWER),
    ASK("backward npbch, messages", nbiot_backward_npbch, MESSAGES, N(1100), N(1), N(2), N(7), ANSWER),
    ASK("backward sib1, messages", nbiot_backward_sib1, MESSAGES, N(1124), N(1), N(2), N(7), ANSWER),
};

/* Calls it at level 1 on the painted stack: arguments past the sixth there, the rest in registers. */
static uint64_t call_there(const struct call *c) {
    const size_t more = c->many > REGISTERS ? c->many - REGISTERS : 0;
    const void **sp = (const void **)(void *)(stack + STACK) - (more + more % 2); /* a multiple of 16 at the call */
    const void *rdi = c->arguments[0], *rsi = c->arguments[1], *rdx = c->arguments[2], *rcx = c->arguments[3];
    register const void *r8 __asm__("r8") = c->arguments[4];
    register const void *r9 __asm__("r9") = c->arguments[5];
    register float level __asm__("xmm0") = 1.0f;
    uint64_t number;
    if (more) memcpy(sp, c->arguments + REGISTERS, more * sizeof *sp);
    __asm__ volatile("movq %%rsp, %%rbx\n\tmovq %[sp], %%rsp\n\tcall *%[function]\n\tmovq %%rbx, %%rsp"
                     : "=a"(number), "+D"(rdi), "+S"(rsi), "+d"(rdx), "+c"(rcx), "+r"(r8), "+r"(r9), "+x"(level)
                     : [sp] "r"(sp), [function] "r"(c->function)
                     : "rbx", "r10", "r11", "xmm1", "xmm2", "xmm3", "xmm4", "xmm5", "xmm6", "xmm7", "xmm8", "xmm9",
                       "xmm10", "xmm11", "xmm12", "xmm13", "xmm14", "xmm15", "cc", "memory");
    return number;
}

/* The bytes of a stack painted with a pattern that a call writes over. */
static size_t written(const struct call *c, unsigned char pattern, uint64_t *number) {
    size_t untouched = 0;
    memset(stack, pattern, STACK);
    *number = call_there(c);
    while (untouched < STACK && stack[untouched] == pattern) untouched++;
    return STACK - untouched;
}

int main(void) {
    printf("| question | refusal | stack, bytes |\n|---|---|---|\n");
    for (size_t i = 0; i < sizeof calls / sizeof *calls; i++) {
        uint64_t number;
        call_there(&calls[i]); /* once before, so that a function taken from elsewhere has been looked up */
        /* by two patterns: a byte that is written may be like the one of one pattern */
        size_t one = written(&calls[i], 0xa5, &number), two = written(&calls[i], 0x5a, &number);
        printf("| %s | %llu | %zu |\n", calls[i].name, (unsigned long long)number, one > two ? one : two);
    }
    return 0;
}
