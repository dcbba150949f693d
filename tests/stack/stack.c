/* How much stack each exported function takes: it runs on a stack of its own whose bytes are painted before, and those that are no
 * longer paint are counted. Two books: one of one rule, and 64 chains in a row, each called under a match of 16 levels. */
#include <stdio.h>
#include <stdlib.h>
#include <string.h>
#include <ucontext.h>
#include "tannenlaut.h"

#define STACK (1u << 20)
#define SAID (192u * 1024) /* what include/tannenlaut.h says that a call takes at most */
#define PAINT 0xA5

static uint8_t deep[65535];
static const uint8_t small[] = {1, 1, 1, 1, 0, 0};
static const uint8_t plan[] = {1, 1, 0, 0};
static const uint8_t answers[TANNENLAUT_ANSWERS];
static const uint32_t packet[TANNENLAUT_PACKET];
static uint32_t words[1 << 16], state[TANNENLAUT_STATE], answer[TANNENLAUT_ANSWER];
static uint8_t text[8192];

static const uint8_t *book;
static size_t bytes;
static uint32_t listed;

static void check(void) { tannenlaut_check(book, bytes, answer); }
static void rule(void) { tannenlaut_rule(book, bytes, 0, answer); }
static void unfold(void) { tannenlaut_unfold(book, bytes, words, 1 << 16, answer); }
static void chains(void) { tannenlaut_chain_verdict(book, bytes, answers, sizeof answers, packet, answer); }
static void list(void) { tannenlaut_list_verdict(book, bytes, answers, sizeof answers, packet, words, 1 << 16, answer); }
static void closure(void) { tannenlaut_closure(book, bytes, 1, packet, words, 1 << 16, answer); }
static void review(void) { tannenlaut_review(book, bytes, plan, sizeof plan, 0, words, 1 << 16, answer); }
static void start(void) { tannenlaut_start(book, bytes, plan, sizeof plan, 0, words, 1 << 16, state, answer); }
static void step(void) { tannenlaut_step(book, bytes, words, listed, state, answer); }
static void report(void) { tannenlaut_report(book, bytes, plan, sizeof plan, words, 1 << 16, text, sizeof text, answer); }

/* 64 chains, each of one rule that calls the next; the last accepts. Each match has 15 levels of 16 operands, the last of which is the
 * next level, so that a reader that kept a frame for each operand would show it. */
static size_t nested(void) {
    size_t n = 0;
    deep[n++] = 1, deep[n++] = 64, deep[n++] = 1;
    for (unsigned chain = 0; chain < 64; chain++) {
        deep[n++] = 1;
        deep[n++] = chain < 63 ? 6 : 0;
        if (chain < 63) deep[n++] = (uint8_t)(chain + 1);
        for (int level = 1; level <= 15; level++) {
            deep[n++] = 2, deep[n++] = 16;
            for (int operand = 1; operand <= 15; operand++) deep[n++] = 0;
        }
        deep[n++] = 0;
    }
    return n;
}

static size_t taken(void (*call)(void)) {
    static ucontext_t here, there;
    uint8_t *stack = malloc(STACK);
    if (!stack) exit(2);
    memset(stack, PAINT, STACK);
    getcontext(&there);
    there.uc_stack.ss_sp = stack;
    there.uc_stack.ss_size = STACK;
    there.uc_link = &here;
    makecontext(&there, call, 0);
    swapcontext(&here, &there);
    size_t clean = 0;
    while (clean < STACK && stack[clean] == PAINT) clean++;
    free(stack);
    return STACK - clean;
}

int main(void) {
    static const struct { const char *name; void (*call)(void); } calls[] = {
        {"check", check}, {"rule", rule}, {"unfold", unfold}, {"chain_verdict", chains}, {"list_verdict", list},
        {"closure", closure}, {"review", review}, {"start", start}, {"step", step}, {"report", report},
    };
    size_t most = 0;
    for (int pass = 0; pass < 2; pass++) {
        book = pass ? deep : small;
        bytes = pass ? nested() : sizeof small;
        printf("%zu bytes\n", bytes);
        for (size_t i = 0; i < sizeof calls / sizeof *calls; i++) {
            size_t used = taken(calls[i].call);
            printf("  %-14s %7zu bytes of stack\n", calls[i].name, used);
            if (answer[0] != 0) return printf("refused with %u at %u\n", answer[0], answer[1]), 1;
            if (calls[i].call == start) listed = answer[2];
            if (used > most) most = used;
        }
    }
    printf("at most %zu, of %u that the header names\n", most, SAID);
    return most <= SAID ? 0 : 1;
}
