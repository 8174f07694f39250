/* Tries forf_run and forf_token at lengths of every kind: what is refused, and that a refusal changes no lent word or byte. */
#include <stdio.h>
#include <string.h>
#include "forf.h"

static uint8_t script[FORF_SCRIPT_BYTES_MAX + 1];
static uint32_t stack[FORF_STACK_WORDS(257)], execution[FORF_EXECUTION_WORDS(129)], memory[33];
static uint8_t outcome[FORF_OUTCOME_BYTES(257)];
static int wrong;

static void fill(void) {
    memset(stack, 0xA5, sizeof stack);
    memset(execution, 0xA5, sizeof execution);
    memset(memory, 0xA5, sizeof memory);
    memset(outcome, 0xA5, sizeof outcome);
}

static int untouched(const void *part, size_t bytes) {
    const uint8_t *at = part;
    for (size_t i = 0; i < bytes; i++)
        if (at[i] != 0xA5) return 0;
    return 1;
}

static void refuse(uint32_t number, uint32_t named, size_t size, uint32_t fuel, size_t words, size_t slots, size_t lent, size_t bytes) {
    fill();
    forf_reply r = forf_run(script, size, fuel, stack, words, execution, slots, memory, lent, outcome, bytes);
    if (r.refused != number || r.memory != named || r.steps != 0 || r.outcome != 0 || !untouched(stack, sizeof stack) || !untouched(execution, sizeof execution)
        || !untouched(memory, sizeof memory) || !untouched(outcome, sizeof outcome)) {
        printf("wrong: %u and %u for %u and %u\n", r.refused, r.memory, number, named);
        wrong = 1;
    }
}

int main(void) {
    memset(script, ' ', sizeof script);
    size_t out = FORF_OUTCOME_BYTES(8);
    refuse(1, 0, FORF_SCRIPT_BYTES_MAX + 1, FORF_FUEL_MAX + 1, 0, 0, 0, 0);
    refuse(3, 0, 5, FORF_FUEL_MAX + 1, 0, 0, 0, 0);
    refuse(4, 0, 5, FORF_FUEL_MAX, 15, 31, 31, 0);
    refuse(4, 0, 5, 0, 514, 31, 31, 0);
    refuse(5, 0, 5, 0, 16, 31, 31, 0);
    refuse(5, 0, 5, 0, 513, 1032, 31, 0);
    refuse(9, 0, 5, 0, 17, 39, 31, out - 1);
    refuse(0, 1, 5, 0, 17, 39, 31, out);
    refuse(0, 1, 5, 0, 16, 32, 33, out);
    refuse(0, 1, 5, 0, 16, 32, 0, out);
    /* with words past whole slots, which are never written */
    fill();
    memset(memory, 0, sizeof memory);
    memory[32] = 9;
    memcpy(script, "1 { 7 31 mset 8 } if", 20);
    forf_reply r = forf_run(script, 20, 100, stack, 17, execution, 39, memory, 32, outcome, out);
    const char *lines = "ending=finished\nerror=none\ncommand=\nat=20\nsteps=9\ndepth=1\nitem=integer:8\n";
    if (r.refused != 0 || r.memory != 0 || r.steps != 9 || r.outcome != strlen(lines) || memcmp(outcome, lines, r.outcome) != 0 || memory[31] != 7 || memory[32] != 9
        || !untouched(stack + 16, sizeof stack - 64) || !untouched(execution + 32, sizeof execution - 128) || !untouched(outcome + r.outcome, sizeof outcome - r.outcome)) {
        puts("wrong: the run");
        wrong = 1;
    }
    forf_token_reply t = forf_token(script, 20, 2);
    if (t.kind != FORF_OPEN_BRACE || t.start != 2 || t.size != 1 || t.next != 3) { puts("wrong: the brace"); wrong = 1; }
    t = forf_token(script, 20, 21);
    if (t.refused != 10 || t.next != 21 || t.size != 0) { puts("wrong: past the end"); wrong = 1; }
    t = forf_token((const uint8_t *)"08", 2, 0);
    if (t.fault != 1 || t.kind != 0 || t.next != 0) { puts("wrong: the fault"); wrong = 1; }
    puts(wrong ? "displays: wrong" : "displays: as they should be");
    return wrong;
}
