/* Runs a Forf script three times with one memory: what a run stores, the next one finds. */
#include <stdio.h>
#include "forf.h"

static uint8_t script[FORF_SCRIPT_BYTES_MAX + 1];
static uint32_t stack[FORF_STACK_WORDS(32)], execution[FORF_EXECUTION_WORDS(16)];
static uint8_t outcome[FORF_OUTCOME_BYTES(32)];

int main(int count, char **words) {
    uint32_t memory[FORF_MEMORY_SLOTS] = {0, 3};
    FILE *file = count == 2 ? fopen(words[1], "rb") : NULL;
    if (file == NULL) {
        fputs("usage: display SCRIPT\n", stderr);
        return 2;
    }
    size_t size = fread(script, 1, sizeof script, file);
    fclose(file);
    for (int scan = 1; scan <= 3; scan++) {
        forf_reply reply = forf_run(script, size, 1000, stack, FORF_STACK_WORDS(32), execution, FORF_EXECUTION_WORDS(16), memory, FORF_MEMORY_SLOTS,
                                    outcome, sizeof outcome);
        if (reply.refused != 0 || reply.memory != 0) {
            printf("refused: %u\n", reply.refused);
            return 1;
        }
        printf("scan %d: %u steps, the display shows %u\n", scan, reply.steps, memory[0]);
        fwrite(outcome, 1, reply.outcome, stdout);
    }
    return 0;
}
