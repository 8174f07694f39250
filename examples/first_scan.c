#include <stdio.h>
#include <string.h>
#include "floor.h"

static uint32_t stack[FLOO_STACK_WORDS(32)], execution[FLOO_EXECUTION_WORDS(16)], dictionary[FLOO_DICTIONARY_WORDS(80)], cells[FLOO_CELL_WORDS(256)];
static uint8_t script[FLOO_SCRIPT_BYTES_MAX + 1], log_bytes[256], outcome[FLOO_OUTCOME_BYTES(32)];
static floor_record book[FLOOR_RECORDS_MAX];

int main(int argc, char **argv) { /* first_scan SCRIPT LABEL .. */
    FILE *file = argc > 1 ? fopen(argv[1], "rb") : NULL;
    size_t count = 0, bytes = file != NULL ? fread(script, 1, sizeof script, file) : 0;
    for (int i = 2; i < argc; i++) {
        floor_reply reply = floor_scan(script, bytes, 20000, (const uint8_t *)argv[i], strlen(argv[i]), stack, FLOO_STACK_WORDS(32), execution,
                                       FLOO_EXECUTION_WORDS(16), dictionary, FLOO_DICTIONARY_WORDS(80), cells, FLOO_CELL_WORDS(256), log_bytes,
                                       sizeof log_bytes, outcome, sizeof outcome, book, FLOOR_RECORDS_MAX, count);
        const floor_record *seen = &book[reply.at];
        count = reply.count; /* of the book, for the next scan */
        if (reply.answer == FLOOR_ADDED || reply.answer == FLOOR_REPLACED)
            printf("socket %u at %.*s since %u\n", seen->number, (int)seen->length, (const char *)seen->place, seen->time);
        else
            printf("not entered: answer %u\n", reply.answer);
    }
}
