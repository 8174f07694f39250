/*
 * A handheld's book of sockets: each label that is scanned is taken apart by the script of examples/scan.floo, and what it says goes into the book unless it comes
 * too late. A label is SOCKET:PLACE:TIME. `scan SCRIPT [LABEL ..]` prints the answer to each label, and the book. embed/run_c.sh builds and runs it.
 */
#include <stdio.h>
#include <string.h>

#include "floor.h"

/* What the handheld keeps for its scans. */
enum { STACK = 32, EXECUTION = 16, DICTIONARY = 80, CELLS = 256, LOG = 256, FUEL = 20000 };

static uint32_t stack[FLOO_STACK_WORDS(STACK)];
static uint32_t execution[FLOO_EXECUTION_WORDS(EXECUTION)];
static uint32_t dictionary[FLOO_DICTIONARY_WORDS(DICTIONARY)];
static uint32_t cells[FLOO_CELL_WORDS(CELLS)];
static uint8_t log_bytes[LOG];
static uint8_t outcome[FLOO_OUTCOME_BYTES(STACK)];

/* What it knows, from scan to scan. */
static floor_record book[FLOOR_RECORDS_MAX];
static size_t count;

static uint8_t script[FLOO_SCRIPT_BYTES_MAX + 1];
static size_t script_bytes;

static void print_record(const floor_record *record) {
    printf("socket %u at %.*s since %u", record->number, (int)record->length, (const char *)record->place, record->time);
}

static void scan(const char *label) {
    floor_reply reply = floor_scan(script, script_bytes, FUEL, (const uint8_t *)label, strlen(label),
                                   stack, FLOO_STACK_WORDS(STACK), execution, FLOO_EXECUTION_WORDS(EXECUTION),
                                   dictionary, FLOO_DICTIONARY_WORDS(DICTIONARY), cells, FLOO_CELL_WORDS(CELLS),
                                   log_bytes, LOG, outcome, sizeof outcome, book, FLOOR_RECORDS_MAX, count);
    count = reply.count;
    printf("%s -> ", label);
    switch (reply.answer) {
    case FLOOR_ADDED:
        printf("new: ");
        print_record(&book[reply.at]);
        break;
    case FLOOR_REPLACED:
        printf("moved: ");
        print_record(&book[reply.at]);
        break;
    case FLOOR_LATE:
        printf("late, the book stays");
        break;
    case FLOOR_NO_ROOM:
        printf("no room for a new socket");
        break;
    case FLOOR_NOT_FINISHED:
    case FLOOR_BAD_STACK:
        printf("not a label");
        break;
    case FLOOR_REFUSED:
        printf("refused, number %u", reply.refused);
        break;
    default: /* of the book or of the room for the label */
        printf("refused, answer %u", reply.answer);
    }
    printf("\n");
}

int main(int argc, char **argv) {
    /* The fourth was scanned offline before the socket went to the tester, and synced late; the fifth was synced twice. */
    static const char *const labels[] = {
        "0417:rack B-7:1731690000",  "0388:drawer 12:1731690412", "0417:tester 3:1731693600", "0417:shelf A-2:1731691800",
        "0388:drawer 12:1731690412", "0417",                      "0502::1731694000",         "0502:rack C-1:1731694000"};
    FILE *file = argc > 1 ? fopen(argv[1], "rb") : NULL;
    if (file == NULL) {
        fprintf(stderr, "usage: scan SCRIPT [LABEL ..]\n");
        return 2;
    }
    script_bytes = fread(script, 1, sizeof script, file);
    fclose(file);
    for (int i = 2; i < argc; i++) {
        scan(argv[i]);
    }
    for (size_t i = 0; argc == 2 && i < sizeof labels / sizeof labels[0]; i++) {
        scan(labels[i]);
    }
    printf("the book:\n");
    for (size_t i = 0; i < count; i++) {
        print_record(&book[i]);
        printf("\n");
    }
    return 0;
}
