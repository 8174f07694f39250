/*
 * The buying office's ledger on a handheld: `ledger FILE` reads the ledger in the file into the book, prints the book, and writes it back as a ledger. A file that
 * is not a ledger leaves the book as it is. embed/run_c.sh builds and runs it on examples/ledger.csv.
 */
#include <stdio.h>
#include <string.h>

#include "floor.h"

/* What the handheld knows before the file comes. */
static floor_record book[FLOOR_RECORDS_MAX] = {{.number = 417, .place = "rack B-7", .length = 8, .time = 1731690000}};
static size_t count = 1;

/* The file may have needless quotes and zeros, and what is too long for this is no ledger of ours. */
static uint8_t file_bytes[4 * FLOOR_LEDGER_BYTES(FLOOR_RECORDS_MAX)];
static uint8_t ledger[FLOOR_LEDGER_BYTES(FLOOR_RECORDS_MAX)];

static const char *words(uint32_t answer) {
    switch (answer) {
    case FLOOR_LEDGER_BOOK_MALFORMED:
        return "book malformed";
    case FLOOR_LEDGER_BAD_HEADER:
        return "bad header";
    case FLOOR_LEDGER_BAD_QUOTING:
        return "bad quoting";
    case FLOOR_LEDGER_FIELD_COUNT:
        return "wrong field count";
    case FLOOR_LEDGER_BAD_NUMBER:
        return "bad number";
    case FLOOR_LEDGER_BAD_PLACE:
        return "place not 1 to 31 bytes";
    case FLOOR_LEDGER_SOCKET_TWICE:
        return "socket twice";
    case FLOOR_LEDGER_TOO_MANY:
        return "more records than room";
    case FLOOR_LEDGER_TOO_SHORT:
        return "lent text too short";
    default:
        return "done";
    }
}

static void print_book(void) {
    for (size_t i = 0; i < count; i++) {
        printf("socket %u at %.*s since %u\n", book[i].number, (int)book[i].length, (const char *)book[i].place, book[i].time);
    }
}

int main(int argc, char **argv) {
    FILE *file = argc == 2 ? fopen(argv[1], "rb") : NULL;
    if (file == NULL) {
        fprintf(stderr, "usage: ledger FILE\n");
        return 2;
    }
    size_t bytes = fread(file_bytes, 1, sizeof file_bytes, file);
    fclose(file);
    printf("before:\n");
    print_book();
    floor_ledger_reply reply = floor_read_ledger(file_bytes, bytes, book, FLOOR_RECORDS_MAX);
    if (reply.answer == FLOOR_LEDGER_DONE) {
        count = reply.count;
    }
    printf("%s, %s\n", argv[1], words(reply.answer));
    print_book();
    reply = floor_write_ledger(book, FLOOR_RECORDS_MAX, count, ledger, sizeof ledger);
    printf("written back, %s:\n", words(reply.answer));
    fwrite(ledger, 1, reply.count, stdout);
    return 0;
}
