/*
 * The functions of the ledger at lengths of every kind. Text and book end where a page begins that no one may touch, so a read or a write past a length ends this
 * program; what lies before them, and what may not change, is compared. The expected answers are worked out from the change request.
 */
#define _DEFAULT_SOURCE
#include <stdio.h>
#include <stdlib.h>
#include <string.h>
#include <sys/mman.h>
#include <unistd.h>

#include "floor.h"

enum { TEXT_BYTES = 8192, RECORDS = 100 };

static uint8_t *text_end, *book_end; /* the first byte that no one may touch */
static uint8_t text_before[TEXT_BYTES], book_before[RECORDS * sizeof(floor_record)];
static int tests, faults;

static uint8_t *lend(size_t bytes) {
    size_t page = (size_t)sysconf(_SC_PAGESIZE), size = (bytes + page) / page * page;
    uint8_t *at = mmap(NULL, size + page, PROT_READ | PROT_WRITE, MAP_PRIVATE | MAP_ANONYMOUS, -1, 0);
    if (at == MAP_FAILED || mprotect(at + size, page, PROT_NONE) != 0) {
        perror("ledgers");
        exit(2);
    }
    return at + size;
}

/* Everything has a pattern, and the text its bytes; both are kept to be compared. */
static void prepare(const char *text, size_t bytes) {
    tests++;
    for (size_t i = 0; i < TEXT_BYTES; i++) {
        text_end[-1 - (ptrdiff_t)i] = (uint8_t)(37 * i + 5);
    }
    for (size_t i = 0; i < sizeof book_before; i++) {
        book_end[-1 - (ptrdiff_t)i] = (uint8_t)(41 * i + 7);
    }
    memcpy(text_end - bytes, text, bytes);
}

static void keep(void) {
    memcpy(text_before, text_end - sizeof text_before, sizeof text_before);
    memcpy(book_before, book_end - sizeof book_before, sizeof book_before);
}

static void check(const char *title, int right, const char *what) {
    if (!right) {
        printf("%s: %s\n", title, what);
        faults++;
    }
}

/* Whether text and book are as they were, but for so many bytes from the start of each. */
static void check_kept(const char *title, size_t text_bytes, size_t text_changed, size_t book_bytes, size_t book_changed) {
    const uint8_t *text = text_end - sizeof text_before, *book = book_end - sizeof book_before;
    size_t text_at = sizeof text_before - text_bytes, book_at = sizeof book_before - book_bytes;
    check(title, memcmp(text, text_before, text_at) == 0, "a byte before the text changed");
    check(title, memcmp(text + text_at + text_changed, text_before + text_at + text_changed, text_bytes - text_changed) == 0, "a byte of the text changed that should not");
    check(title, memcmp(book, book_before, book_at) == 0, "a byte before the book changed");
    check(title, memcmp(book + book_at + book_changed, book_before + book_at + book_changed, book_bytes - book_changed) == 0, "a record changed that should not");
}

static floor_record *book_of(size_t records) { return (floor_record *)(void *)(book_end - records * sizeof(floor_record)); }

/* `there` records stand at the end of the page, and `records` is the length that is given. */
static void read_as(const char *title, const char *text, size_t bytes, size_t there, size_t records, uint32_t answer, size_t count) {
    prepare(text, bytes);
    keep();
    floor_ledger_reply reply = floor_read_ledger(text_end - bytes, bytes, book_of(there), records);
    if (reply.answer != answer || reply.count != count) {
        printf("%s, %zu bytes: answer %u, count %zu\n", title, bytes, reply.answer, reply.count);
        faults++;
    }
    check_kept(title, bytes, 0, there * sizeof(floor_record), count * sizeof(floor_record));
}

static const char three[] = "socket,place,time\r\n1,a,2\r\n30,\"b,\"\"c\",4\r\n5,d,6\r\n";

/* What its first n bytes are read as, for each n: h a bad header, q bad quoting, f a wrong field count, n a bad number, a digit so many records. */
static const char prefixes[] = "hhhhhhhhhhhhhhhhh0h0fffn1q1fffqqqfqqfn2q2fffn3q3";

static void readings(void) {
    for (size_t bytes = 0; bytes < sizeof three; bytes++) {
        char told = prefixes[bytes];
        size_t count = told >= '0' && told <= '9' ? (size_t)(told - '0') : 0;
        uint32_t answer = told == 'h'   ? FLOOR_LEDGER_BAD_HEADER
                          : told == 'q' ? FLOOR_LEDGER_BAD_QUOTING
                          : told == 'f' ? FLOOR_LEDGER_FIELD_COUNT
                          : told == 'n' ? FLOOR_LEDGER_BAD_NUMBER
                                        : FLOOR_LEDGER_DONE;
        read_as("the first bytes", three, bytes, 3, 3, answer, count);
        int many = answer == FLOOR_LEDGER_DONE && count > 2;
        read_as("the first bytes, two records", three, bytes, 2, 2, many ? FLOOR_LEDGER_TOO_MANY : answer, many ? 0 : count);
    }
    size_t bytes = sizeof three - 1;
    read_as("three records of three", three, bytes, 3, 3, FLOOR_LEDGER_DONE, 3);
    static const floor_record last = {.number = 5, .place = "d", .length = 1, .time = 6};
    static const floor_record middle = {.number = 30, .place = "b,\"c", .length = 4, .time = 4};
    const floor_record *book = book_of(3);
    check("three records of three", book[1].number == middle.number && memcmp(book[1].place, middle.place, sizeof middle.place) == 0 && book[1].length == middle.length && book[1].time == middle.time, "another second record");
    check("three records of three", book[2].number == last.number && memcmp(book[2].place, last.place, sizeof last.place) == 0 && book[2].length == last.length && book[2].time == last.time, "another last record");
    read_as("no record is lent", three, bytes, 0, 0, FLOOR_LEDGER_TOO_MANY, 0);
    read_as("no record is lent, and none is read", three, 19, 0, 0, FLOOR_LEDGER_DONE, 0);
    /* of the records that are said to be lent only 64 are there */
    static char many[TEXT_BYTES];
    size_t at = (size_t)sprintf(many, "socket,place,time\r\n");
    for (int i = 0; i < 64; i++) {
        at += (size_t)sprintf(many + at, "%d,a,2\r\n", i);
    }
    static const size_t lengths[] = {64, 65, 101, (size_t)1 << 32, (size_t)1 << 61, (size_t)1 << 63, SIZE_MAX};
    for (size_t i = 0; i < sizeof lengths / sizeof lengths[0]; i++) {
        read_as("64 records", many, at, 64, lengths[i], FLOOR_LEDGER_DONE, 64);
    }
    at += (size_t)sprintf(many + at, "64,a,2\r\n");
    for (size_t i = 0; i < sizeof lengths / sizeof lengths[0]; i++) {
        read_as("65 records", many, at, 64, lengths[i], FLOOR_LEDGER_TOO_MANY, 0);
    }
    at += (size_t)sprintf(many + at, "0,a,2");
    read_as("66 records, the last of the first's socket", many, at, 64, SIZE_MAX, FLOOR_LEDGER_SOCKET_TWICE, 0);
}

/* `there` records of sockets 1, 2, .. with places of one byte stand at the end of the page. */
static void write_as(const char *title, size_t there, size_t records, size_t count, size_t bytes, uint32_t answer, const char *text) {
    prepare("", 0);
    floor_record *book = book_of(there);
    for (size_t i = 0; i < there && i < count; i++) {
        book[i].number = (uint32_t)i + 1;
        book[i].place[0] = i == 1 ? '"' : 'a';
        book[i].length = 1;
        book[i].time = 2;
    }
    keep();
    floor_ledger_reply reply = floor_write_ledger(book, records, count, text_end - bytes, bytes);
    size_t written = answer == FLOOR_LEDGER_DONE ? strlen(text) : 0;
    if (reply.answer != answer || reply.count != written) {
        printf("%s, %zu bytes: answer %u, count %zu\n", title, bytes, reply.answer, reply.count);
        faults++;
    }
    check(title, memcmp(text_end - bytes, text, written) == 0, "another text");
    check_kept(title, bytes, written, there * sizeof(floor_record), 0);
}

static void writings(void) {
    static const char empty[] = "socket,place,time\r\n", two[] = "socket,place,time\r\n1,a,2\r\n2,\"\"\"\",2\r\n";
    for (size_t bytes = 0; bytes < sizeof two + 2; bytes++) {
        write_as("two records", 2, 2, 2, bytes, bytes < sizeof two - 1 ? FLOOR_LEDGER_TOO_SHORT : FLOOR_LEDGER_DONE, two);
        write_as("no record", 2, 2, 0, bytes, bytes < sizeof empty - 1 ? FLOOR_LEDGER_TOO_SHORT : FLOOR_LEDGER_DONE, empty);
        write_as("no record is lent", 0, 0, 0, bytes, bytes < sizeof empty - 1 ? FLOOR_LEDGER_TOO_SHORT : FLOOR_LEDGER_DONE, empty);
    }
    write_as("a count past the records", 2, 2, 3, 99, FLOOR_LEDGER_BOOK_MALFORMED, "");
    write_as("a count past the records, no text", 0, 0, 1, 0, FLOOR_LEDGER_BOOK_MALFORMED, "");
    /* of the records that are said to be lent only two or 64 are there */
    static const size_t huge[] = {101, (size_t)1 << 32, (size_t)1 << 61, (size_t)1 << 63, SIZE_MAX};
    static char many[TEXT_BYTES];
    size_t at = (size_t)sprintf(many, "%s", two);
    for (int i = 3; i <= 64; i++) {
        at += (size_t)sprintf(many + at, "%d,a,2\r\n", i);
    }
    for (size_t i = 0; i < sizeof huge / sizeof huge[0]; i++) {
        write_as("a huge book, two records", 2, huge[i], 2, 60, FLOOR_LEDGER_DONE, two);
        write_as("a huge book, 64 records", 64, huge[i], 64, FLOOR_LEDGER_BYTES(64u), FLOOR_LEDGER_DONE, many);
        write_as("a huge book, 65 records", 64, huge[i], 65, FLOOR_LEDGER_BYTES(64u), FLOOR_LEDGER_BOOK_MALFORMED, "");
        write_as("a huge count", 64, huge[i], huge[i], FLOOR_LEDGER_BYTES(64u), FLOOR_LEDGER_BOOK_MALFORMED, "");
    }
    write_as("64 records in exactly their bytes", 64, 64, 64, at, FLOOR_LEDGER_DONE, many);
    write_as("64 records in a byte less", 64, 64, 64, at - 1, FLOOR_LEDGER_TOO_SHORT, "");
}

int main(void) {
    text_end = lend(TEXT_BYTES);
    book_end = lend(sizeof book_before);
    readings();
    writings();
    printf("%d ledgers, %d faults\n", tests, faults);
    return faults != 0;
}
