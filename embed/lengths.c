/*
 * The exported functions at lengths of every kind, and lines and columns. Each buffer ends where a page begins that no one may touch, so a read or a write
 * past a length ends this program; what lies before a buffer, and what a run or a scan may not change, is compared. The expected numbers are those of the table
 * of refusals, and the answers to scans and the faults of tokens those of the change requests.
 */
#define _DEFAULT_SOURCE
#include <stdio.h>
#include <stdlib.h>
#include <string.h>
#include <sys/mman.h>
#include <unistd.h>

#include "floo.h"
#include "floor.h"

/* The buffers of floo_run, and after them those that floor_scan has more. */
enum { SCRIPT, STACK, EXECUTION, DICTIONARY, CELLS, LOG, OUTCOME, RUN_BUFFERS, LABEL = RUN_BUFFERS, BOOK, BUFFERS };

/* Bytes of an element, and how long each buffer can be. */
static const size_t width[BUFFERS] = {1, 4, 4, 4, 4, 1, 1, 1, sizeof(floor_record)};
static const size_t most[BUFFERS] = {FLOO_SCRIPT_BYTES_MAX + 1, FLOO_STACK_WORDS(258), FLOO_EXECUTION_WORDS(130), FLOO_DICTIONARY_WORDS(514),
                                     FLOO_CELL_WORDS(32770), FLOO_LOG_BYTES_MAX + 1, FLOO_OUTCOME_BYTES(258), FLOOR_LABEL_BYTES_MAX + 1, 100};

static uint8_t *page_end[BUFFERS]; /* the first byte that no one may touch */
static int tests, faults;

static void fail(const char *what, const char *title) {
    printf("%s: %s\n", title, what);
    faults++;
}

static void lend(int k) {
    size_t page = (size_t)sysconf(_SC_PAGESIZE), size = (most[k] * width[k] + page) / page * page;
    uint8_t *at = mmap(NULL, size + page, PROT_READ | PROT_WRITE, MAP_PRIVATE | MAP_ANONYMOUS, -1, 0);
    if (at == MAP_FAILED || mprotect(at + size, page, PROT_NONE) != 0) {
        perror("lengths");
        exit(2);
    }
    page_end[k] = at + size;
}

static uint8_t pattern(int k, size_t i) { return (uint8_t)(37 * i + 11 * (size_t)k + 5); }

/* Where the buffer of so many elements stands. A length that is too long for the space is given with a buffer of no elements. */
static uint8_t *buffer(int k, size_t length) { return page_end[k] - (length <= most[k] ? length * width[k] : 0); }

/* Whether the last bytes before the untouchable page, from `from` bytes before it to `to` bytes before it, are as they were. */
static int same(int k, size_t from, size_t to) {
    for (size_t i = to; i < from; i++) {
        if (page_end[k][-1 - (ptrdiff_t)i] != pattern(k, i)) {
            return 0;
        }
    }
    return 1;
}

/* The text, with blanks up to the length, in the script's buffer. */
static void write_script(const char *script, size_t length) {
    if (length <= most[SCRIPT]) {
        memset(buffer(SCRIPT, length), ' ', length);
        memcpy(buffer(SCRIPT, length), script, strlen(script) < length ? strlen(script) : length);
    }
}

/* Every buffer has its pattern, and the script its text; where the buffers stand. `length` is in elements. */
static void prepare(const char *script, const size_t length[], int buffers, uint8_t *b[]) {
    tests++;
    for (int k = 0; k < buffers; k++) {
        for (size_t i = 0; i < most[k] * width[k]; i++) {
            page_end[k][-1 - (ptrdiff_t)i] = pattern(k, i);
        }
        b[k] = buffer(k, length[k]);
    }
    write_script(script, length[SCRIPT]);
}

/* Whether only what a run may write has changed: whole slots, and of log and outcome as many bytes as it counts. Nothing, if none was made. */
static void check_run(const char *title, const size_t length[], uint8_t *const b[], int made, size_t log, size_t outcome) {
    /* How many bytes from the start of each buffer may have changed. */
    size_t slot[RUN_BUFFERS] = {0, 8, 32, 48, 16, 1, 1}, free_to[RUN_BUFFERS] = {0};
    if (made) {
        for (int k = STACK; k < LOG; k++) {
            free_to[k] = length[k] * width[k] / slot[k] * slot[k];
        }
        free_to[LOG] = log;
        free_to[OUTCOME] = outcome;
    }
    for (int k = STACK; k < RUN_BUFFERS; k++) {
        size_t whole = most[k] * width[k], lent = (size_t)(page_end[k] - b[k]);
        if (!same(k, whole, lent) || !same(k, lent - free_to[k], 0)) {
            fail("a byte changed that should not", title);
        }
    }
}

/* One run. `length` is in elements. */
static void call(const char *title, const char *script, uint32_t fuel, const size_t length[RUN_BUFFERS], uint32_t refused, const char *gives) {
    uint8_t *b[RUN_BUFFERS];
    prepare(script, length, RUN_BUFFERS, b);
    floo_reply r = floo_run(b[SCRIPT], length[SCRIPT], fuel, (uint32_t *)b[STACK], length[STACK], (uint32_t *)b[EXECUTION], length[EXECUTION],
                            (uint32_t *)b[DICTIONARY], length[DICTIONARY], (uint32_t *)b[CELLS], length[CELLS], b[LOG], length[LOG], b[OUTCOME],
                            length[OUTCOME]);
    if (r.refused != refused) {
        printf("%s: refused %u and not %u\n", title, r.refused, refused);
        faults++;
    }
    if (refused == 0) {
        if (r.steps > fuel || r.log > length[LOG] || r.outcome > length[OUTCOME]) {
            fail("a count is too large", title);
        }
        if (gives != NULL && (r.outcome != strlen(gives) || memcmp(b[OUTCOME], gives, r.outcome) != 0)) {
            fail("another outcome", title);
        }
    } else if (r.steps != 0 || r.log != 0 || r.outcome != 0) {
        fail("a refusal with counts", title);
    }
    check_run(title, length, b, refused == 0, r.log, r.outcome);
}

static const char hello[] = "#FLOO\n5 /two 2 def two add echo 7\n";
static const char hello_outcome[] =
    "ending=finished\nerror=none\ncommand=\nat=34\nwhere=\nsteps=12\ndepth=1\nheld=0\nlog=2\nitem=integer:7\n";

static void with(const char *title, int k, size_t length, uint32_t refused, const char *gives) {
    size_t lengths[RUN_BUFFERS] = {sizeof hello - 1, FLOO_STACK_WORDS(8), FLOO_EXECUTION_WORDS(4), FLOO_DICTIONARY_WORDS(FLOO_DICTIONARY_SLOTS_MIN + 2),
                                   FLOO_CELL_WORDS(1), 2, FLOO_OUTCOME_BYTES(8)};
    lengths[k] = length;
    if (k == STACK && length <= most[k]) {
        lengths[OUTCOME] = FLOO_OUTCOME_BYTES(length / 2);
    }
    call(title, hello, 12, lengths, refused, gives);
}

/* A handler that is an object, and an error that it handles, in a dictionary with one slot for the error's name and none for the command. */
static void handler(void) {
    static const char script[] = "#FLOO\n/undefined [ 1 ] onerror frob\n";
    size_t lengths[RUN_BUFFERS] = {sizeof script - 1, FLOO_STACK_WORDS(8), FLOO_EXECUTION_WORDS(4), FLOO_DICTIONARY_WORDS(FLOO_DICTIONARY_SLOTS_MIN + 1),
                                   FLOO_CELL_WORDS(2), 0, FLOO_OUTCOME_BYTES(8)};
    call("a handler", script, 10, lengths, 0,
         "ending=finished\nerror=none\ncommand=\nat=36\nwhere=\nsteps=10\ndepth=1\nheld=2\nlog=0\nitem=array:1\n");
}

/* Lengths that no buffer has. */
static const size_t huge[] = {(size_t)1 << 31, (size_t)1 << 32, (size_t)1 << 61, (size_t)1 << 62, ((size_t)1 << 62) + 8, (size_t)1 << 63,
                              SIZE_MAX - 1, SIZE_MAX};

/* One reading of a token: the reply, and that no byte of the script changes. */
static void reading(const char *title, const char *script, size_t length, size_t offset, floo_token_reply expected) {
    static uint8_t before[FLOO_SCRIPT_BYTES_MAX + 1];
    size_t lent = length <= most[SCRIPT] ? length : 0;
    tests++;
    write_script(script, length);
    memcpy(before, buffer(SCRIPT, length), lent);
    floo_token_reply r = floo_token(buffer(SCRIPT, length), length, offset);
    if (r.refused != expected.refused || r.fault != expected.fault || r.kind != expected.kind || r.place != expected.place || r.next != expected.next ||
        r.start != expected.start || r.size != expected.size) {
        printf("%s: refused %u, fault %u, kind %u, place %u, next %zu, start %zu, size %zu\n", title, r.refused, r.fault, r.kind, r.place, r.next, r.start,
               r.size);
        faults++;
    }
    if (memcmp(before, buffer(SCRIPT, length), lent) != 0) {
        fail("a reading changed the script", title);
    }
}

static floo_token_reply token(uint32_t kind, size_t next, size_t start, size_t size) {
    return (floo_token_reply){.kind = kind, .next = next, .start = start, .size = size};
}

static floo_token_reply refusal(uint32_t number, size_t offset) { return (floo_token_reply){.refused = number, .next = offset}; }

/* A fault of a token that is read from the script's first byte on. */
static floo_token_reply fault(uint32_t number, uint32_t place) { return (floo_token_reply){.fault = number, .place = place}; }

/* A script that ends with its token or in the midst of it, right before the page that no one may touch. */
static void cut(const char *script, floo_token_reply expected) { reading(script, script, strlen(script), 0, expected); }

static void readings(void) {
    const size_t bytes = sizeof hello - 1, limit = FLOO_SCRIPT_BYTES_MAX;
    reading("the first token", hello, bytes, 0, token(FLOO_INTEGER, 7, 6, 1));
    reading("a literal name", hello, bytes, 7, token(FLOO_LITERAL_NAME, 12, 9, 3));
    reading("the last byte", hello, bytes, bytes - 1, token(FLOO_END, bytes, bytes, 0));
    reading("at the length", hello, bytes, bytes, token(FLOO_END, bytes, bytes, 0));
    reading("one past the length", hello, bytes, bytes + 1, refusal(FLOO_OFFSET_PAST_END, bytes + 1));
    reading("an offset of SIZE_MAX", hello, bytes, SIZE_MAX, refusal(FLOO_OFFSET_PAST_END, SIZE_MAX));
    reading("no bytes", "", 0, 0, token(FLOO_END, 0, 0, 0));
    reading("no bytes, offset 1", "", 0, 1, refusal(FLOO_OFFSET_PAST_END, 1));
    reading("no bytes, offset SIZE_MAX", "", 0, SIZE_MAX, refusal(FLOO_OFFSET_PAST_END, SIZE_MAX));
    reading("a script of 32768", hello, limit, 0, token(FLOO_INTEGER, 7, 6, 1));
    reading("a script of 32768, its end", hello, limit, bytes, token(FLOO_END, limit, limit, 0));
    reading("a script of 32768, at the length", hello, limit, limit, token(FLOO_END, limit, limit, 0));
    reading("a script of 32768, one past", hello, limit, limit + 1, refusal(FLOO_OFFSET_PAST_END, limit + 1));
    reading("a script of 32769", hello, limit + 1, 0, refusal(FLOO_SCRIPT_TOO_LONG, 0));
    reading("a script of 32769, one past", hello, limit + 1, limit + 2, refusal(FLOO_SCRIPT_TOO_LONG, limit + 2));
    cut("#", token(FLOO_END, 1, 1, 0));
    cut("x", token(FLOO_EXECUTABLE_NAME, 1, 0, 1));
    cut("-", token(FLOO_EXECUTABLE_NAME, 1, 0, 1));
    cut("-1", token(FLOO_INTEGER, 2, 0, 2));
    cut("0x", fault(FLOO_BADNUMBER, 2));
    cut("0x1g", fault(FLOO_BADNUMBER, 3));
    cut("5a", fault(FLOO_BADNUMBER, 1));
    cut("4294967296", fault(FLOO_LIMITCHECK, 0));
    cut("/", fault(FLOO_BADBYTE, 1));
    cut("/-5", fault(FLOO_BADBYTE, 2));
    cut(" \x7f", fault(FLOO_BADBYTE, 1));
    cut("/x", token(FLOO_LITERAL_NAME, 2, 1, 1));
    cut("[", token(FLOO_EXECUTABLE_NAME, 1, 0, 1));
    cut("{", token(FLOO_OPEN_BRACE, 1, 0, 1));
    cut("}", token(FLOO_CLOSE_BRACE, 1, 0, 1));
    cut("\"", fault(FLOO_OPENSTRING, 0));
    cut("\"\\", fault(FLOO_OPENSTRING, 0));
    cut("\"\\4", fault(FLOO_BADESCAPE, 2));
    cut("\"\\400\"", fault(FLOO_BADESCAPE, 2));
    cut("\"\\19", fault(FLOO_BADESCAPE, 3));
    cut("\"\\1", fault(FLOO_OPENSTRING, 0));
    cut("\"\\12", fault(FLOO_OPENSTRING, 0));
    cut("\"\\\r", fault(FLOO_OPENSTRING, 0));
    cut("\"\\\r\n", fault(FLOO_OPENSTRING, 0));
    cut("\"\\123\"", token(FLOO_STRING, 6, 1, 4));
    for (size_t i = 0; i < sizeof huge / sizeof huge[0]; i++) {
        reading("a huge length", hello, huge[i], 0, refusal(FLOO_SCRIPT_TOO_LONG, 0));
        reading("a huge length, offset SIZE_MAX", hello, huge[i], SIZE_MAX, refusal(FLOO_SCRIPT_TOO_LONG, SIZE_MAX));
    }
}

/* Line and column of an offset, in a script that ends right before the page that no one may touch; both 0 for no place. */
static void position(const char *script, size_t offset, size_t line, size_t column) {
    size_t length = strlen(script);
    tests++;
    write_script(script, length);
    floo_position p = floo_position_at(buffer(SCRIPT, length), length, offset);
    if (p.line != line || p.column != column) {
        printf("offset %zu of a script of %zu: line %zu, column %zu and not %zu, %zu\n", offset, length, p.line, p.column, line, column);
        faults++;
    }
}

static void positions(void) {
    /* one line: every byte is a column, a tab too, and so is the end */
    position("#FLOO 1", 0, 1, 1);
    position("#FLOO 1", 6, 1, 7);
    position("#FLOO 1", 7, 1, 8);
    position("\t\tx", 2, 1, 3);
    position("\xc3\xa4x", 2, 1, 3);
    /* a break is the last column of the line that it ends */
    position("ab\ncd", 2, 1, 3);
    position("ab\ncd", 3, 2, 1);
    position("ab\ncd", 5, 2, 3);
    position("ab\rcd", 2, 1, 3);
    position("ab\rcd", 3, 2, 1);
    /* CR LF is one break: its CR, between the two, after it */
    position("ab\r\ncd", 2, 1, 3);
    position("ab\r\ncd", 3, 1, 4);
    position("ab\r\ncd", 4, 2, 1);
    /* LF CR are two, and so are two of one kind; CR CR LF are two */
    position("a\n\rb", 2, 2, 1);
    position("a\n\rb", 3, 3, 1);
    position("\n\n", 1, 2, 1);
    position("\n\n", 2, 3, 1);
    position("\r\r\nx", 1, 2, 1);
    position("\r\r\nx", 2, 2, 2);
    position("\r\r\nx", 3, 3, 1);
    /* a script that ends with a break has its end in the next line; a CR at the end has no byte after it */
    position("ab\n", 3, 2, 1);
    position("ab\r", 3, 2, 1);
    position("ab\r\n", 3, 1, 4);
    position("ab\r\n", 4, 2, 1);
    /* no bytes; past the end */
    position("", 0, 1, 1);
    position("", 1, 0, 0);
    position("ab\n", 4, 0, 0);
    position("ab\n", SIZE_MAX, 0, 0);
}

/* A scan: socket 7 is on the tester at time 20. Log and outcome are those of its run. */
static const char moved[] = "#FLOO\n7 label 20 \"moved\" print\n";
static const char moved_outcome[] = "ending=finished\nerror=none\ncommand=\nat=31\nwhere=\nsteps=7\ndepth=3\nheld=2\nlog=5\n"
                                    "item=integer:7\nitem=string:8/8\nitem=integer:20\n";
static const char tester[] = "tester 3";

/* What a scan is given beside the script: lengths in elements, the first socket of the book (the others follow it), the time of all records, the count. */
typedef struct given {
    size_t length[BUFFERS];
    uint32_t first, time;
    size_t count;
} given;

static given usual(void) {
    return (given){.length = {sizeof moved - 1, FLOO_STACK_WORDS(8), FLOO_EXECUTION_WORDS(4), FLOO_DICTIONARY_WORDS(FLOOR_DICTIONARY_SLOTS_MIN),
                              FLOO_CELL_WORDS(4), 5, FLOO_OUTCOME_BYTES(8), sizeof tester - 1, 4},
                   .first = 1,
                   .time = 10,
                   .count = 3};
}

/* The records there may be fewer than the length says: those past the 64th are on the page that no one may touch. */
static floor_record *write_book(const given *g) {
    size_t there = g->length[BOOK] <= most[BOOK] ? g->length[BOOK] : FLOOR_RECORDS_MAX;
    floor_record *book = (floor_record *)(void *)(page_end[BOOK] - there * sizeof(floor_record));
    for (size_t i = 0; i < there && i < g->count; i++) {
        book[i].number = g->first + (uint32_t)i;
        book[i].length = 1 + (uint32_t)i % FLOOR_PLACE_BYTES_MAX;
        book[i].time = g->time;
    }
    return book;
}

/* The label, with zeros up to its length, in the label's buffer. */
static void write_label(size_t length) {
    if (length <= most[LABEL]) {
        memset(buffer(LABEL, length), 0, length);
        memcpy(buffer(LABEL, length), tester, sizeof tester - 1 < length ? sizeof tester - 1 : length);
    }
}

/* Whether a record is the scan's; the byte between place and length is no one's. */
static int is_moved(const floor_record *record) {
    static const uint8_t place[FLOOR_PLACE_BYTES_MAX] = "tester 3";
    return record->number == 7 && memcmp(record->place, place, sizeof place) == 0 && record->length == sizeof tester - 1 && record->time == 20;
}

/* Everything around the records that may be lent, and the records, before a scan. */
static uint8_t book_before[100 * sizeof(floor_record)];

static uint8_t *book_start(void) { return page_end[BOOK] - sizeof book_before; }

/* Whether the book has the scan's record where it should, and all else is as it was. */
static void check_book(const char *title, floor_record *book, int written, size_t at) {
    if (written) {
        if (!is_moved(&book[at])) {
            fail("another record", title);
        }
        /* with its old bytes back the book must be as it was */
        uint8_t *bytes = (uint8_t *)&book[at];
        memcpy(bytes, book_before + (bytes - book_start()), sizeof(floor_record));
    }
    if (memcmp(book_before, book_start(), sizeof book_before) != 0) {
        fail("a byte of the book changed that should not", title);
    }
}

static void scan(const char *title, given g, uint32_t answer, uint32_t refused) {
    static uint8_t label_before[FLOOR_LABEL_BYTES_MAX + 1];
    const size_t *length = g.length;
    uint8_t *b[BUFFERS];
    prepare(moved, length, BUFFERS, b);
    write_label(length[LABEL]);
    floor_record *book = write_book(&g);
    memcpy(book_before, book_start(), sizeof book_before);
    memcpy(label_before, page_end[LABEL] - sizeof label_before, sizeof label_before);
    floor_reply r = floor_scan(b[SCRIPT], length[SCRIPT], 7, b[LABEL], length[LABEL], (uint32_t *)b[STACK], length[STACK], (uint32_t *)b[EXECUTION],
                               length[EXECUTION], (uint32_t *)b[DICTIONARY], length[DICTIONARY], (uint32_t *)b[CELLS], length[CELLS], b[LOG],
                               length[LOG], b[OUTCOME], length[OUTCOME], book, length[BOOK], g.count);
    int made = answer > FLOOR_NO_CELLS, added = answer == FLOOR_ADDED, replaced = answer == FLOOR_REPLACED;
    size_t at = added ? g.count : replaced ? 7 - g.first : 0;
    if (r.answer != answer || r.refused != refused || r.count != g.count + (size_t)added || r.at != at) {
        printf("%s: answer %u, refused %u, count %zu, at %zu\n", title, r.answer, r.refused, r.count, r.at);
        faults++;
    }
    if (made ? r.steps > 7 || r.log > length[LOG] || r.outcome > length[OUTCOME] : r.steps != 0 || r.log != 0 || r.outcome != 0) {
        fail("a count of the run is wrong", title);
    }
    /* the script's length is in the outcome */
    int another = length[SCRIPT] == sizeof moved - 1 && (r.outcome != sizeof moved_outcome - 1 || memcmp(b[OUTCOME], moved_outcome, r.outcome) != 0);
    if (answer >= FLOOR_LATE && (r.log != 5 || memcmp(b[LOG], "moved", 5) != 0 || another)) {
        fail("another log or outcome", title);
    }
    check_run(title, length, b, made, r.log, r.outcome);
    check_book(title, book, added || replaced, at);
    if (memcmp(label_before, page_end[LABEL] - sizeof label_before, sizeof label_before) != 0) {
        fail("a scan changed the label", title);
    }
}

/* The usual scan with one buffer of another length. */
static void scan_with(const char *title, int k, size_t length, uint32_t answer, uint32_t refused) {
    given g = usual();
    g.length[k] = length;
    if (k == STACK && length <= most[k]) {
        g.length[OUTCOME] = FLOO_OUTCOME_BYTES(length / 2);
    }
    scan(title, g, answer, refused);
}

/* The usual scan with another book. A known socket's record is older, unless the scan is to be late. */
static void scan_book(const char *title, size_t records, uint32_t first, size_t count, uint32_t answer) {
    given g = usual();
    g.length[BOOK] = records;
    g.first = first;
    g.count = count;
    g.time = answer == FLOOR_LATE ? 20 : 19;
    scan(title, g, answer, 0);
}

static void scans(void) {
    scan_with("scan: as lent", LOG, 5, FLOOR_ADDED, 0);
    scan_with("scan: script of 0", SCRIPT, 0, FLOOR_REFUSED, 2);
    scan_with("scan: script of 32768", SCRIPT, FLOO_SCRIPT_BYTES_MAX, FLOOR_ADDED, 0);
    scan_with("scan: script of 32769", SCRIPT, FLOO_SCRIPT_BYTES_MAX + 1, FLOOR_REFUSED, 1);
    scan_with("scan: stack of 0 words", STACK, 0, FLOOR_REFUSED, 4);
    scan_with("scan: stack of 15 words", STACK, 15, FLOOR_REFUSED, 4);
    scan_with("scan: stack of 17 words", STACK, 17, FLOOR_ADDED, 0);
    scan_with("scan: stack of 513 words", STACK, 513, FLOOR_ADDED, 0);
    scan_with("scan: stack of 514 words", STACK, 514, FLOOR_REFUSED, 4);
    scan_with("scan: execution of 31 words", EXECUTION, 31, FLOOR_REFUSED, 5);
    scan_with("scan: execution of 39 words", EXECUTION, 39, FLOOR_ADDED, 0);
    scan_with("scan: execution of 1031 words", EXECUTION, 1031, FLOOR_ADDED, 0);
    scan_with("scan: execution of 1032 words", EXECUTION, 1032, FLOOR_REFUSED, 5);
    scan_with("scan: dictionary of 0 words", DICTIONARY, 0, FLOOR_REFUSED, 6);
    scan_with("scan: a word too few for the names", DICTIONARY, FLOO_DICTIONARY_WORDS(FLOO_DICTIONARY_SLOTS_MIN) - 1, FLOOR_REFUSED, 6);
    scan_with("scan: the names and no slot more", DICTIONARY, FLOO_DICTIONARY_WORDS(FLOO_DICTIONARY_SLOTS_MIN), FLOOR_NO_SLOT, 0);
    scan_with("scan: a word too few for the label", DICTIONARY, FLOO_DICTIONARY_WORDS(FLOOR_DICTIONARY_SLOTS_MIN) - 1, FLOOR_NO_SLOT, 0);
    scan_with("scan: words past the label's slot", DICTIONARY, FLOO_DICTIONARY_WORDS(FLOOR_DICTIONARY_SLOTS_MIN) + 11, FLOOR_ADDED, 0);
    scan_with("scan: dictionary of 6155 words", DICTIONARY, 6155, FLOOR_ADDED, 0);
    scan_with("scan: dictionary of 6156 words", DICTIONARY, 6156, FLOOR_REFUSED, 6);
    scan_with("scan: cells of 3 words", CELLS, 3, FLOOR_REFUSED, 7);
    scan_with("scan: cells of 4 words", CELLS, 4, FLOOR_NO_CELLS, 0);
    scan_with("scan: cells of 7 words", CELLS, 7, FLOOR_NO_CELLS, 0);
    scan_with("scan: cells for the label alone", CELLS, 8, FLOOR_NOT_FINISHED, 0);
    scan_with("scan: cells of 15 words", CELLS, 15, FLOOR_NOT_FINISHED, 0);
    scan_with("scan: cells of 19 words", CELLS, 19, FLOOR_ADDED, 0);
    scan_with("scan: cells of 131075 words", CELLS, 131075, FLOOR_ADDED, 0);
    scan_with("scan: cells of 131076 words", CELLS, 131076, FLOOR_REFUSED, 7);
    scan_with("scan: log of 0", LOG, 0, FLOOR_NOT_FINISHED, 0);
    scan_with("scan: log of 4", LOG, 4, FLOOR_NOT_FINISHED, 0);
    scan_with("scan: log of 65536", LOG, 65536, FLOOR_ADDED, 0);
    scan_with("scan: log of 65537", LOG, 65537, FLOOR_REFUSED, 8);
    scan_with("scan: outcome of 0", OUTCOME, 0, FLOOR_REFUSED, 9);
    scan_with("scan: outcome of 1343", OUTCOME, 1343, FLOOR_REFUSED, 9);
    scan_with("scan: outcome of 1345", OUTCOME, 1345, FLOOR_ADDED, 0);
    scan_with("scan: label of 0", LABEL, 0, FLOOR_BAD_STACK, 0);
    scan_with("scan: label of 9", LABEL, 9, FLOOR_NOT_FINISHED, 0);
    scan_with("scan: label of 24, which has every cell", LABEL, 24, FLOOR_NOT_FINISHED, 0);
    scan_with("scan: label of 25", LABEL, 25, FLOOR_NO_CELLS, 0);
    scan_with("scan: label of 512", LABEL, FLOOR_LABEL_BYTES_MAX, FLOOR_NO_CELLS, 0);
    scan_with("scan: label of 513", LABEL, FLOOR_LABEL_BYTES_MAX + 1, FLOOR_LABEL_TOO_LONG, 0);
    scan_book("scan: no records", 0, 1, 0, FLOOR_NO_ROOM);
    scan_book("scan: no records, count 1", 0, 1, 1, FLOOR_BOOK_MALFORMED);
    scan_book("scan: one record, count 0", 1, 1, 0, FLOOR_ADDED);
    scan_book("scan: one record, another socket", 1, 8, 1, FLOOR_NO_ROOM);
    scan_book("scan: one record, the socket", 1, 7, 1, FLOOR_REPLACED);
    scan_book("scan: one record, the socket at this time", 1, 7, 1, FLOOR_LATE);
    scan_book("scan: the last of four records", 4, 4, 4, FLOOR_REPLACED);
    scan_book("scan: the last of four records, at this time", 4, 4, 4, FLOOR_LATE);
    scan_book("scan: 64 records, count 63", 64, 100, 63, FLOOR_ADDED);
    scan_book("scan: 64 records, count 64", 64, 100, 64, FLOOR_NO_ROOM);
    scan_book("scan: 64 records, the first", 64, 7, 64, FLOOR_REPLACED);
    scan_book("scan: 100 records, count 63", 100, 100, 63, FLOOR_ADDED);
    scan_book("scan: 100 records, count 64", 100, 100, 64, FLOOR_NO_ROOM);
    scan_book("scan: 100 records, count 65", 100, 100, 65, FLOOR_BOOK_MALFORMED);
    scan_book("scan: 100 records, a number of 2147483648", 100, FLOOR_NUMBER_MAX, 2, FLOOR_BOOK_MALFORMED);
    /* of these the 65th is on the page that no one may touch */
    scan_book("scan: 101 records, count 63", 101, 100, 63, FLOOR_ADDED);
    scan_book("scan: 101 records, count 64", 101, 100, 64, FLOOR_NO_ROOM);
    scan_book("scan: 101 records, the first", 101, 7, 64, FLOOR_REPLACED);
    scan_book("scan: 101 records, the first at this time", 101, 7, 64, FLOOR_LATE);
    scan_book("scan: 101 records, count 101", 101, 100, 101, FLOOR_BOOK_MALFORMED);
    static const uint32_t numbers[BUFFERS] = {1, 4, 5, 6, 7, 8, 0, 0, 0};
    for (size_t i = 0; i < sizeof huge / sizeof huge[0]; i++) {
        for (int k = 0; k < OUTCOME; k++) {
            scan_with("scan: a huge length", k, huge[i], FLOOR_REFUSED, numbers[k]);
        }
        scan_with("scan: a huge label", LABEL, huge[i], FLOOR_LABEL_TOO_LONG, 0);
        scan_book("scan: a huge count", 100, 1, huge[i], FLOOR_BOOK_MALFORMED);
    }
}

int main(void) {
    for (int k = 0; k < BUFFERS; k++) {
        lend(k);
    }
    const char *all = hello_outcome;
    with("as lent", LOG, 2, 0, all);
    handler();
    with("script of 0", SCRIPT, 0, 2, NULL);
    with("script of 4", SCRIPT, 4, 2, NULL);
    with("script of 32768", SCRIPT, FLOO_SCRIPT_BYTES_MAX, 0, NULL);
    with("script of 32769", SCRIPT, FLOO_SCRIPT_BYTES_MAX + 1, 1, NULL);
    with("stack of 0 words", STACK, 0, 4, NULL);
    with("stack of 15 words", STACK, 15, 4, NULL);
    with("stack of 16 words", STACK, 16, 0, all);
    with("stack of 17 words", STACK, 17, 0, all);
    with("stack of 513 words", STACK, 513, 0, all);
    with("stack of 514 words", STACK, 514, 4, NULL);
    with("execution of 31 words", EXECUTION, 31, 5, NULL);
    with("execution of 32 words", EXECUTION, 32, 0, all);
    with("execution of 39 words", EXECUTION, 39, 0, all);
    with("execution of 1031 words", EXECUTION, 1031, 0, all);
    with("execution of 1032 words", EXECUTION, 1032, 5, NULL);
    with("dictionary of a word too few for the names", DICTIONARY, FLOO_DICTIONARY_WORDS(FLOO_DICTIONARY_SLOTS_MIN) - 1, 6, NULL);
    with("dictionary of the names and a slot more", DICTIONARY, FLOO_DICTIONARY_WORDS(FLOO_DICTIONARY_SLOTS_MIN + 1), 0, all);
    with("dictionary of 11 words more", DICTIONARY, FLOO_DICTIONARY_WORDS(FLOO_DICTIONARY_SLOTS_MIN + 1) + 11, 0, all);
    with("dictionary of 6155 words", DICTIONARY, 6155, 0, all);
    with("dictionary of 6156 words", DICTIONARY, 6156, 6, NULL);
    with("cells of 3 words", CELLS, 3, 7, NULL);
    with("cells of 4 words", CELLS, 4, 0, all);
    with("cells of 7 words", CELLS, 7, 0, all);
    with("cells of 131075 words", CELLS, 131075, 0, all);
    with("cells of 131076 words", CELLS, 131076, 7, NULL);
    with("log of 0", LOG, 0, 0, NULL);
    with("log of 1", LOG, 1, 0, NULL);
    with("log of 65536", LOG, 65536, 0, all);
    with("log of 65537", LOG, 65537, 8, NULL);
    with("outcome of 0", OUTCOME, 0, 9, NULL);
    with("outcome of 1343", OUTCOME, 1343, 9, NULL);
    with("outcome of 1344", OUTCOME, 1344, 0, all);
    with("outcome of 1345", OUTCOME, 1345, 0, all);
    /* huge lengths are refused before a byte is touched */
    static const uint32_t numbers[RUN_BUFFERS] = {1, 4, 5, 6, 7, 8, 0};
    for (int k = 0; k < OUTCOME; k++) {
        for (size_t i = 0; i < sizeof huge / sizeof huge[0]; i++) {
            with("a huge length", k, huge[i], numbers[k], NULL);
        }
    }
    readings();
    positions();
    scans();
    printf("%d calls, %d faults\n", tests, faults);
    return faults != 0;
}
