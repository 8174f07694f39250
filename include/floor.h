/*
 * floor.h: the floor rule for late scans. A Floo script takes a scanned label apart, and what it leaves goes into a book of sockets that the caller lends, unless
 * the book knows a scan as late or later. Nothing is allocated and nothing is kept between calls.
 * The book can be written as a ledger, a text of comma-separated values by RFC 4180, and read back from one.
 * floor_scan is the function exported by crates/floor_c, which is proved; link target/staticlib/libfloor_c.a. It is all that a program needs that only scans:
 * libfloo_c.a has what floo.h declares. The two functions of the ledger are those of crates/ledger_c, in target/staticlib/libledger_c.a. A program may link all three.
 */
#ifndef FLOOR_H
#define FLOOR_H

#include "floo.h"

#ifdef __cplusplus
extern "C" {
#endif

/* The limits of labels and books. */
#define FLOOR_LABEL_BYTES_MAX 512u
#define FLOOR_RECORDS_MAX 64u            /* more may be lent, and are neither read nor written */
#define FLOOR_PLACE_BYTES_MAX 31u
#define FLOOR_NUMBER_MAX 2147483647u     /* of a socket's number, and of a time */

/* The buffers are those of floo_run, with a name and a string more: the label takes one dictionary slot and FLOO_STRING_CELLS(its bytes) cells. */
#define FLOOR_DICTIONARY_SLOTS_MIN (FLOO_DICTIONARY_SLOTS_MIN + 1u)

/* Where a socket was seen last, and when. */
typedef struct floor_record {
    uint32_t number;                      /* the socket's, 0 to FLOOR_NUMBER_MAX */
    uint8_t place[FLOOR_PLACE_BYTES_MAX]; /* of any bytes; those past the length are written 0 and never read */
    uint32_t length;                      /* how many bytes of the place count, 1 to FLOOR_PLACE_BYTES_MAX */
    uint32_t time;                        /* 0 to FLOOR_NUMBER_MAX */
} floor_record;

/*
 * The answers, in the order in which they are looked for: the first that applies is given. The first nine refuse the scan, and leave the book as it was. Those up
 * to FLOOR_NO_CELLS come before the run, and no lent byte has changed; with the others log and outcome are the run's.
 */
enum floor_answer {
    FLOOR_REFUSED = 1,        /* as by floo_run, with its number */
    FLOOR_BOOK_MALFORMED = 2, /* the count is past the room, a socket is there twice, or a field is out of range */
    FLOOR_LABEL_TOO_LONG = 3, /* over FLOOR_LABEL_BYTES_MAX bytes */
    FLOOR_NO_SLOT = 4,        /* in the dictionary for the label */
    FLOOR_NO_CELLS = 5,       /* for the label */
    FLOOR_NOT_FINISHED = 6,   /* the run ended by an error, by stop or for want of fuel */
    FLOOR_BAD_STACK = 7,      /* the run left something else than a number, a place and a time */
    FLOOR_LATE = 8,           /* the book has the socket with this time or a later one */
    FLOOR_NO_ROOM = 9,        /* for a new socket */
    FLOOR_REPLACED = 10,      /* the socket's record is now this scan's */
    FLOOR_ADDED = 11          /* the scan of a new socket is the last record now */
};

typedef struct floor_reply {
    uint32_t answer;  /* an enum floor_answer */
    uint32_t refused; /* an enum floo_refusal where the answer is FLOOR_REFUSED, else 0 */
    uint32_t steps;   /* how many steps were made, at most the fuel; 0 where no run was made, as are the next two */
    size_t log;       /* how many bytes of the log were written, from its start */
    size_t outcome;   /* how many bytes of the outcome were written, from its start; no zero byte follows them */
    size_t count;     /* how many records the book has now: the count given, and one more at FLOOR_ADDED */
    size_t at;        /* where in the book the record was written, at FLOOR_REPLACED and FLOOR_ADDED, else 0 */
} floor_reply;

/*
 * Runs a script with a label, and enters in the book what it leaves.
 *
 * The script finds the label as the string bound to the name `label`, made before the first step; its maximum is the label's length, and its bytes may have any
 * values. The run is that of floo_run in all else. It must finish, and leave exactly three items: the socket's number, its place and the time of the scan, in
 * that order from the bottom; number and time are integers from 0, the place is a string of 1 to FLOOR_PLACE_BYTES_MAX current bytes.
 *
 * The first `count` of the lent records are the book, one for each socket. The scan of a socket that is not among them goes after the last of them; a scan with a
 * later time than the socket's record has is written over it; one with an equal or an earlier time changes nothing. Records past FLOOR_RECORDS_MAX are not used, and
 * those past the count are not read. No more than one record changes, and the caller keeps the count: `count` of the reply is for the next scan.
 *
 * Lengths and the count may be any numbers, as for floo_run. What the caller promises is what a C function can not see:
 *   - each pointer is to as many elements as the length after it says, and is not NULL, even if the length is 0;
 *   - no two of the buffers overlap, script, label and book included;
 *   - nothing else reads or writes them during the call.
 * The function has no state of its own: calls with buffers of their own may be made by several threads at once.
 */
floor_reply floor_scan(const uint8_t *script, size_t script_bytes, uint32_t fuel,
                       const uint8_t *label, size_t label_bytes,
                       uint32_t *stack, size_t stack_words,
                       uint32_t *execution, size_t execution_words,
                       uint32_t *dictionary, size_t dictionary_words,
                       uint32_t *cells, size_t cell_words,
                       uint8_t *log, size_t log_bytes,
                       uint8_t *outcome, size_t outcome_bytes,
                       floor_record *book, size_t records, size_t count);

/* Bytes that the ledger of so many records takes at most. A line is its number, comma, place, comma, time, CR and LF. */
#define FLOOR_LEDGER_BYTES(records) (19u + 88u * (records))

/*
 * The answers of writing and reading, in the order in which the refusals are looked for: the first that applies is given, each of them looked for in the whole
 * text before the next. A refusal changes no lent byte. Writing answers with the first and the ninth, reading with the others.
 */
enum floor_ledger_answer {
    FLOOR_LEDGER_BOOK_MALFORMED = 1, /* as FLOOR_BOOK_MALFORMED */
    FLOOR_LEDGER_BAD_HEADER = 2,     /* the text does not begin with exactly `socket,place,time`, then CR and LF or the end */
    FLOOR_LEDGER_BAD_QUOTING = 3,    /* a quote inside a field without quotes, a byte after a closing quote, no closing quote, or CR or LF by itself outside quotes */
    FLOOR_LEDGER_FIELD_COUNT = 4,    /* a line has not three fields; an empty line has one */
    FLOOR_LEDGER_BAD_NUMBER = 5,     /* a number or a time is not one or more digits, or is over FLOOR_NUMBER_MAX */
    FLOOR_LEDGER_BAD_PLACE = 6,      /* a place has not 1 to FLOOR_PLACE_BYTES_MAX bytes */
    FLOOR_LEDGER_SOCKET_TWICE = 7,   /* two lines have one number */
    FLOOR_LEDGER_TOO_MANY = 8,       /* more lines than the book has room: the lent records, FLOOR_RECORDS_MAX at most */
    FLOOR_LEDGER_TOO_SHORT = 9,      /* the lent text is shorter than the ledger */
    FLOOR_LEDGER_DONE = 10           /* the book is written, or read */
};

typedef struct floor_ledger_reply {
    uint32_t answer; /* an enum floor_ledger_answer */
    size_t count;    /* at FLOOR_LEDGER_DONE how many bytes were written, or how many records the book has now; else 0 */
} floor_ledger_reply;

/*
 * Writes the first `count` of the lent records as a ledger: the header `socket,place,time`, then a line for each record in the book's order, CR and LF after each
 * line. Numbers are decimal. A place with a comma, a quote, a CR or an LF stands between quotes, and its quotes are doubled; nothing else is quoted. Bytes of the
 * lent text past the ledger stay as they were, and no zero byte is put there. What was written is read back as the same records in the same order.
 *
 * What the caller promises is as for floor_scan.
 */
floor_ledger_reply floor_write_ledger(const floor_record *book, size_t records, size_t count, uint8_t *text, size_t text_bytes);

/*
 * Reads a ledger of any length. Needless quotes around the fields of a record are accepted, and so is a last line without CR and LF. Its records replace the first
 * of the lent ones, whatever these hold, and place bytes past the length are written 0; the lent records past them stay as they were. The caller keeps the count:
 * `count` of the reply is for the next scan.
 *
 * What the caller promises is as for floor_scan.
 */
floor_ledger_reply floor_read_ledger(const uint8_t *text, size_t text_bytes, floor_record *book, size_t records);

#ifdef __cplusplus
}
#endif

#endif
