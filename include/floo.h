/*
 * floo.h: runs Floo 0.5 scripts in room that the caller lends, and reads their tokens. Nothing is allocated and nothing is kept between calls.
 * floo_run and floo_token are those exported by crates/floo_c, which are proved; link target/staticlib/libfloo_c.a. floo_position_at stands here whole, in plain C.
 */
#ifndef FLOO_H
#define FLOO_H

#include <stddef.h>
#include <stdint.h>

#ifdef __cplusplus
extern "C" {
#endif

/* The limits within which a run is made. */
#define FLOO_SCRIPT_BYTES_MAX 32768u
#define FLOO_FUEL_MAX 1000000u
#define FLOO_STACK_SLOTS_MIN 8u
#define FLOO_STACK_SLOTS_MAX 256u
#define FLOO_EXECUTION_SLOTS_MIN 4u
#define FLOO_EXECUTION_SLOTS_MAX 128u
#define FLOO_DICTIONARY_SLOTS_MIN 65u /* the predefined names */
#define FLOO_DICTIONARY_SLOTS_MAX 512u
#define FLOO_CELLS_MIN 1u
#define FLOO_CELLS_MAX 32768u
#define FLOO_LOG_BYTES_MAX 65536u

/* From slots and cells to the lengths of the buffers. */
#define FLOO_STACK_WORDS(slots) (2u * (slots))
#define FLOO_EXECUTION_WORDS(slots) (8u * (slots))
#define FLOO_DICTIONARY_WORDS(slots) (12u * (slots))
#define FLOO_CELL_WORDS(cells) (4u * (cells))
#define FLOO_OUTCOME_BYTES(stack_slots) (256u + 136u * (stack_slots)) /* the longest outcome */

/* How many cells an array of n elements takes, and a string of at most m bytes. */
#define FLOO_ARRAY_CELLS(n) (1u + (n))
#define FLOO_STRING_CELLS(m) (1u + ((m) + 7u) / 8u)

/*
 * The numbers of the refusals. They are looked for in this order, and the first that applies is given: by floo_run of 1 to 9, by floo_token of
 * 1 and 10.
 */
enum floo_refusal {
    FLOO_NOT_REFUSED = 0,
    FLOO_SCRIPT_TOO_LONG = 1,      /* over FLOO_SCRIPT_BYTES_MAX bytes */
    FLOO_NOT_A_SCRIPT = 2,         /* does not begin with #FLOO */
    FLOO_TOO_MUCH_FUEL = 3,        /* over FLOO_FUEL_MAX */
    FLOO_STACK_SLOTS = 4,          /* too few or too many */
    FLOO_EXECUTION_SLOTS = 5,      /* too few or too many */
    FLOO_DICTIONARY_SLOTS = 6,     /* too few or too many */
    FLOO_CELLS = 7,                /* none or too many */
    FLOO_LOG_TOO_LONG = 8,         /* over FLOO_LOG_BYTES_MAX bytes */
    FLOO_OUTCOME_TOO_SHORT = 9,    /* under FLOO_OUTCOME_BYTES of the stack's slots */
    FLOO_OFFSET_PAST_END = 10      /* the offset exceeds the script's length */
};

/* The kinds of tokens. */
enum floo_kind {
    FLOO_NO_TOKEN = 0,
    FLOO_INTEGER = 1,
    FLOO_STRING = 2,
    FLOO_LITERAL_NAME = 3,
    FLOO_EXECUTABLE_NAME = 4,
    FLOO_OPEN_BRACE = 5,
    FLOO_CLOSE_BRACE = 6,
    FLOO_END = 7
};

/* What can be wrong with a token, by the names in an outcome's error line. 1 was syntaxerror, which is no longer given. */
enum floo_fault {
    FLOO_NO_FAULT = 0,
    FLOO_LIMITCHECK = 2,   /* a number or a name is over its limit */
    FLOO_BADNUMBER = 13,   /* begins as a number, and is none */
    FLOO_BADESCAPE = 14,   /* a backslash that no escape goes on from */
    FLOO_OPENSTRING = 15,  /* a string cut short by a line break or the script's end */
    FLOO_BADBRACE = 16,    /* stray or unclosed: floo_token never gives it, for it does not look whether braces match */
    FLOO_BADBYTE = 17      /* a byte that begins no token, or a slash without a name */
};

typedef struct floo_reply {
    uint32_t refused; /* an enum floo_refusal; if it is not 0, the other three are 0 and no lent byte has changed */
    uint32_t steps;   /* how many steps were made, at most the fuel */
    size_t log;       /* how many bytes of the log were written, from its start */
    size_t outcome;   /* how many bytes of the outcome were written, from its start; no zero byte follows them */
} floo_reply;

/*
 * Runs a script, or refuses it.
 *
 * Each step costs 1 fuel. What the buffers hold beforehand has no effect. Afterwards the log has the script's output, and the outcome lines
 * of key=value: ending, error, command, at, where, steps, depth, held, log, and an item line for each item on the stack, bottom first.
 * at is the offset of the script token last taken, a brace group's that of its opening brace. where is empty, unless the run was ended by one of the faults 13 to 17 of
 * floo_fault: then it is the offset of the first byte of the token that could not be accepted, an open string's that of its quote, and an unclosed brace's its own.
 * The bytes of the log and of the outcome past those that the reply counts are as they were, and so are words past whole slots.
 *
 * A length may be any number: where it does not fit the limits the script is refused before a buffer is written, and no run reads or writes
 * past a length. What the caller promises is what a C function can not see:
 *   - each pointer is to as many elements as the length after it says, and is not NULL, even if the length is 0;
 *   - no two of the buffers overlap, the script included;
 *   - nothing else reads or writes them during the call.
 * The function has no state of its own: calls with buffers of their own may be made by several threads at once.
 */
floo_reply floo_run(const uint8_t *script, size_t script_bytes, uint32_t fuel,
                    uint32_t *stack, size_t stack_words,
                    uint32_t *execution, size_t execution_words,
                    uint32_t *dictionary, size_t dictionary_words,
                    uint32_t *cells, size_t cell_words,
                    uint8_t *log, size_t log_bytes,
                    uint8_t *outcome, size_t outcome_bytes);

typedef struct floo_token_reply {
    uint32_t refused; /* an enum floo_refusal */
    uint32_t fault;   /* an enum floo_fault */
    uint32_t kind;    /* an enum floo_kind; of these three exactly one is not 0 */
    uint32_t place;   /* the offset of the first byte that could not be accepted, with FLOO_BADNUMBER and the faults after it; else 0 */
    size_t next;      /* the offset after the token: the script's length at FLOO_END, and the offset given where there is no token */
    size_t start;     /* where in the script the token's own bytes begin, and 0 where there is no token */
    size_t size;      /* how many they are: 0 at FLOO_END and where there is no token */
} floo_token_reply;

/*
 * Reads the next token of a script from an offset on, past space and comment. A script's tokens are read one after another by giving `next` as the
 * offset, until FLOO_END.
 *
 * A token's own bytes are script[start] to script[start + size - 1]: a string's without its quotes, with its escapes as they are written, and a
 * literal name's without its slash. The function does not look for #FLOO, nor whether braces match.
 *
 * The place of a fault is that of the 4 in \400, the script's length where the token ends there too early, and of an open string its quote.
 *
 * The length and the offset may be any numbers. What the caller promises is that the pointer is to as many bytes as the length says and is not
 * NULL, even if the length is 0, and that nothing writes them during the call.
 */
floo_token_reply floo_token(const uint8_t *script, size_t script_bytes, size_t offset);

/* Where in a script an offset is. Lines and columns count from 1; both are 0 where there is no such place. */
typedef struct floo_position {
    size_t line;
    size_t column;
} floo_position;

/*
 * The line and the column of an offset in a script: of the place of a floo_token_reply, or of at and where of an outcome.
 *
 * A line ends with CR LF, CR or LF, and these bytes are its last: the LF of a CR LF is one column past its CR. A column is one byte, whatever it is: a tab counts one.
 * The script's length has a place too, right after the last byte; a larger offset has none.
 *
 * What the caller promises is what floo_token asks. The length may be any number: the script is read up to the byte at the offset, and no further.
 */
static inline floo_position floo_position_at(const uint8_t *script, size_t script_bytes, size_t offset) {
    floo_position position = {0, 0};
    size_t start = 0; /* of the line */
    if (offset > script_bytes) {
        return position;
    }
    position.line = 1;
    for (size_t i = 0; i < offset; i++) {
        /* of CR LF the LF ends the line */
        int ends = script[i] == '\n' || (script[i] == '\r' && (i + 1 == script_bytes || script[i + 1] != '\n'));
        if (ends) {
            position.line++;
            start = i + 1;
        }
    }
    position.column = offset - start + 1;
    return position;
}

#ifdef __cplusplus
}
#endif

#endif
