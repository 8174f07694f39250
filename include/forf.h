/* The proved runner for Forf, the language of the shelf displays. The library is libforf_c.a, which embed/libraries.sh builds in target/staticlib; link it
   with `cc program.c libforf_c.a`. The functions never allocate and keep nothing: the memory of 32 integers is the caller's, and kept between runs by lending it again. */
#ifndef FORF_H
#define FORF_H

#include <stddef.h>
#include <stdint.h>

#ifdef __cplusplus
extern "C" {
#endif

/* 32-bit words for so many slots, 8 to 256 of the stack and 4 to 128 of the execution stack, and bytes of an outcome that is long enough for every run. */
#define FORF_STACK_WORDS(slots) (2u * (slots))
#define FORF_EXECUTION_WORDS(slots) (8u * (slots))
#define FORF_OUTCOME_BYTES(stack_slots) (256u + 136u * (stack_slots))
#define FORF_MEMORY_SLOTS 32u
#define FORF_SCRIPT_BYTES_MAX 32768u
#define FORF_FUEL_MAX 1000000u

/* What a run came to. A refusal changes no lent word or byte. */
typedef struct forf_reply {
    uint32_t refused; /* the number of the refusal, 1, 3, 4, 5 or 9; 0 where there is none */
    uint32_t memory;  /* 1 where the memory is not of 32 slots, else 0 */
    uint32_t steps;   /* the steps made */
    size_t outcome;   /* how many bytes of the outcome are written */
} forf_reply;

/* Runs a script. The memory is a 32-bit integer a word; it holds afterwards what the run left there. The outcome is key=value lines. */
forf_reply forf_run(const uint8_t *script, size_t script_bytes, uint32_t fuel, uint32_t *stack, size_t stack_words, uint32_t *execution, size_t execution_words,
                    uint32_t *memory, size_t memory_words, uint8_t *outcome, size_t outcome_bytes);

enum forf_kind { FORF_INTEGER = 1, FORF_WORD = 2, FORF_OPEN_BRACE = 3, FORF_CLOSE_BRACE = 4, FORF_END = 5 };

/* The next token of a script from an offset on: one of refused (1 or 10), fault (1, a syntaxerror) and kind is not 0. */
typedef struct forf_token_reply {
    uint32_t refused;
    uint32_t fault;
    uint32_t kind;
    size_t next;  /* the offset after the token; the one given, where there is none */
    size_t start; /* where in the script its own bytes begin */
    size_t size;  /* and how many they are */
} forf_token_reply;

forf_token_reply forf_token(const uint8_t *script, size_t script_bytes, size_t offset);

#ifdef __cplusplus
}
#endif

#endif
