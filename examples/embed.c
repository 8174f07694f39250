/*
 * The counter of a stockroom: for each label that is scanned a Floo script takes the label apart and writes a line of the ledger.
 * A label is SOCKET:PLACE:TIME. One that is not gets a line that says so, by the rule's handler; of a slip in the script the counter says what and where.
 * embed/run_c.sh builds and runs it.
 */
#include <stdio.h>
#include <stdlib.h>
#include <string.h>

#include "floo.h"

/* What the counter keeps for its runs. */
enum { STACK = 32, EXECUTION = 16, DICTIONARY = 80, CELLS = 128, LOG = 256, FUEL = 20000 };

static uint32_t stack[FLOO_STACK_WORDS(STACK)];
static uint32_t execution[FLOO_EXECUTION_WORDS(EXECUTION)];
static uint32_t dictionary[FLOO_DICTIONARY_WORDS(DICTIONARY)];
static uint32_t cells[FLOO_CELL_WORDS(CELLS)];
static uint8_t log_bytes[LOG];
static uint8_t outcome[FLOO_OUTCOME_BYTES(STACK)];

/* The rule, as the stockroom keeper wrote it. The label stands in front of it, on two lines. */
enum { LINES_BEFORE = 2 };

static const char rule[] =
    "# a part that is not there, or a byte that is no digit, is rangecheck: a line says so\n"
    "/rangecheck { \"bad label: \" print label echo stop } bind onerror\n"
    "# from -> place of the next colon, or the label's length\n"
    "/colon {\n"
    "    { dup label length ge { exit } if\n"
    "      label 1 index get 58 eq { exit } if\n"
    "      1 add } loop\n"
    "} bind def\n"
    "# text -> its value as a decimal number\n"
    "/digits [ 0 1 2 3 4 5 6 7 8 9 ] def\n"
    "/number {\n"
    "    /text exch def 0\n"
    "    0 1 text length 1 sub { text exch get 48 sub digits exch get exch 10 mul add } for\n"
    "} bind def\n"
    "/first 0 colon def\n"
    "/second first 1 add colon def\n"
    "/socket label 0 first getinterval number def\n"
    "/place label first 1 add second first sub 1 sub getinterval def\n"
    "/time label second 1 add label length second sub 1 sub getinterval number def\n"
    "\"socket \" print socket 8 string cvs print\n"
    "\" at \" print place print\n"
    "\" since \" print time 12 string cvs print \"\\n\" print\n";

/* A rule with a slip: there is no escape \w. */
static const char slip[] =
    "label print\n"
    "{ \" is \\where?\" print } exec\n";

/* The script for a label: its bytes as a Floo string, each one that is not a plain character in octal. NULL if there is no room. */
static const char *write_script(const char *label, const char *rule, char *script, size_t size) {
    size_t n = (size_t)snprintf(script, size, "#FLOO\n/label \"");
    for (; *label != '\0'; label++) {
        unsigned char byte = (unsigned char)*label;
        int plain = byte >= 32 && byte < 127 && byte != '"' && byte != '\\';
        if (n + 5 > size) {
            return NULL;
        }
        n += (size_t)snprintf(script + n, size - n, plain ? "%c" : "\\%03o", byte);
    }
    return (size_t)snprintf(script + n, size - n, "\" def\n%s", rule) < size - n ? script : NULL;
}

/* The value of a line of the outcome, up to its line feed. */
static const char *value(const char *key) {
    const char *at = (const char *)outcome;
    while (strncmp(at, key, strlen(key)) != 0) {
        at = strchr(at, '\n') + 1;
    }
    return at + strlen(key);
}

/* The error, with the place of a fault in the rule or with the operator or name that failed. */
static void print_error(const char *script) {
    const char *error = value("error="), *where = value("where="), *command = value("command=");
    printf("%.*s in ", (int)strcspn(error, "\n"), error);
    if (*where != '\n') {
        floo_position position = floo_position_at((const uint8_t *)script, strlen(script), strtoul(where, NULL, 10));
        printf("line %zu of the rule, column %zu", position.line - LINES_BEFORE, position.column);
    } else {
        printf("%.*s", (int)strcspn(command, "\n"), command);
    }
}

static void scan(const char *label, const char *rule) {
    static char space[4096];
    const char *script = write_script(label, rule, space, sizeof space);
    if (script == NULL) {
        printf("no line: the label is too long\n");
        return;
    }
    floo_reply reply = floo_run((const uint8_t *)script, strlen(script), FUEL,
                                stack, FLOO_STACK_WORDS(STACK), execution, FLOO_EXECUTION_WORDS(EXECUTION),
                                dictionary, FLOO_DICTIONARY_WORDS(DICTIONARY), cells, FLOO_CELL_WORDS(CELLS),
                                log_bytes, LOG, outcome, sizeof outcome);
    if (reply.refused != FLOO_NOT_REFUSED) {
        printf("no line: refused, number %u\n", reply.refused);
    } else if (strncmp(value("ending="), "finished\n", 9) == 0 || strncmp(value("ending="), "stopped\n", 8) == 0) {
        fwrite(log_bytes, 1, reply.log, stdout);
    } else {
        printf("no line: ");
        print_error(script);
        printf(" after %u steps\n", reply.steps);
    }
}

int main(int argc, char **argv) {
    static const char *const labels[] = {"0417:rack B-7:1731690000", "0388:drawer \"12\":1731690412", "0417", "0417:rack B-7:today"};
    if (argc > 1) {
        for (int i = 1; i < argc; i++) {
            scan(argv[i], rule);
        }
        return 0;
    }
    for (size_t i = 0; i < sizeof labels / sizeof labels[0]; i++) {
        scan(labels[i], rule);
    }
    scan(labels[0], slip);
    return 0;
}
