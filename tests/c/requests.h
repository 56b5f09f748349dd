/*
 * Requests to the calls, and the lines that tell their answers: the framing of the programs `answers` and `desk answer`.
 *
 * A request is a byte for the call and three inputs, each a length of 4 bytes, big-endian, and its bytes; a call that has fewer
 * inputs finds the rest empty. The third input of a recheck is made of a byte for the earlier answer, the old entry's length in 4
 * bytes, the old entry and the new one, which are two inputs here. That of a contract is made of how many numbers the table has, in 2
 * bytes, the numbers, in 8 bytes each, and the buffer, which are two inputs here too; the table's are in the machine's own order. That of a
 * run of many entries is made of how many bytes there are for answers, in 4 bytes, these bytes and the entries, likewise two. A count is
 * lent the numbers for the parts besides, which are an input here that no request brings. The line of a verdict by blocks ends in the steps of the run, that of a translation, a print, a fixed text or a text of a contract in the Adler-32
 * sum of the buffer as it stands after the call, that of a run of many entries in the sum of the answers, that of an explanation in the sum of the piece that is shown, and that of a count in the
 * numbers of the text's parts.
 */
#ifndef REQUESTS_H
#define REQUESTS_H

#include <stdbool.h>
#include <stdio.h>

#include "pollux.h"

enum { READ = 1, CHECK, JUDGE, TRANSLATE, LOAD, RUN, PRINT, EXPLAIN, SUMMARIZE, RECHECK, FIX_OCTAL, PACT, COMPARE, COUNT, RUN_ALL, LAST_CALL = RUN_ALL };
enum { INPUTS = 4, OLD_ENTRY = 3, TABLE = 3, PARTS = 3, ANSWERS = 3, LONGEST_INPUT = 65536, LINE_SIZE = 4096 };

struct input {
    uint8_t *at; /* never NULL */
    size_t length;
};

struct request {
    unsigned call;
    struct input inputs[INPUTS];
    uint8_t earlier; /* of a recheck: 1 accepted, 2 violated, any other refused with 20 at entry 0 */
};

/*
 * The call's name, and which input of a request it is: "text", "list", "entry", "old entry", "blocks", "buffer", "contract", "table",
 * "entries", "parts", "answers", or "" if it has none.
 */
const char *call_name(unsigned call);
const char *input_name(unsigned call, unsigned input);

/* How many bytes an input of the call is made of at a time: those of a number for a table and the parts, which are aligned to them; else one. */
size_t unit(unsigned call, unsigned input);

/* Does the call write into its third input, which is its buffer, or into one of its inputs? */
bool writes(unsigned call);
bool writes_to(unsigned call, unsigned input);

/*
 * Reads the next request into memory that the next one uses again; false at the end. Requests that name no call, have an input
 * over 65,536 bytes, or are too short for a recheck, a table or answers are passed over. A cut one ends the program with status 3.
 */
bool read_request(FILE *file, struct request *request);

/* Can the request be written so that none of its inputs is over 65,536 bytes? */
bool can_be_read(const struct request *request);
void write_request(FILE *file, const struct request *request);

/* Someone's version of the calls; who has no fix_octal, pact, compare, count or run_all is not asked for it. */
struct calls {
    struct pollux_answer (*read)(const uint8_t *, size_t);
    struct pollux_answer (*check)(const uint8_t *, size_t, const uint8_t *, size_t);
    struct pollux_answer (*judge)(const uint8_t *, size_t, const uint8_t *, size_t, const uint8_t *, size_t);
    struct pollux_answer (*translate)(const uint8_t *, size_t, const uint8_t *, size_t, uint8_t *, size_t);
    struct pollux_answer (*load)(const uint8_t *, size_t, const uint8_t *, size_t);
    struct pollux_answer (*run)(const uint8_t *, size_t, const uint8_t *, size_t, const uint8_t *, size_t);
    struct pollux_answer (*print)(const uint8_t *, size_t, uint8_t *, size_t);
    struct pollux_reason (*explain)(const uint8_t *, size_t, const uint8_t *, size_t, const uint8_t *, size_t);
    struct pollux_summary (*summarize)(const uint8_t *, size_t, const uint8_t *, size_t);
    struct pollux_rechecked (*recheck)(const uint8_t *, size_t, const uint8_t *, size_t, const uint8_t *, size_t, struct pollux_answer,
                                       const uint8_t *, size_t);
    struct pollux_answer (*fix_octal)(const uint8_t *, size_t, uint8_t *, size_t);
    struct pollux_answer (*pact)(const uint8_t *, size_t, const uint64_t *, size_t, const uint8_t *, size_t, uint8_t *, size_t);
    struct pollux_answer (*compare)(const uint8_t *, size_t, const uint8_t *, size_t, const uint8_t *, size_t);
    struct pollux_counts (*count)(const uint8_t *, size_t, const uint8_t *, size_t, const uint8_t *, size_t, uint64_t *);
    struct pollux_table (*run_all)(const uint8_t *, size_t, const uint8_t *, size_t, const uint8_t *, size_t, uint8_t *, size_t);
};

extern const struct calls pollux_calls;

/* What a call tells: the four numbers of every answer, and those of the calls that have more to tell, which are 0 for the others. */
struct told {
    uint64_t says, number, input, value;
    uint64_t part, place, start, length; /* explain */
    uint64_t keys, priority, count;      /* summarize */
    uint64_t reused;                     /* recheck */
    uint64_t accepted, violated, refused, cut; /* count */
    uint64_t steps;                      /* run_all */
};

struct told make_call(const struct calls *calls, const struct request *request);

/* The answer as a line, without its end. An answer that no call may give is told as "odd" with its numbers. */
void answer_line(char line[LINE_SIZE], const struct request *request, struct told answer);

#endif
