/*
 * Polluxvalve for C: a restriction on the entries of a P4 table is read, checked, translated into blocks of 512 bytes,
 * loaded, and held against entries. Link with target/staticlib/libpollux.a, which `./pollux lib` makes.
 *
 *   On the author's desk     pollux_check, pollux_print, pollux_translate, pollux_judge: from the restriction's text
 *   On the switch            pollux_load once for a table, then pollux_run for every entry, or pollux_run_all for many at a time
 *   On site                  pollux_explain, with text and entry: which part of the restriction, or which key, turned it away
 *   When entries are edited  pollux_summarize: which keys a text names; pollux_recheck: the earlier answer, where it still holds
 *   For texts on file        pollux_fix_octal: the same text with its octal numerals in hex, which the other calls refuse
 *   For a partner's terms    pollux_pact: a Pact contract as a text, with a name for each of its inputs
 *   For a contractor's work  pollux_compare: are their blocks our translation of a text, its parts in some order?
 *   Before driving home      pollux_count: how many entries of a table each part of a text turns away
 *
 * Inputs
 *   Each input is a pointer and a length in bytes, in that order. It may have any length and any content: whatever does not
 *   conform is refused with a number and a place. No alignment is asked for. Only the table of pollux_pact is a pointer to
 *   uint64_t, aligned as these are, and a count of them, and the parts of pollux_count are POLLUX_MAX_PARTS of them and no count.
 *   A pointer is never NULL. For an input of length 0 pass any other pointer; no byte there is touched.
 *   The buffer of pollux_translate, pollux_print, pollux_fix_octal or pollux_pact, the answers of pollux_run_all, and the parts of
 *   pollux_count, must not overlap another input. Inputs that are only read may overlap.
 *
 * What a call touches
 *   A call reads no byte outside the inputs that it is given and writes none but those of the buffer that pollux_translate,
 *   pollux_print, pollux_fix_octal or pollux_pact is given, of the answers of pollux_run_all, or of the parts of pollux_count. It keeps
 *   nothing: there are no globals, no heap and no system calls, and the same inputs always have the same answer. Threads may call at the
 *   same time, as long as nobody writes what another one's call has been given.
 *
 * What a call needs
 *   Stack: POLLUX_MAX_STACK bytes. This is measured and not proved: tests/c/run makes each call with the deepest texts that the
 *   limits allow and with generated inputs, prints what it took, and fails above it. docs/DECISIONS.md has the figures.
 *   From the C library, or from you on bare metal: at most memcpy, memmove and memset.
 *   Processor and calling convention: x86-64, System V.
 */
#ifndef POLLUX_H
#define POLLUX_H

#include <stddef.h>
#include <stdint.h>

#ifdef __cplusplus
extern "C" {
#endif

/*
 * The version of Polluxvalve: of this interface, the archive and the programs. The number is major * 1,000,000 + minor * 1,000 + patch, so
 * that a later version has a larger one.
 */
#define POLLUX_VERSION "2.0.3"
#define POLLUX_VERSION_NUMBER 2000003

/* The number of the archive that a program is linked with. An archive of another major version than the header's must not be called. */
uint64_t pollux_version(void);

/* What a call may take of the stack, in bytes. */
#define POLLUX_MAX_STACK (200 * 1024)

/* Sizes in bytes, and limits. What is over a limit is refused. */
#define POLLUX_MAX_TEXT 4096 /* bytes */
#define POLLUX_MAX_PRINT 4096 /* bytes */
#define POLLUX_MAX_TOKENS 1024
#define POLLUX_MAX_LEVELS 64 /* parentheses and prefix operators that are open at one time */
#define POLLUX_MAX_PARTS 512 /* what stands between the ";" signs outside parentheses */

/*
 * One record of a key list. Byte 0: the length of the name, 1 to 64. Byte 1: the kind, 0 exact, 1 ternary, 2 lpm, 3 range, 4 optional.
 * Byte 2: the width in bits, 1 to 128. Byte 3: 1 if every entry must have the key present, else 0, as older lists have it. Bytes 4 to 15
 * are zero. From byte 16 on: the name, then zeros.
 */
#define POLLUX_KEY_SIZE 80
#define POLLUX_KEY_FLAG 3 /* the byte of a record that says whether the key must be present */
#define POLLUX_REQUIRED 1 /* what stands there if it must; nothing above it may */
#define POLLUX_MAX_KEYS 32
#define POLLUX_MAX_LIST (POLLUX_MAX_KEYS * POLLUX_KEY_SIZE) /* bytes */
#define POLLUX_MAX_NAME 64                                  /* bytes of a key's name */
#define POLLUX_MAX_WIDTH 128                                /* bits of a key */

#define POLLUX_PRIORITY_SIZE 4 /* an entry is a priority and a record for each key */
#define POLLUX_RECORD_SIZE 36
#define POLLUX_ENTRY_SIZE(keys) (POLLUX_PRIORITY_SIZE + POLLUX_RECORD_SIZE * (size_t)(keys))
#define POLLUX_MAX_ENTRIES 1000000 /* that are counted at one time */

#define POLLUX_MAX_INPUTS 16       /* names of a contract's inputs */
#define POLLUX_MAX_USER_NUMBERS 16 /* numbers of its table */
#define POLLUX_INPUT_WIDTH 64      /* bits of each input: a name is an exact key of this width */

#define POLLUX_BLOCK_SIZE 512
#define POLLUX_BLOCK_INSTRUCTIONS 25
#define POLLUX_INSTRUCTION_SIZE 20
#define POLLUX_MAX_BLOCKS 123
#define POLLUX_MAX_BLOCKS_SIZE (POLLUX_MAX_BLOCKS * POLLUX_BLOCK_SIZE) /* bytes */
#define POLLUX_MAX_VALUES 384                                          /* values that a run holds at one time */

/* The bytes of the blocks that hold so many instructions. */
#define POLLUX_BLOCKS_SIZE(instructions) \
    (((size_t)(instructions) + POLLUX_BLOCK_INSTRUCTIONS - 1) / POLLUX_BLOCK_INSTRUCTIONS * POLLUX_BLOCK_SIZE)

/* What an answer says. */
enum pollux_says {
    POLLUX_REFUSED = 0,
    POLLUX_ACCEPTED = 1, /* the restriction is true of the entry */
    POLLUX_VIOLATED = 2, /* it is false of the entry */
    POLLUX_DONE = 3,     /* read, passed, translated, loaded, printed, fixed, drafted, counted, or a table that ran */
    POLLUX_AGREES = 4,   /* the blocks are the text's translation, its parts in some order */
    POLLUX_DIFFERS = 5   /* they load, and are not */
};

/* The input that a refusal lies in. */
enum pollux_input {
    POLLUX_NOWHERE = 0, /* no refusal */
    POLLUX_TEXT = 1,
    POLLUX_LIST = 2,
    POLLUX_ENTRY = 3, /* or entries end to end */
    POLLUX_BLOCKS = 4,
    POLLUX_BUFFER = 5, /* or the answers of pollux_run_all */
    POLLUX_PACT = 6, /* a contract */
    POLLUX_TABLE = 7 /* whose offset counts numbers, not bytes */
};

/* Why an input was refused, and where in it. */
enum pollux_refusal {
    POLLUX_TEXT_TOO_LONG = 1,   /* at 4096 */
    POLLUX_LIST_LENGTH = 2,     /* not a multiple of 80, or over 2,560; at its length */
    POLLUX_KEY_LAYOUT = 3,      /* a byte 3 that is neither 0 nor 1 included; of a contract's names also one that is not exact or not
                                   of width 64, or a 17th; at the record */
    POLLUX_KEY_REPEATED = 4,    /* at the later record */
    POLLUX_NO_TOKEN = 5,        /* at the first byte that forms no token */
    POLLUX_NUMERAL_LARGE = 6,   /* above 2^128 - 1; at the numeral */
    POLLUX_TOKENS_MANY = 7,     /* at the 1,025th token */
    POLLUX_GRAMMAR = 8,         /* at the token that cannot stand there, or at the text's length */
    POLLUX_LEVELS_MANY = 9,     /* at the token that opens the 65th level */
    POLLUX_ADDRESS = 10,        /* at the string's quote */
    POLLUX_KEY_UNKNOWN = 11,    /* at the key */
    POLLUX_FIELD_UNKNOWN = 12,  /* or attribute; at its name */
    POLLUX_OPERAND_TYPES = 13,  /* at the operator */
    POLLUX_NOT_BOOL = 14,       /* at the root of the text's tree */
    POLLUX_BUFFER_SHORT = 15,   /* or too few bytes for answers; at the buffer's length */
    POLLUX_BLOCKS_LENGTH = 16,  /* 0, not a multiple of 512, or over 123 blocks; at the length */
    POLLUX_BLOCK_LAYOUT = 17,   /* at the block */
    POLLUX_INSTRUCTION = 18,    /* at the instruction, a skip whose landing does not fit included, or at the blocks' length if what is
                                   left at the end is not one bool */
    POLLUX_ENTRY_LENGTH = 19,   /* or that of entries end to end, the last of which is cut; at the length */
    POLLUX_ENTRY_RULE = 20,     /* at the priority (0) or at the key's record, the absence of a key that must be present included */
    POLLUX_PRINT_LONG = 21,     /* over 4,096 bytes, or what is written over the buffer; a contract's text also over 1,024 tokens or
                                   64 levels; at the buffer's length */
    POLLUX_OCTAL = 22,          /* a well-formed octal numeral; at its first byte */
    POLLUX_BITS_LOST = 23,      /* a number of the text that does not fit the W bits of the operand it is compared with, so none from -2^(W-1) to
                                   2^W - 1; at its numeral or address, or at the outermost of its minus signs */
    POLLUX_CONTRACT = 24,       /* over 16 user numbers; at 16 in the table. IN, a reserved bit, an unused operation number, a conjunction
                                   with no assertion directly before it; at the opcode. An index without a name or a user number; at the
                                   index byte. A contract that ends after an opcode; at its length */
    POLLUX_ENTRIES_MANY = 25    /* over 1,000,000 whole entries to count; at the 1,000,001st */
};

/*
 * An answer of any call but pollux_run_all, pollux_explain, pollux_summarize, pollux_recheck and pollux_count, which have more to tell.
 *
 *   refused               says POLLUX_REFUSED, number and input as above, value the byte offset in that input, in a table the index
 *                         of a number
 *   accepted, violated    number and input are 0; value is the steps that pollux_run took, and 0 of any other call
 *   done                  number and input are 0; value is the count that the call gives, or 0
 *   agrees, differs       number, input and value are 0
 */
struct pollux_answer {
    uint64_t says;   /* enum pollux_says */
    uint64_t number; /* enum pollux_refusal, or 0 */
    uint64_t input;  /* enum pollux_input */
    uint64_t value;
};

/* Reads a restriction's text. Done: value is the number of nodes of its tree. */
struct pollux_answer pollux_read(const uint8_t *text, size_t text_length);

/* Checks a text and its types against a key list. Done: value is 0. */
struct pollux_answer pollux_check(const uint8_t *text, size_t text_length,
                                  const uint8_t *list, size_t list_length);

/* Judges one entry directly from the text: accepted, violated or refused. */
struct pollux_answer pollux_judge(const uint8_t *text, size_t text_length,
                                  const uint8_t *list, size_t list_length,
                                  const uint8_t *entry, size_t entry_length);

/*
 * Translates a text into blocks at the front of the buffer. Done: value is the number of instructions, and
 * POLLUX_BLOCKS_SIZE(value) bytes were written. Later bytes of the buffer stay as they were; on a refusal every byte does.
 * A buffer of POLLUX_MAX_BLOCKS_SIZE bytes is large enough for any text.
 */
struct pollux_answer pollux_translate(const uint8_t *text, size_t text_length,
                                      const uint8_t *list, size_t list_length,
                                      uint8_t *buffer, size_t buffer_length);

/* Checks that blocks load with a key list. Done: value is the number of instructions. */
struct pollux_answer pollux_load(const uint8_t *list, size_t list_length,
                                 const uint8_t *blocks, size_t blocks_length);

/*
 * Runs blocks on one entry: accepted, violated or refused. Accepted or violated: value is the steps taken, one for each instruction
 * that was carried out, without those that a skip passed over; never more than pollux_load counts. It checks list and blocks itself,
 * every time, and trusts no earlier load: blocks of which a byte has changed since are refused. Where pollux_load passes, only the
 * entry can be refused (19, 20).
 */
struct pollux_answer pollux_run(const uint8_t *list, size_t list_length,
                                const uint8_t *blocks, size_t blocks_length,
                                const uint8_t *entry, size_t entry_length);

/* What a run of many entries answers. */
struct pollux_table {
    uint64_t says;   /* enum pollux_says: refused or done */
    uint64_t number; /* enum pollux_refusal, or 0 */
    uint64_t input;  /* enum pollux_input */
    uint64_t value;  /* the offset of a refusal, or how many entries there are */
    uint64_t steps;  /* of all entries, modulo 2^64; 0 on a refusal */
};

/*
 * Runs blocks on entries that lie end to end, each POLLUX_ENTRY_SIZE(keys) bytes for a list of so many keys. There may be none. List and
 * blocks are checked once, so this is faster than pollux_run for each entry, and says the same.
 *
 * Done: value is how many entries there are, and answers[k] is what pollux_run says of the one that starts at k * POLLUX_ENTRY_SIZE(keys):
 * POLLUX_ACCEPTED, POLLUX_VIOLATED, or POLLUX_REFUSED where it refuses it with 20; pollux_run tells where. steps is the sum of theirs, to
 * which a refused entry adds none. Later bytes of answers stay as they were; on a refusal every byte does, and no entry was judged.
 *
 * It refuses the list and the blocks as pollux_load does, then with 19 in the entry a length of the entries that is no multiple of an
 * entry's, at that length, and then with 15 in the buffer fewer answers than entries, at answers_length.
 */
struct pollux_table pollux_run_all(const uint8_t *list, size_t list_length,
                                   const uint8_t *blocks, size_t blocks_length,
                                   const uint8_t *entries, size_t entries_length,
                                   uint8_t *answers, size_t answers_length);

/*
 * Compares blocks, which another translator may have made, with a text. Agrees: they load, and they are what pollux_translate writes
 * of the text's parts (what stands between two ";" signs outside parentheses), each used once, in some order, joined from the left and
 * with the same skips; then pollux_run says of every entry what pollux_judge says, though it may take other steps. Differs: they load,
 * and are not; then nothing is known of what they say. Parts that translate alike are alike here, however they are spelled. Blocks without
 * skips, as they were made before there were any, differ unless the text has nothing to skip. It refuses the text and the list as
 * pollux_check does, and then the blocks with 16, 17 and 18.
 */
struct pollux_answer pollux_compare(const uint8_t *text, size_t text_length,
                                    const uint8_t *list, size_t list_length,
                                    const uint8_t *blocks, size_t blocks_length);

/*
 * Prints a text in house style at the front of the buffer: one blank on each side of a binary operator and none elsewhere,
 * numerals in the base they are written in, with lower-case digits and prefix and without leading zeros, addresses as decimal
 * numerals, only the parentheses that the grammar needs. Reading the print gives the same tree, places aside, and two texts have
 * equal prints exactly when their trees are equal in that sense. Done: value is the number of bytes written. Later bytes of the
 * buffer stay as they were; on a refusal every byte does. A buffer of POLLUX_MAX_PRINT bytes is large enough for any print.
 */
struct pollux_answer pollux_print(const uint8_t *text, size_t text_length,
                                  uint8_t *buffer, size_t buffer_length);

/*
 * Copies a text to the front of the buffer with each octal numeral as "0x" and lower-case hex of the same number, without leading
 * zeros. All other bytes are as they stood, those of strings and comments included, and the result is never longer than the text: a
 * buffer of text_length bytes is large enough. It asks for no grammar, and refuses with 1, 5, 6, 7 and 21 alone, of which 6 is for an
 * octal numeral above 2^128 - 1 too. The result is read exactly where the text was before octal went, as the same tree, places aside.
 * Done: value is the number of bytes written. Later bytes of the buffer stay as they were; on a refusal every byte does.
 */
struct pollux_answer pollux_fix_octal(const uint8_t *text, size_t text_length,
                                      uint8_t *buffer, size_t buffer_length);

/*
 * Makes a restriction's text of a Pact contract at the front of the buffer, in house style. names is a key list with a name for each
 * input of the contract: at most POLLUX_MAX_INPUTS exact keys of width POLLUX_INPUT_WIDTH, of which not all need be used. table holds the user
 * numbers, at most POLLUX_MAX_USER_NUMBERS. An assertion is a comparison, an assertion or a join under NOT stands under "!", AND, OR and
 * XOR join from the left as "&&", "||" and "!=" of two bools, clauses are joined by ";", and a contract without a byte is "true".
 * The text passes with names as its key list, and judged on an entry it says what the contract says of the entry's numbers.
 * It refuses with 2, 3, 4, 24 and 21, in this order. Done: value is the number of bytes written. Later bytes of the buffer stay as they
 * were; on a refusal every byte does. A buffer of POLLUX_MAX_TEXT bytes is large enough for any text.
 */
struct pollux_answer pollux_pact(const uint8_t *contract, size_t contract_length,
                                 const uint64_t *table, size_t table_count,
                                 const uint8_t *names, size_t names_length,
                                 uint8_t *buffer, size_t buffer_length);

/*
 * What broke for an entry. The first four are what pollux_judge answers; the last four show a piece of the text or of the key list,
 * by its first byte and its length there, no copy.
 *
 *   violated                   part is the number, from 1, of the first part of the text that is false: what stands between two ";"
 *                              signs outside parentheses. place is where its root stands in the text: the root's operator, or else its
 *                              first token, inside any parentheses; start and length are its stretch of the text, from its first
 *                              token to its last
 *   refused with 20 at a       part is 0, place the record's place in the entry, as value is; start and length are the key's name
 *   key's record               in the list
 *   accepted, and all other    nothing to show: the last four are 0
 *   refusals
 */
struct pollux_reason {
    uint64_t says;   /* enum pollux_says: refused, accepted or violated */
    uint64_t number; /* enum pollux_refusal, or 0 */
    uint64_t input;  /* enum pollux_input */
    uint64_t value;
    uint64_t part;
    uint64_t place;
    uint64_t start;
    uint64_t length; /* at least 1 where a piece is shown */
};

/* Judges one entry directly from the text, as pollux_judge does, and shows what broke. */
struct pollux_reason pollux_explain(const uint8_t *text, size_t text_length,
                                    const uint8_t *list, size_t list_length,
                                    const uint8_t *entry, size_t entry_length);

/*
 * What a text names. The first four are what pollux_check answers; the others are 0 on a refusal.
 *
 * A key is named by itself or by one of its fields, once or often. An entry that is changed in no named key, nor in its priority if that
 * is named, and conforms before and after, has the same judgement before and after.
 */
struct pollux_summary {
    uint64_t says;     /* enum pollux_says: refused or done */
    uint64_t number;   /* enum pollux_refusal, or 0 */
    uint64_t input;    /* enum pollux_input */
    uint64_t value;    /* the offset of a refusal, or 0 */
    uint64_t keys;     /* bit k, which is 2^k, is set where the text names the key of record k, from 0 */
    uint64_t priority; /* 1 where the text names ::priority, else 0 */
    uint64_t count;    /* how many keys it names */
};

/* Checks a text against a key list, as pollux_check does, and tells what it names. */
struct pollux_summary pollux_summarize(const uint8_t *text, size_t text_length,
                                       const uint8_t *list, size_t list_length);

/*
 * What a recheck answers.
 *
 *   reused is 1    the first four are the earlier answer as it was handed in, true or not: both entries conform, every record of a named
 *                  key has the same 36 bytes in both and, where the text names ::priority, the priority is the same
 *   reused is 0    the first four are what pollux_judge answers for the new entry, refusals included. The old entry is never refused:
 *                  one that does not conform only means that nothing is reused
 */
struct pollux_rechecked {
    uint64_t says;   /* enum pollux_says: refused, accepted or violated */
    uint64_t number; /* enum pollux_refusal, or 0 */
    uint64_t input;  /* enum pollux_input */
    uint64_t value;
    uint64_t reused; /* 1 or 0 */
};

/*
 * Rechecks an entry after an edit, given the entry before it and what pollux_judge answered then. If that was the old entry's
 * judgement, the result is the new entry's. Four numbers that are no answer of a judgement (says above 2; accepted or violated with
 * another number than 0 beside it; refused with a number above 255, or in none of the seven inputs) count as refused with 20 at byte 0
 * of the entry. So what pollux_run answered is handed in without its steps, with value 0.
 */
struct pollux_rechecked pollux_recheck(const uint8_t *text, size_t text_length,
                                       const uint8_t *list, size_t list_length,
                                       const uint8_t *old_entry, size_t old_length,
                                       struct pollux_answer earlier,
                                       const uint8_t *new_entry, size_t new_length);

/*
 * What a count answers. The last four are 0 on a refusal.
 *
 * accepted, violated and refused add up to the number of whole entries; an entry is refused where pollux_judge refuses it with 20.
 */
struct pollux_counts {
    uint64_t says;     /* enum pollux_says: refused or done */
    uint64_t number;   /* enum pollux_refusal, or 0 */
    uint64_t input;    /* enum pollux_input */
    uint64_t value;    /* the offset of a refusal, or how many parts the text has */
    uint64_t accepted; /* entries */
    uint64_t violated;
    uint64_t refused;
    uint64_t cut; /* bytes of a last entry that is not whole */
};

/*
 * Judges entries that lie end to end, each POLLUX_ENTRY_SIZE(keys) bytes for a list of so many keys: 184 for five, and 4, the priority
 * alone, for none. There may be none, and the last may be cut: then it is not judged, and its bytes are counted by themselves.
 *
 * Done: value is how many parts the text has (what stands between two ";" signs outside parentheses), at least 1, and parts[k - 1] is the
 * number of entries for which part k is false, of those that are accepted or violated; whatever other parts are false for them too. Later
 * numbers of parts stay as they were; on a refusal every number does. What stands in parts before the call does not matter.
 *
 * It refuses the text and the list as pollux_check does, and then more than POLLUX_MAX_ENTRIES whole entries with 25. A longer table is
 * counted in stretches of whole entries, and the numbers are added.
 */
struct pollux_counts pollux_count(const uint8_t *text, size_t text_length,
                                  const uint8_t *list, size_t list_length,
                                  const uint8_t *entries, size_t entries_length,
                                  uint64_t parts[POLLUX_MAX_PARTS]);

#ifdef __cplusplus
}
#endif

#endif
