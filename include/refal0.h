/* The proved Refal-0 engine for C. docs/ENGINE.md says how it is used; link with libengine.a. */
#ifndef REFAL0_H
#define REFAL0_H

#include <stddef.h>
#include <stdint.h>

#ifdef __cplusplus
extern "C" {
#endif

/* What the first word of an answer says. docs/MANUAL.md has each with its causes. */
enum refal0_answer {
  REFAL0_DONE = 0,               /* done: after any other answer there is no text, code, listing or record to use */
  REFAL0_TABLE_TOO_LONG = 1,     /* table: over 32,768 bytes; place 0 */
  REFAL0_MALFORMED_TOKEN = 2,    /* table: a string, comment or `<` without its end or form */
  REFAL0_NOT_ALLOWED_HERE = 3,   /* table: a token that the grammar doesn't allow there */
  REFAL0_OVER_LIMIT = 4,         /* table: passes another limit */
  REFAL0_WRONG_NAME = 5,         /* table: declared twice, reserved, no predicate in a condition, a predicate called */
  REFAL0_PATTERN_VARIABLE = 6,   /* table: a variable that can't stand in its pattern */
  REFAL0_LATER_VARIABLE = 7,     /* table: not in the pattern, or an e-variable repeated or out of order */
  REFAL0_NOT_DECLARED = 8,       /* table: a called function isn't declared */
  REFAL0_NO_START = 9,           /* run: start is 0 or above the number of functions */
  REFAL0_TEXT_TOO_LONG = 10,     /* run: the text is longer than stack in */
  REFAL0_NOTHING_FITS = 11,      /* run: no sentence fits; the answer names the function */
  REFAL0_ALLOWANCE_SPENT = 12,   /* run: the steps of the allowance are used */
  REFAL0_STACK_IN_FULL = 13,     /* run: stack in would pass its left end */
  REFAL0_STACK_OUT_FULL = 14,    /* run: stack out has no cell left */
  REFAL0_FRAMES_FULL = 15,       /* run: 256 applications wait for one another */
  REFAL0_RECORD_FULL = 16,       /* run: an emission doesn't fit the record */
  REFAL0_BUFFER_TOO_SHORT = 17,  /* table: the code or the listing doesn't fit what was lent */
  REFAL0_NO_CODE = 18,           /* run: the words are no code; never with words from refal0_translate, whole */
  REFAL0_NOT_FLAT = 19,          /* refal0_flat: a declared call that is no tail call */
  REFAL0_NO_ANGLES = 20,         /* run: DmAdd or DmSub was given something else than two angles */
  REFAL0_ANGLE_OUT_OF_RANGE = 21 /* run: a sum or difference of angles passes 359:59 either way */
};

/* Sizes that suffice for every table of so many bytes (at most 32,768 are accepted). */
#define REFAL0_CODE_WORDS(table_length) (2 * (table_length) + 16)
#define REFAL0_LISTING_BYTES(table_length) (4 * (table_length))

/* Lengths of answers, in words of 64 bits, and of a profile's counts. */
#define REFAL0_TABLE_ANSWER 3
#define REFAL0_RUN_ANSWER 5
#define REFAL0_COUNTS 64

/* Whether a table is accepted. Answer: number, place, functions. */
void refal0_read(const uint8_t *table, size_t table_length, uint64_t answer[REFAL0_TABLE_ANSWER]);

/* Its listing, if it is accepted. Answer: number, place, length of the listing. */
void refal0_list(const uint8_t *table, size_t table_length, uint8_t *listing, size_t listing_length,
                 uint64_t answer[REFAL0_TABLE_ANSWER]);

/* Its code, if it is accepted. Answer: number, place, words of code. */
void refal0_translate(const uint8_t *table, size_t table_length, uint32_t *code, size_t code_length,
                      uint64_t answer[REFAL0_TABLE_ANSWER]);

/* Whether it calls declared functions by tail calls alone: then one frame is enough. Answer: number, place,
   functions. */
void refal0_flat(const uint8_t *table, size_t table_length, uint64_t answer[REFAL0_TABLE_ANSWER]);

/* Runs code from a function on, counted from 1. Answer: number, function (with 11), steps, length of the text that is
   left in stack_out, length of the emissions in the record. Use neither unless the number is 0. */
void refal0_run(const uint32_t *code, size_t code_length, size_t start, const uint8_t *text, size_t text_length,
                uint8_t *stack_in, size_t stack_in_length, uint8_t *stack_out, size_t stack_out_length,
                uint8_t *record, size_t record_length, uint32_t allowance, uint64_t answer[REFAL0_RUN_ANSWER]);

/* The same, and in counts how often each of the functions 1 to 64 was applied. */
void refal0_profile(const uint32_t *code, size_t code_length, size_t start, const uint8_t *text, size_t text_length,
                    uint8_t *stack_in, size_t stack_in_length, uint8_t *stack_out, size_t stack_out_length,
                    uint8_t *record, size_t record_length, uint32_t allowance, uint64_t answer[REFAL0_RUN_ANSWER],
                    uint64_t counts[REFAL0_COUNTS]);

#ifdef __cplusplus
}
#endif

#endif
