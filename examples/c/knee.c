/* A controller's use of the engine: the table is translated once, each sheet is run on its code. */
#include "knee.h"
#include "refal0.h"

#define CODE 1024
#define CELLS 256

static uint32_t code[CODE];
static size_t code_length;

/* 0, or the number and place of what is wrong with the table. */
int knee_begin(const uint8_t *table, size_t length, size_t *place) {
  uint64_t answer[REFAL0_TABLE_ANSWER];
  refal0_translate(table, length, code, CODE, answer);
  *place = answer[1];
  code_length = answer[2];
  return (int)answer[0];
}

/* 0 with the setting lines handed to the knee, or the number of what ended the run: then nothing is handed over. */
int knee_fit(const uint8_t *sheet, size_t length) {
  static uint8_t stack_in[CELLS], stack_out[CELLS], record[CELLS];
  uint64_t answer[REFAL0_RUN_ANSWER];
  refal0_run(code, code_length, 1, sheet, length, stack_in, CELLS, stack_out, CELLS, record, CELLS, 1000, answer);
  if (answer[0] == REFAL0_DONE) knee_set(record, answer[4]);
  return (int)answer[0];
}
