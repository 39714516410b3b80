/* A program that runs words of code and has no reader: how much of the engine it takes is measured. */
#include "refal0.h"

static volatile uint64_t seen;

void _start(void) {
  static uint32_t code[64];
  static uint8_t text[16], stack_in[16], stack_out[16], record[16];
  uint64_t answer[REFAL0_RUN_ANSWER];
  refal0_run(code, 64, 1, text, 16, stack_in, 16, stack_out, 16, record, 16, 100, answer);
  for (;;) seen = answer[0];
}
