/* NULL may be passed where a length is 0: the calls return, and answer as for empty buffers. */
#include <stdio.h>
#include "refal0.h"

int main(void) {
  uint64_t answer[REFAL0_RUN_ANSWER], counts[REFAL0_COUNTS];
  refal0_read(NULL, 0, answer);
  printf("read %d, %d functions\n", (int)answer[0], (int)answer[2]);
  refal0_list(NULL, 0, NULL, 0, answer);
  printf("list %d\n", (int)answer[0]);
  refal0_translate(NULL, 0, NULL, 0, answer);
  printf("translate %d\n", (int)answer[0]);
  refal0_run(NULL, 0, 1, NULL, 0, NULL, 0, NULL, 0, NULL, 0, 0, answer);
  printf("run %d\n", (int)answer[0]);
  refal0_profile(NULL, 0, 1, NULL, 0, NULL, 0, NULL, 0, NULL, 0, 0, answer, counts);
  printf("profile %d\n", (int)answer[0]);
  static const uint8_t table[] = "F { = 'x'; e1 = }";
  static uint32_t code[REFAL0_CODE_WORDS(sizeof table)];
  static uint8_t cells[4];
  refal0_translate(table, sizeof table - 1, code, sizeof code / sizeof *code, answer);
  refal0_run(code, answer[2], 1, NULL, 0, NULL, 0, cells, 4, NULL, 0, 9, answer);
  printf("run %d, %.*s\n", (int)answer[0], (int)answer[3], (const char *)cells);
  return 0;
}
