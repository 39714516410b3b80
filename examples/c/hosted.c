/* The example on a system with a C library. */
#include <stdio.h>
#include <string.h>
#include "knee.h"

void knee_set(const uint8_t *lines, size_t length) { fwrite(lines, 1, length, stdout); }

static void fit(const char *sheet) {
  int answer = knee_fit((const uint8_t *)sheet, strlen(sheet));
  printf("answer %d\n", answer);
}

int main(void) {
  size_t place;
  int answer = knee_begin((const uint8_t *)KNEE_TABLE, strlen(KNEE_TABLE), &place);
  if (answer != 0) {
    printf("refused with %d at byte %zu\n", answer, place);
    return 1;
  }
  fit("STOP 60\nSTOP 45\n");
  fit("STOP 60\nSTOP 6O\n");
  return 0;
}
