/* The example without a C library, as on a controller: what the engine needs of one is in memory.c. For a device it
   has Linux's standard output. */
#include "knee.h"

static long call(long number, long first, const void *second, size_t third) {
  long result;
  __asm__ volatile("syscall"
                   : "=a"(result)
                   : "a"(number), "D"(first), "S"(second), "d"(third)
                   : "rcx", "r11", "memory");
  return result;
}

static void put(const void *bytes, size_t length) { call(1, 1, bytes, length); }

void knee_set(const uint8_t *lines, size_t length) { put(lines, length); }

static void fit(const char *sheet, size_t length) {
  int answer = knee_fit((const uint8_t *)sheet, length);
  char digits[] = {(char)('0' + answer / 10), (char)('0' + answer % 10), '\n'};
  size_t zero = answer < 10;
  put("answer ", 7);
  put(digits + zero, sizeof digits - zero);
}

__attribute__((force_align_arg_pointer)) void _start(void) {
  static const char good[] = "STOP 60\nSTOP 45\n", bad[] = "STOP 60\nSTOP 6O\n";
  size_t place;
  int answer = knee_begin((const uint8_t *)KNEE_TABLE, sizeof KNEE_TABLE - 1, &place);
  if (answer == 0) {
    fit(good, sizeof good - 1);
    fit(bad, sizeof bad - 1);
  }
  call(60, answer != 0, NULL, 0);
  for (;;) continue;
}
