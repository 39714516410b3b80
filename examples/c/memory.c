/* What the engine needs of a C library, for programs that have none. */
#include <stddef.h>

void *memset(void *cells, int byte, size_t length) {
  unsigned char *at = cells;
  while (length--) *at++ = (unsigned char)byte;
  return cells;
}

void *memcpy(void *restrict to, const void *restrict from, size_t length) {
  unsigned char *at = to;
  const unsigned char *source = from;
  while (length--) *at++ = *source++;
  return to;
}
