/* How much native stack each entry point takes: it is called on a stack that was painted before, and what is no longer
   painted afterwards was used. Prints a line for each, in bytes. The arguments are tables: each is read, listed,
   translated and run. */
#include <pthread.h>
#include <stdio.h>
#include <stdlib.h>
#include <string.h>
#include "refal0.h"

#define STACK (1 << 20)
#define PAINT 0xa5
#define TABLE 32768
#define CELLS 32768

/* An archive of an engine that has no refal0_flat yet can be measured too. */
#pragma weak refal0_flat

enum entry { READ, LIST, TRANSLATE, FLAT, RUN, PROFILE, ENTRIES };
static const char *const NAMES[ENTRIES] = {"refal0_read", "refal0_list", "refal0_translate",
                                           "refal0_flat", "refal0_run", "refal0_profile"};

static uint8_t table[TABLE], text[] = "STOP 060\nab7c9\n", listing[REFAL0_LISTING_BYTES(TABLE)];
static uint8_t stack_in[CELLS], stack_out[CELLS], record[CELLS];
static uint32_t code[REFAL0_CODE_WORDS(TABLE)];
static size_t length, words;
static uint64_t answer[REFAL0_RUN_ANSWER], counts[REFAL0_COUNTS];
static unsigned char *area;
static size_t used;

static void enter(enum entry entry) {
  switch (entry) {
    case READ: refal0_read(table, length, answer); break;
    case LIST: refal0_list(table, length, listing, sizeof listing, answer); break;
    case TRANSLATE: refal0_translate(table, length, code, sizeof code / sizeof *code, answer); break;
    case FLAT:
      if (refal0_flat) refal0_flat(table, length, answer);
      break;
    case RUN:
      refal0_run(code, words, 1, text, sizeof text - 1, stack_in, CELLS, stack_out, CELLS, record, CELLS, 1000,
                 answer);
      break;
    default:
      refal0_profile(code, words, 1, text, sizeof text - 1, stack_in, CELLS, stack_out, CELLS, record, CELLS, 1000,
                     answer, counts);
  }
}

/* Paints what lies below this frame, but for a little that painting may use, and looks how far the call went. */
static __attribute__((noinline)) void *painted(void *entry) {
  unsigned char *here = __builtin_frame_address(0), *at = area;
  memset(area, PAINT, (size_t)(here - area) - 1024);
  enter(*(enum entry *)entry);
  while (*at == PAINT) at++;
  used = (size_t)(here - at);
  return NULL;
}

static size_t measured(enum entry entry) {
  pthread_t thread;
  pthread_attr_t attributes;
  if (pthread_attr_init(&attributes) || pthread_attr_setstack(&attributes, area, STACK)) exit(1);
  if (pthread_create(&thread, &attributes, painted, &entry) || pthread_join(thread, NULL)) exit(1);
  return used;
}

int main(int count, char **paths) {
  size_t most[ENTRIES] = {0};
  area = aligned_alloc(4096, STACK);
  for (int at = 1; at < count; at++) {
    FILE *file = fopen(paths[at], "rb");
    if (!area || !file) return 1;
    length = fread(table, 1, TABLE, file);
    fclose(file);
    refal0_translate(table, length, code, sizeof code / sizeof *code, answer);
    words = answer[2];
    for (enum entry entry = READ; entry < ENTRIES; entry++) {
      size_t bytes = measured(entry);
      if (bytes > most[entry]) most[entry] = bytes;
    }
  }
  for (enum entry entry = READ; entry < ENTRIES; entry++) {
    if (entry != FLAT || refal0_flat) printf("%s %zu\n", NAMES[entry], most[entry]);
  }
  return 0;
}
