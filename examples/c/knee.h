/* What the examples of this folder share. */
#include <stddef.h>
#include <stdint.h>

int knee_begin(const uint8_t *table, size_t length, size_t *place);
int knee_fit(const uint8_t *sheet, size_t length);

/* Takes the setting lines; each program has its own. */
void knee_set(const uint8_t *lines, size_t length);

#define KNEE_TABLE                                                         \
  "Sheet { eLine '\\n' eRest = <Line eLine> <Sheet eRest>; = }\n"          \
  "Line { 'STOP ' eValue = <EmitStop <Degrees eValue>> }\n"                \
  "Degrees { s10 s1, <IsDigit s10>: 'T', <IsDigit s1>: 'T' = s10 s1 }\n"
