/* Files added to round-ups against stored answers: `months bindings/c/months` (tools/month_cases.py says how they are laid out and makes them). Every word of
 * the round-up is compared, and the words beside it. Says how many are as stored, and ends with 1 if one is not, or if there are none. */
#include <stdio.h>
#include <string.h>

#include "axml.h"

enum { MOST = 1 << 16, BESIDE = 8, WIDE = 512 };

static uint8_t bytes[4 * MOST];
static uint32_t words[MOST], round_up[WIDE + 2 * BESIDE], notes[WIDE];
static size_t at, count;

static uint32_t next(void) { return at < count ? words[at++] : 0; }

static uint64_t next_wide(void) {
  uint64_t low = next();
  return low | (uint64_t)next() << 32;
}

int main(int given, char **names) {
  FILE *from = given == 2 ? fopen(names[1], "rb") : NULL;
  if (!from) return fprintf(stderr, "usage: months FILE\n"), 2;
  count = fread(bytes, 1, sizeof bytes, from) / 4;
  fclose(from);
  for (size_t i = 0; i < count; i++)
    words[i] = bytes[4 * i] | (uint32_t)bytes[4 * i + 1] << 8 | (uint32_t)bytes[4 * i + 2] << 16 | (uint32_t)bytes[4 * i + 3] << 24;

  uint32_t months = next();
  unsigned files = 0, wrong = 0, changed = 0;
  for (uint32_t m = 0; m < months; m++) {
    uint32_t long_ = next();
    if (long_ > WIDE) return fprintf(stderr, "a round-up of %u words\n", long_), 2;
    memset(round_up, 0xa5, sizeof round_up);
    for (uint32_t i = 0; i < long_; i++) round_up[BESIDE + i] = next();
    uint32_t adds = next();
    for (uint32_t k = 0; k < adds; k++, files++) {
      uint32_t refusal = next(), note_count = next();
      uint64_t length = next_wide();
      uint32_t note_words = next();
      if (note_words > WIDE) return fprintf(stderr, "%u words of notes\n", note_words), 2;
      for (uint32_t i = 0; i < note_words; i++) notes[i] = next();
      struct axml_add_answer a = axml_round_up_add(round_up + BESIDE, long_, notes, note_words, refusal, note_count, (size_t)length);
      uint32_t wanted = next();
      wrong += a.refusal != wanted || a.value != next_wide();
    }
    int same = 1;
    for (uint32_t i = 0; i < long_; i++) same &= round_up[BESIDE + i] == next();
    for (uint32_t i = 0; i < BESIDE; i++) same &= round_up[i] == 0xa5a5a5a5u && round_up[BESIDE + long_ + i] == 0xa5a5a5a5u;
    changed += !same;
  }
  printf("months: %u files added to %u round-ups, %u answers wrong, %u round-ups wrong\n", files, months, wrong, changed);
  return wrong || changed || !files || at != count;
}
