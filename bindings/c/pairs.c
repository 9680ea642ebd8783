/* Many pairs at once against stored answers: `pairs bindings/c/pairs` (tools/pair_cases.py says how they are laid out and makes them). The numbers of the answer
 * and every word of the list are compared, and the words beside it, which have garbage in them before the call. Each pair that is answered is asked by itself too.
 * Says how many are as stored, and ends with 1 if one is not, or if there are none. */
#include <stdio.h>
#include <string.h>

#include "axml.h"

enum { MOST = 1 << 17, BESIDE = 8, WIDE = 1024 };

static uint8_t bytes[4 * MOST];
static uint32_t words[MOST], list[WIDE + 2 * BESIDE];
static size_t at, count;

struct run {
  const uint32_t *words;
  uint32_t count;
};

struct part {
  const uint8_t *bytes;
  uint32_t count;
};

static uint32_t next(void) { return at < count ? words[at++] : 0; }

static struct run next_words(void) {
  struct run r = {words, next()};
  if (r.count > count - at) r.count = (uint32_t)(count - at);
  r.words = words + at;
  at += r.count;
  return r;
}

static struct part next_bytes(void) {
  struct part p = {bytes, next()};
  if (p.count > 4 * (count - at)) p.count = (uint32_t)(4 * (count - at));
  p.bytes = bytes + 4 * at;
  at += (p.count + 3) / 4;
  return p;
}

int main(int given, char **names) {
  FILE *from = given == 2 ? fopen(names[1], "rb") : NULL;
  if (!from) return fprintf(stderr, "usage: pairs FILE\n"), 2;
  count = fread(bytes, 1, sizeof bytes, from) / 4;
  fclose(from);
  for (size_t i = 0; i < count; i++)
    words[i] = bytes[4 * i] | (uint32_t)bytes[4 * i + 1] << 8 | (uint32_t)bytes[4 * i + 2] << 16 | (uint32_t)bytes[4 * i + 3] << 24;

  uint32_t cases = next();
  unsigned wrong = 0, lists = 0, asked = 0, apart = 0;
  for (uint32_t k = 0; k < cases; k++) {
    struct run lent = next_words();
    struct part area = next_bytes(), file = next_bytes();
    struct run nodes = next_words(), attributes = next_words(), pairs = next_words();
    struct part texts = next_bytes();
    uint32_t node_count = next(), attribute_count = next(), refusal = next(), value = next(), answered = next();
    struct run after = next_words();
    if (after.count > WIDE) return fprintf(stderr, "a list of %u words\n", after.count), 2;
    memset(list, 0xa5, sizeof list);
    struct axml_pairs_answer m = axml_first_values(file.bytes, file.count, lent.words, lent.count, area.bytes, area.count, nodes.words, nodes.count,
                                                  attributes.words, attributes.count, pairs.words, pairs.count, texts.bytes, texts.count, list + BESIDE,
                                                  after.count, node_count, attribute_count);
    wrong += m.refusal != refusal || m.value != value || m.count != answered;
    int same = memcmp(list + BESIDE, after.words, 4 * (size_t)after.count) == 0;
    for (uint32_t i = 0; i < BESIDE; i++) same &= list[i] == 0xa5a5a5a5u && list[BESIDE + after.count + i] == 0xa5a5a5a5u;
    lists += !same;
    for (uint32_t i = 0; i < answered && m.refusal == AXML_DONE; i++, asked++) {
      const uint32_t *pair = pairs.words + AXML_PAIR_WORDS * i, *here = list + BESIDE + AXML_PAIR_ANSWER_WORDS * i;
      struct axml_first_answer a = axml_first_value(file.bytes, file.count, lent.words, lent.count, area.bytes, area.count, nodes.words, nodes.count,
                                                    attributes.words, attributes.count, texts.bytes + pair[0], pair[1], texts.bytes + pair[2], pair[3],
                                                    node_count, attribute_count);
      apart += a.refusal != here[0] || a.type != here[1] || a.data != here[2] || a.reference != here[3];
    }
  }
  printf("pairs: %u calls, %u answers wrong, %u lists wrong; %u pairs, %u answered otherwise alone\n", cases, wrong, lists, asked, apart);
  return wrong || lists || apart || !cases || !asked || at != count;
}
