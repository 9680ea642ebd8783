/* The text and the content question of the C interface against stored answers: `stored crates/text_cases/data/questions` (docs/CASES.md says what
 * they are, oracle/cases.py how they are laid out). Of a content its place is compared too, which no contract fixes. Says how many answers are
 * as stored, and ends with 1 if one is not, or if there are none. */
#include <stdio.h>
#include <string.h>

#include "axml.h"

enum { MOST = 1 << 21, NAMES = 3 * 4096, ROOM = 1 << 17 };

static uint8_t data[MOST], out[ROOM], zeros[ROOM];
static uint32_t names[NAMES];
static size_t bytes;

static uint32_t word(size_t at) {
  return at + 4 <= bytes ? data[at] | (uint32_t)data[at + 1] << 8 | (uint32_t)data[at + 2] << 16 | (uint32_t)data[at + 3] << 24 : 0;
}

/* A part of the data: where it begins and its length, which stand at `at`; none where it passes the end. */
struct part {
  size_t start, length;
};

static struct part part_at(size_t at) {
  struct part p = {word(at), word(at + 4)};
  if (p.start + p.length > bytes) p.start = p.length = 0;
  return p;
}

static int text_right(struct part file, size_t name_words, struct part area, size_t row, struct part want) {
  uint32_t room = word(row + 8), refusal = word(row + 12);
  if (room > ROOM || want.length > room) return 0;
  memset(out, 0xa5, sizeof out);
  struct axml_text_answer r = axml_text(data + file.start, file.length, names, name_words, data + area.start, area.length, out, room, word(row + 4));
  if (r.refusal != refusal || r.value != word(row + 16) || r.state != word(row + 20) || r.replaced != word(row + 24)) return 0;
  size_t length = refusal == AXML_DONE ? want.length : 0;
  return r.length == length && memcmp(out, data + want.start, length) == 0 && memcmp(out + length, zeros, room - length) == 0 &&
         (room == ROOM || out[room] == 0xa5);
}

static int content_right(struct part file, size_t name_words, struct part area, size_t row, struct part want) {
  struct axml_content_answer r = axml_content(data + file.start, file.length, names, name_words, data + area.start, area.length, word(row + 4));
  if (r.length != want.length || r.slice > AXML_SLICE_FILE) return 0;
  if (r.slice == AXML_SLICE_NONE) return r.start == 0 && r.length == 0;
  struct part in = r.slice == AXML_SLICE_AREA ? area : file;
  if (r.start + r.length > in.length) return 0;
  return r.length == 0 || in.start + r.start == want.start;
}

int main(int count, char **words) {
  FILE *from = count == 2 ? fopen(words[1], "rb") : NULL;
  if (!from) return fprintf(stderr, "usage: stored FILE\n"), 2;
  bytes = fread(data, 1, sizeof data, from);
  fclose(from);
  struct part sets = part_at(0), files = part_at(8);
  unsigned questions = 0, texts = 0, contents = 0;
  for (size_t s = 0; s + 24 <= sets.length; s += 24) {
    struct part table = part_at(sets.start + s), area = part_at(sets.start + s + 8), rows = part_at(sets.start + s + 16);
    size_t name_words = table.length / 4;
    if (name_words > NAMES) return fprintf(stderr, "too many names\n"), 2;
    for (size_t i = 0; i < name_words; i++) names[i] = word(table.start + 4 * i);
    for (size_t row = rows.start; row + 44 <= rows.start + rows.length; row += 44) {
      struct part file = part_at(files.start + 8 * word(row));
      questions++;
      texts += text_right(file, name_words, area, row, part_at(row + 28));
      contents += content_right(file, name_words, area, row, part_at(row + 36));
    }
  }
  printf("stored: %u questions, texts %u, contents with their places %u\n", questions, texts, contents);
  return questions == 0 || texts != questions || contents != questions;
}
