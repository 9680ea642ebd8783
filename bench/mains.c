/* How long axml_main_activities takes on large manifests, and that it is linear: each shape at a quarter, a half and the whole of its elements.
 *
 *   bench/native-object c_api /tmp/c_api.o && cc -O2 -I include -o /tmp/mains bench/mains.c /tmp/c_api.o && /tmp/mains
 *
 * A file is made in memory and read by axml_read; then the question is asked of its tables, nine times, and the best is told, by the CPU time of the process. */
#include <stdio.h>
#include <stdlib.h>
#include <string.h>
#include <time.h>

#include "axml.h"

enum { NAME, MANIFEST, APPLICATION, ACTIVITY, FILTER, ACTION, CATEGORY, MAIN, LAUNCHER, SCREEN, LONG, STRINGS };

static const char *const strings[STRINGS] = {"name",   "manifest", "application",                "activity",                         "intent-filter",
                                             "action", "category", "android.intent.action.MAIN", "android.intent.category.LAUNCHER", ".Main", ""};
static uint8_t file[AXML_LONGEST_FILE + 4096u];
static size_t bytes;

static void word(uint32_t w) {
  memcpy(file + bytes, &w, 4);
  bytes += 4;
}

/* a start with an attribute `name`, if it has one */
static void start(uint32_t tag, int text) {
  uint32_t whole[9] = {0x100102, text < 0 ? 36 : 56, 1, 0xffffffff, 0xffffffff, tag, 0x140014, text >= 0, 0};
  for (int k = 0; k < 9; k++) word(whole[k]);
  if (text < 0) return;
  uint32_t attribute[5] = {0xffffffff, NAME, 0xffffffff, 0x03000008, (uint32_t)text};
  for (int k = 0; k < 5; k++) word(attribute[k]);
}

static void end(void) {
  uint32_t whole[6] = {0x100103, 24, 1, 0xffffffff, 0xffffffff, 0};
  for (int k = 0; k < 6; k++) word(whole[k]);
}

/* the last string has so many bytes */
static void head(size_t length) {
  bytes = 8 + 28 + 4 * STRINGS;
  uint32_t offsets[STRINGS];
  for (int k = 0; k < STRINGS; k++) {
    size_t n = k == LONG ? length : strlen(strings[k]), two = n > 127;
    offsets[k] = bytes - 36 - 4 * STRINGS;
    for (int i = 0; i < 2; i++) {
      if (two) file[bytes++] = 128 | n >> 8;
      file[bytes++] = n;
    }
    if (k == LONG) memset(file + bytes, 'a', n);
    else memcpy(file + bytes, strings[k], n);
    bytes += n;
    file[bytes++] = 0;
  }
  while (bytes % 4) file[bytes++] = 0;
  uint32_t front[9] = {0x80003, 0, 0x1c0001, bytes - 8, STRINGS, 0, 0x100, 28 + 4 * STRINGS, 0};
  memcpy(file, front, 36);
  memcpy(file + 36, offsets, 4 * STRINGS);
  word(0x80180);
  word(8);
}

/* so many elements of a shape; how many there are */
static uint32_t make(int shape, uint32_t many) {
  uint32_t count = 2, levels = 0;
  head(shape == 3 ? 32000 : 1);
  start(MANIFEST, -1);
  start(APPLICATION, -1);
  while (count + 4 <= many) switch (shape) {
      case 0: /* screens */
        start(ACTIVITY, SCREEN), start(FILTER, -1), start(ACTION, MAIN), end(), start(CATEGORY, LAUNCHER), end(), end(), end(), count += 4;
        break;
      case 1: /* activities without filters */
        start(ACTIVITY, -1), end(), count++;
        break;
      case 2: /* activities in activities */
        start(ACTIVITY, -1), levels++, count++;
        break;
      default: /* one filter, whose actions all have the long name */
        if (!levels) start(ACTIVITY, SCREEN), start(FILTER, -1), levels = 2, count += 2;
        start(ACTION, LONG), end(), count++;
    }
  while (levels--) end();
  end();
  end();
  return count;
}

static double now(void) {
  struct timespec t;
  clock_gettime(CLOCK_PROCESS_CPUTIME_ID, &t);
  return t.tv_sec * 1e3 + t.tv_nsec / 1e6;
}

int main(void) {
  static const char *const shapes[4] = {"screens, four elements each", "activities without filters", "activities in activities", "actions with one long name"};
  static const uint32_t whole[4] = {220000, 279000, 279000, 200000};
  static const uint32_t none[1];
  size_t node_words = AXML_NODE_WORDS * AXML_NODE_PLACES(AXML_LONGEST_FILE), attribute_words = AXML_ATTRIBUTE_WORDS * AXML_ATTRIBUTE_PLACES(AXML_LONGEST_FILE);
  uint32_t *nodes = malloc(4 * node_words), *attributes = malloc(4 * attribute_words), notes[39], *list = malloc(4 * 300000);
  if (!nodes || !attributes || !list) return 1;
  printf("| Shape | Elements | Bytes | Screens | Best of nine | For an element |\n|---|---|---|---|---|---|\n");
  for (int shape = 0; shape < 4; shape++)
    for (int part = 4; part; part /= 2) {
      uint32_t count = make(shape, whole[shape] / part);
      struct axml_answer r = axml_read(file, bytes, none, 0, (const uint8_t *)none, 0, nodes, node_words, attributes, attribute_words, notes, 39, 1, AXML_MODE_MERGED);
      if (r.refusal || r.nodes != count) return fprintf(stderr, "mains: refusal %u, %u nodes of %u\n", r.refusal, r.nodes, count), 1;
      double best = 1e9;
      struct axml_main_answer m = {0, 0, 0};
      for (int turn = 0; turn < 9; turn++) {
        double began = now();
        m = axml_main_activities(file, bytes, none, 0, (const uint8_t *)none, 0, none, 0, (const uint8_t *)none, 0, nodes, node_words, attributes, attribute_words,
                                 list, 300000, r.nodes, r.attributes);
        double took = now() - began;
        if (took < best) best = took;
      }
      if (m.refusal) return fprintf(stderr, "mains: refusal %u\n", m.refusal), 1;
      printf("| %s | %u | %zu | %lu | %.2f ms | %.0f ns |\n", shapes[shape], count, bytes, (unsigned long)m.count, best, best * 1e6 / count);
    }
  return 0;
}
