/* The program behind ./axml-round-up: reads each file, adds it to a round-up, and prints the counts (docs/FORMAT.md, R). What is proved is the library's
 * axml_read and axml_round_up_add; this page is glue that nothing proves: it opens files, lends tables and prints. tools/test-round-up runs it.
 * words.h is made of docs/words.tsv when the program is built: refusal_words and kind_words, what each number is called. */
#include <errno.h>
#include <stdio.h>
#include <string.h>

#include "axml.h"
#include "words.h"

enum { CAP = 16, LINE = 8192, EVERY = 500 };

static const char *const sizes[AXML_ROUND_UP_CLASSES] = {"to 4096", "to 16384", "to 65536", "to 262144", "to 1048576", "above"};
static const char helps[] = "axml-round-up --help says how it is used";

static uint8_t file[AXML_LONGEST_FILE + 1u]; /* one byte more than is read, so that a longer file is refused and not cut */
static uint32_t nodes[AXML_NODE_WORDS * (AXML_LONGEST_FILE / 36u + 2u)], attributes[AXML_ATTRIBUTE_WORDS * (AXML_LONGEST_FILE / 20u + 2u)];
static uint32_t notes[AXML_NOTE_WORDS * 64u * CAP], round_up[AXML_ROUND_UP_WORDS];
static const uint32_t no_names[1];
static const uint8_t no_area[1];
static unsigned long files, unopened, not_added, zips;

static void add(const char *path) {
  files++;
  FILE *from = fopen(path, "rb");
  size_t bytes = from ? fread(file, 1, sizeof file, from) : 0;
  int why = !from || ferror(from) ? errno : 0;
  if (from) fclose(from);
  if (why) {
    unopened++;
    fprintf(stderr, "axml-round-up: %s: %s\n", path, strerror(why));
  } else {
    /* a start takes 36 bytes and an attribute 20, and one attribute leads: no table is too short */
    struct axml_answer r = axml_read(file, bytes, no_names, 0, no_area, 0, nodes, AXML_NODE_WORDS * (bytes / 36 + 1), attributes,
                                     AXML_ATTRIBUTE_WORDS * (bytes / 20 + 1), notes, sizeof notes / sizeof *notes, CAP, AXML_MODE_MERGED);
    struct axml_add_answer a = axml_round_up_add(round_up, AXML_ROUND_UP_WORDS, notes, sizeof notes / sizeof *notes, r.refusal, r.notes, bytes);
    if (a.refusal != AXML_DONE) {
      not_added++;
      fprintf(stderr, "axml-round-up: %s was not added: %s (refusal %u, value %lu)\n", path, a.refusal == AXML_ROUND_UP_FULL ? "a count is full" : "it does not fit",
              a.refusal, (unsigned long)a.value);
    }
    if (bytes > 1 && file[0] == 'P' && file[1] == 'K') zips++;
  }
  if (files % EVERY == 0) fprintf(stderr, "axml-round-up: %lu files\n", files);
}

static uint32_t cell(unsigned kind, unsigned class) { return round_up[AXML_ROUND_UP_GRID + AXML_ROUND_UP_CLASSES * kind + class]; }

static void print_table(void) {
  unsigned long refused = 0;
  for (unsigned n = 0; n < AXML_ROUND_UP_NUMBERS; n++) refused += round_up[AXML_ROUND_UP_REFUSED + n];
  printf("%-67s %10u\n", "files read", round_up[AXML_ROUND_UP_READ]);
  printf("%-67s %10lu\n", "files refused", refused);
  for (unsigned n = 0; n < AXML_ROUND_UP_NUMBERS; n++)
    if (round_up[AXML_ROUND_UP_REFUSED + n]) printf("  %2u %-62s %10u\n", n, refusal_words[n] ? refusal_words[n] : "", round_up[AXML_ROUND_UP_REFUSED + n]);
  printf("%-67s %10lu\n", "files not opened", unopened);
  if (not_added) printf("%-67s %10lu\n", "files not added", not_added);

  printf("\nnotes kept, by kind and by the size of the file in bytes\n     %-62s", "");
  for (unsigned c = 0; c < AXML_ROUND_UP_CLASSES; c++) printf(" %10s", sizes[c]);
  printf(" %10s\n", "all");
  unsigned long classes[AXML_ROUND_UP_CLASSES] = {0}, all = 0;
  for (unsigned k = 0; k < AXML_ROUND_UP_KINDS; k++) {
    unsigned long row = 0;
    printf("  %2u %-62s", k, kind_words[k] ? kind_words[k] : "");
    for (unsigned c = 0; c < AXML_ROUND_UP_CLASSES; c++) {
      printf(" %10u", cell(k, c));
      row += cell(k, c);
      classes[c] += cell(k, c);
    }
    printf(" %10lu\n", row);
    all += row;
  }
  printf("     %-62s", "all");
  for (unsigned c = 0; c < AXML_ROUND_UP_CLASSES; c++) printf(" %10lu", classes[c]);
  printf(" %10lu\n", all);
}

static void print_csv(void) {
  printf("count,number,class,value\nfiles_read,,,%u\n", round_up[AXML_ROUND_UP_READ]);
  for (unsigned n = 0; n < AXML_ROUND_UP_NUMBERS; n++) printf("files_refused,%u,,%u\n", n, round_up[AXML_ROUND_UP_REFUSED + n]);
  for (unsigned k = 0; k < AXML_ROUND_UP_KINDS; k++)
    for (unsigned c = 0; c < AXML_ROUND_UP_CLASSES; c++) printf("notes,%u,%u,%u\n", k, c, cell(k, c));
  printf("files_not_opened,,,%lu\nfiles_not_added,,,%lu\n", unopened, not_added);
}

/* The files that standard input names. */
static int add_list(void) {
  static char line[LINE];
  while (fgets(line, sizeof line, stdin)) {
    size_t length = strlen(line);
    if (length && line[length - 1] == '\n') {
      line[--length] = 0;
    } else if (length + 1 == sizeof line) {
      fprintf(stderr, "axml-round-up: a line of more than %d bytes names no file\n", LINE - 2);
      return 2;
    }
    if (length) add(line);
  }
  if (ferror(stdin)) return fprintf(stderr, "axml-round-up: standard input cannot be read\n"), 2;
  return 0;
}

int main(int count, char **words) {
  int at = 1, csv = 0;
  for (; at < count && words[at][0] == '-' && words[at][1]; at++) {
    if (!strcmp(words[at], "--")) {
      at++;
      break;
    }
    if (strcmp(words[at], "--csv")) return fprintf(stderr, "axml-round-up: there is no %s; %s\n", words[at], helps), 2;
    csv = 1;
  }
  if (axml_abi() != AXML_ABI) return fprintf(stderr, "axml-round-up: the library is of another form\n"), 2;
  if (at < count)
    for (; at < count; at++) add(words[at]);
  else if (add_list())
    return 2;
  if (!files) return fprintf(stderr, "axml-round-up: no file is named; %s\n", helps), 2;
  fprintf(stderr, "axml-round-up: %lu files in all\n", files);
  if (zips) fprintf(stderr, "axml-round-up: %lu of them begin as a zip does: take AndroidManifest.xml out of an APK first\n", zips);
  csv ? print_csv() : print_table();
  if (fflush(stdout)) return fprintf(stderr, "axml-round-up: the counts cannot be written\n"), 2;
  return unopened || not_added ? 1 : 0;
}
