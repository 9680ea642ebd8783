/* Numbers in words. words.h is made of docs/words.tsv and docs/sentences.tsv (tools/c-tables): what a refusal or a kind of note is called, and the
 * sentence with its numbers. In a sentence {a} and {b} stand for the numbers, {xa} for the first in hexadecimal, {limit} for the longest file,
 * {damage} for the state of a text that the second is, and {none} for "which has no text" where the second is 0. */
#include "show.h"

#include <string.h>

#include "words.h"

void put_damage(struct out *o, uint32_t state, uint32_t replaced) {
  if (state == 1) {
    put_number(o, replaced);
    put(o, replaced == 1 ? " character replaced" : " characters replaced");
  } else if (state) {
    put(o, state == 2 ? "bad UTF-16, so that it is empty" : "cut or outside the string pool, so that it is empty");
  }
}

/* Whether a place of a sentence is the one of that name. */
static bool is_place(const char *at, size_t length, const char *name) { return length == strlen(name) && memcmp(at, name, length) == 0; }

static void put_sentence(struct out *o, const char *form, uint64_t a, uint32_t b) {
  for (; *form; form++) {
    if (*form != '{') {
      put_bytes(o, form, 1);
      continue;
    }
    const char *place = ++form;
    while (*form != '}') form++;
    size_t length = (size_t)(form - place);
    if (is_place(place, length, "a")) put_number(o, a);
    if (is_place(place, length, "xa")) put(o, "0x"), put_hex(o, (uint32_t)a, 1);
    if (is_place(place, length, "b")) put_number(o, b);
    if (is_place(place, length, "limit")) put_number(o, AXML_LONGEST_FILE);
    if (is_place(place, length, "none") && !b) put(o, ", which has no text");
    if (is_place(place, length, "damage")) b == 1 ? put(o, "characters replaced") : put_damage(o, b, 0);
  }
}

/* The sentence; where there is none, what it is called and the numbers. */
static void put_told(struct out *o, const char *sentence, const char *words, uint64_t a, uint32_t b) {
  if (sentence) {
    put_sentence(o, sentence, a, b);
  } else {
    put(o, words ? words : "no words are known for it");
    put_sentence(o, " ({a}, {b})", a, b);
  }
}

#define WORDS(table, number) ((number) < sizeof(table) / sizeof *(table) ? (table)[number] : NULL)

void put_refusal(struct out *o, uint32_t refusal, uint64_t value) {
  put_told(o, WORDS(refusal_sentences, refusal), WORDS(refusal_words, refusal), value, 0);
}

void put_note(struct out *o, const struct axml_note *note) {
  put_told(o, WORDS(kind_sentences, note->kind), WORDS(kind_words, note->kind), note->a, note->b);
}
