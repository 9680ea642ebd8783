/* What the pages of ./axml-show share. main.c goes through them in the order of what happens: manifest.c asks the proved library for everything,
 * page.c prints it for a person, json.c for a program, and out.c writes and escapes. Nothing here reads a byte of the file's own structure. */
#ifndef SHOW_H
#define SHOW_H

#include <stdio.h>

#include "axml.h"

enum {
  NOTE_CAP = 16,   /* notes kept of each kind */
  STRING_TYPE = 3, /* the type of a value that is a string (docs/FORMAT.md, C5) */
};
#define NONE 4294967295u /* no attribute, no node, no string */

/* ---- out.c: what is written, and how texts are escaped */

enum style { PLAIN_STYLE, ALARM, ELEMENT, NUMBER, VALUE, MARK, STYLES };

struct out {
  FILE *to;
  bool colours; /* whether styles are shown */
  bool ascii;   /* whether all that is not ASCII is escaped */
  bool failed;  /* whether something was not written */
  size_t held;
  char bytes[65536];
};

void put_bytes(struct out *o, const void *bytes, size_t length);
void put(struct out *o, const char *words);
void put_number(struct out *o, uint64_t number);
void put_hex(struct out *o, uint32_t number, unsigned digits);
void put_spaces(struct out *o, size_t count);
void put_style(struct out *o, enum style style);
/* A text for a person, at most `most` bytes of it: control characters, marks of direction and all that is not seen are escaped. True if it is whole. */
bool put_text(struct out *o, const uint8_t *text, size_t length, size_t most);
/* The same as a string of JSON, in quotes and in ASCII, whole. */
void put_json(struct out *o, const uint8_t *text, size_t length);
void put_json_words(struct out *o, const char *words);
/* Whether all was written. */
bool put_all(struct out *o);

/* ---- manifest.c: what the library says of a file */

struct text {
  enum { NO_TEXT, LEFT_OUT, TEXT } is; /* LEFT_OUT: there is one, and it is not shown, as all texts together would be too long */
  const uint8_t *bytes;
  size_t length;
  uint32_t state;    /* how it is damaged: 0 whole, 1 replaced characters, 2 bad UTF-16, 3 cut or outside */
  uint32_t replaced; /* of state 1: how many */
};

struct manifest {
  const uint8_t *file;
  size_t bytes;
  bool named; /* whether the framework's names and named values are lent */

  struct axml_answer answer;
  struct axml_node *nodes;
  struct axml_attribute *attributes;
  struct axml_note *notes;
  size_t node_words, attribute_words;

  uint32_t *levels;        /* of each node: 0 for the first */
  uint32_t *spaces;        /* of each attribute: the number of its namespace among the name texts, or NONE */
  struct axml_part *names; /* of each node, of each attribute, and then of namespaces */
  uint8_t *name_texts;
  struct axml_part *values; /* of each attribute */
  uint8_t *value_texts;
  size_t left_out; /* how many texts are */
  size_t damaged;  /* how many texts that are shown are not whole */

  uint32_t *screens; /* attributes: the names of the main screens */
  size_t screen_count;
};

extern const size_t lent_names, lent_items; /* how many of each there are */

/* Asks for all of it. False where there is no memory for the answers, or where a question was refused that cannot be. */
bool read_manifest(struct manifest *m, const uint8_t *file, size_t bytes, bool named);

struct text node_name(const struct manifest *m, uint32_t node);
struct text attribute_name(const struct manifest *m, uint32_t attribute);
struct text attribute_space(const struct manifest *m, uint32_t attribute);
struct text attribute_value(const struct manifest *m, uint32_t attribute);
/* The bytes that a string has before decoding. */
uint64_t string_bytes(const struct manifest *m, uint32_t index);

/* The first node of that name, and the first attribute of that name on a node; NONE where there is none. */
uint32_t first_node(const struct manifest *m, const char *name);
uint32_t first_attribute(const struct manifest *m, uint32_t node, const char *name);
/* The next node, from `node` on, that asks for a permission; NONE where there is none. */
uint32_t next_permission(const struct manifest *m, uint32_t node);

/* ---- words.c: numbers in words */

void put_refusal(struct out *o, uint32_t refusal, uint64_t value);
void put_note(struct out *o, const struct axml_note *note);
/* How a text is damaged; nothing of one that is whole. */
void put_damage(struct out *o, uint32_t state, uint32_t replaced);

/* ---- page.c, json.c */

void put_page(struct out *o, const struct manifest *m);
void put_object(struct out *o, const struct manifest *m, const char *path);

#endif
