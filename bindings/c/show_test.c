/* What tools/test-axml-show cannot see from outside. `show_test escapes` tries the escapes of show/out.c on every byte, on every two bytes and on
 * every character of Unicode: what a page and JSON show is taken back, and has to be what went in. `show_test names` and `show_test items` print the
 * lent tables in the form of the files that they were made of. Ends with 1 if anything is wrong. */
#include <stdio.h>
#include <string.h>

#include "axml.h"
#include "show/show.h"
#include "tables.h"

static struct out o;

/* ---- escapes */

static size_t encoded(uint32_t c, uint8_t *to) {
  size_t width = c < 0x80 ? 1 : c < 0x800 ? 2 : c < 0x10000 ? 3 : 4;
  static const uint8_t first[5] = {0, 0, 0xc0, 0xe0, 0xf0};
  for (size_t i = width; i-- > 1; c >>= 6) to[i] = (uint8_t)(0x80 | (c & 0x3f));
  to[0] = (uint8_t)(first[width] | c);
  return width;
}

/* A number in hexadecimal, of so many digits or up to the end. */
static uint32_t hex(const char *at, size_t digits) {
  uint32_t n = 0;
  for (size_t i = 0; i < digits; i++) n = n << 4 | (uint32_t)(at[i] <= '9' ? at[i] - '0' : at[i] - 'a' + 10);
  return n;
}

/* What a page means: the bytes that were escaped. */
static size_t taken_back(const char *page, size_t length, uint8_t *to) {
  size_t n = 0;
  for (size_t i = 0; i < length; i++) {
    if (page[i] != '\\') {
      to[n++] = (uint8_t)page[i];
      continue;
    }
    char sort = page[++i];
    if (sort == 'x') {
      to[n++] = (uint8_t)hex(page + i + 1, 2);
      i += 2;
    } else if (sort == 'u') {
      size_t digits = (size_t)((const char *)memchr(page + i, '}', length - i) - (page + i + 2));
      n += encoded(hex(page + i + 2, digits), to + n);
      i += 2 + digits;
    } else {
      to[n++] = sort == 'n' ? '\n' : sort == 't' ? '\t' : sort == 'r' ? '\r' : (uint8_t)sort;
    }
  }
  return n;
}

/* What a string of JSON means, in UTF-8. */
static size_t meant(const char *json, size_t length, uint8_t *to) {
  size_t n = 0;
  uint32_t high = 0;
  for (size_t i = 1; i + 1 < length; i++) {
    if (json[i] != '\\') {
      to[n++] = (uint8_t)json[i];
    } else if (json[++i] != 'u') {
      to[n++] = (uint8_t)json[i];
    } else {
      uint32_t unit = hex(json + i + 1, 4);
      i += 4;
      if (unit >= 0xd800 && unit < 0xdc00)
        high = unit;
      else
        n += encoded(unit >= 0xdc00 && unit < 0xe000 ? 0x10000 + ((high - 0xd800) << 10) + (unit - 0xdc00) : unit, to + n);
    }
  }
  return n;
}

static const char *page_of(const uint8_t *text, size_t length, bool ascii) {
  o.held = 0;
  o.ascii = ascii;
  put_text(&o, text, length, length);
  return o.bytes;
}

static bool is_printed(size_t from, size_t to) {
  for (size_t i = from; i < to; i++)
    if (o.bytes[i] < 0x20 || o.bytes[i] == 0x7f) return false;
  return true;
}

/* Whether a text comes back from the page, with and without all of Unicode, and nothing on it is a control character. */
static bool page_right(const uint8_t *text, size_t length) {
  uint8_t back[64];
  for (int ascii = 0; ascii < 2; ascii++) {
    const char *page = page_of(text, length, ascii);
    if (taken_back(page, o.held, back) != length || memcmp(back, text, length) != 0) return false;
    for (size_t i = 0; i < o.held; i++) {
      uint8_t b = (uint8_t)page[i];
      if (b < 0x20 || b == 0x7f || (ascii && b > 0x7f)) return false;
    }
  }
  return true;
}

static bool json_right(const uint8_t *text, size_t length, const uint8_t *wanted, size_t wanted_length) {
  uint8_t back[64];
  o.held = 0;
  put_json(&o, text, length);
  return o.bytes[0] == '"' && o.bytes[o.held - 1] == '"' && is_printed(0, o.held) && meant(o.bytes, o.held, back) == wanted_length &&
         memcmp(back, wanted, wanted_length) == 0;
}

/* Characters that would change how what stands beside them is shown: they may not stand on a page as they are. */
static bool is_mark(uint32_t c) {
  return (c >= 0x80 && c < 0xa0) || c == 0x61c || (c >= 0x200b && c <= 0x200f) || (c >= 0x2028 && c <= 0x202e) || (c >= 0x2060 && c <= 0x206f) || c == 0xfeff ||
         (c >= 0xfff9 && c <= 0xfffb) || (c >= 0xe0000 && c < 0xe0080);
}

static int escapes(void) {
  static const uint8_t replacement[3] = {0xef, 0xbf, 0xbd};
  unsigned long wrong = 0, tried = 0;
  for (unsigned a = 0; a < 256; a++) {
    uint8_t one[1] = {(uint8_t)a};
    tried++;
    wrong += !page_right(one, 1);
    wrong += a < 0x80 ? !json_right(one, 1, one, 1) : !json_right(one, 1, replacement, 3);
    for (unsigned b = 0; b < 256; b++) {
      uint8_t two[2] = {(uint8_t)a, (uint8_t)b};
      tried++;
      wrong += !page_right(two, 2);
    }
  }
  for (uint32_t c = 0; c < 0x110000; c++) {
    if (c >= 0xd800 && c < 0xe000) continue;
    uint8_t text[6] = "a";
    size_t width = encoded(c, text + 1);
    text[1 + width] = 'b';
    tried++;
    wrong += !page_right(text, width + 2) || !json_right(text, width + 2, text, width + 2);
    page_of(text, width + 2, false);
    if (is_mark(c)) wrong += o.bytes[1] != '\\';
  }
  /* what is no character: surrogates, what is too long, what is too high, a front of one */
  static const char *const broken[] = {"\xed\xa0\x80",     "\xc0\x80",         "\xe0\x80\x80", "\xf0\x80\x80\x80",
                                       "\xf4\x90\x80\x80", "\xf5\x80\x80\x80", "\xe2\x82",     "\xf0\x9f\x98"};
  for (size_t i = 0; i < sizeof broken / sizeof *broken; i++) {
    tried++;
    wrong += !page_right((const uint8_t *)broken[i], strlen(broken[i]));
    page_of((const uint8_t *)broken[i], strlen(broken[i]), false);
    wrong += o.held != 4 * strlen(broken[i]) || o.bytes[1] != 'x';
  }
  printf("show_test: %lu texts escaped, %lu wrong\n", tried, wrong);
  return wrong != 0;
}

/* ---- the lent tables */

static int names(void) {
  for (size_t i = 0; i < sizeof system_names / sizeof *system_names; i++)
    printf("0x%08x %.*s\n", system_names[i].id, (int)system_names[i].length, (const char *)name_area + system_names[i].start);
  return 0;
}

static int items(void) {
  for (size_t i = 0; i < sizeof named_values / sizeof *named_values; i++) {
    const struct axml_item *n = &named_values[i];
    printf("%.*s\t%s\t%.*s\t0x%08x\n", (int)n->attribute_length, (const char *)item_area + n->attribute, n->kind == AXML_ITEM_FLAG ? "flag" : "enum",
           (int)n->name_length, (const char *)item_area + n->name, n->value);
  }
  return 0;
}

int main(int count, char **words) {
  if (count == 2 && strcmp(words[1], "escapes") == 0) return escapes();
  if (count == 2 && strcmp(words[1], "names") == 0) return names();
  if (count == 2 && strcmp(words[1], "items") == 0) return items();
  return fprintf(stderr, "usage: show_test escapes|names|items\n"), 2;
}
