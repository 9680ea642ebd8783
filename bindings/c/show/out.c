/* What is written, and how texts are escaped. A text comes from a file that anybody may have made: on a page nothing of it may move the cursor, change the
 * order of what stands beside it, or hide; in JSON every byte has to come back. Texts are valid UTF-8 by the library's promise; a byte that is not is
 * shown as itself and not trusted. */
#include "show.h"

#include <string.h>

/* ---- bytes */

static void flush(struct out *o) {
  if (o->held && fwrite(o->bytes, 1, o->held, o->to) != o->held) o->failed = true;
  o->held = 0;
}

void put_bytes(struct out *o, const void *bytes, size_t length) {
  const char *from = bytes;
  while (length && !o->failed) {
    size_t part = sizeof o->bytes - o->held;
    if (part > length) part = length;
    memcpy(o->bytes + o->held, from, part);
    o->held += part;
    from += part;
    length -= part;
    if (o->held == sizeof o->bytes) flush(o);
  }
}

bool put_all(struct out *o) {
  flush(o);
  if (fflush(o->to)) o->failed = true;
  return !o->failed;
}

void put(struct out *o, const char *words) { put_bytes(o, words, strlen(words)); }

static void put_byte(struct out *o, char byte) { put_bytes(o, &byte, 1); }

void put_number(struct out *o, uint64_t number) {
  char digits[20];
  size_t at = sizeof digits;
  do digits[--at] = (char)('0' + number % 10);
  while (number /= 10);
  put_bytes(o, digits + at, sizeof digits - at);
}

void put_hex(struct out *o, uint32_t number, unsigned digits) {
  for (unsigned left = 8; left--;)
    if (left < digits || number >> 4 * left) put_byte(o, "0123456789abcdef"[number >> 4 * left & 15]);
}

void put_spaces(struct out *o, size_t count) {
  while (count--) put_byte(o, ' ');
}

void put_style(struct out *o, enum style style) {
  static const char *const codes[STYLES] = {"\033[0m", "\033[1;31m", "\033[1m", "\033[2m", "\033[32m", "\033[33m"};
  if (o->colours) put(o, codes[style]);
}

/* ---- characters */

/* The character at the front of a text, and how many bytes it has (Unicode, Table 3-7); 0 where none begins there. */
static size_t character(const uint8_t *at, size_t length, uint32_t *c) {
  if (at[0] < 0x80) return *c = at[0], 1;
  size_t width = at[0] < 0xc2 ? 0 : at[0] < 0xe0 ? 2 : at[0] < 0xf0 ? 3 : at[0] < 0xf5 ? 4 : 0;
  if (!width || width > length) return 0;
  *c = at[0] & 0x7fu >> width;
  for (size_t i = 1; i < width; i++) {
    if ((at[i] & 0xc0) != 0x80) return 0;
    *c = *c << 6 | (at[i] & 0x3f);
  }
  if (*c < (width == 2 ? 0x80u : width == 3 ? 0x800u : 0x10000u)) return 0;
  if ((*c >= 0xd800 && *c < 0xe000) || *c > 0x10ffff) return 0;
  return width;
}

/* Characters beyond ASCII that a page does not show as they are: controls, all that Unicode calls a format character (marks of direction among them),
 * separators of lines, what is not seen (fillers, joiners, variation selectors, tags), private ones, and those that are none. */
static bool is_hidden(uint32_t c) {
  static const struct {
    uint32_t first, last;
  } hidden[] = {
      {0x80, 0x9f},       {0xad, 0xad},       {0x34f, 0x34f},     {0x600, 0x605},     {0x61c, 0x61c},     {0x6dd, 0x6dd},      {0x70f, 0x70f},
      {0x890, 0x891},     {0x8e2, 0x8e2},     {0x115f, 0x1160},   {0x17b4, 0x17b5},   {0x180b, 0x180f},   {0x200b, 0x200f},    {0x2028, 0x202e},
      {0x2060, 0x206f},   {0x3164, 0x3164},   {0xe000, 0xf8ff},   {0xfdd0, 0xfdef},   {0xfe00, 0xfe0f},   {0xfeff, 0xfeff},    {0xffa0, 0xffa0},
      {0xfff0, 0xfffb},   {0xfffe, 0xffff},   {0x110bd, 0x110bd}, {0x110cd, 0x110cd}, {0x13430, 0x1345f}, {0x1bca0, 0x1bca3}, {0x1d173, 0x1d17a},
      {0xe0000, 0x10ffff},
  };
  for (size_t i = 0; i < sizeof hidden / sizeof *hidden && c >= hidden[i].first; i++)
    if (c <= hidden[i].last) return true;
  return c > 0xffff && (c & 0xfffe) == 0xfffe;
}

/* How many bytes at the front of a text stand for themselves everywhere: ASCII without controls, quotes and backslashes. */
static size_t plain_front(const uint8_t *text, size_t length) {
  size_t n = 0;
  while (n < length && text[n] >= 0x20 && text[n] < 0x7f && text[n] != '"' && text[n] != '\\') n++;
  return n;
}

bool put_text(struct out *o, const uint8_t *text, size_t length, size_t most) {
  for (size_t at = 0; at < length;) {
    if (at >= most) return false;
    size_t plain = plain_front(text + at, (length < most ? length : most) - at);
    put_bytes(o, text + at, plain);
    at += plain;
    if (plain) continue;
    uint32_t c;
    size_t width = character(text + at, length - at, &c);
    if (!width) {
      put(o, "\\x");
      put_hex(o, text[at], 2);
      width = 1;
    } else if (c == '\n' || c == '\t' || c == '\r') {
      put(o, c == '\n' ? "\\n" : c == '\t' ? "\\t" : "\\r");
    } else if (c == '"' || c == '\\') {
      put_byte(o, '\\');
      put_byte(o, (char)c);
    } else if (c < 0x20 || c == 0x7f || o->ascii || is_hidden(c)) {
      put(o, "\\u{");
      put_hex(o, c, 1);
      put_byte(o, '}');
    } else {
      put_bytes(o, text + at, width);
    }
    at += width;
  }
  return true;
}

/* ---- JSON */

static void put_unit(struct out *o, uint32_t unit) {
  put(o, "\\u");
  put_hex(o, unit, 4);
}

void put_json(struct out *o, const uint8_t *text, size_t length) {
  put_byte(o, '"');
  for (size_t at = 0; at < length;) {
    size_t plain = plain_front(text + at, length - at);
    put_bytes(o, text + at, plain);
    at += plain;
    if (plain) continue;
    uint32_t c;
    size_t width = character(text + at, length - at, &c);
    if (!width) c = 0xfffd, width = 1;
    if (c == '"' || c == '\\') {
      put_byte(o, '\\');
      put_byte(o, (char)c);
    } else if (c < 0x10000) {
      put_unit(o, c);
    } else {
      put_unit(o, 0xd800 + ((c - 0x10000) >> 10));
      put_unit(o, 0xdc00 + ((c - 0x10000) & 0x3ff));
    }
    at += width;
  }
  put_byte(o, '"');
}

void put_json_words(struct out *o, const char *words) { put_json(o, (const uint8_t *)words, strlen(words)); }
