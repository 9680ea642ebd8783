/* The C interface of the AXML reader. `tools/library DIR` writes what is linked, for x86-64 (v2): DIR/lib/libaxml.a and libaxml.so,
 * DIR/include/axml.h, and DIR/lib/pkgconfig/axml.pc. The library calls only C's memset and memcpy. docs/USING.md has an example for each question.
 *
 * docs/FORMAT.md says what every number means; its rules are cited by number (B9). Each function takes whatever bytes and tables it is lent,
 * and returns; it allocates nothing and keeps nothing. The caller, whom nothing checks, sees to this alone:
 *   - a pointer and the length behind it lend that many elements, and no pointer is NULL, also where the length is 0;
 *   - pointers to words are aligned to 4 bytes;
 *   - what a function writes (nodes, attributes, notes, out, answers, list, round_up) overlaps nothing else that the same call is lent.
 * Lengths are counted in elements: bytes of a `uint8_t *`, words of a `uint32_t *`. A table of structs is lent as `(uint32_t *)table`. */
#ifndef AXML_H
#define AXML_H

#include <stdbool.h>
#include <stddef.h>
#include <stdint.h>

#ifdef __cplusplus
extern "C" {
#endif

/* The form of this interface: raised whenever a record, a signature or a number below changes or is added. A library is of this form exactly if
 * axml_abi() == AXML_ABI; one that is of another must not be called. */
#define AXML_ABI 11u
uint32_t axml_abi(void);

/* The longest file that is read, in bytes: one byte more is refused with AXML_TOO_LARGE. */
#define AXML_LONGEST_FILE 16777216u

/* Words of one record. A table has words / 6 places for nodes and attributes, words / 3 for notes, words / 6 for parts, words / 4 for answers to pairs,
 * rounded down (B6). */
#define AXML_NODE_WORDS 6u
#define AXML_ATTRIBUTE_WORDS 6u
#define AXML_NOTE_WORDS 3u
#define AXML_NAME_WORDS 3u
#define AXML_ITEM_WORDS 6u
#define AXML_PART_WORDS 6u
#define AXML_PAIR_WORDS 4u
#define AXML_PAIR_ANSWER_WORDS 4u

/* Kinds of notes: enum axml_note_kind. */
#define AXML_NOTE_KINDS 14u

/* Places that suffice for every file of so many bytes, and for every file at that cap: with them no reading is refused with AXML_NODES_FULL,
 * AXML_ATTRIBUTES_FULL or AXML_NOTES_FULL. An element takes at least 36 bytes and an attribute 20; one attribute leads, which takes none. */
#define AXML_NODE_PLACES(bytes) ((bytes) / 36u + 1u)
#define AXML_ATTRIBUTE_PLACES(bytes) ((bytes) / 20u + 1u)
#define AXML_NOTE_PLACES(cap) (AXML_NOTE_KINDS * (cap))

/* The parent of the first node. */
#define AXML_NO_PARENT 4294967295u

/* Why a question is refused, and what the value beside it is then (B1). */
enum axml_refusal {
  AXML_DONE = 0,             /* not refused; the value is 0 */
  AXML_TOO_SMALL = 1,        /* fewer than 8 bytes: their number */
  AXML_TOO_LARGE = 2,        /* more than AXML_LONGEST_FILE bytes: 0 */
  AXML_HEADER_SIZE = 3,      /* the first header's size is not 8: that size */
  AXML_MISSING_ROOT = 6,     /* no element: 0 */
  AXML_SYSTEM_NAMES = 7,     /* the lent names break their rule: the first such entry, or how many whole ones there are (N5) */
  AXML_NODES_FULL = 8,       /* a node has no place: the places that there are */
  AXML_ATTRIBUTES_FULL = 9,  /* an attribute has no place: the places that there are */
  AXML_NOTES_FULL = 10,      /* a note has no place: the places that there are */
  AXML_TEXT_SHORT = 11,      /* the buffer is too short: the bytes that the text needs */
  AXML_NOTHING_FOUND = 12,   /* no such text, or no such value: 0 */
  AXML_TABLES = 13,          /* the lent tables do not fit the question: the node count, or the first bad node (Q6); of many texts the attribute count (V15) */
  AXML_ITEMS = 14,           /* the lent items break their rule: the first such item, or how many whole ones there are (V3) */
  AXML_NO_PLAIN_TEXT = 15,   /* a value of this type has no plain text: the type (V10) */
  AXML_MODE = 16,            /* the mode is none of enum axml_mode: that number (B16) */
  AXML_PAIRS = 20,           /* a pair does not lie in its area, or words remain: the first such pair, or how many whole ones there are (M3) */
  AXML_ANSWERS_FULL = 21,    /* an answer has no place: the places that there are (V15, M3) */
  AXML_LISTING_MALFORMED = 24, /* a line is none of a listing, or says what it cannot: that line, from 1 (L8) */
  AXML_LISTING_NUMBER = 25,    /* a line has a number over 4294967295: that line */
  AXML_LISTING_ORDER = 26,     /* a line is not the one due, or the text ends before it: that line */
  AXML_NOTES_OFF = 27,       /* a reading at a cap of 0, which would keep no note: 0 */
  AXML_LIST_FULL = 28,       /* more names than the list has places: the places that there are (S10) */
  AXML_ROUND_UP_FULL = 29,   /* a count of a round-up would pass 4294967295: 0 (R6) */
  /* a part of the head is cut, and the value is the file offset at which it should begin (H15) */
  AXML_POOL_GARBAGE = 41,   /* a chunk in the pool's place is cut */
  AXML_POOL_HEADER = 42,    /* a header of the string pool, or its five numbers, are cut */
  AXML_POOL_OFFSETS = 43,   /* the pool's offsets are cut */
  AXML_POOL_STYLES = 44,    /* the pool's styles are cut */
  AXML_POOL_DATA = 45,      /* the pool's data is cut */
  AXML_MAP_HEADER = 51,     /* the resource map's header is cut */
  AXML_MAP_IDS = 52         /* the map's ids are cut */
};

/* What is amiss in a file that is read all the same, and what a and b tell of it (B12). b is 0 where nothing is said. */
enum axml_note_kind {
  AXML_STRING_POOL_GARBAGE_CHUNK = 0,     /* a: its type, b: bytes skipped */
  AXML_STRING_COUNT_MISMATCH = 1,         /* a: declared, b: computed */
  AXML_STRING_OFFSETS_OUT_OF_BOUNDS = 2,  /* a: how many */
  AXML_NON_XML_CHUNK = 3,                 /* a: its type */
  AXML_XML_NODE_HEADER_SIZE = 4,          /* a: its header size */
  AXML_UNKNOWN_CHUNK = 5,                 /* a: its type, always 383 */
  AXML_ATTRIBUTE_START_SHIFTED = 6,       /* a: attribute_start */
  AXML_ATTRIBUTE_SIZE_MISMATCH = 7,       /* a: attribute_size */
  AXML_ELEMENT_TRAILING_BYTES = 8,        /* a: the excess */
  AXML_INVALID_ELEMENT_NAME = 9,          /* a: name index, b: 1 if it has a text */
  AXML_INVALID_ATTRIBUTE_NAME = 10,       /* a: name index */
  AXML_TRUNCATED_XML = 11,                /* a: 0 */
  AXML_UNCLOSED_ELEMENTS = 12,            /* a: depth */
  AXML_DAMAGED_ELEMENT_NAME = 32          /* a: name index, b: the state of its text, 1 replaced characters, 2 bad UTF-16, 3 cut or outside */
};

/* What became of a text (T11). Where it is not whole, the file does not have the characters that the text has. */
enum axml_state {
  AXML_TEXT_WHOLE = 0,
  AXML_TEXT_REPLACED = 1,   /* characters could not be read, and each is U+FFFD in the text; a U+FFFD of the file's own is none of them */
  AXML_TEXT_BAD_UTF16 = 2,  /* a surrogate stands alone: the text is empty */
  AXML_TEXT_CUT = 3         /* the string is cut, or lies outside the pool: the text is empty */
};

/* How a reading tells the namespace of an attribute (B16). */
enum axml_mode {
  AXML_MODE_MERGED = 1,  /* any namespace with a text is Android's, as in apk-info; attributes that differ by it alone are one */
  AXML_MODE_APART = 2    /* Android's namespace is told from all others, which have AXML_PREFIX_OWN */
};

/* The prefix of an attribute (W22, W24). */
enum axml_prefix {
  AXML_PREFIX_NONE = 0,
  AXML_PREFIX_ANDROID = 1,
  AXML_PREFIX_XMLNS = 2,  /* the leading attribute of the first node: `android`, the Android namespace */
  AXML_PREFIX_OWN = 3     /* in AXML_MODE_APART: a namespace that is not Android's, the attribute's word `ns` */
};

/* Which of the lent slices a content is a part of (N8). */
enum axml_slice {
  AXML_SLICE_NONE = 0,  /* there is none */
  AXML_SLICE_AREA = 1,  /* the area of the system names: ASCII */
  AXML_SLICE_FILE = 2   /* the file: bytes of its string pool before decoding, UTF-8 or UTF-16 */
};

/* Six words of the node table (B9). */
struct axml_node {
  uint32_t name;    /* string index of its name */
  uint32_t fixed;   /* 1: it is called `invalid-element`; else 0 */
  uint32_t parent;  /* number of an earlier node; AXML_NO_PARENT for the first */
  uint32_t first;   /* its first attribute */
  uint32_t count;   /* how many attributes it has */
  uint32_t line;    /* line number of its start chunk, as the file has it */
};

/* Six words of the attribute table (B11). */
struct axml_attribute {
  uint32_t owner;   /* number of its node */
  uint32_t prefix;  /* enum axml_prefix */
  uint32_t name;    /* string index of its name */
  uint32_t type;    /* type of its value (C5) */
  uint32_t data;    /* data of its value */
  uint32_t ns;      /* string index of its namespace, as the file has it; of AXML_PREFIX_XMLNS 0, which is no index */
};

/* Three words of the note table (B12). */
struct axml_note {
  uint32_t kind;  /* enum axml_note_kind */
  uint32_t a;
  uint32_t b;
};

/* Three words of the lent system names (N4): ids have top byte 1 and rise, start + length lies in the area, length is not 0, bytes are below 128. */
struct axml_name {
  uint32_t id;
  uint32_t start;
  uint32_t length;
};

/* Six words of the lent items (V3), the named values of attributes: both names have at least one byte, lie in the item area and are below 128; items of one
 * attribute stand together and have one kind. */
struct axml_item {
  uint32_t attribute;         /* where the attribute's name begins in the item area */
  uint32_t attribute_length;
  uint32_t kind;              /* enum axml_item_kind */
  uint32_t name;              /* where the name of this value begins there */
  uint32_t name_length;
  uint32_t value;
};

enum axml_item_kind {
  AXML_ITEM_ENUM = 0,  /* one value at a time */
  AXML_ITEM_FLAG = 1   /* bits */
};

/* Six words of the answers of many texts (V13): the part of the buffer that is the text of one question. */
struct axml_part {
  uint32_t refusal;    /* AXML_DONE, AXML_NOTHING_FOUND or AXML_NO_PLAIN_TEXT; where it is not AXML_DONE, all other words are 0 */
  uint32_t start;      /* its first byte in the buffer */
  uint32_t length;     /* its bytes */
  uint32_t uncovered;  /* how many set bits of a flag no name covers (V6) */
  uint32_t state;      /* enum axml_state */
  uint32_t replaced;   /* how many characters were replaced */
};

/* Four words of the lent pairs (M1): UTF-8 bytes of a tag and of a name, each a part of an area of bytes. */
struct axml_pair {
  uint32_t tag_start;
  uint32_t tag_length;
  uint32_t name_start;
  uint32_t name_length;
};

/* Four words of the list of answers, one for each pair (M4): the numbers of axml_first_value's answer. */
struct axml_pair_answer {
  uint32_t refusal;    /* AXML_DONE, or AXML_NOTHING_FOUND, and then the other words are 0 */
  uint32_t type;
  uint32_t data;
  uint32_t reference;  /* 1 if the type is a reference (C7) */
};

/* The answer of a reading. Where it is refused, the four counts are 0 and every lent table is zeros (B7). */
struct axml_answer {
  uint32_t refusal;     /* enum axml_refusal */
  uint64_t value;       /* of the refusal */
  uint32_t starts;      /* elements read whole, dropped ones too */
  uint32_t nodes;       /* nodes in the table */
  uint32_t attributes;  /* attributes in the table */
  uint32_t notes;       /* notes in the table */
};

/* The answer of a text question. */
struct axml_text_answer {
  uint32_t refusal;
  uint64_t value;
  uint64_t length;    /* bytes of the text in the buffer; 0 where it is refused, as state and replaced */
  uint32_t state;     /* enum axml_state */
  uint32_t replaced;  /* how many characters were replaced; 0 unless the state is AXML_TEXT_REPLACED */
};

/* The answer of a value text. */
struct axml_value_answer {
  uint32_t refusal;
  uint64_t value;
  uint64_t length;     /* bytes of the text in the buffer; 0 where it is refused, as all behind it */
  uint32_t uncovered;  /* how many set bits of a flag no name covers */
  uint32_t state;      /* enum axml_state: that of the string where the value is one, else AXML_TEXT_WHOLE */
  uint32_t replaced;   /* how many characters of that string were replaced */
};

/* The answer of many texts. Where it is refused, buffer and answers are zeros. */
struct axml_many_answer {
  uint32_t refusal;
  uint64_t value;
  uint64_t count;   /* how many questions were answered; 0 where it is refused */
  uint64_t length;  /* bytes of all their texts in the buffer; 0 where it is refused */
};

/* The answer of a content question: `length` bytes of that slice from byte `start` on. They lie inside it. Slice 0 has start and length 0. */
struct axml_content_answer {
  uint32_t slice;  /* enum axml_slice */
  uint64_t start;
  uint64_t length;
};

/* The answer of a first-value question. */
struct axml_first_answer {
  uint32_t refusal;
  uint64_t value;
  uint32_t type;       /* 0 where it is refused, as data and reference */
  uint32_t data;
  uint32_t reference;  /* 1 if the type is a reference (C7) */
};

/* The answer of a call with many pairs. */
struct axml_pairs_answer {
  uint32_t refusal;
  uint64_t value;
  uint64_t count;  /* pairs answered; 0 where the call is refused */
};

/* Reads a file into three lent tables, whose words behind the last record are zeros afterwards (B8).
 * file, file_bytes: the file. names, name_words: the lent system names, `struct axml_name` each, over area, area_bytes; 0 words are no names.
 * nodes, attributes, notes: the tables, as words of `struct axml_node`, `struct axml_attribute`, `struct axml_note`.
 * cap: how many notes of each kind are kept (B13), 1 at least: 0 is refused with AXML_NOTES_OFF. mode: enum axml_mode. */
struct axml_answer axml_read(const uint8_t *file, size_t file_bytes, const uint32_t *names, size_t name_words, const uint8_t *area,
                             size_t area_bytes, uint32_t *nodes, size_t node_words, uint32_t *attributes, size_t attribute_words,
                             uint32_t *notes, size_t note_words, uint32_t cap, uint32_t mode);

/* The text of a string index in UTF-8, at the front of out and zeros behind it; zeros alone where it is refused (Q1, Q2). No 0 ends it.
 * file, names, area: as for axml_read. out, out_bytes: the buffer. index: the string index, as a table has it. */
struct axml_text_answer axml_text(const uint8_t *file, size_t file_bytes, const uint32_t *names, size_t name_words, const uint8_t *area,
                                  size_t area_bytes, uint8_t *out, size_t out_bytes, uint32_t index);

/* Where the content of a string index lies, as a part of what is lent, with nothing copied (N8, Q3). There is none where axml_text refuses
 * with anything but AXML_TEXT_SHORT, and for a string that is cut or begins outside the pool.
 * file, names, area: as for axml_read. index: the string index, as a table has it. */
struct axml_content_answer axml_content(const uint8_t *file, size_t file_bytes, const uint32_t *names, size_t name_words, const uint8_t *area,
                                        size_t area_bytes, uint32_t index);

/* Type and data of the first attribute called name on the first node called tag (Q4 to Q8). The tables may have been written by anyone.
 * file, names, area: as for axml_read. nodes, attributes: the tables, as words. tag, name: UTF-8 bytes. node_count, attribute_count: how
 * many records of each table are asked. */
struct axml_first_answer axml_first_value(const uint8_t *file, size_t file_bytes, const uint32_t *names, size_t name_words,
                                          const uint8_t *area, size_t area_bytes, const uint32_t *nodes, size_t node_words,
                                          const uint32_t *attributes, size_t attribute_words, const uint8_t *tag, size_t tag_bytes,
                                          const uint8_t *name, size_t name_bytes, uint32_t node_count, uint32_t attribute_count);

/* The text of an attribute's value in UTF-8, at the front of out and zeros behind it; zeros alone where it is refused (V1 to V12). No 0 ends it.
 * file, names, area: as for axml_read. items, item_words: the lent items, `struct axml_item` each, over item_area; 0 words are no items.
 * owner, prefix, name, type, data, ns: the words of the attribute, as a table has them. */
struct axml_value_answer axml_value_text(const uint8_t *file, size_t file_bytes, const uint32_t *names, size_t name_words, const uint8_t *area,
                                         size_t area_bytes, const uint32_t *items, size_t item_words, const uint8_t *item_area,
                                         size_t item_area_bytes, uint8_t *out, size_t out_bytes, uint32_t owner, uint32_t prefix, uint32_t name,
                                         uint32_t type, uint32_t data, uint32_t ns);

/* The texts of the values of the first attribute_count records of a table, one behind the other at the front of out, and for each a
 * `struct axml_part`, in the order of the records (V13 to V16). Names, items and head are checked once. out and answers have zeros behind the last.
 * file, names, area, items, item_area: as for axml_value_text. attributes: the table, as words. answers: the parts, as words. */
struct axml_many_answer axml_value_texts(const uint8_t *file, size_t file_bytes, const uint32_t *names, size_t name_words, const uint8_t *area,
                                         size_t area_bytes, const uint32_t *items, size_t item_words, const uint8_t *item_area,
                                         size_t item_area_bytes, const uint32_t *attributes, size_t attribute_words, uint8_t *out,
                                         size_t out_bytes, uint32_t *answers, size_t answer_words, uint32_t attribute_count);

/* The same of string indices: each text is that of axml_text. indices, index_words: the string indices. */
struct axml_many_answer axml_texts(const uint8_t *file, size_t file_bytes, const uint32_t *names, size_t name_words, const uint8_t *area,
                                   size_t area_bytes, const uint32_t *indices, size_t index_words, uint8_t *out, size_t out_bytes,
                                   uint32_t *answers, size_t answer_words);

/* What axml_first_value answers to each of many pairs, at the front of answers, and zeros behind them; zeros alone where the call is refused (M1 to M5).
 * Names and head are checked once, whatever the number of pairs; pairs of one tag that stand together cost one search for it.
 * file, names, area, nodes, attributes, node_count, attribute_count: as for axml_first_value. pairs: `struct axml_pair` each, as words, any number of
 * them, over pair_area. answers: `struct axml_pair_answer` each, as words. */
struct axml_pairs_answer axml_first_values(const uint8_t *file, size_t file_bytes, const uint32_t *names, size_t name_words, const uint8_t *area,
                                           size_t area_bytes, const uint32_t *nodes, size_t node_words, const uint32_t *attributes,
                                           size_t attribute_words, const uint32_t *pairs, size_t pair_words, const uint8_t *pair_area,
                                           size_t pair_area_bytes, uint32_t *answers, size_t answer_words, uint32_t node_count,
                                           uint32_t attribute_count);

/* The answer of axml_main_activities. Where it is refused, the list is zeros. */
struct axml_main_answer {
  uint32_t refusal;
  uint64_t value;
  uint64_t count;  /* names in the list; 0 where it is refused */
};

/* Which screens a launcher starts: the numbers of the `name` attributes of the activities and aliases that are children of an `application`, are not
 * disabled and have an intent filter with MAIN and with LAUNCHER or INFO, at the front of list, in the order of the tree, and zeros behind them (S1 to S10).
 * One without a name gives none, so node_count words suffice for the list. The tables may have been written by anyone.
 * file, names, area, items, item_area: as for axml_value_text. nodes, attributes, node_count, attribute_count: as for axml_first_value. */
struct axml_main_answer axml_main_activities(const uint8_t *file, size_t file_bytes, const uint32_t *names, size_t name_words, const uint8_t *area,
                                             size_t area_bytes, const uint32_t *items, size_t item_words, const uint8_t *item_area,
                                             size_t item_area_bytes, const uint32_t *nodes, size_t node_words, const uint32_t *attributes,
                                             size_t attribute_words, uint32_t *list, size_t list_words, uint32_t node_count,
                                             uint32_t attribute_count);

/* Words of a round-up, the counts of a month of files (R1, R2): word AXML_ROUND_UP_READ is how many were read, word AXML_ROUND_UP_REFUSED + n how many were
 * refused with n, and word AXML_ROUND_UP_GRID + AXML_ROUND_UP_CLASSES * k + c how many notes of kind k were kept in files of the size class c: 0 up to 4096
 * bytes, 1 up to 16384, 2 up to 65536, 3 up to 262144, 4 up to 1048576, 5 above. A new round-up is AXML_ROUND_UP_WORDS zeros. */
#define AXML_ROUND_UP_WORDS 132u
#define AXML_ROUND_UP_READ 0u
#define AXML_ROUND_UP_REFUSED 1u
#define AXML_ROUND_UP_NUMBERS 53u
#define AXML_ROUND_UP_GRID 54u
#define AXML_ROUND_UP_KINDS 13u
#define AXML_ROUND_UP_CLASSES 6u

/* The answer of adding a file: AXML_DONE; AXML_TABLES with round_up_words where they are not 132, or with a refusal that is above 52; or AXML_ROUND_UP_FULL. */
struct axml_add_answer {
  uint32_t refusal;
  uint64_t value;
};

/* Adds a file to a round-up, or changes no word of it where it answers anything but AXML_DONE (R5, R6, R9).
 * notes: the note table that the reading of the file left. refusal, note_count: `refusal` and `notes` of its answer. file_bytes: the file's length. Of a file
 * that was refused, the notes and the length are not looked at. */
struct axml_add_answer axml_round_up_add(uint32_t *round_up, size_t round_up_words, const uint32_t *notes, size_t note_words, uint32_t refusal,
                                         uint32_t note_count, size_t file_bytes);

/* What a listing says (L9): the answer that was listed, AXML_DONE or one of AXML_TOO_SMALL to AXML_HEADER_SIZE, AXML_MISSING_ROOT, AXML_POOL_GARBAGE to
 * AXML_POOL_DATA, AXML_MAP_HEADER, AXML_MAP_IDS; or why the text is no listing: AXML_LISTING_MALFORMED to AXML_LISTING_ORDER, or AXML_NODES_FULL to
 * AXML_NOTES_FULL with the places. Of a cap of 0 the listing says that notes were switched off: there are none in it, and whether the file had any is
 * unknown. Where the text is no listing, cap is 0 too. */
struct axml_relisted {
  uint32_t refusal;
  uint64_t value;
  uint32_t starts;
  uint32_t nodes;
  uint32_t attributes;
  uint32_t notes;
  uint32_t cap;
};

/* Reads a listing, as axml-list prints it, into the three tables: the same records, zeros behind them; zeros all over where the text is no listing or lists
 * a refusal. Notes are three words to a place. Each listing that is taken is the only text of what it says. */
struct axml_relisted axml_read_listing(const uint8_t *text, size_t text_bytes, uint32_t *nodes, size_t node_words, uint32_t *attributes,
                                       size_t attribute_words, uint32_t *notes, size_t note_words);

/* Whether the UTF-8 text is a name without a colon (N10). */
bool axml_is_valid_name(const uint8_t *text, size_t text_bytes);

/* The number that the data of a dimension or a fraction holds (X2). */
double axml_complex_to_float(uint32_t data);

#ifdef __cplusplus
}
#endif

#endif
