/* What the library says of a file: every number and every text that is shown is one of its answers. Each question is asked once for the whole file:
 * axml_read, axml_texts for all names, axml_value_texts for all values, axml_main_activities.
 *
 * Tables have the places that suffice for every file of this length (AXML_NODE_PLACES and its like: a theorem, `suffices` of crates/claims), so that the
 * refusals 8, 9 and 10 cannot come. Texts have no such bound: strings may lie in one another, and a million attributes may share one of a million characters.
 * So a string is asked for while all that were asked for have at most ROOM bytes in the file, and left out otherwise; no file whose strings lie
 * side by side comes near it. */
#include "show.h"

#include <stdlib.h>
#include <string.h>

#include "tables.h" /* made by tools/c-tables: system_names and named_values over name_area and item_area */

static const uint64_t ROOM = 1u << 26;

const size_t lent_names = sizeof system_names / sizeof *system_names, lent_items = sizeof named_values / sizeof *named_values;

/* What every question is lent in front: the file, and the names or none; and the items or none. */
#define FILE_AND_NAMES(m) \
  (m)->file, (m)->bytes, (const uint32_t *)system_names, (m)->named ? AXML_NAME_WORDS * lent_names : 0, name_area, (m)->named ? sizeof name_area - 1 : 0
#define ITEMS(m) (const uint32_t *)named_values, (m)->named ? AXML_ITEM_WORDS * lent_items : 0, item_area, (m)->named ? sizeof item_area - 1 : 0

/* Zeros; one place more than is asked for, so that no table is without one. */
static void *zeros(size_t places, size_t size) { return calloc(places + 1, size); }

/* ---- texts */

uint64_t string_bytes(const struct manifest *m, uint32_t index) {
  return axml_content(m->file, m->bytes, (const uint32_t *)system_names, 0, name_area, 0, index).length;
}

struct budget {
  uint64_t used;
  uint32_t *lengths; /* of each string that was asked for already, one more than its bytes; a string has 4 bytes of its own, its offset */
};

/* Whether the string is still to be asked for. */
static bool takes(struct manifest *m, struct budget *b, uint32_t index) {
  if (index >= m->bytes / 4) return true; /* no string */
  if (!b->lengths[index]) b->lengths[index] = (uint32_t)string_bytes(m, index) + 1;
  if (b->lengths[index] - 1 > ROOM - b->used) {
    m->left_out++;
    return false;
  }
  b->used += b->lengths[index] - 1;
  return true;
}

/* Whether many texts are to be asked for again, with the room that the answer says. */
static bool wants_more(struct axml_many_answer a, size_t *room) {
  if (a.refusal != AXML_TEXT_SHORT || a.value <= *room) return false;
  *room = a.value;
  return true;
}

static bool ask_names(struct manifest *m, struct budget *b) {
  const struct axml_answer *r = &m->answer;
  size_t most = (size_t)r->nodes + 2u * (size_t)r->attributes, count = 0;
  uint32_t *indices = zeros(most, sizeof *indices);
  m->spaces = zeros(r->attributes, sizeof *m->spaces);
  if (!indices || !m->spaces) return false;
  b->used = 0;
  for (uint32_t i = 0; i < r->nodes; i++) indices[count++] = takes(m, b, m->nodes[i].name) ? m->nodes[i].name : NONE;
  for (uint32_t k = 0; k < r->attributes; k++) {
    const struct axml_attribute *a = &m->attributes[k];
    indices[count++] = a->prefix != AXML_PREFIX_XMLNS && takes(m, b, a->name) ? a->name : NONE;
  }
  for (uint32_t k = 0; k < r->attributes; k++) {
    m->spaces[k] = NONE;
    if (m->attributes[k].prefix != AXML_PREFIX_OWN) continue;
    m->spaces[k] = (uint32_t)count;
    indices[count++] = takes(m, b, m->attributes[k].ns) ? m->attributes[k].ns : NONE;
  }
  m->names = zeros(count, sizeof *m->names);
  if (!m->names) return false;
  struct axml_many_answer a;
  size_t room = b->used + 32 * count; /* enough for most; the answer says what is needed */
  do {
    free(m->name_texts);
    m->name_texts = zeros(room, 1);
    if (!m->name_texts) return false;
    a = axml_texts(FILE_AND_NAMES(m), indices, count, m->name_texts, room, (uint32_t *)m->names, AXML_PART_WORDS * count);
  } while (wants_more(a, &room));
  free(indices);
  for (size_t i = 0; i < count; i++) m->damaged += m->names[i].state != 0;
  return a.refusal == AXML_DONE;
}

static bool ask_values(struct manifest *m, struct budget *b) {
  uint32_t count = m->answer.attributes;
  struct axml_attribute *asked = zeros(count, sizeof *asked);
  m->values = zeros(count, sizeof *m->values);
  if (!asked || !m->values) return false;
  b->used = 0;
  for (uint32_t k = 0; k < count; k++) {
    asked[k] = m->attributes[k];
    if (asked[k].prefix == AXML_PREFIX_XMLNS) continue;
    if (m->names[m->answer.nodes + k].refusal != AXML_DONE) { /* a name that is left out is not compared with all items either */
      asked[k].name = NONE;
      m->left_out += asked[k].type == STRING_TYPE;
    } else if (asked[k].type == STRING_TYPE && !takes(m, b, asked[k].data)) {
      asked[k].type = 0; /* which has no text of its own; what a named value says, it says for every type (docs/FORMAT.md, V7) */
    }
  }
  struct axml_many_answer a;
  size_t room = b->used + 32u * (size_t)count;
  do {
    free(m->value_texts);
    m->value_texts = zeros(room, 1);
    if (!m->value_texts) return false;
    a = axml_value_texts(FILE_AND_NAMES(m), ITEMS(m), (const uint32_t *)asked, AXML_ATTRIBUTE_WORDS * (size_t)count, m->value_texts, room,
                         (uint32_t *)m->values, AXML_PART_WORDS * (size_t)count, count);
  } while (wants_more(a, &room));
  free(asked);
  for (uint32_t k = 0; k < count; k++) m->damaged += m->values[k].state != 0;
  return a.refusal == AXML_DONE;
}

/* The names of the main screens, as attributes. A node has one at most, so that the list has room for all. */
static bool ask_screens(struct manifest *m) {
  m->screens = zeros(m->answer.nodes, sizeof *m->screens);
  if (!m->screens) return false;
  struct axml_main_answer a = axml_main_activities(FILE_AND_NAMES(m), ITEMS(m), (const uint32_t *)m->nodes, m->node_words, (const uint32_t *)m->attributes,
                                                   m->attribute_words, m->screens, m->answer.nodes, m->answer.nodes, m->answer.attributes);
  m->screen_count = a.count;
  return a.refusal == AXML_DONE;
}

bool read_manifest(struct manifest *m, const uint8_t *file, size_t bytes, bool named) {
  memset(m, 0, sizeof *m);
  m->file = file;
  m->bytes = bytes;
  m->named = named;
  size_t node_places = AXML_NODE_PLACES(bytes), attribute_places = AXML_ATTRIBUTE_PLACES(bytes), note_places = AXML_NOTE_PLACES(NOTE_CAP);
  m->node_words = AXML_NODE_WORDS * node_places;
  m->attribute_words = AXML_ATTRIBUTE_WORDS * attribute_places;
  m->nodes = zeros(node_places, sizeof *m->nodes);
  m->attributes = zeros(attribute_places, sizeof *m->attributes);
  m->notes = zeros(note_places, sizeof *m->notes);
  if (!m->nodes || !m->attributes || !m->notes) return false;
  m->answer = axml_read(FILE_AND_NAMES(m), (uint32_t *)m->nodes, m->node_words, (uint32_t *)m->attributes, m->attribute_words, (uint32_t *)m->notes,
                        AXML_NOTE_WORDS * note_places, NOTE_CAP, AXML_MODE_APART);
  if (m->answer.refusal != AXML_DONE) return true;

  m->levels = zeros(m->answer.nodes, sizeof *m->levels);
  if (!m->levels) return false;
  for (uint32_t i = 1; i < m->answer.nodes; i++) m->levels[i] = m->nodes[i].parent < i ? m->levels[m->nodes[i].parent] + 1 : 0;
  struct budget b = {0, zeros(bytes / 4, sizeof *b.lengths)};
  bool done = b.lengths && ask_names(m, &b) && ask_values(m, &b) && ask_screens(m);
  free(b.lengths);
  return done;
}

/* ---- answers */

static struct text part_of(const struct axml_part *p, const uint8_t *texts) {
  struct text t = {TEXT, texts + p->start, p->length, p->state, p->replaced};
  if (p->refusal != AXML_DONE) t.is = NO_TEXT;
  return t;
}

/* A name that the reading found to have a text (docs/FORMAT.md, W20 to W22): where it has none now, it was not asked for. */
static struct text found(struct text t) {
  if (t.is == NO_TEXT) t.is = LEFT_OUT;
  return t;
}

struct text node_name(const struct manifest *m, uint32_t node) {
  struct text t = part_of(&m->names[node], m->name_texts);
  return m->nodes[node].fixed ? t : found(t);
}

struct text attribute_name(const struct manifest *m, uint32_t attribute) {
  static const uint8_t leading[] = "android"; /* W24 */
  if (m->attributes[attribute].prefix == AXML_PREFIX_XMLNS) return (struct text){TEXT, leading, sizeof leading - 1, 0, 0};
  return found(part_of(&m->names[m->answer.nodes + attribute], m->name_texts));
}

struct text attribute_space(const struct manifest *m, uint32_t attribute) {
  if (m->spaces[attribute] == NONE) return (struct text){NO_TEXT, NULL, 0, 0, 0};
  return found(part_of(&m->names[m->spaces[attribute]], m->name_texts));
}

struct text attribute_value(const struct manifest *m, uint32_t attribute) {
  struct text t = part_of(&m->values[attribute], m->value_texts);
  return m->attributes[attribute].type == STRING_TYPE ? found(t) : t;
}

/* ---- what the depot asks at a glance */

static bool is_called(struct text t, const char *name) { return t.is == TEXT && t.length == strlen(name) && memcmp(t.bytes, name, t.length) == 0; }

uint32_t first_node(const struct manifest *m, const char *name) {
  for (uint32_t i = 0; i < m->answer.nodes; i++)
    if (!m->nodes[i].fixed && is_called(node_name(m, i), name)) return i;
  return NONE;
}

uint32_t first_attribute(const struct manifest *m, uint32_t node, const char *name) {
  if (node == NONE) return NONE;
  for (uint32_t k = m->nodes[node].first; k < m->nodes[node].first + m->nodes[node].count; k++)
    if (m->attributes[k].prefix <= AXML_PREFIX_ANDROID && is_called(attribute_name(m, k), name)) return k;
  return NONE;
}

uint32_t next_permission(const struct manifest *m, uint32_t node) {
  for (; node < m->answer.nodes; node++) {
    if (m->nodes[node].fixed) continue;
    struct text t = node_name(m, node);
    if (is_called(t, "uses-permission") || is_called(t, "uses-permission-sdk-23") || is_called(t, "uses-permission-sdk-m")) return node;
  }
  return NONE;
}
