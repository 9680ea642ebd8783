/* The page for a person: what is odd first, then the tree, then what the depot asks at a glance. */
#include "show.h"

#include <string.h>

enum {
  STEP = 2,     /* columns that a level is indented */
  DEEPEST = 40, /* levels below it are indented as it is, and told by their number */
  SHOWN = 2000, /* bytes of a text at most */
  GLANCE = 14,  /* the columns of the words in front, at the end */
};

/* ---- texts */

/* What stands behind a text: that it is only the front of one, and how it is damaged. */
static void put_marks(struct out *o, struct text t, bool whole) {
  if (!whole) {
    put_style(o, MARK);
    put(o, " (the front of ");
    put_number(o, t.length);
    put(o, " bytes, --json has all)");
    put_style(o, PLAIN_STYLE);
  }
  if (t.state) {
    put_style(o, ALARM);
    put(o, " (damaged: ");
    put_damage(o, t.state, t.replaced);
    put(o, ")");
    put_style(o, PLAIN_STYLE);
  }
}

static void put_left_out(struct out *o, const struct manifest *m, uint32_t index) {
  put_style(o, ALARM);
  put(o, "(a text of ");
  put_number(o, string_bytes(m, index));
  put(o, " bytes, left out)");
  put_style(o, PLAIN_STYLE);
}

/* A name, or a text in quotes, so that what stands in it is not taken for what stands behind it. */
static void put_name(struct out *o, const struct manifest *m, struct text t, uint32_t index, const char *quote) {
  if (t.is == LEFT_OUT) put_left_out(o, m, index);
  if (t.is != TEXT) return;
  put(o, quote);
  bool whole = put_text(o, t.bytes, t.length, SHOWN);
  put(o, quote);
  put_style(o, PLAIN_STYLE);
  put_marks(o, t, whole);
}

/* ---- what is odd */

static void put_count(struct out *o, uint64_t count, const char *one, const char *more) {
  put_number(o, count);
  put(o, count == 1 ? one : more);
}

static void put_odd_line(struct out *o) {
  put_style(o, ALARM);
  put(o, "  ! ");
}

/* How many things are odd: each note, texts that are damaged, texts that are left out. */
static size_t odd_things(const struct manifest *m) { return m->answer.notes + (m->damaged != 0) + (m->left_out != 0); }

static void put_odd(struct out *o, const struct manifest *m) {
  size_t odd = odd_things(m), of_kind[64] = {0};
  if (!odd) {
    put(o, "nothing is odd in this file\n");
    return;
  }
  put_style(o, ALARM);
  put_count(o, odd, " thing is odd in this file:", " things are odd in this file:");
  put_style(o, PLAIN_STYLE);
  put(o, "\n");
  for (uint32_t i = 0; i < m->answer.notes; i++) {
    const struct axml_note *n = &m->notes[i];
    put_odd_line(o);
    put_note(o, n);
    if (n->kind == AXML_UNCLOSED_ELEMENTS && m->answer.starts > m->answer.nodes) {
      put(o, "; of ");
      put_count(o, m->answer.starts, " element", " elements");
      put(o, " the tree has ");
      put_number(o, m->answer.nodes);
    }
    if (n->kind < 64 && ++of_kind[n->kind] == NOTE_CAP) put(o, " (the last of this kind that is told; there may be more)");
    put_style(o, PLAIN_STYLE);
    put(o, "\n");
  }
  if (m->damaged) {
    put_odd_line(o);
    put_count(o, m->damaged, " text below is damaged, and is marked", " texts below are damaged, and are marked");
    put_style(o, PLAIN_STYLE);
    put(o, "\n");
  }
  if (m->left_out) {
    put_odd_line(o);
    put_count(o, m->left_out, " text is left out", " texts are left out");
    put(o, ": all together are too long to show");
    put_style(o, PLAIN_STYLE);
    put(o, "\n");
  }
}

/* ---- the tree */

static void put_value(struct out *o, const struct manifest *m, uint32_t attribute) {
  const struct axml_attribute *a = &m->attributes[attribute];
  struct text t = attribute_value(m, attribute);
  if (t.is == NO_TEXT) {
    put(o, "type ");
    put_number(o, a->type);
    put(o, ", 0x");
    put_hex(o, a->data, 8);
  } else {
    put_style(o, VALUE);
    put_name(o, m, t, a->data, a->type == STRING_TYPE ? "\"" : ""); /* the string "true" is not the value true */
  }
  uint32_t uncovered = m->values[attribute].uncovered;
  if (uncovered) {
    put_style(o, MARK);
    put(o, " (");
    put_count(o, uncovered, " bit unnamed)", " bits unnamed)");
    put_style(o, PLAIN_STYLE);
  }
}

static void put_attribute(struct out *o, const struct manifest *m, uint32_t attribute) {
  const struct axml_attribute *a = &m->attributes[attribute];
  if (a->prefix == AXML_PREFIX_XMLNS) put(o, "xmlns:");
  if (a->prefix == AXML_PREFIX_ANDROID) put(o, "android:");
  if (a->prefix == AXML_PREFIX_OWN) {
    put(o, "{");
    put_name(o, m, attribute_space(m, attribute), a->ns, "\"");
    put(o, "}");
  }
  put_name(o, m, attribute_name(m, attribute), a->name, "");
  put(o, " = ");
  put_value(o, m, attribute);
  put(o, "\n");
}

static size_t digits(uint32_t number) {
  size_t n = 1;
  for (; number >= 10; number /= 10) n++;
  return n;
}

static void put_tree(struct out *o, const struct manifest *m) {
  size_t widest = 1; /* digits of a line number */
  for (uint32_t i = 0; i < m->answer.nodes; i++)
    if (digits(m->nodes[i].line) > widest) widest = digits(m->nodes[i].line);
  for (uint32_t i = 0; i < m->answer.nodes; i++) {
    const struct axml_node *n = &m->nodes[i];
    size_t level = m->levels[i], indent = STEP * (level < DEEPEST ? level : DEEPEST);
    struct text name = node_name(m, i);
    put_style(o, NUMBER);
    put_spaces(o, widest - digits(n->line));
    put_number(o, n->line);
    put_style(o, PLAIN_STYLE);
    put_spaces(o, 2 + indent);
    put_style(o, ELEMENT);
    if (n->fixed) {
      put(o, "invalid-element");
      put_style(o, PLAIN_STYLE);
      put(o, " (string ");
      put_number(o, n->name);
      if (name.is == TEXT) put(o, " ");
      put_name(o, m, name, n->name, "\"");
      put(o, ")");
    } else {
      put_name(o, m, name, n->name, "");
    }
    if (level > DEEPEST) {
      put_style(o, MARK);
      put(o, " (level ");
      put_number(o, level);
      put(o, ")");
      put_style(o, PLAIN_STYLE);
    }
    put(o, "\n");
    for (uint32_t k = n->first; k < n->first + n->count; k++) {
      put_spaces(o, widest + 2 + indent + 2 * STEP);
      put_attribute(o, m, k);
    }
  }
}

/* ---- at a glance */

/* The words in front of a line; nothing on the lines that follow. */
static void put_front(struct out *o, const char *words) {
  put(o, words);
  put_spaces(o, GLANCE - strlen(words));
}

/* A permission that is asked for; of an element that is not called uses-permission its name as well. */
static void put_permission(struct out *o, const struct manifest *m, uint32_t node) {
  uint32_t name = first_attribute(m, node, "name");
  struct text element = node_name(m, node);
  if (name == NONE)
    put(o, "(without a name)");
  else
    put_value(o, m, name);
  if (element.length != strlen("uses-permission")) {
    put(o, " (");
    put_name(o, m, element, m->nodes[node].name, "");
    put(o, ")");
  }
  put(o, "\n");
}

static void put_value_or_none(struct out *o, const struct manifest *m, uint32_t attribute) {
  if (attribute == NONE)
    put(o, "none");
  else
    put_value(o, m, attribute);
}

static void put_glance(struct out *o, const struct manifest *m) {
  uint32_t manifest = first_node(m, "manifest");
  uint32_t code = first_attribute(m, manifest, "versionCode"), name = first_attribute(m, manifest, "versionName");
  put_front(o, "package");
  put_value_or_none(o, m, first_attribute(m, manifest, "package"));
  put(o, "\n");
  put_front(o, "version");
  put_value_or_none(o, m, code != NONE ? code : name);
  if (code != NONE && name != NONE) {
    put(o, " ");
    put_value(o, m, name);
  }
  put(o, "\n");
  const char *front = "permissions";
  for (uint32_t i = next_permission(m, 0); i != NONE; i = next_permission(m, i + 1), front = "") {
    put_front(o, front);
    put_permission(o, m, i);
  }
  if (*front) {
    put_front(o, front);
    put(o, "none\n");
  }
  front = "main screens";
  for (size_t i = 0; i < m->screen_count; i++, front = "") {
    put_front(o, front);
    put_value(o, m, m->screens[i]);
    put(o, "\n");
  }
  if (*front) {
    put_front(o, front);
    put(o, "none\n");
  }
}

void put_page(struct out *o, const struct manifest *m) {
  if (m->answer.refusal != AXML_DONE) {
    put_style(o, ALARM);
    put(o, "REFUSED: ");
    put_refusal(o, m->answer.refusal, m->answer.value);
    put_style(o, PLAIN_STYLE);
    put(o, "\n");
    return;
  }
  put_odd(o, m);
  put(o, "\n");
  put_tree(o, m);
  put(o, "\n");
  put_glance(o, m);
  if (odd_things(m)) {
    put(o, "\n");
    put_style(o, ALARM);
    put_count(o, odd_things(m), " thing is odd in this file: the first lines say it", " things are odd in this file: the first lines say them");
    put_style(o, PLAIN_STYLE);
    put(o, "\n");
  }
}
