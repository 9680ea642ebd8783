/* All of it as one object of JSON, a line to each note and each node; docs/axml-show.schema.json says what is in it. */
#include "show.h"

/* A member of an object; every one but the first has a comma in front. Keys are words of ours, in which nothing has to be escaped. */
static void put_key(struct out *o, const char *key) {
  put(o, "\"");
  put(o, key);
  put(o, "\":");
}

static void put_member(struct out *o, const char *key, uint64_t number) {
  put(o, ",");
  put_key(o, key);
  put_number(o, number);
}

static void put_string(struct out *o, const char *key, struct text t) {
  put(o, ",");
  put_key(o, key);
  if (t.is == TEXT)
    put_json(o, t.bytes, t.length);
  else
    put(o, "null");
}

/* How a text is damaged. */
static void put_state(struct out *o, const char *state, const char *replaced, struct text t) {
  put_member(o, state, t.is == TEXT ? t.state : 0);
  put_member(o, replaced, t.is == TEXT ? t.replaced : 0);
}

static void put_number_or_null(struct out *o, const char *key, uint32_t number) {
  if (number != NONE) {
    put_member(o, key, number);
    return;
  }
  put(o, ",");
  put_key(o, key);
  put(o, "null");
}

static void put_notes(struct out *o, const struct manifest *m) {
  put(o, ",\n\"notes\":[");
  for (uint32_t i = 0; i < m->answer.notes; i++) {
    const struct axml_note *n = &m->notes[i];
    put(o, i ? ",\n{" : "\n{");
    put_key(o, "kind");
    put_number(o, n->kind);
    put_member(o, "a", n->a);
    put_member(o, "b", n->b);
    put(o, ",");
    put_key(o, "words");
    put(o, "\"");
    put_note(o, n); /* words of ours and numbers: nothing in them has to be escaped */
    put(o, "\"}");
  }
  put(o, "]");
}

static void put_attribute(struct out *o, const struct manifest *m, uint32_t k) {
  const struct axml_attribute *a = &m->attributes[k];
  struct text space = attribute_space(m, k), name = attribute_name(m, k), value = attribute_value(m, k);
  put(o, "{");
  put_key(o, "number");
  put_number(o, k);
  put_member(o, "prefix", a->prefix);
  put_member(o, "namespace_index", a->ns);
  put_string(o, "namespace", space);
  put_state(o, "namespace_state", "namespace_replaced", space);
  put_member(o, "name_index", a->name);
  put_string(o, "name", name);
  put_state(o, "name_state", "name_replaced", name);
  put_member(o, "type", a->type);
  put_member(o, "data", a->data);
  put_string(o, "text", value);
  put_state(o, "text_state", "text_replaced", value);
  put_member(o, "unnamed_bits", m->values[k].uncovered);
  put(o, "}");
}

static void put_nodes(struct out *o, const struct manifest *m) {
  put(o, ",\n\"nodes\":[");
  for (uint32_t i = 0; i < m->answer.nodes; i++) {
    const struct axml_node *n = &m->nodes[i];
    struct text name = node_name(m, i);
    put(o, i ? ",\n{" : "\n{");
    put_key(o, "number");
    put_number(o, i);
    put_member(o, "line", n->line);
    put_number_or_null(o, "parent", n->parent);
    put_member(o, "level", m->levels[i]);
    put_member(o, "name_index", n->name);
    put_string(o, "name", name);
    put_state(o, "name_state", "name_replaced", name);
    put(o, n->fixed ? ",\"invalid\":true" : ",\"invalid\":false");
    put(o, ",\"attributes\":[");
    for (uint32_t k = n->first; k < n->first + n->count; k++) {
      if (k != n->first) put(o, ",");
      put_attribute(o, m, k);
    }
    put(o, "]}");
  }
  put(o, "]");
}

/* What the depot asks at a glance, as numbers of attributes. */
static void put_glance(struct out *o, const struct manifest *m) {
  uint32_t manifest = first_node(m, "manifest");
  put(o, ",\n\"glance\":{");
  put_key(o, "node");
  if (manifest == NONE)
    put(o, "null");
  else
    put_number(o, manifest);
  put_number_or_null(o, "package", first_attribute(m, manifest, "package"));
  put_number_or_null(o, "version_code", first_attribute(m, manifest, "versionCode"));
  put_number_or_null(o, "version_name", first_attribute(m, manifest, "versionName"));
  put(o, ",\"permissions\":[");
  const char *between = "";
  for (uint32_t i = next_permission(m, 0); i != NONE; i = next_permission(m, i + 1)) {
    uint32_t k = first_attribute(m, i, "name");
    if (k == NONE) continue;
    put(o, between);
    put_number(o, k);
    between = ",";
  }
  put(o, "],\"main_screens\":[");
  for (size_t i = 0; i < m->screen_count; i++) {
    if (i) put(o, ",");
    put_number(o, m->screens[i]);
  }
  put(o, "]}");
}

void put_object(struct out *o, const struct manifest *m, const char *path) {
  const struct axml_answer *r = &m->answer;
  put(o, "{");
  put_key(o, "form");
  put_number(o, 1);
  put(o, ",");
  put_key(o, "path");
  if (path)
    put_json_words(o, path);
  else
    put(o, "null");
  put_member(o, "bytes", m->bytes);
  put_member(o, "names_lent", m->named ? lent_names : 0);
  put_member(o, "items_lent", m->named ? lent_items : 0);
  put_member(o, "mode", AXML_MODE_APART);
  put_member(o, "cap", NOTE_CAP);
  put_member(o, "refusal", r->refusal);
  put_member(o, "value", r->value);
  put(o, ",");
  put_key(o, "words");
  if (r->refusal) {
    put(o, "\"");
    put_refusal(o, r->refusal, r->value);
    put(o, "\"");
  } else {
    put(o, "null");
  }
  put_member(o, "starts", r->starts);
  put_member(o, "damaged_texts", m->damaged);
  put_member(o, "texts_left_out", m->left_out);
  put_notes(o, m);
  put_nodes(o, m);
  put_glance(o, m);
  put(o, "}\n");
}
