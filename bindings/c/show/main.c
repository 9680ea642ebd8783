/* The program behind ./axml-show: shows a binary AndroidManifest.xml to a person, or as JSON. What is proved is the library (include/axml.h), which reads the
 * file and answers every question; these pages are glue that nothing proves: they open the file, lend tables, and print what the library answers, escaped.
 * tools/test-axml-show runs it. */
#include <errno.h>
#include <signal.h>
#include <stdlib.h>
#include <string.h>
#include <unistd.h>

#include "show.h"

static uint8_t file[AXML_LONGEST_FILE + 1u]; /* one byte more than is read, so that a longer file is refused and not cut */
static struct manifest manifest;
static struct out page, errors;

/* Says what is wrong, on standard error, and gives the status to end with. The name of a file is escaped as any other text. */
static int say(int status, const char *name, const char *words) {
  put(&errors, "axml-show: ");
  if (name) {
    put_text(&errors, (const uint8_t *)name, strlen(name), strlen(name));
    put(&errors, ": ");
  }
  put(&errors, words);
  put(&errors, "\n");
  put_all(&errors);
  return status;
}

/* What a file is that is refused and plainly something else; NULL where that is not seen. */
static const char *other_sort(size_t bytes) {
  if (bytes >= 4 && memcmp(file, "PK", 2) == 0) return "this is an APK (a zip): unzip -p APK AndroidManifest.xml | ./axml-show";
  size_t at = bytes >= 3 && memcmp(file, "\xef\xbb\xbf", 3) == 0 ? 3 : 0;
  while (at < bytes && (file[at] == ' ' || file[at] == '\t' || file[at] == '\n' || file[at] == '\r')) at++;
  if (at < bytes && file[at] == '<') return "this is XML text, not the binary form: the manifest inside an APK is binary";
  return NULL;
}

static bool wants_colours(void) {
  const char *none = getenv("NO_COLOR"), *terminal = getenv("TERM");
  return isatty(1) && !(none && *none) && !(terminal && strcmp(terminal, "dumb") == 0);
}

int main(int count, char **words) {
  bool json = false, plain = false, named = true, options = true;
  const char *path = NULL;
  bool given = false;
  page.to = stdout;
  errors.to = stderr;
  for (int i = 1; i < count; i++) {
    const char *w = words[i];
    if (options && strcmp(w, "--") == 0)
      options = false;
    else if (options && strcmp(w, "--json") == 0)
      json = true;
    else if (options && strcmp(w, "--plain") == 0)
      plain = true;
    else if (options && strcmp(w, "--no-names") == 0)
      named = false;
    else if (options && w[0] == '-' && w[1])
      return say(2, w, "there is no such option; axml-show --help says how it is used");
    else if (given)
      return say(2, NULL, "one file at a time; axml-show --help says how it is used");
    else
      path = options && strcmp(w, "-") == 0 ? NULL : w, given = true;
  }
  if (axml_abi() != AXML_ABI) return say(1, NULL, "the library is of another form");
  signal(SIGPIPE, SIG_IGN); /* a pipe that takes no more is told by the write */

  const char *name = path ? path : "standard input";
  if (!path && !given && isatty(0)) say(0, NULL, "reading standard input (axml-show --help says more)");
  FILE *from = path ? fopen(path, "rb") : stdin;
  if (!from) return say(1, name, strerror(errno));
  size_t bytes = fread(file, 1, sizeof file, from);
  if (ferror(from)) return say(1, name, strerror(errno));
  if (path) fclose(from);

  page.ascii = plain;
  page.colours = !plain && !json && wants_colours();
  if (!read_manifest(&manifest, file, bytes, named)) return say(1, name, "there is no memory for the answers, or the library refused what it cannot refuse");
  if (json)
    put_object(&page, &manifest, path);
  else
    put_page(&page, &manifest);
  if (!put_all(&page)) return say(1, NULL, "standard output takes no more: what it has is not whole");
  if (manifest.answer.refusal == AXML_DONE) return 0;
  const char *other = other_sort(bytes);
  if (other) say(1, name, other);
  return 1;
}
