/* Prints the main text of a document, or why it is refused; with a script and a name the document is edited, too.

   usage: words FILE [SCRIPT OUT] */
#include <stdio.h>
#include <stdlib.h>
#include <string.h>

#include "docbin.h"

typedef struct {
  uint8_t *at;
  size_t len;
} bytes;

/* The bytes of a file, or none where it cannot be read. */
static bytes read_file(const char *name) {
  bytes all = {malloc(1), 0};
  FILE *file = fopen(name, "rb");
  if (!file || !all.at) {
    perror(name);
    exit(4);
  }
  for (size_t room = 1, got = 1; got;) {
    if (all.len == room) {
      room *= 2;
      all.at = realloc(all.at, room);
      if (!all.at) exit(6);
    }
    got = fread(all.at + all.len, 1, room - all.len, file);
    all.len += got;
  }
  fclose(file);
  return all;
}

/* Edits a file: asks for the lengths first, and then for text and bytes. */
static int edit(bytes file, bytes script, const char *out) {
  uint8_t none;
  docbin_answer asked = docbin_edit(file.at, file.len, script.at, script.len, true, &none, 0, &none, 0);
  if (asked.status == 6) return 6;
  uint8_t *text = malloc(asked.text_len + 1), *made = malloc(asked.bytes_len + 1);
  if (!text || !made) return 6;
  docbin_answer got = docbin_edit(file.at, file.len, script.at, script.len, true, text, asked.text_len, made, asked.bytes_len);
  if (got.status == 6) return 6;
  fwrite(text, 1, got.text_len, stdout);
  if (got.status == 0) {
    FILE *to = fopen(out, "wb");
    if (!to || fwrite(made, 1, got.bytes_len, to) != got.bytes_len || fclose(to)) return 4;
  }
  free(text);
  free(made);
  return (int)got.status;
}

int main(int count, char **words) {
  if (count != 2 && count != 4) {
    fprintf(stderr, "usage: words FILE [SCRIPT OUT]\n");
    return 2;
  }
  bytes file = read_file(words[1]);
  if (count == 4) return edit(file, read_file(words[2]), words[3]);
  size_t room = 4096;
  for (;;) {
    uint8_t *text = malloc(room);
    if (!text) return 6;
    docbin_answer got = docbin_text(file.at, file.len, text, room);
    if (got.text_len <= room) {
      fwrite(text, 1, got.text_len, stdout);
      free(text);
      free(file.at);
      return (int)got.status;
    }
    room = got.text_len;
    free(text);
  }
}
