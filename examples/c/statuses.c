/* Makes each call of docbin.h once, and comes to each status that a call may have. Prints nothing and ends with 0 where each is as it has to be.

   usage: statuses EXAMPLES EDITED    (the folder examples/, and the letter as examples/letter.json edits it)

   It is linked with --wrap=malloc, --wrap=realloc and --wrap=free, so that memory can be refused, and what is not freed is counted. */
#include <stdio.h>
#include <stdlib.h>
#include <string.h>

#include "docbin.h"

#define ROOM 4000000

/* Memory is refused from the start on, or for the request of this number alone (0: for none). */
static bool is_refusing;
static long refused, requests, in_use;
void *__real_malloc(size_t len);
void *__real_realloc(void *at, size_t len);
void __real_free(void *at);

static bool is_granted(void) { return !is_refusing && ++requests != refused; }

void *__wrap_malloc(size_t len) {
  void *at = is_granted() ? __real_malloc(len) : NULL;
  in_use += at != NULL;
  return at;
}

void *__wrap_realloc(void *at, size_t len) {
  void *moved = is_granted() ? __real_realloc(at, len) : NULL;
  in_use += at == NULL && moved != NULL;
  return moved;
}

void __wrap_free(void *at) {
  in_use -= at != NULL;
  __real_free(at);
}

static uint8_t text[ROOM], made[ROOM];
static int wrong;

static void has(bool is, const char *what) {
  if (!is) {
    fprintf(stderr, "wrong: %s\n", what);
    wrong = 1;
  }
}

/* The answer has this status and prints this line. */
static void says(docbin_answer got, uint32_t status, const char *line) {
  if (got.status != status || got.text_len != strlen(line) || memcmp(text, line, strlen(line))) {
    fprintf(stderr, "wrong: %u in place of %u: %.*s in place of %s", got.status, status, (int)got.text_len, (char *)text, line);
    wrong = 1;
  }
}

typedef struct {
  uint8_t at[200000];
  size_t len;
} bytes;

static void read_from(bytes *all, const char *folder, const char *name) {
  char path[1000];
  snprintf(path, sizeof path, "%s%s%s", folder, *folder ? "/" : "", name);
  FILE *file = fopen(path, "rb");
  if (!file) {
    perror(path);
    exit(4);
  }
  all->len = fread(all->at, 1, sizeof all->at, file);
  fclose(file);
}

static docbin_answer edit(const bytes *file, const char *script, bool is_guarded) {
  return docbin_edit(file->at, file->len, (const uint8_t *)script, strlen(script), is_guarded, text, ROOM, made, ROOM);
}

static void keep(bytes *all, docbin_answer got) {
  all->len = got.bytes_len;
  memcpy(all->at, made, got.bytes_len);
}

/* The example documents, one as JSON, and one of a later program: [MS-DOC] FibBase nFib is 0x00D9, and pnNext names AutoText. */
static bytes hello, letter, titled, json, later;

static uint8_t *fib_of(bytes *file) {
  size_t at = 512;
  while (file->at[at] != 0xEC || file->at[at + 1] != 0xA5) at += 64;
  return file->at + at;
}

/* Each call of docbin.h, by its number; the last ones are refused. */
#define CALLS 22
static docbin_answer call(int number) {
  const char *script = "[{\"do\":\"insert\",\"story\":\"main\",\"at\":0,\"text\":\"a\"},{\"do\":\"save\",\"mode\":\"fast\"}]";
  const uint8_t *name = (const uint8_t *)"New";
  switch (number) {
    case 0: return docbin_text(letter.at, letter.len, text, ROOM);
    case 1: return docbin_streams(letter.at, letter.len, text, ROOM);
    case 2: return docbin_check(letter.at, letter.len, text, ROOM);
    case 3: return docbin_show(letter.at, letter.len, text, ROOM);
    case 4: return docbin_props(letter.at, letter.len, 3, text, ROOM);
    case 5: return docbin_outline(letter.at, letter.len, text, ROOM);
    case 6: return docbin_title(titled.at, titled.len, text, ROOM);
    case 7: return docbin_equal(letter.at, letter.len, hello.at, hello.len, text, ROOM);
    case 8: return docbin_full(letter.at, letter.len, text, ROOM, made, ROOM);
    case 9: return docbin_retitle(titled.at, titled.len, name, 3, text, ROOM, made, ROOM);
    case 10: return edit(&letter, script, true);
    case 11: return docbin_export(letter.at, letter.len, text, ROOM, made, ROOM);
    case 12: return docbin_import(json.at, json.len, text, ROOM, made, ROOM);
    case 13: return docbin_join(hello.at, hello.len, letter.at, letter.len, text, ROOM, made, ROOM);
    case 14: return docbin_fit(later.at, later.len, text, ROOM, made, ROOM);
    case 15: return docview_text(letter.at, letter.len, DOCVIEW_HIDDEN | DOCVIEW_HEADERS, text, ROOM);
    case 16: return docview_html(later.at, later.len, 0, text, ROOM);
    case 17: return docview_markdown(letter.at, letter.len, 0, text, ROOM);
    case 18: return docbin_fit_with(later.at, later.len, DOCFIT_PLAIN, text, ROOM, made, ROOM);
    case 19: return docbin_text(json.at, json.len, text, ROOM);
    case 20: return docbin_fit(json.at, json.len, text, ROOM, made, ROOM);
    default: return docview_text(json.at, json.len, 0, text, ROOM);
  }
}

/* Each call with no bytes for all that it is given, and no room: a file of no bytes breaks rule 1, a script of none is no JSON. */
#define NO_BYTES 19

static docbin_answer empty_call(int number) {
  switch (number) {
    case 0: return docbin_text(NULL, 0, NULL, 0);
    case 1: return docbin_streams(NULL, 0, NULL, 0);
    case 2: return docbin_check(NULL, 0, NULL, 0);
    case 3: return docbin_show(NULL, 0, NULL, 0);
    case 4: return docbin_props(NULL, 0, 3, NULL, 0);
    case 5: return docbin_outline(NULL, 0, NULL, 0);
    case 6: return docbin_title(NULL, 0, NULL, 0);
    case 7: return docbin_equal(NULL, 0, NULL, 0, NULL, 0);
    case 8: return docbin_full(NULL, 0, NULL, 0, NULL, 0);
    case 9: return docbin_retitle(NULL, 0, NULL, 0, NULL, 0, NULL, 0);
    case 10: return docbin_edit(NULL, 0, NULL, 0, true, NULL, 0, NULL, 0);
    case 11: return docbin_export(NULL, 0, NULL, 0, NULL, 0);
    case 12: return docbin_join(NULL, 0, NULL, 0, NULL, 0, NULL, 0);
    case 13: return docbin_fit(NULL, 0, NULL, 0, NULL, 0);
    case 14: return docview_text(NULL, 0, 0, NULL, 0);
    case 15: return docview_html(NULL, 0, 0, NULL, 0);
    case 16: return docview_markdown(NULL, 0, 0, NULL, 0);
    case 17: return docbin_fit_with(NULL, 0, DOCFIT_PLAIN, NULL, 0, NULL, 0);
    default: return docbin_import(NULL, 0, NULL, 0, NULL, 0);
  }
}

static void no_bytes(int number) {
  docbin_answer got = empty_call(number);
  has(got.status == (number == NO_BYTES - 1 ? DOCBIN_NO_SCRIPT : DOCBIN_RULE_BROKEN) && got.text_len > 0 && got.bytes_len == 0, "a call with no bytes");
}

/* A call leaves nothing behind, also where any one request for memory is refused: then its status is 6, or what it is else. */
static void leaves_nothing(int number) {
  refused = requests = in_use = 0;
  uint32_t status = call(number).status;
  long asked = requests;
  has(in_use == 0, "memory is left behind");
  for (long at = 1; at <= asked; at++) {
    refused = at;
    requests = 0;
    uint32_t got = call(number).status;
    if (in_use != 0 || (got != 6 && got != status)) {
      fprintf(stderr, "wrong: call %d, request %ld of %ld refused: status %u, %ld left\n", number, at, asked, got, in_use);
      wrong = 1;
      in_use = 0;
    }
  }
  refused = 0;
}

int main(int count, char **words) {
  static bytes edited, other;
  static char script[1400000];
  if (count != 3) return 2;
  read_from(&hello, words[1], "hello.doc");
  read_from(&letter, words[1], "letter.doc");
  read_from(&titled, words[1], "titled.doc");
  read_from(&edited, "", words[2]);
  later = letter;
  fib_of(&later)[2] = 0xD9;
  fib_of(&later)[8] = 24;

  /* Rooms that are too small, and rooms that are large enough. */
  memset(text, '#', 10);
  docbin_answer got = docbin_text(hello.at, hello.len, text, 0);
  has(got.status == 0 && got.text_len == 6 && text[0] == '#', "a room of no bytes");
  got = docbin_text(hello.at, hello.len, text, 3);
  has(got.text_len == 6 && !memcmp(text, "Hel###", 6), "a room of three bytes");
  memset(text, '#', 10);
  got = docbin_text(hello.at, hello.len, text, 10);
  has(got.text_len == 6 && got.bytes_len == 0 && !memcmp(text, "Hello\n####", 10), "a room of ten bytes");

  /* A pointer whose length is 0 may be NULL. */
  got = docbin_text(hello.at, hello.len, NULL, 0);
  has(got.status == DOCBIN_DONE && got.text_len == 6, "no room for the text");
  got = docbin_full(hello.at, hello.len, NULL, 0, NULL, 0);
  has(got.status == DOCBIN_DONE && got.bytes_len == 6656, "no room at all");
  says(docbin_text(NULL, 0, text, ROOM), DOCBIN_RULE_BROKEN, "first: rule 1 File 0\n");
  says(docbin_join(hello.at, hello.len, NULL, 0, text, ROOM, NULL, 0), DOCBIN_RULE_BROKEN, "second: rule 1 File 0\n");
  says(docbin_edit(hello.at, hello.len, NULL, 0, true, text, ROOM, made, ROOM), DOCBIN_NO_SCRIPT, "script: not JSON\n");
  says(docbin_import(NULL, 0, text, ROOM, made, ROOM), DOCBIN_NO_SCRIPT, "import: not JSON\n");
  keep(&other, docbin_retitle(titled.at, titled.len, NULL, 0, text, ROOM, made, ROOM));
  says(docbin_title(other.at, other.len, text, ROOM), DOCBIN_DONE, "title \nsubject Tables and chairs\nauthor Zo\\xeb Miller\n");

  /* Done. */
  says(docbin_check(hello.at, hello.len, text, ROOM), 0, "accepted: units 6 styles 3 sections 1 notes 0 streams 0\n");
  has(docbin_streams(letter.at, letter.len, text, ROOM).status == 0, "streams");
  has(docbin_show(letter.at, letter.len, text, ROOM).status == 0, "show");
  has(docbin_props(letter.at, letter.len, 3, text, ROOM).status == 0, "props");
  has(docbin_outline(letter.at, letter.len, text, ROOM).status == 0, "outline");
  says(docbin_title(titled.at, titled.len, text, ROOM), 0, "title Offer\nsubject Tables and chairs\nauthor Zo\\xeb Miller\n");
  says(docbin_full(letter.at, letter.len, text, ROOM, made, ROOM), 0, "full: 7680 bytes\n");
  keep(&other, docbin_full(letter.at, letter.len, text, ROOM, made, ROOM));
  says(docbin_equal(letter.at, letter.len, other.at, other.len, text, ROOM), 0, "equal\n");
  keep(&other, docbin_retitle(titled.at, titled.len, (const uint8_t *)"New", 3, text, ROOM, made, ROOM));
  says(docbin_title(other.at, other.len, text, ROOM), 0, "title New\nsubject Tables and chairs\nauthor Zo\\xeb Miller\n");
  keep(&json, docbin_export(letter.at, letter.len, text, ROOM, made, ROOM));
  keep(&other, docbin_import(json.at, json.len, text, ROOM, made, ROOM));
  says(docbin_equal(letter.at, letter.len, other.at, other.len, text, ROOM), 0, "equal\n");
  got = docbin_join(hello.at, hello.len, letter.at, letter.len, text, ROOM, made, ROOM);
  has(got.status == 0, "join");
  has(docbin_equal(letter.at, letter.len, edited.at, edited.len, text, ROOM).status == 11, "an edited file");

  says(docbin_fit(later.at, later.len, text, ROOM, made, ROOM), 0, "fit: 7680 bytes, left out 1, mended 0\nautotext page 24\n");
  keep(&other, docbin_fit_with(later.at, later.len, DOCFIT_PLAIN, text, ROOM, made, ROOM));
  says(docbin_equal(letter.at, letter.len, other.at, other.len, text, ROOM), 0, "equal\n");
  says(docview_text(letter.at, letter.len, 0, text, ROOM), 0, "Offer\nDear Ann,\tsee\tbelow[1].\n\n[1] Net price.\n");
  says(docview_text(later.at, later.len, 0, text, ROOM), 0, "Offer\nDear Ann,\tsee\tbelow[1].\n\n[1] Net price.\n");
  got = docview_html(letter.at, letter.len, DOCVIEW_HIDDEN, text, ROOM);
  has(got.status == 0 && got.bytes_len == 0 && !memcmp(text, "<!DOCTYPE html>", 15), "a page in HTML");

  got = docview_markdown(letter.at, letter.len, DOCVIEW_HIDDEN, text, ROOM);
  has(got.status == 0 && got.text_len > 0, "a page in Markdown");

  /* No input, and no room: NULL, of each call. */
  for (int number = 0; number < NO_BYTES; number++) no_bytes(number);

  /* Nothing is left behind. */
  for (int number = 0; number < CALLS; number++) leaves_nothing(number);

  /* Refused. */
  says(docbin_text((const uint8_t *)"no", 2, text, ROOM), 1, "first: rule 1 File 2\n");
  has(docbin_retitle(titled.at, titled.len, (const uint8_t *)"\xff", 1, text, ROOM, made, ROOM).status == 2, "a title that is no UTF-8");
  has(docbin_retitle(titled.at, titled.len, (const uint8_t *)"a\nb", 3, text, ROOM, made, ROOM).status == 2, "a title with a line feed");
  has(docbin_props(hello.at, hello.len, 4000000000u, text, ROOM).status == 2, "a position of ten digits");
  says(docbin_props(hello.at, hello.len, 6, text, ROOM), 8, "position 6 of 6\n");
  says(edit(&hello, "[", true), 7, "script: not JSON\n");
  says(edit(&hello, "[{\"do\":\"erase\",\"story\":\"main\",\"from\":8,\"to\":9},{\"do\":\"save\",\"mode\":\"full\"}]", true), 8, "edit 0: range\n");
  says(docbin_import((const uint8_t *)"{}", 2, text, ROOM, made, ROOM), 7, "import: wrong shape\n");
  says(docbin_equal(hello.at, hello.len, letter.at, letter.len, text, ROOM), 11, "different\n");
  says(docbin_title(hello.at, hello.len, text, ROOM), 13, "first: no summary\n");
  other = hello;
  fib_of(&other)[0] = 0xDC;
  says(docbin_fit(other.at, other.len, text, ROOM, made, ROOM), 15, "first: not of Word 97 to 2007: wIdent a5dc nFib 00c1\n");
  other = hello;
  fib_of(&other)[11] |= 1;
  says(docbin_fit(other.at, other.len, text, ROOM, made, ROOM), 16, "first: encrypted\n");
  has(docview_text(other.at, other.len, 0, text, ROOM).status == 16 && !memcmp(text, "docview: first: not shown: rule 19 WordDocument 10 (", 52), "no page");
  for (size_t at = 512; at + 28 < titled.len; at += 64)
    if (!memcmp(titled.at + at, "\xfe\xff\0\0", 4)) titled.at[at + 24] = 2;
  says(docbin_title(titled.at, titled.len, text, ROOM), 14, "first: summary wrong at 24\n");

  /* Fifteen fast saves, and one more. */
  other = hello;
  for (int i = 0; i < 16; i++) {
    got = edit(&other, "[{\"do\":\"insert\",\"story\":\"main\",\"at\":0,\"text\":\"a\"},{\"do\":\"save\",\"mode\":\"fast\"}]", true);
    if (i < 15) {
      has(got.status == 0, "a fast save");
      keep(&other, got);
    }
  }
  says(got, 9, "save 1: sixteenth, count 15\n");

  /* The guard of the program, and none: text of 400,000 units is put in and taken away. */
  char *at = script + sprintf(script, "[");
  for (int i = 0; i < 3; i++) {
    at += sprintf(at, "{\"do\":\"insert\",\"story\":\"main\",\"at\":0,\"text\":\"");
    memset(at, 'a', 400000);
    at += 400000;
    at += sprintf(at, "\"},{\"do\":\"erase\",\"story\":\"main\",\"from\":0,\"to\":400000},");
  }
  sprintf(at, "{\"do\":\"save\",\"mode\":\"full\"}]");
  says(edit(&hello, script, true), 10, "edit 4: guard 0\n");
  says(edit(&hello, script, false), 0, "edit: 7 commands, fast 0, full 1\n");

  /* No memory: the rooms are what they were. */
  memset(text, '#', 10);
  is_refusing = true;
  got = docbin_text(hello.at, hello.len, text, ROOM);
  is_refusing = false;
  has(got.status == 6 && got.text_len == 0 && got.bytes_len == 0 && !memcmp(text, "##########", 10), "no memory");
  return wrong;
}
