/* docbin: documents of Word 97, by the library libdocbin_c.a. Each call takes bytes and gives bytes; no file is read or written.

   A call serves one command of the program `docbin` (the last five: of `docfit` and `docview`) and answers its status, the text that the command
   prints, and the bytes that it writes.
   The caller lends room for both. `text_len` and `bytes_len` tell how much there is; the rooms hold as much of it as they can, and behind that
   what stood there. So a call with rooms of length 0 asks for the lengths, and a call whose rooms were too small is made once more.

   - A pointer may be NULL where its length is 0, and nowhere else. Rooms overlap neither each other nor what a call is given.
   - Texts, given and handed over, are UTF-8 without a final zero: their length alone says where they end.
   - A call keeps nothing, frees what it takes, and may be made by several threads at once. Memory is the program's own malloc, realloc and free.
     No call is made from a signal handler, or from the forked child of a process with threads.
   - In texts the file has the name `first`, the second file or the script `second`, as in `first: rule 1 File 356`.

   What a status means, and its line, is said in docs/COMMANDS.md, docs/FIT.md and docs/VIEW.md. */
#ifndef DOCBIN_H
#define DOCBIN_H

#include <stdbool.h>
#include <stddef.h>
#include <stdint.h>

#ifdef __cplusplus
extern "C" {
#endif

/* The version of docbin, and as a number that grows: 10,000 times its first number, 100 times its second, and its third. */
#define DOCBIN_VERSION "1.0.0"
#define DOCBIN_VERSION_NUMBER 10000L

/* What `status` may be. */
enum docbin_status {
  DOCBIN_DONE = 0,
  DOCBIN_RULE_BROKEN = 1,    /* a file breaks a rule, which the line names with its place */
  DOCBIN_NO_COMMAND = 2,     /* a title that is no UTF-8 or may not be one, a position of more than nine digits */
  DOCBIN_NO_MEMORY = 6,      /* both lengths are 0, and the rooms are what they were */
  DOCBIN_NO_SCRIPT = 7,      /* a script, or JSON, is none */
  DOCBIN_EDIT_REFUSED = 8,   /* a position is not there, an edit is refused, a document that is made is not sound */
  DOCBIN_SAVE_REFUSED = 9,   /* a file would be too large, or a fast save is refused */
  DOCBIN_GUARD_REFUSED = 10, /* a guard does not allow an edit */
  DOCBIN_DIFFERENT = 11,     /* the documents differ */
  DOCBIN_NO_SUMMARY = 13,
  DOCBIN_WRONG_SUMMARY = 14,
  DOCBIN_NOT_WORD_97 = 15,   /* docbin_fit: a file is of another program than Word 97 to 2007 */
  DOCBIN_ENCRYPTED = 16      /* docbin_fit: a file is encrypted or obfuscated */
};

/* What a call came to. */
typedef struct {
  uint64_t text_len;  /* how long the text is */
  uint64_t bytes_len; /* how long the bytes are; 0 where the command writes none */
  uint32_t status;    /* an enum docbin_status */
} docbin_answer;

/* The main text of a file, its paragraphs as lines. */
docbin_answer docbin_text(const uint8_t *file, size_t file_len, uint8_t *text, size_t text_room);

/* A line for each stream of the container. */
docbin_answer docbin_streams(const uint8_t *file, size_t file_len, uint8_t *text, size_t text_room);

/* Whether the file is accepted, and how much it has. */
docbin_answer docbin_check(const uint8_t *file, size_t file_len, uint8_t *text, size_t text_room);

/* The styles, texts and bookmarks, line by line. */
docbin_answer docbin_show(const uint8_t *file, size_t file_len, uint8_t *text, size_t text_room);

/* What is in effect at an item of the main text. */
docbin_answer docbin_props(const uint8_t *file, size_t file_len, uint32_t position, uint8_t *text, size_t text_room);

/* The paragraphs that have a number or a level in the outline. */
docbin_answer docbin_outline(const uint8_t *file, size_t file_len, uint8_t *text, size_t text_room);

/* Title, subject and author of the summary. */
docbin_answer docbin_title(const uint8_t *file, size_t file_len, uint8_t *text, size_t text_room);

/* Whether the documents of two files are equal: status 0, or 11. */
docbin_answer docbin_equal(const uint8_t *first, size_t first_len, const uint8_t *second, size_t second_len, uint8_t *text, size_t text_room);

/* The full save of the file's document: a function of the document alone. */
docbin_answer docbin_full(const uint8_t *file, size_t file_len, uint8_t *text, size_t text_room, uint8_t *bytes, size_t bytes_room);

/* The full save of the document with another title: at most 255 bytes, all from 0x20 to 0x7E. */
docbin_answer docbin_retitle(const uint8_t *file, size_t file_len, const uint8_t *title, size_t title_len, uint8_t *text, size_t text_room,
                             uint8_t *bytes, size_t bytes_room);

/* The last save of a script (docbin-script(5)) over the file's document. With `is_guarded` the edits may add 1,000,000 items in all, as those of
   the program; without, no guard is asked. */
docbin_answer docbin_edit(const uint8_t *file, size_t file_len, const uint8_t *script, size_t script_len, bool is_guarded, uint8_t *text,
                          size_t text_room, uint8_t *bytes, size_t bytes_room);

/* The document as JSON (docs/JSON.md). */
docbin_answer docbin_export(const uint8_t *file, size_t file_len, uint8_t *text, size_t text_room, uint8_t *bytes, size_t bytes_room);

/* The full save of a document that is given as JSON. */
docbin_answer docbin_import(const uint8_t *json, size_t json_len, uint8_t *text, size_t text_room, uint8_t *bytes, size_t bytes_room);

/* The full save of one document with another behind it. */
docbin_answer docbin_join(const uint8_t *first, size_t first_len, const uint8_t *second, size_t second_len, uint8_t *text, size_t text_room,
                          uint8_t *bytes, size_t bytes_room);

/* The document of a file of Word 97 to 2007, as a file that docbin accepts: the run of `docfit first out`, whose text has a line for each part that is
   left out (docs/FIT.md). */
docbin_answer docbin_fit(const uint8_t *file, size_t file_len, uint8_t *text, size_t text_room, uint8_t *bytes, size_t bytes_room);

/* What else a fit does: bits of `options`. */
enum docfit_options {
  DOCFIT_PLAIN = 1 /* endnotes and comments are left out */
};

/* The same with options of `enum docfit_options` in one number, or 0: with DOCFIT_PLAIN the run of `docfit --plain first out`. */
docbin_answer docbin_fit_with(const uint8_t *file, size_t file_len, uint32_t options, uint8_t *text, size_t text_room, uint8_t *bytes,
                              size_t bytes_room);

/* What else a page shows: bits of `options`. */
enum docview_options {
  DOCVIEW_HIDDEN = 1, /* hidden text */
  DOCVIEW_HEADERS = 2 /* header texts */
};

/* The document of a file of Word 97 to 2007 as people read it (docs/VIEW.md), as text, as Markdown or as a page in HTML: the runs of
   `docview text first` and so on, with options of `enum docview_options` in one number, or 0. Where the status is not 0 the text is the line on why:
   `docview: first: not shown: rule 1 File 356 (..)`. */
docbin_answer docview_text(const uint8_t *file, size_t file_len, uint32_t options, uint8_t *text, size_t text_room);
docbin_answer docview_markdown(const uint8_t *file, size_t file_len, uint32_t options, uint8_t *text, size_t text_room);
docbin_answer docview_html(const uint8_t *file, size_t file_len, uint32_t options, uint8_t *text, size_t text_room);

#ifdef __cplusplus
}
#endif

#endif
