/*
 * Tries the form: which keys it lights, against an enumeration of all codes; and the program, through arguments, pipes and a
 * terminal, against text that is written from document 01 by hand.
 */
#ifndef FORMS_H
#define FORMS_H

#include "process.h"
#include "record.h"
#include "stream.h"

/* What the form shows after a key. */
struct step {
    const char *message, *form;
    const char *lit; /* the signs of the lit keys */
    const char *verdict, *code;
};

#define NONE_TEXT "none: no code that begins so is legal"
#define ALL_TEXT "all: every code that begins so is legal"
#define ONE_TEXT "one: just one code that begins so is legal"
#define SOME_TEXT "some: codes that begin so are legal, but not all of them"

#define HOPELESS "can't become legal"
#define NOT_YET "not yet legal"
#define STANDS "legal as it stands"
#define COMPLETE "legal, and complete"

/* Where the form is shown, and keys come from. */
enum { PLAIN = 0, STYLED = 1, KEYBOARD = 2 };

/* Adds what is shown to a text. */
void step_text(struct stream *to, const struct step *step, int how);

/* The path of the form, and of the files that a case makes for it. */
extern const char *form_path, *book_path, *mask_path;

/* Writes the files of book and mask. */
void write_records(const char *book, const struct block *blocks, unsigned count);

/* Whether the program printed, complained and ended so; what differs is shown. */
int ended_so(const struct process *process, int status, int wanted, const struct stream *printed, const char *complained);

void test_keys(void);
void test_terminal(void);

#endif
