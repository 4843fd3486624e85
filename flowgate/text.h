/* Names of files in what is written, plain and as JSON. */
#ifndef TEXT_H
#define TEXT_H

#include <stdio.h>

/* On one line: control characters become `?`. */
void put_name(const char *name, FILE *out);

/* A JSON string, in quotes. Bytes that are no UTF-8 become U+FFFD. */
void put_json(const char *text, FILE *out);

/* `PROGRAM: NAME: SAID`, a line on standard error, after what was written to standard output so far. */
void complain(const char *program, const char *name, const char *said);

/* Whether standard output took all that was written; if not, says so. */
int written(const char *program);

#endif
