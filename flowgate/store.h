/* The runner's store as text: words x1=5 (scalar 1) and a0[3]=7 (array 0 at index 3), a later one over an earlier; what no word names
 * is 0. Spaces, ends of lines and commas part the words, and # starts a comment, to the end of its line. */
#ifndef STORE_H
#define STORE_H

#include <stddef.h>
#include <stdint.h>
#include <stdio.h>

#include "flowcheck.h"

enum { CELLS = FLOW_SCALARS + FLOW_VALUES, MOST_NAME = 32, MOST_WORD = 64 };

struct store {
    int64_t scalars[FLOW_SCALARS];
    int64_t values[FLOW_VALUES];
};

/* Where words are read from: a stream, or else a text. */
struct source {
    FILE *stream;
    const char *text;
    int c;              /* the character at hand, or EOF */
    unsigned long line; /* its line, from 1 */
    char word[MOST_WORD];
};

/* Sets what the words say. What is wrong with the word at hand, or NULL. */
const char *set_words(struct store *store, struct source *source);

/* The cells of a store, scalars first: their values, and their names in words. */
int64_t value_at(const struct store *store, size_t cell);
void name_cell(size_t cell, char name[MOST_NAME]);

#endif
