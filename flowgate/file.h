/* A file that was read, as bytes and as words. */
#ifndef FILE_H
#define FILE_H

#include <stddef.h>
#include <stdint.h>

#include "flowcheck.h"

/* Of a file that is too long, one byte more than the most. */
struct file {
    size_t count;
    uint8_t bytes[FLOW_MOST_BYTES + 1];
};

/* Reads the file of that name; `-` is standard input. The error number of what went wrong, or 0. */
int read_file(const char *name, struct file *file);

/* The whole words of a file. */
size_t count_words(const struct file *file);

/* The word at a place below count_words, read and written. */
uint32_t word_at(const struct file *file, size_t place);
void set_word_at(struct file *file, size_t place, uint32_t word);

unsigned kind_of(uint32_t word);
unsigned payload_of(uint32_t word);

#endif
