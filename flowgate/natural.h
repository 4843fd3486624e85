/* Whole numbers in text, decimal and without a sign. */
#ifndef NATURAL_H
#define NATURAL_H

#include <stdint.h>

enum taken { TAKEN, NO_DIGIT, TOO_LARGE };

/* Takes the digits that the text starts with, and leaves the text behind them. */
enum taken take_number(const char **text, uint64_t most, uint64_t *number);

/* The number that the whole text is. What is wrong with it, or NULL. */
const char *read_natural(const char *text, uint64_t most, uint64_t *number);

#endif
